"""What scripts/liberty_cells lists of a Liberty file has the functions that yosys reads there, and the rest is told."""
import os, re, shutil, subprocess, sys

from chips import TOP, keep, run, text_of
from script_trials import SCRIPTS, refusals, script

NEEDS = ()
EXAMPLE = os.path.join(TOP, "examples/synthesis")
# Of Debian's package qflow-tech-osu035; tried where it is there.
OSU = "/usr/share/qflow/tech/osu035/osu035_stdcells.lib"
LEFT_OUT = {"FAX1": "2 outputs", "TBUFX1": "three states", "LATX1": "a latch", "SDFFX1": "a scan flip-flop", "DFFRSX1": "both", "FILL1": "no output"}
# Functions, and what they are in Verilog.
FUNCTIONS = {"A'": "~A", "!A": "~A", "A B'": "A & ~B", "!A B": "~A & B", "A^B C": "(A ^ B) & C", "A+B C": "A | (B & C)", "A|B^C": "A | (B ^ C)"}
FUNCTIONS.update({"(A+B)'C": "~(A | B) & C", "!(A B)+C'": "~(A & B) | ~C", "A&B*C": "A & B & C", "!A^B": "~A ^ B", "A''": "A", "!!A+0": "A", "A*1": "A", "1": "1'b1"})
FUNCTIONS.update({"(A)(B)": "A & B", "A !B !C": "A & ~B & ~C", "A^B^C": "A ^ B ^ C", "((A))": "A", " A + B ": "A | B"})


def cells_of(text):
    return dict(re.findall(r"^(?:gate|flop) (\S+) (.*)$", text, re.M))


def liberty(cells):
    return "library (l) {\n" + "\n".join(cells) + "\n}\n"


def gate(name, function, inputs="ABC"):
    pins = " ".join(f"pin ({it}) {{ direction : input; }}" for it in inputs)
    return f'  cell ({name}) {{ {pins} pin (Y) {{ direction : output; function : "{function}"; }} }}'


def value(steps, inputs):
    """What the steps of a line give."""
    stack = []
    for step in steps:
        if step == "not":
            stack.append(1 - stack.pop())
        elif step in ("and", "or", "xor"):
            b, a = stack.pop(), stack.pop()
            stack.append({"and": a & b, "or": a | b, "xor": a ^ b}[step])
        else:
            stack.append(int(step) if step in "01" else inputs[step])
    return stack[0]


def functions(room):
    """Each function by its own table."""
    path = keep(os.path.join(room, "functions.lib"), liberty(gate(f"C{number}", function) for number, function in enumerate(FUNCTIONS)))
    listed = cells_of(script("liberty_cells", path))
    for number, (function, meaning) in enumerate(FUNCTIONS.items()):
        steps = listed[f"C{number}"].split(" : ")[1].split()
        for row in range(8):
            inputs = dict(zip("ABC", (row >> 2 & 1, row >> 1 & 1, row & 1)))
            wanted = eval(meaning.replace("1'b1", "1"), {}, inputs) & 1
            if value(steps, inputs) != wanted:
                sys.exit(f"{function} is listed as {steps}, and differs at {inputs}")
    return f"{len(FUNCTIONS)} functions have the values of their tables"


def buses(room):
    """Cells with a bus or a bundle are left out, wherever they stand, and the others listed as without them."""
    bus = "cell (RAM) { bus (A) { bus_type : four; direction : input; } pin (Y) { direction : output; } }"
    bundle = 'cell (PAIR) { bundle (D) { members (D1, D2); pin (D1) { direction : input; } } pin (Y) { direction : output; function : "D1"; } }'
    path = keep(os.path.join(room, "buses.lib"), liberty([bus, gate("C", "A B"), bundle]))
    done = subprocess.run([sys.executable, os.path.join(SCRIPTS, "liberty_cells"), path], capture_output=True, text=True)
    wanted = "".join(f"left out: {name}: it has a bus or a bundle of pins\n" for name in ("RAM", "PAIR"))
    if done.returncode or list(cells_of(done.stdout)) != ["C"] or done.stderr != wanted:
        sys.exit(f"cells with buses: status {done.returncode}, {done.stdout}{done.stderr}")
    return "cells with a bus or a bundle are left out, and told"


def models(room, path, cells):
    """yosys finds each gate equal to what it reads of the Liberty file."""
    from_text = os.path.join(room, "models.v")
    code = f"import sys; sys.path.insert(0, {SCRIPTS!r}); from listed_cells import read_cells; print(''.join(c.model() for c in read_cells({cells!r}) if not c.kind))"
    keep(from_text, run([sys.executable, "-c", code]))
    gates = re.findall(r"^module (\w+)", text_of(from_text), re.M)
    steps = [f"read_verilog {from_text}", *(f"rename {name} own_{name}" for name in gates)]
    steps += ["read_liberty -ignore_miss_func -ignore_miss_dir -ignore_miss_data_latch " + path]
    for name in gates:
        steps += [f"miter -equiv -flatten -make_outputs {name} own_{name} both_{name}", f"sat -verify -prove trigger 0 both_{name}"]
    run(["yosys", "-q", "-p", "; ".join(steps)])
    return f"{os.path.basename(path)}: yosys proves {len(gates)} gates equal to what it reads there"


def tried(program, room):
    small = os.path.join(EXAMPLE, "small.lib")
    done = subprocess.run([sys.executable, os.path.join(SCRIPTS, "liberty_cells"), small], capture_output=True, text=True)
    if done.returncode != 0 or done.stdout != text_of(os.path.join(EXAMPLE, "small.cells")):
        sys.exit("small.lib isn't listed as in small.cells")
    for name, why in LEFT_OUT.items():
        if not re.search(rf"^left out: {name}: .*{why}", done.stderr, re.M):
            sys.exit(f"{name} isn't told as {why}")
    if "listed: DFFRX1, without QN" not in done.stderr:
        sys.exit("nothing is said of QN")
    yield f"small.lib: {len(cells_of(done.stdout))} cells as in small.cells, {len(LEFT_OUT)} left out, each with its reason"
    yield functions(room)
    yield buses(room)
    libraries = [(small, os.path.join(EXAMPLE, "small.cells"))]
    if os.path.exists(OSU):
        cells = keep(os.path.join(room, "osu.cells"), script("liberty_cells", OSU))
        libraries.append((OSU, cells))
    for path, cells in libraries:
        said = run([program, "sim", os.path.join(TOP, "examples/first.v"), os.path.join(room, "missing"), cells], (4,))
        if not said.startswith("ReadFault"):
            sys.exit(f"{cells}: {said}")
        if shutil.which("yosys"):
            yield models(room, path, cells)
    yield refusals("liberty_cells", wrong_inputs(room, text_of(small)))


def wrong_inputs(room, text):
    wrong = {"no file": [os.path.join(room, "missing")], "a folder": [room], "no word": []}
    texts = {"a text that is cut off": text[: len(text) // 2], "no words": "", "a netlist": text_of(os.path.join(TOP, "examples/first.v"))}
    texts["a brace too many"] = text + "}\n"
    texts["no cells"] = liberty([])
    texts["a cell twice"] = liberty([gate("C", "A"), gate("C", "B")])
    texts["no function that is understood"] = liberty([gate("C", "A +")])
    texts["a packed file"] = "\x1f\x8b\x08"
    for what, spoiled in texts.items():
        wrong[what] = [keep(os.path.join(room, f"{what.replace(' ', '_')}.lib"), spoiled)]
    return wrong
