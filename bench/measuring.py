"""What the benchmarks share: netlists, plans, and runs that are timed."""
import os, re, subprocess, sys, tempfile, time

TOP = os.path.dirname(os.path.dirname(os.path.abspath(__file__)))
PROGRAM = os.path.join(TOP, "crates/lavkhind/out/lavkhind")
RUNS = 5

with open(os.path.join(TOP, "lavkhind")) as script:
    # The tunables of the C library with which the script runs the program.
    TUNABLES = re.search(r'GLIBC_TUNABLES="([^$]*)\$', script.read()).group(1).replace("\\\n", "")
# Programs run in the C locale, and with the memory that the script asks for.
AROUND = {**os.environ, "LC_ALL": "C", "GLIBC_TUNABLES": TUNABLES}
# The pins of the pseudo-random netlists, with their cells.
DEMO_PINS = [("clk", "BC_4"), ("rn", "BC_4")] + [(f"{port}[{i}]", "BC_1") for port in "dq" for i in range(16)]


def drawing_from(number):
    """Numbers drawn by a linear congruence that starts at the number."""
    state = number

    def draw(below):
        nonlocal state
        state = (state * 6364136223846793005 + 1442695040888963407) % 2**64
        return (state >> 33) % below

    return draw


def random_netlist(number):
    """Gates, flip-flops and buffers over vectors, drawn from the number: 10 * number + 148 cells."""
    draw = drawing_from(number)
    gates = 100 + 10 * number
    pool = [f"d[{i}]" for i in range(16)] + [f"f[{i}]" for i in range(32)]
    yield from ("module demo (", "  input clk,", "  input rn,", "  input [15:0] d,", "  output [15:0] q", ");")
    yield from ("  wire [31:0] f;", f"  wire [{gates - 1}:0] g;")
    kinds = ["and", "or", "nand", "nor", "xor", "xnor"]
    for k in range(gates):
        kind = kinds[draw(6)]
        first = pool[draw(len(pool))]
        second = pool[draw(len(pool))]
        yield f"  {kind} (g[{k}], {first}, {second});"
        pool.append(f"g[{k}]")
    for i in range(32):
        yield f"  DFFR f_{i} (.D({pool[draw(len(pool))]}), .CK(clk), .RN(rn), .Q(f[{i}]));"
    for j in range(16):
        yield f"  buf (q[{j}], {pool[draw(len(pool))]});"
    yield "endmodule"


def plan(entity, pins):
    """A plan with all seven instructions, whose pins are these with their cells."""
    yield from ("plan 1", f"entity {entity}", "package PK", "prefix bs_")
    for number, name in enumerate(("tck", "tms", "tdi", "tdo", "trst")):
        yield f"{name} {name.upper()} T{number}"
    yield from ("clock 10", "length 4", "capture 0001")
    opcodes = {"BYPASS": "1111", "EXTEST": "0000", "SAMPLE": "0001", "PRELOAD": "0001"}
    opcodes |= {"IDCODE": "0010", "HIGHZ": "0011", "CLAMP": "0100"}
    yield from (f"opcode {name} {bits}" for name, bits in opcodes.items())
    yield from ("idcode 0001 0000000000000001 00000000001 1", "control BC_1")
    yield from (f"pin {pin} {number} {cell}" for number, (pin, cell) in enumerate(pins, 1))


def buffers(count):
    """A chain of named buffers over scalar wires."""
    yield "module chain (input a, output y);"
    for i in range(count - 1):
        yield f"  wire n{i};"
    last = "a"
    for i in range(count - 1):
        yield f"  buf b{i} (n{i}, {last});"
        last = f"n{i}"
    yield f"  buf last (y, {last});"
    yield "endmodule"


def starts(pins):
    """The header of events, and each pin at 0."""
    yield "events 1"
    for pin in pins:
        yield f"start {pin} 0"


def make(path, lines):
    """Writes the text in a process of its own, so that the one that measures stays small."""
    child = os.fork()
    if child == 0:
        with open(path, "w") as file:
            for line in lines:
                file.write(line + "\n")
        os._exit(0)
    os.waitpid(child, 0)


def run(words, runs=RUNS, wanted=0):
    """The best time of so many runs that end with a status, in seconds, and the peak memory of a run, in bytes."""
    best, peak = None, 0
    for _ in range(runs):
        start = time.perf_counter()
        process = subprocess.Popen(words, stdout=subprocess.DEVNULL, env=AROUND)
        _, status, usage = os.wait4(process.pid, 0)
        spent = time.perf_counter() - start
        if os.waitstatus_to_exitcode(status) != wanted:
            sys.exit(f"{' '.join(words)} ended with status {os.waitstatus_to_exitcode(status)}")
        best = spent if best is None else min(best, spent)
        peak = max(peak, usage.ru_maxrss * 1024)
    return best, peak


def folder_given(usage):
    """The folder of the command line, or a new one; the script ends with its usage where other words are given."""
    words = sys.argv[1:]
    if "--help" in words:
        print(usage)
        sys.exit()
    if len(words) > 1 or any(word.startswith("-") for word in words):
        sys.exit(usage)
    folder = words[0] if words else tempfile.mkdtemp(prefix="lavkhind-bench-")
    os.makedirs(folder, exist_ok=True)
    return folder


def build():
    """Proves and builds the program, where it isn't yet."""
    subprocess.run([os.path.join(TOP, "prove")], check=True)


def wrapped(folder, number):
    """The pseudo-random netlist of the number with boundary scan built in, and its BSDL file, as paths."""
    name = f"demo_{number}"
    paths = [os.path.join(folder, name + end) for end in (".v", ".plan", ".out.v", ".out.bsd")]
    make(paths[0], random_netlist(number))
    make(paths[1], plan("demo_chip", DEMO_PINS))
    run([PROGRAM, "insert", *paths], 1)
    return paths[2], paths[3]
