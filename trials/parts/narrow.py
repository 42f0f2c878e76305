"""What scripts/narrow prints of random wide texts, and of netlists as yosys writes them, is canonical text that `flatten`
takes; Icarus plays both alike, and yosys proves them equal. Each fault is told at its place."""
import os, random, re, subprocess, sys

from chips import HERE, TOP, Module, keep, run, text_of
from script_trials import SCRIPTS, refusals, script
from wide_play import played
from wide_texts import LIBRARY, wide_text, top_of

NEEDS = ("yosys", "iverilog", "vvp")
TEXTS, AT_ONCE, PROVED, BOXED, CONSTANTS, CHANGES = 300, 100, range(0, 300, 12), 60, 400, 400
EXAMPLE = os.path.join(TOP, "examples/synthesis")
# Texts, and what is printed of the last module behind its ports.
ROWS = (
    ("module s(input [1:0] a, output [1:0] y); endmodule module t(input p, input [3:0] q, output [0:2] r, output t); wire w; s u(.a({p, q[3]}), .y({r[0], w})); s v(.a(q[2:1]), .y(r[1:2])); assign t = w; endmodule",
     "wire w; wire [1:0] \\u:a ; wire [1:0] \\u:y ; wire [1:0] \\v:a ; wire [1:0] \\v:y ; assign \\u:a [1] = p; assign \\u:a [0] = q[3]; s u (.a(\\u:a ), .y(\\u:y )); assign r[0] = \\u:y [1]; assign w = \\u:y [0]; "
     "assign \\v:a [1] = q[2]; assign \\v:a [0] = q[1]; s v (.a(\\v:a ), .y(\\v:y )); assign r[1] = \\v:y [1]; assign r[2] = \\v:y [0]; assign t = w;"),
    ("module t(a, y, z); input [2:0] a; output [0:2] y; output [3:0] z; tri [0:2] y; supply1 vdd; assign y = a, {z[0], z[3:1]} = {vdd, 3'h5}; endmodule",
     "wire vdd; assign vdd = 1'b1; assign y[0] = a[2]; assign y[1] = a[1]; assign y[2] = a[0]; assign z[0] = vdd; assign z[3] = 1'b1; assign z[2] = 1'b0; assign z[1] = 1'b1;"),
    ("module inv(a, y); input a; output y; not (y, a); endmodule module t(input a, output [1:0] y); wire b = a; inv u (b, n); not k (y[1], y[0:0], n); BUFX2 c (.A(n), .Y()); endmodule",
     "wire b; wire n; assign b = a; inv u (.a(b), .y(n)); not k (y[1], n); not (y[0], n); BUFX2 c (.A(n), .Y());"),
    ("module t(output y, output [1:0] z); supply0 y; supply1 [3:2] v; assign z = 2'D3; endmodule", "wire [3:2] v; assign y = 1'b0; assign v[3] = 1'b1; assign v[2] = 1'b1; assign z[1] = 1'b1; assign z[0] = 1'b1;"),
    ("module s(input [1:0] a, b); endmodule module t(input [1:0] p); s u(, p); s v(p,); s w(); s x(.b({2'o1}), .a()); endmodule",
     "wire [1:0] \\x:b ; s u (.a(), .b(p)); s v (.a(p), .b()); s w (); assign \\x:b [1] = 1'b0; assign \\x:b [0] = 1'b1; s x (.b(\\x:b ), .a());"),
    ("module t(input [0:0] a, output y, output [12:12] z); assign y = a, z[12:12] = {a[0]}; MUX2 m (.A(a[0:0]), .B(a), .S(1'h1)); endmodule",
     "assign y = a; assign z[12] = a[0]; MUX2 m (.A(a[0]), .B(a), .S(1'b1));"),
)
# Texts, and the line, the column and the fault.
REFUSED = (
    ("module t(input a, output [1:0] y);\n  assign y = {a, 1'bx}; endmodule", "2:18: ConstUnknown 52"),
    ("module t(output y); assign y = 1'bz; endmodule", "1:32: ConstUnknown 31"),
    ("module t(a); input a, b; endmodule", "1:21: BadSyntax 20 8"),
    ("module t(input a, output y); assign y = 2'b111; endmodule", "1:46: BadWord 45"),
    ("module t(output [3:0] y); assign y = 4'o20; endmodule", "1:42: BadWord 41"),
    ("module t(output [3:0] y); assign y = 4'd16; endmodule", "1:42: BadWord 41"),
    ("module t(output [3:0] y); assign y = 04'd1; endmodule", "1:40: BadWord 39"),
    ("module t(output [3:0] y); assign y = 4'b1_0; endmodule", "1:42: BadWord 41"),
    ("module t(input a, output y);\n\tbuf (y, 1'b0, a); endmodule", "2:14: BadSyntax 42 15"),
    ("module t(a); input a; input b; endmodule", "1:23: BadSyntax 22 9"),
    ("module t(input a, output y); assign y = {{a}}; endmodule", "1:42: BadSyntax 41 14"),
    ("module t(input a); endmodule module s(); endmodule module t(); endmodule", "1:52: ModuleTwice t"),
    ("module t(output [1:0] y); wire w = n; assign y = n[1:0]; endmodule", "1:36: NetUnknown t n"),
    ("module t(output [1:0] y); buf (n, y[0]); assign y = n[1:0]; endmodule", "1:53: SelectOutside t n"),
    ("module t(input [3:0] a, output [1:0] y); assign y = a[0:1]; endmodule", "1:53: SelectOutside t a"),
    ("module t(input [3:0] a, output y); assign y = a[4]; endmodule", "1:47: SelectOutside t a"),
    ("module t(input p, output q); INV u (p, q); endmodule", "1:34: PlacedLinks t u"),
    ("module s(input a, b); endmodule module t(input p); s v(p, p),\n u (p); endmodule", "2:2: PlacedLinks t u"),
    ("module s(input a); endmodule module t(input p); s u(.b(p)); endmodule", "1:54: LinkPort t u b"),
    ("module s(input a); endmodule module t(input p); s u(.a(), .a(p)); endmodule", "1:60: LinkPort t u a"),
    ("module s(output a); endmodule module t(input p); s u(.a(1'b0)); endmodule", "1:55: LinkPort t u a"),
    ("module s(inout [1:0] a); endmodule module t(inout [3:0] p); s u(.a(p[1:0])); endmodule", "1:66: LinkPort t u a"),
    ("module t(input [3:0] a, output [1:0] y); assign y[0] = a[0]; assign y = a[3:1]; endmodule", "1:69: WidthDiffers t 1"),
    ("module t(input [3:0] a, output y); and (y, a[0],\n a); endmodule", "2:2: WidthDiffers t 0"),
    ("module t(input a, output y); buf (y, a); wire [1:0] w = 1'b1; endmodule", "1:53: WidthDiffers t 1"),
    ("module t(input [3:0] a, output y); INV u (.A(a[0]), .Y({y, n})); endmodule", "1:57: WidthDiffers t 0"),
    ("module s(input [1:0] a); endmodule module t(input p, input q); s u (.a(p)); endmodule", "1:72: WidthDiffers t 0"),
    ("module s(input [1:0] a); endmodule module t(input p, input q); wire \\u:a ; s u (.a({p,q})); endmodule", "1:82: NewName t u:a"),
    ("module s(input [1:0] a); endmodule module t(input p); s " + "u" * 254 + " (.a({p,p})); endmodule", "1:314: NewName t " + "u" * 254 + ":a"),
    ("module t(); wire [999999999:0] v; assign v = v; endmodule", " TooMany items 1048577 1048576"),
)
# The same of texts with boxes and pads.
BOXES = LIBRARY + "pad PADB PIN bidi1 I OE C : : PU DS[1:0] : VDD\ncut u\n"
BOX_ROWS = (
    ("module t(input [3:0] a, inout p, VDD, output [1:0] y, output r); RAM u (.Q({y, q[5:0]}), .A({a[1:0], 2'b1}), .WE(1'b1), .RDY(r)); wire [5:0] q; PADB b (.PIN(p), .I(1'b0), .OE(r), .C(c), .DS(2'd2), .VDD(VDD)); endmodule",
     "wire [5:0] q; wire c; wire [7:0] \\u:Q ; wire [3:0] \\u:A ; wire [1:0] \\b:DS ; assign \\u:A [3] = a[1]; assign \\u:A [2] = a[0]; assign \\u:A [1] = 1'b0; assign \\u:A [0] = 1'b1; "
     "RAM u (.Q(\\u:Q ), .A(\\u:A ), .WE(1'b1), .RDY(r)); assign y[1] = \\u:Q [7]; assign y[0] = \\u:Q [6]; assign q[5] = \\u:Q [5]; assign q[4] = \\u:Q [4]; assign q[3] = \\u:Q [3]; assign q[2] = \\u:Q [2]; "
     "assign q[1] = \\u:Q [1]; assign q[0] = \\u:Q [0]; assign \\b:DS [1] = 1'b1; assign \\b:DS [0] = 1'b0; PADB b (.PIN(p), .I(1'b0), .OE(r), .C(c), .DS(\\b:DS ), .VDD(VDD));"),
)
BOX_REFUSED = (
    ("module t(input a); TIE u (a, b); endmodule", "1:24: PlacedLinks t u"),
    ("module t(input a); RAM u (.B(a)); endmodule", "1:28: LinkPort t u B"),
    ("module t(input a); RAM u (.A(a)); endmodule", "1:30: WidthDiffers t 0"),
    ("module t(input a); TIE u (.HI(1'b0)); endmodule", "1:28: LinkPort t u HI"),
    ("module t(input a); PADB u (.PIN(1'b0)); endmodule", "1:29: LinkPort t u PIN"),
)


def narrow_modules():
    """The modules of scripts/ that narrow a text, for many texts at once."""
    sys.path.append(SCRIPTS)
    from narrowing import canonical, narrowed
    from wide_words import Refused

    return canonical, narrowed, Refused


def said(*words):
    """Status, standard output and standard error of the script."""
    done = subprocess.run([sys.executable, os.path.join(SCRIPTS, "narrow"), *words], stdin=subprocess.DEVNULL, capture_output=True, text=True)
    return done.returncode, done.stdout, done.stderr


def rows(room, wanted, refused, library=()):
    path = os.path.join(room, "row.v")
    for text, lines in wanted:
        keep(path, text)
        # (yosys 0.23 takes no range of a supply.)
        status, out, error = said(path, *library, *["--prove"] * ("supply1 [" not in text))
        body = " ".join(out.split("module t (")[-1].split(");\n", 1)[-1].rsplit("endmodule", 1)[0].split("\n")).split()
        if status or body != lines.split():
            sys.exit(f"{text}\ngives {' '.join(body)}\n{error}")
    for text, fault in refused:
        keep(path, text)
        told = said(path, *library)
        if told != (1, "", f"narrow: {path}:{fault}\n"):
            sys.exit(f"{text}\ngives {told}")
    return f"{len(wanted)} rows{' with boxes' if library else ''} as they are wanted, and proved; {len(refused)} faults at their places"


def is_canonical(program, room, text):
    """Whether `canon` writes a module's text as it is."""
    one, other = keep(os.path.join(room, "one.v"), text), os.path.join(room, "other.v")
    run([program, "canon", one, other])
    return text_of(other) == text


def checked(program, room, what, text, boxes=None):
    """The text that comes of a wide one: module by module canonical, and the same of itself."""
    canonical, narrowed, _ = narrow_modules()
    modules = narrowed(text, boxes)
    for module in modules:
        if not is_canonical(program, room, canonical([module])):
            sys.exit(f"{what}: `canon` writes another text of {module.name}")
    printed = canonical(modules)
    if canonical(narrowed(printed, boxes)) != printed:
        sys.exit(f"{what}: what is printed gives another text")
    return printed, len(modules)


def flattened(program, room, text, top):
    path, flat = keep(os.path.join(room, "narrow.v"), text), os.path.join(room, "flat.v")
    run([program, "flatten", path, top, flat])
    return text_of(flat)


def by_chance(program, room):
    """Random texts: canonical, flattened, and played."""
    texts, modules, alike, known = {}, 0, 0, 0
    for seed in range(TEXTS):
        text = wide_text(seed)
        printed, count = checked(program, room, f"the text {seed}", text)
        texts[seed] = (text, flattened(program, room, printed, top_of(seed)))
        modules += count
        if len(texts) == AT_ONCE:
            same, differ, counted, log = played(room, texts, random.Random(seed))
            if differ or not same:
                sys.exit(f"Icarus: {differ} readings differ\n{log[:2000]}")
            texts, alike, known = {}, alike + same, known + counted
    if texts:
        sys.exit(f"{TEXTS} texts aren't played {AT_ONCE} at once")
    return f"{TEXTS} random texts of {modules} modules: `canon` writes each as it is printed, `flatten` takes all; Icarus reads both alike {alike} times, {known} of them all known"


def spoiled(text, chance):
    """The text with an assign that gives 1 in place of a net, and with one that gives the other way."""
    lines = text.split("\n")
    number = chance.choice([number for number, line in enumerate(lines) if re.match(r"  assign .* = [^1]", line)])
    for new in (r"\1 = 1'b1;", r"  assign \3 = \2;"):
        changed = re.sub(r"^(  assign (.*)) = (.*);$", new, lines[number])
        yield "\n".join([*lines[:number], changed, *lines[number + 1 :]])


def proofs(room):
    """yosys proves some of the texts, and none with an assign changed."""
    canonical, narrowed, _ = narrow_modules()
    from command import Fault
    from narrow_proof import prove

    path, chance, points, refused = os.path.join(room, "wide.v"), random.Random(1), 0, 0
    for seed in PROVED:
        keep(path, wide_text(seed))
        status, out, error = said(path, "--prove")
        if status:
            sys.exit(f"the text {seed}: {error}")
        points += int(re.search(r"yosys proves (\d+) points", error)[1])
        for changed in spoiled(out, chance):
            try:
                prove(path, narrowed(wide_text(seed)), changed, None)
            except Fault:
                refused += 1
    # (What is 1 already may be changed to 1.)
    if refused < 2 * len(PROVED) - 1:
        sys.exit(f"yosys proves {2 * len(PROVED) - refused} of {2 * len(PROVED)} changed texts, too")
    return f"yosys proves {len(PROVED)} of them, {points} points, and leaves {refused} of {2 * len(PROVED)} with an assign changed or turned round"


def with_boxes(program, room):
    canonical, narrowed, _ = narrow_modules()
    library = keep(os.path.join(room, "boxes.lib"), BOXES)
    yield rows(room, BOX_ROWS, BOX_REFUSED, [library])
    path, points = os.path.join(room, "boxed.v"), 0
    for seed in range(BOXED):
        keep(path, wide_text(seed, boxes=True))
        status, out, error = said(path, library, *["--prove"] * (seed % 6 == 0))
        if status:
            sys.exit(f"the text {seed} with boxes: {error}")
        points += int(re.search(r"yosys proves (\d+) points", error)[1]) if error else 0
        for module in re.findall(r"module [\s\S]*?\nendmodule\n", out):
            if not is_canonical(program, room, module):
                sys.exit(f"the text {seed} with boxes: `canon` writes another text")
        if re.search(r"^  (?:RAM|PLL|TIE) .*[{:](?=\d)", out, re.M) or said(keep(path, out), library)[1] != out:
            sys.exit(f"the text {seed} with boxes: what is printed gives another text")
    yield f"{BOXED} random texts with boxes: `canon` writes each module as it is printed; of ten yosys proves {points} points"


def constants(room):
    """Constants by chance have the bits that Icarus prints."""
    sys.path.append(SCRIPTS)
    from wide_words import constant_of

    chance, words = random.Random(3), []
    while len(words) < CONSTANTS:
        size, base = chance.choice([1, 2, 3, 4, 5, 8, 12, 32, 33, 64, 100]), chance.choice("bBoOhHdD")
        among = {"b": "01", "o": "01234567", "h": "0123456789abcdefABCDEF", "d": "0123456789"}[base.lower()]
        word = f"{size}'{base}{''.join(chance.choice(among) for _ in range(chance.randint(1, 12)))}"
        if constant_of(word)[0] == "constant":
            words.append(word)
    lines = "\n".join(f'    $display("%b", {word});' for word in words)
    keep(os.path.join(room, "constants.v"), f"module constants;\n  initial begin\n{lines}\n  end\nendmodule\n")
    simulation = os.path.join(room, "constants.vvp")
    run(["iverilog", "-g2001", "-o", simulation, os.path.join(room, "constants.v")])
    for word, bits in zip(words, run(["vvp", "-n", simulation]).split()):
        own = "".join(str(bit.value) for bit in constant_of(word)[1].bits())
        if own != bits:
            sys.exit(f"{word} has the bits {own}, and {bits} by Icarus")
    return f"{CONSTANTS} constants have the bits that Icarus prints"


def own_texts(program, room):
    """Texts of the netlist language come out as `canon` writes them, and so do changed ones that it takes; what it refuses is
    refused at the same place, or further on."""
    canonical, narrowed, Refused = narrow_modules()
    from wide_modules import read_modules

    folders = [os.path.join(TOP, "examples"), EXAMPLE, os.path.join(HERE, "data")]
    paths = [os.path.join(folder, name) for folder in folders for name in sorted(os.listdir(folder)) if name.endswith(".v")]
    texts, changed, out, chance, counts = [], os.path.join(room, "changed.v"), os.path.join(room, "changed.out"), random.Random(4), [0, 0, 0]
    for path in paths:
        if subprocess.run([program, "canon", path, out], capture_output=True).returncode == 0:
            texts.append(text_of(path))
            if canonical(narrowed(texts[-1])) != text_of(out):
                sys.exit(f"{path} doesn't come out as `canon` writes it")
    for _ in range(CHANGES):
        text = chance.choice(texts[:-2])
        at = chance.randrange(len(text))
        text = text[:at] + chance.choice("#;(),x\t\n'`\\/*.zab01~!\"$_-") + text[at + chance.randint(0, 1) :] if chance.randrange(8) else text[:at]
        status = subprocess.run([program, "canon", keep(changed, text), out], capture_output=True, text=True)
        fault = status.stdout.strip()
        try:
            own = "" if len(read_modules(text)) == 1 else "several"
        except Refused as refused:
            own = refused.line
        if own == fault:
            counts[own != ""] += 1
        elif fault and (not own or own == "several" or int(own.split()[1]) > int(fault.split()[1])):
            counts[2] += 1
        else:
            sys.exit(f"{fault or 'nothing'} by `canon`, and {own or 'nothing'} of\n{text}")
    return f"{len(texts)} netlists come out as `canon` writes them; of {CHANGES} changes {counts[0]} are taken by both, {counts[1]} refused at one place, and {counts[2]} taken or refused further on"


# How yosys writes a netlist: its steps behind mapping, and the options of `write_verilog`.
FORMS = {
    "as it is": ("opt_clean", "-noattr"),
    "without expressions": ("opt_clean", "-noattr -noexpr"),
    "of single wires": ("splitnets; opt_clean", "-noattr"),
    "with attributes, in hexadecimals": ("opt_clean", "-noexpr -nodec"),
    "flat": ("flatten; opt_clean", "-noattr -noexpr"),
}
DESIGNS = {"pulse": os.path.join(EXAMPLE, "pulse.v")}
LIBERTY, CELLS = os.path.join(EXAMPLE, "small.lib"), os.path.join(EXAMPLE, "small.cells")


def written(room, top, path, form):
    """A netlist of the example's library, with its modules, as yosys writes it."""
    between, options = FORMS[form]
    netlist = os.path.join(room, "written.v")
    steps = f"read_verilog {path}; hierarchy -check -top {top}; proc; tribuf -logic; synth -noabc -nofsm -top {top}; dfflegalize -cell $_DFF_?_ x -cell $_DFF_?N?_ x; "
    steps += f"techmap -map {os.path.join(EXAMPLE, 'flops.v')}; abc -liberty {LIBERTY}; setundef -zero; {between}; write_verilog {options} {netlist}"
    run(["yosys", "-q", "-p", steps])
    return keep(netlist, text_of(netlist).replace("\\bufif1 ", "bufif1 "))


def by_yosys(program, room):
    """Netlists in several forms: proved, flattened, and linked."""
    for name, path in DESIGNS.items():
        said_before, points = set(), 0
        for form in FORMS:
            netlist, flat = written(room, name, path, form), os.path.join(room, "flat.v")
            before = subprocess.run([program, "flatten", netlist, name, flat, CELLS], capture_output=True, text=True)
            if before.returncode:
                said_before.add(before.stdout.split()[0])
            status, out, error = said(netlist, CELLS, "--prove")
            if status:
                sys.exit(f"{name} {form}: {error}")
            points += int(re.search(r"yosys proves (\d+) points", error)[1])
            run([program, "flatten", keep(os.path.join(room, "narrow.v"), out), name, flat, CELLS])
            link(program, room, flat)
        yield f"{name} as yosys writes it in {len(FORMS)} forms: {points} points proved, flattened and linked; without narrow `flatten` says {', '.join(sorted(said_before)) or 'nothing'}"


def link(program, room, flat):
    """Has `sim` link a flat netlist."""
    lines = [f"start {pin} {'z' if port.direction == 'inout' else 0}" for port in Module(text_of(flat)).ports if port.direction != "output" for pin in port.pins()]
    run([program, "sim", flat, keep(os.path.join(room, "none.events"), "\n".join(["events 1", *lines]) + "\n"), CELLS])


def large(room):
    """How long a text of 100,000 cells takes, and one of half as many."""
    seconds = []
    for count in (50000, 100000):
        lines = ["module s(input [3:0] a, output y); and (y, a[0], a[3]); endmodule", f"module t(input [7:0] a, output y);\n  wire [{count + 7}:0] w;\n  assign w[7:0] = a, y = w[{count + 7}];"]
        for number in range(8, count + 8):
            if number % 10:
                lines.append(f"  NAND2X1 _{number}_ (\n    .A(w[{number - 1}]),\n    .B(w[{number - 8}]),\n    .Y(w[{number}])\n  );")
            else:
                lines.append(f"  s u{number} (.a({{w[{number - 1}:{number - 2}], 2'h1}}), .y(w[{number}]));")
        path = keep(os.path.join(room, "large.v"), "\n".join(lines) + "\nendmodule\n")
        before = os.times().children_user
        said(path)
        seconds.append(os.times().children_user - before)
    if seconds[1] > 4 * seconds[0]:
        sys.exit(f"50,000 cells take {seconds[0]:.1f} s, and 100,000 {seconds[1]:.1f} s")
    return f"100,000 cells take {seconds[1]:.1f} s of a processor, half as many {seconds[0]:.1f} s"


def tried(program, room):
    yield rows(room, ROWS, REFUSED)
    yield from with_boxes(program, room)
    yield constants(room)
    yield own_texts(program, room)
    yield by_chance(program, room)
    yield proofs(room)
    yield from by_yosys(program, room)
    yield large(room)
    counter = os.path.join(TOP, "examples/counter8.v")
    wrong = {"no file": [os.path.join(room, "missing")], "no word": [], "a folder": [room], "a library in place of the text": [os.path.join(TOP, "examples/accumulator.lib")]}
    wrong.update({"no library": [counter, os.path.join(room, "missing")], "a netlist in place of a library": [counter, counter], "three files": [counter, counter, counter]})
    wrong["a box with a port twice"] = [counter, keep(os.path.join(room, "twice.lib"), "boxes 1\nbox B A : A\n")]
    wrong["a box behind a cut"] = [counter, keep(os.path.join(room, "late.lib"), "boxes 1\ncut u\nbox B A : C\n")]
    wrong["a box in `cells 1`"] = [counter, keep(os.path.join(room, "early.lib"), "cells 1\nbox B A : C\n")]
    # Two drivers: yosys can't prove what they give.
    wrong["two drivers, to be proved"] = [keep(os.path.join(room, "two.v"), "module t(input a, b, output y); buf (y, a); buf (y, b); endmodule\n"), "--prove"]
    yield refusals("narrow", wrong)
