"""Where a command refuses a text the script `lavkhind` shows the place: each fault of the manual's table, with what is
said there; and standard output and status are the program's."""
import os, random, re, signal, subprocess, sys, time

from chips import TOP, inserted, keep, run, text_of
from script_trials import DATA, SMALL, clone_of, is_proved, refusals, with_own_register

from parts.place import CELLS

NEEDS = ()
CHANGES = 200
EXAMPLES = os.path.join(TOP, "examples")
# They stand before the byte that is shown first, and second, and aren't part of the text.
FIRST, SECOND = "\xa7", "\xb6"
# Faults of the table without a place, or of which the program prints none with the status 1.
NO_PLACE = ("Usage", "SameName", "ReadFault", "TooLong", "NotInserted", "OutOfMemory", "WriteFault")


def module(body, ports="input a, input b, input [1:0] v, output y"):
    return f"module m ({ports});\n  {body}\nendmodule\n"


NETLISTS = (
    (module(f"buf (y, 2{FIRST}'b01);"), "BadWord", "a constant has one bit"),
    (module(f"assign y = a {FIRST}& b;"), "BadWord", "synthesise first"),
    (module(f"assign y = {FIRST}{{a, b}};"), "BadWord", "a concatenation"),
    (f"`def{FIRST}ine A 1\n", "BadWord", "preprocess the text"),
    (f"module m (); /* {FIRST}", "BadWord", "the text ends here; a comment"),
    (module(f"{FIRST}reg q;"), "BadSyntax", "synthesise first"),
    (module(f"CELL u ({FIRST}a, y);"), "BadSyntax", "link by name"),
    (module(f"buf (y, v[1{FIRST}:0]);"), "BadSyntax", "a part select"),
    (module("buf (y, a)").replace("endmodule", f"{FIRST}endmodule"), "BadSyntax", "what is missing before it"),
    (module("buf (y, a);") + f"{FIRST}module n (); endmodule\n", "BadSyntax", "`flatten`"),
    (module(f"and {FIRST}g (y, {'a, ' * 300}a);"), "TooMany operands", "it has more than 256"),
    (module("buf (y, a);", f"input a, output y, input [4095:0] {FIRST}w"), "TooMany ports", "with this there are more than 4096"),
    (module(f"// n\n  wire [524287:0] {FIRST}n; buf (y, a);"), "TooMany nets", "more than 524288"),
    (module("wire n; wire " + "\\/*n " + f", {FIRST}n; buf (y, a);"), "NameTwice n", "stands before, in line 2"),
    (module(f"buf {FIRST}a (y, a);"), "NameTwice a", "stands before, in line 1"),
    (f"module m (a, y);\n  input a; output y; wire a; // a\n  buf (y, a);\n  wire w, {FIRST}w;\nendmodule\n", "NameTwice w", "stands before, in line 4"),
    (module(f"/* n */ wire \\n+ ; not n1 (y, {FIRST}n);"), "NameUnknown n", "declare it"),
    (module(f"wire n; buf (n, v[1]), (y, {FIRST}v[2]);"), "BitOutside v 2", "v is a vector, [1:0]"),
    (module(f"// INVX\n  wire INVX1; {FIRST}INVX u (.INVX1(a), .Y(y));"), "CellUnknown INVX", "list it in LIB"),
    (module(f"DFF f (.D(a), .CK(b), .{FIRST}QN(y));"), "PortUnknown f QN", "DFF has no port QN"),
    (module(f"MUX2 {FIRST}u (.A(a), .S(b), .Y(y));"), "PortMissing u B", "link it"),
    (module(f"MUX2 u (.A(a), .{FIRST}B(), .S(b), .Y(y));"), "PortMissing u B", "link it"),
    (module(f"MUX2 u (.A(a), .B(b), .S(b), .{FIRST}A(b), .Y(y));"), "PortTwice u A", "linked before"),
    (module(f"buf (y, {FIRST}v);"), "WrongWidth v", "name one bit of it"),
    (module(f"and (y, b, {FIRST}a[0]);"), "WrongWidth a", "without an index"),
    (module(f"DFF f (.D(a), .CK(b), .Q({FIRST}1'b0)); buf (y, a);"), "WrongWidth f", "here is a constant"),
    (module(f"buf (y, a); buf ({FIRST}y, b);"), "TwoDrivers y", "driven before, in line 2"),
    (module(f"buf (y, a); assign {FIRST}v[1] = b;"), "InputDriven v[1]", "v[1] is an input"),
    (module("", f"input a, output {FIRST}y"), "NotDriven y", "nothing drives y: drive it"),
    (module(f"wire n; buf (y, {FIRST}n);"), "NotDriven n", "which is read here"),
    (module(f"wire n; bufif1 ({FIRST}n, a, b); buf (y, n);"), "TristateInside n", "only ports have three states"),
    (module(f"bufif1 (y, a, b); buf (z, {FIRST}y);", "input a, input b, output y, output z"), "TristateRead y", "read what stands before"),
    (module(f"buf ({FIRST}p, a);", "input a, inout p"), "InoutNotTristate p", "this is no bufif"),
    (module("", f"input a, inout {FIRST}p"), "InoutNotTristate p", "nothing drives it"),
    (module(f"wire n; nand {SECOND}g (y, a, n); nand {FIRST}h (n, b, y);"), "Loop", "item "),
    (module(f"wire h, n; not (n, h); DFF half (.D(n), .CK(a), .Q({SECOND}h)); DFF q (.D(b), .CK({FIRST}h), .Q(y));"), "DerivedClock q h", "for it"),
)
LEAF = "module leaf (input i, output o);\n  buf b (o, i);\nendmodule\n"
PORTED = LEAF.replace("input i", f"input {SECOND}i")
MODULES = (
    (LEAF + LEAF.replace("leaf", f"{FIRST}leaf"), "ModuleTwice leaf", "stands before, in line 1"),
    (LEAF.replace("leaf", f"{FIRST}MUX2"), "ModuleTwice MUX2", "MUX2 is a cell"),
    (LEAF.replace("leaf", f"{FIRST}leaf"), "ModuleMissing top", "no module is called top; the text has leaf"),
    (f"module top (input i, output o);\n  {FIRST}leaf u (.i(i), .o(o));\nendmodule\n", "ModuleMissing leaf", "add it"),
    (f"module top (input i, output o);\n  mid u (.i(i), .o(o));\nendmodule\nmodule mid (input i, output o);\n  {FIRST}mid v (.i(i), .o(o));\nendmodule\n", "ModuleRecursive mid", "holds itself"),
    (PORTED.replace(SECOND, "") + f"module top (input i, output o);\n  leaf u (.i(i), .{FIRST}x(o));\nendmodule\n", "ModuleLink u x", "has no port x"),
    (PORTED + f"module mid (input i, output o);\n  leaf {FIRST}v (.o(o));\nendmodule\nmodule top (input i, output o);\n  mid u (.i(i), .o(o));\nendmodule\n", "ModuleLink u/v i", "an input of 1 bit"),
    (LEAF.replace("output o", f"output {SECOND}o") + f"module top (input i, output o);\n  wire [1:0] w;\n  leaf u (.i(i), .{FIRST}o(w));\nendmodule\n", "ModuleLink u o", "an output of 1 bit"),
    (LEAF.replace("buf b", f"buf {SECOND}b") + f"module top (input i, output o);\n  leaf u (.i(i), .o(o));\n  buf {FIRST}\\u/b (o, i);\nendmodule\n", "FlatName u/b", "two things"),
)
# Changes of the counter's plan, with the places in the new text.
PLANS = (
    ("length 4\n", f"{FIRST}length 4 # four\n", "PlanLine", "the form of the line is `length` N"),
    ("length 4\ncapture", f"{FIRST}capture", "PlanLine", "behind `clock` stands `length` N"),
    ("plan 1\n", FIRST, "PlanLine", "first stands `plan` 1"),
    ("opcode CLAMP 0100\n", f"opcode CLAMP 0100\nopcode {FIRST}CLAMP 0101\n", "PlanTwice CLAMP", "stands before, in `opcode CLAMP 0100`"),
    ("pin en 3 BC_1\n", f"pin en 3 BC_1\npin {FIRST}en 33 BC_1\n", "PlanTwice en", "`pin en 3 BC_1`"),
    ("pin en 3 BC_1\n", f"pin en {FIRST}2 BC_1\n", "PlanTwice 2", "`pin rn 2 BC_4`"),
    ("linkage VDD 18\n", f"linkage VDD 18\nlinkage VCC {FIRST}18\n", "PlanTwice 18", "`linkage VDD 18`"),
    ("opcode PRELOAD 0001\n", "", "PlanOpcode PRELOAD", "`opcode PRELOAD BITS` is missing"),
    ("opcode CLAMP 0100\n", f"opcode CLAMP {FIRST}00100\n", "PlanOpcode CLAMP", "has 5 bits, and `length` says 4"),
    ("opcode BYPASS 1111\n", f"opcode BYPASS {FIRST}1110\n", "PlanOpcode BYPASS", "all ones"),
    ("opcode CLAMP 0100\n", f"opcode CLAMP {FIRST}0011\n", "PlanOpcode CLAMP", "the opcode of HIGHZ, too"),
    ("capture 0001\n", f"capture {FIRST}0010\n", "PlanOpcode capture", "ends in 01"),
    ("opcode IDCODE 0010\n", "", "PlanIdcode", "IDCODE has no opcode"),
    ("idcode 0001 0000000000000001 00000000001 1\n", "", "PlanIdcode", "no line `idcode`"),
    ("idcode 0001 0000000000000001 00000000001 1\n", f"idcode {FIRST}0001 0000000000000001 00000000001 0\n", "PlanIdcode", "the last is 1"),
    ("opcode CLAMP 0100\n", f"opcode {FIRST}INTEST 0100\n", "PlanInstruction INTEST", "the instructions are BYPASS"),
    ("opcode CLAMP 0100\n", f"opcode {FIRST}USERCODE 0100\n", "PlanInstruction USERCODE", "`plan 2`"),
    ("pin q[7] 5 BC_1\n", f"pin {FIRST}q(7) 5 BC_1\n", "PlanPort q(7)", "NAME[INDEX]"),
    ("pin clk 1 BC_4\n", f"pin clk 1 {FIRST}BC_1\n", "PlanCell clk", "BC_4 where it clocks"),
    ("pin q[7] 5 BC_1\n", f"pin q[7] 5 {FIRST}BC_4\n", "PlanCell q[7]", "an output takes"),
    ("entity counter8\n", f"entity {FIRST}bus\n", "PlanName bus", "a reserved word of VHDL: another name"),
    ("package DIP24\n", f"package {FIRST}counter8\n", "PlanName counter8", "stands before"),
    ("linkage VDD 18\n", f"linkage {SECOND}vdd 18\nlinkage {FIRST}VDD 20\n", "PlanName VDD", "stands before"),
    ("tck TCK 13\n", f"tck {FIRST}d 13\n", "PlanName d", "is called so"),
    ("prefix bs_\n", f"prefix {FIRST}c\n", "PrefixTaken", "another prefix"),
)
CODES = (
    ("usercode 10100110100101101001010101010110\n", "", "PlanUsercode", "no line `usercode`"),
    ("usercode 10100110100101101001010101010110\n", f"usercode {FIRST}1010\n", "PlanUsercode", "32 bits"),
    ("opcode USERCODE 01010\n", "", "PlanUsercode", "USERCODE has no opcode"),
)
REGISTERS = (
    (f"status 1\nregister COUNT RDCOUNT 0110 c[0]\n{FIRST}registers X Y 0111 c[0]\n", "StatusLine", "`register NAME"),
    (f"status 1\nregister {FIRST}bus RDCOUNT 0110 c[0]\n", "StatusName bus", "a reserved word"),
    (f"status 1\nregister COUNT RDCOUNT 0110 c[0]\nregister {FIRST}count RDMORE 0111 c[0]\n", "StatusName count", "stands before"),
    (f"status 1\nregister {FIRST}BYPASS RDCOUNT 0110 c[0]\n", "StatusName BYPASS", "of the standard's"),
    (f"status 1\nregister COUNT RDCOUNT 0110 c[0] {FIRST}q[0]\n", "StatusNet q[0]", "a port"),
    (f"status 1\nregister COUNT RDCOUNT 0110 c[0] {FIRST}c[8]\n", "StatusNet c[8]", "no bit of a wire"),
    (f"status 1\nregister COUNT RDCOUNT {FIRST}01 c[0]\n", "StatusOpcode RDCOUNT", "as long as the plan's"),
)
STARTS = "events 1\nstart clk 0\nstart rn 0\nstart en 0\n"
EVENTS = (
    (f"events 1\n{FIRST}begin clk 0\n", "EventLine 2", "`start`, `set` or `expect`"),
    (f"{STARTS}{FIRST}set clk 1\n", "EventIllegal 5", "no start stands before for oe"),
    (f"{STARTS}start oe 0\n{FIRST}expect en 1\n", "EventIllegal 6", "an input isn't expected"),
    (f"{STARTS}start oe 0\n{FIRST}set q[0] 1\n", "EventIllegal 6", "an output has no start"),
    (f"{STARTS}start oe 0\n{FIRST}set x 1\n", "EventIllegal 6", "x is no bit of a port"),
    (f"{STARTS}start oe 0\n{FIRST}set clk x\n", "EventIllegal 6", "takes 0 and 1 alone"),
    (f"{STARTS}{FIRST}", "EventIllegal 5", "no start stands before for oe"),
)
# Changes of the counter's BSDL file: the place that is shown last.
BSDL = (
    ("3 (BC_1, oe, input, X)", f"3 ({FIRST}BC_2, oe, input, X)", "BsdlMeaning Row", "row 3 is input"),
    ("HIGHZ (0011)", f"HIGHZ ({FIRST}0X11)", "BsdlSyntax", "`0X11` stands where"),
    ("REGISTER_ACCESS of", f"{FIRST}REGISTER_ACCES of", "BsdlSyntax", "no BSDL file of this order of sections"),
    ("(10.0e6, BOTH)", f"(10{FIRST}e6, BOTH)", "BsdlWord", "no word of BSDL"),
)


class Clone:
    """A folder in which the script `lavkhind` runs the program."""

    def __init__(self, program, room):
        self.program, self.room, self.folder = program, room, clone_of(program, os.path.join(room, "clone"))
        os.symlink(os.path.join(TOP, "scripts"), os.path.join(self.folder, "scripts"))

    def run(self, *words, **environment):
        return subprocess.run([os.path.join(self.folder, "lavkhind"), *words], stdin=subprocess.DEVNULL, capture_output=True, text=True, encoding="latin-1", cwd=self.room, env={**os.environ, **environment})

    def same(self, *words):
        """What the script says, of which standard output and status are the program's."""
        done, own = self.run(*words), subprocess.run([self.program, *words], stdin=subprocess.DEVNULL, capture_output=True, text=True, encoding="latin-1", cwd=self.room)
        if (done.stdout, done.returncode) != (own.stdout, own.returncode):
            sys.exit(f"{words}: {done.stdout}{done.returncode} and not {own.stdout}{own.returncode}")
        return done


def place_of(text, mark, other):
    """The line and the column of a mark, and the text without marks."""
    front = text[: text.index(mark)].replace(other, "")
    return f"{front.count(chr(10)) + 1}:{len(front) - front.rfind(chr(10))}"


def is_shown(clone, name, text, words, fault, told, last=False):
    """Keeps a text without its marks, and looks for the places that it has; returns the fault's name."""
    keep(os.path.join(clone.room, name), text.replace(FIRST, "").replace(SECOND, ""))
    done = clone.same(*words)
    heads = re.findall(r"(?m)^\S+:\d+:\d+(?:: .*)?$", done.stderr)
    head = heads[-1 if last else 0] if heads else ""
    marks = [(FIRST, SECOND), (SECOND, FIRST)] if SECOND in text else [(FIRST, SECOND)]
    wanted = [f"{name}:{place_of(text, *both)}" for both in marks if both[0] in text]
    there = [it for it, head_of in zip(wanted, [head, *heads[1:]]) if (head_of + ":").startswith(it + ":")]
    if done.returncode != 1 or not (done.stdout.strip() + " ").startswith(fault + " ") or told not in done.stderr or there != wanted or not heads:
        sys.exit(f"{text}\n{done.stdout}{done.stderr}for {fault} at {wanted}, {told}")
    return fault.split()[0]


def netlists(clone):
    keep(os.path.join(clone.room, "none.events"), "events 1\n")
    for text, fault, told in NETLISTS:
        yield is_shown(clone, "net.v", text, ("sim", "net.v", "none.events"), fault, told)
    for text, fault, told in MODULES:
        yield is_shown(clone, "all.v", text, ("flatten", "all.v", "top", "o.v"), fault, told)


def plans(clone):
    counter = os.path.join(EXAMPLES, "counter8.v")
    codes = os.path.join(DATA, "two_codes.v")
    for net, plan, changes in ((counter, text_of(counter[:-2] + ".plan"), PLANS), (codes, text_of(codes[:-2] + ".plan"), CODES)):
        for old, new, fault, told in changes:
            if plan.count(old) != 1:
                sys.exit(f"{old!r} stands {plan.count(old)} times in the plan")
            text = plan.replace(old, new)
            yield is_shown(clone, "p.plan", text, ("insert", net, "p.plan", "o.v", "o.bsd"), fault, told)
    for text, fault, told in REGISTERS:
        yield is_shown(clone, "r.regs", text, ("status", counter, counter[:-2] + ".plan", "r.regs", "o.v", "o.bsd"), fault, told)
    for text, fault, told in EVENTS:
        yield is_shown(clone, "e.events", text, ("sim", counter, "e.events"), fault, told)


def ports(clone):
    """What a plan, or a BSDL file, lacks is shown in the netlist."""
    counter, plan = (text_of(os.path.join(EXAMPLES, name)) for name in ("counter8.v", "counter8.plan"))
    bsdl = os.path.join(EXAMPLES, "counter8.bsd")
    keep(os.path.join(clone.room, "p.plan"), plan.replace("pin en 3 BC_1\n", ""))
    words = ("insert", "c.v", "p.plan", "o.v", "o.bsd")
    yield is_shown(clone, "c.v", counter.replace("input clk, rn, en", f"input clk, rn, {FIRST}en", 1), words, "PlanPortMissing en", "add `pin en PIN CELL`")
    keep(os.path.join(clone.room, "p.plan"), plan.replace("pin en", "pin out"))
    yield is_shown(clone, "c.v", re.sub(r"\ben\b", "out", counter).replace("input clk, rn, out", f"input clk, rn, {FIRST}out", 1), words, "PlanName out", "another name in the netlist")
    chip, _ = inserted(clone.program, EXAMPLES, "counter8", clone.room)
    text = re.sub(r"\ben\b", "more", text_of(chip)).replace("input more", f"input {FIRST}more", 1)
    yield is_shown(clone, "c.v", text, ("check", "c.v", bsdl, os.path.join(EXAMPLES, "counter8.events")), "BsdlMeaning Ports", "which has no such port")


def devices(clone):
    text = text_of(os.path.join(EXAMPLES, "counter8.bsd"))
    for old, new, fault, told in BSDL:
        if text.count(old) != 1:
            sys.exit(f"{old} stands {text.count(old)} times in the counter's file")
        yield is_shown(clone, "d.bsd", text.replace(old, new), ("vectors", "d.bsd", "o.events"), fault, told, True)
    own = text_of(with_own_register(clone.room)).replace("OWN[3]", f"OWN[{FIRST}0]")
    yield is_shown(clone, "d.bsd", own, ("statusbsdl", "d.bsd", "o.bsd"), "BsdlExtra", "OWN has 0 bits", True)


def libraries(clone):
    first = os.path.join(EXAMPLES, "first.v")
    keep(os.path.join(clone.room, "none.events"), "events 1\nstart a 0\nstart b 0\n")
    for lines, fault, told in CELLS:
        yield is_shown(clone, "w.lib", f"cells 1\n{FIRST}{lines}\n", ("sim", first, "none.events", "w.lib"), fault, told)
    yield is_shown(clone, "w.lib", f"cells 1\n# a cell\n{FIRST}gate X Y A A and\n", ("sim", first, "none.events", "w.lib"), "LibLine 3", "the line is no `gate")


def large(clone):
    """Counts past the limits, a text that is too long, and no place at all."""
    most = "".join(f"gate C{number} Y A : A\n" for number in range(4096))
    first = os.path.join(EXAMPLES, "first.v")
    keep(os.path.join(clone.room, "none.events"), "events 1\nstart a 0\nstart b 0\n")
    yield is_shown(clone, "w.lib", f"cells 1\n{most}{FIRST}gate MORE Y A : A\n", ("sim", first, "none.events", "w.lib"), "TooMany listed", "too many")
    events = "events 1\nstart a 0\nstart b 0\n" + "set a 1\n" * 999998
    yield is_shown(clone, "e.events", f"{events}{FIRST}set a 0\n", ("sim", first, "e.events"), "TooMany lines", "split the events")


def exchanged(clone):
    """Words of netlists exchanged by chance: of each fault a line is shown that has the thing which it names."""
    sys.path.append(os.path.join(TOP, "scripts"))
    from fault_places import Files, shown

    chance, counts, path = random.Random(3), {}, os.path.join(clone.room, "net.v")
    events = keep(os.path.join(clone.room, "none.events"), "events 1\n")
    for folder, name in SMALL:
        text = text_of(os.path.join(folder, name + ".v"))
        spots = list(re.finditer(r"\w+(?:\[\d\])?|[.,;]", text))
        for _ in range(CHANGES):
            one, other = chance.choice(spots), chance.choice(spots)
            changed = keep(path, text[: one.start()] + other[0] + text[one.end() :]) and text_of(path)
            line = subprocess.run([clone.program, "sim", path, events], capture_output=True, text=True).stdout.strip()
            fault, *fields = line.split()
            if fault == "EventIllegal":
                continue
            lines = list(shown(Files("sim", {"net": path, "events": events}), line))
            number = int(lines[0].split(":")[1])
            names = [re.sub(r"\[\d+\]$", "", it) for it in fields[:1] if not it.isdigit()]
            if any(it not in changed.split("\n")[number - 1] for it in names):
                sys.exit(f"{one[0]} became {other[0]}: {line}, and {lines}")
            counts[fault] = counts.get(fault, 0) + 1
    return f"{CHANGES} exchanges of words in each of {len(SMALL)} netlists: of {sum(counts.values())} faults of {len(counts)} kinds a line with the thing that they name"


def quiet(clone):
    """Of what is accepted nothing is said; nor of what has no text, or where it isn't wanted."""
    counter, events = (os.path.join(EXAMPLES, f"counter8.{end}") for end in ("v", "events"))
    keep(os.path.join(clone.room, "wrong.v"), module("buf (y, v);"))
    cases = (("sim", counter, events), ("canon", counter, "o.v"), ("canon", "none.v", "o.v"), ("canon", counter, "none/o.v"), ("canon", counter, counter))
    for words in cases:
        done = clone.same(*words)
        if done.stderr:
            sys.exit(f"{words}: {done.stderr}")
    done = clone.run("sim", "wrong.v", events, LAVKHIND_PLACES="no")
    if done.stderr or done.returncode != 1:
        sys.exit(f"with LAVKHIND_PLACES=no: {done.stderr}")
    keep(os.path.join(clone.room, "many.v"), module("buf (y, a);\n" * 262145))
    for words, fault in ((("strip", counter, counter[:-2] + ".bsd", "o.v", "o.plan"), "NotInserted"), (("sim", "many.v", events), "TooMany")):
        done = clone.same(*words)
        if not done.stdout.startswith(fault) or not re.fullmatch(f"{fault}: .*\n", done.stderr):
            sys.exit(f"{words}: {done.stdout}{done.stderr}")
    return f"{len(cases) + 1} commands of which nothing is said, and 2 with faults of no place, of which it is said what to mend"


def ended(clone):
    """A signal to the script ends the program, and a closed standard input is no matter."""
    stub = clone_of(keep(os.path.join(clone.room, "stub"), f"#!/bin/sh\necho $$ >'{clone.room}/number'\nexec sleep 60\n"), os.path.join(clone.room, "waits"))
    os.chmod(os.path.join(clone.room, "stub"), 0o755)
    for caught in (signal.SIGTERM, signal.SIGINT, signal.SIGHUP):
        keep(os.path.join(clone.room, "number"), "")
        running = subprocess.Popen([os.path.join(stub, "lavkhind"), "canon", "a", "b"], stdin=subprocess.DEVNULL, stderr=subprocess.DEVNULL)
        while not text_of(os.path.join(clone.room, "number")).endswith("\n"):
            time.sleep(0.05)
        running.send_signal(caught)
        if running.wait(30) == 0 or os.path.exists(f"/proc/{text_of(os.path.join(clone.room, 'number')).strip()}"):
            sys.exit(f"behind {caught} the script ended with {running.returncode}, or the program is there still")
    counter, out = os.path.join(EXAMPLES, "counter8.v"), os.path.join(clone.room, "closed.v")
    run(["sh", "-c", '"$0" canon "$@" <&-', os.path.join(clone.folder, "lavkhind"), counter, out])
    return "three signals to the script end the program"


def unproved(clone):
    """A build without proofs: its fault is shown too, without asking it again."""
    rt = f'#!/bin/sh\nwhile [ "$1" != -- ]; do shift; done\nshift\necho once >>"{clone.room}/asked"\n"{clone.program}" "$@"\necho "run=ended status=$? steps=0 proved=no" >&2\n'
    os.chmod(keep(os.path.join(clone.room, "rt"), rt), 0o755)
    is_proved(clone.folder, False)
    keep(os.path.join(clone.room, "net.v"), module("buf (y, 2'b0);"))
    done = clone.run("canon", "net.v", "o.v", PATH=f"{clone.room}:{os.environ['PATH']}")
    is_proved(clone.folder, True)
    asked = text_of(os.path.join(clone.room, "asked"))
    if done.returncode != 1 or "net.v:2:12: a constant has one bit" not in done.stderr or asked != "once\n" or not done.stdout.startswith("BadWord "):
        sys.exit(f"a build without proofs: {done.returncode} {done.stdout}{done.stderr}{asked}")
    return "a build without proofs is asked once, and the place is shown"


def tried(program, room):
    clone = Clone(program, room)
    seen = {}
    for part in (netlists, plans, ports, devices, libraries, large):
        count = 0
        for fault in part(clone):
            seen[fault] = seen.get(fault, 0) + 1
            count += 1
        yield f"{part.__name__}: {count} faults, of each the place and what to mend; standard output and status are the program's"
    table = re.findall(r"(?m)^\| ((?:`\w+[^`|]*`(?:, )?)+)[^|]*\| [1-7] \|", text_of(os.path.join(TOP, "docs/MANUAL.md")))
    names = {name for cell in table for name in re.findall(r"`(\w+)", cell)}
    lacking = sorted(names - set(seen) - set(NO_PLACE))
    if lacking or len(names) < 50:
        sys.exit(f"of the manual's faults these have no row here: {', '.join(lacking)}, of {len(names)}")
    yield f"all {len(names)} faults of the manual's tables but {', '.join(NO_PLACE)} have a row"
    yield exchanged(clone)
    yield quiet(clone)
    yield ended(clone)
    yield unproved(clone)
    counter = os.path.join(EXAMPLES, "counter8.v")
    wrong = {"no command": [], "another command": ["demo", "1", "a", "b"], "words that lack": ["sim", counter], "a file that isn't there": ["canon", "none.v", "o.v"]}
    yield refusals("where", wrong)
