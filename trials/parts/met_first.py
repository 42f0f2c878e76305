"""Texts that users of other tools have first are refused as the tables of docs/MANUAL.md say, row by row."""
import gzip, os, re, sys

from chips import TOP, keep, run, text_of

NEEDS = ()
EXAMPLES = os.path.join(TOP, "examples")
# Stands before the byte that a fault is to tell, and isn't part of the text.
HERE = "\xa7"
BOM, PACKED = "\xef\xbb\xbf", gzip.compress(b"module m ();").decode("latin-1")


def module(body, ports="input a, input b, input c, output y"):
    return f"module m ({ports});\n  {body}\nendmodule\n"


# Netlists, and the fault; behind BadWord and BadSyntax stands the place.
NETLISTS = (
    (module(f"{HERE}parameter p = 1; buf (y, a);"), "BadSyntax"),
    (module(f"{HERE}localparam p = 1; buf (y, a);"), "BadSyntax"),
    (module(f"{HERE}defparam u.p = 1; buf (y, a);"), "BadSyntax"),
    (module(f"CELL {HERE}#(.P(1)) u (.A(a));"), "BadWord"),
    (module(f"and {HERE}#1 g (y, a, b);"), "BadWord"),
    (module(f"and ({HERE}strong0, weak1) g (y, a, b);"), "BadSyntax"),
    (module(f"buf (y, a); {HERE}specify endspecify"), "BadSyntax"),
    (module(f"buf (y, a); specify (a ={HERE}> y) = 1; endspecify"), "BadWord"),
    (f"{HERE}primitive p (y, a); output y; input a; table 0 : 1; 1 : 0; endtable endprimitive\n" + module("p (y, a);"), "BadSyntax"),
    (module("p u (.y(y), .a(a));") + f"{HERE}primitive p (y, a); output y; input a; table 0 : 1; 1 : 0; endtable endprimitive\n", "BadSyntax"),
    (module(f"p u ({HERE}y, a);"), "BadSyntax"),
    (module("p u (.y(y), .a(a));"), "CellUnknown p"),
    (module(f"assign y = {HERE}{{a, b}};"), "BadWord"),
    (module(f"buf (y, v[1{HERE}:0]);", "input [1:0] v, output y"), "BadSyntax"),
    (module("assign y = v;", "input [1:0] v, output [1:0] y"), "WrongWidth y"),
    *((module(f"assign y = {one}{HERE}{operator}{other};"), "BadWord") for one, operator, other in (("", "~", "a"), ("a ", "&", " b"), ("a ", "?", " b : c"))),
    (module(f"{HERE}reg q; buf (y, a);"), "BadSyntax"),
    (module(f"{HERE}initial y = 1'b0;"), "BadSyntax"),
    (module(f"{HERE}function f; endfunction"), "BadSyntax"),
    (module(f"{HERE}generate endgenerate"), "BadSyntax"),
    (module(f"reg q; always {HERE}@(a) q <= b;"), "BadWord"),
    (module(f"buf (y, 2{HERE}'b01);"), "BadWord"),
    (module(f"buf (y, 1'b{HERE}x);"), "BadWord"),
    (module(f"buf (y, {HERE}0);"), "BadSyntax"),
    (module("buf (y, a);") + f"{HERE}module n (); endmodule\n", "BadSyntax"),
    (module(f"MUX2 u ({HERE}a, b, c, y);"), "BadSyntax"),
    (module("buf (y, n);"), "NameUnknown n"),
    *((module(f"{HERE}{net} n; buf (y, a);"), "BadSyntax") for net in ("tri", "supply0", "wand")),
    (module("NAND2X1 u (.A(a), .B(b), .Y(y));"), "CellUnknown NAND2X1"),
    *((f"`{HERE}{directive}\n" + module("buf (y, a);"), None) for directive in ("define A 1", 'include "a.v"', "ifdef A")),
    *((module(f"{HERE}{gate} (y, a, b);"), "BadSyntax") for gate in ("notif0", "notif1", "nmos")),
    (module(f"{HERE}pullup (y);"), "BadSyntax"),
    (module(f"and g {HERE}[1:0] (y, a, b);"), "BadSyntax"),
    (module(f"buf g (y, n{HERE}, a);\n  wire n;"), "BadSyntax"),
    (module("wire h, n; not (n, h); DFF half (.D(n), .CK(a), .Q(h)); DFF q (.D(b), .CK(h), .Q(y));"), "DerivedClock q h"),
    (module("wire r; DFFR sync (.D(1'b1), .CK(a), .RN(b), .Q(r)); DFFR q (.D(c), .CK(a), .RN(r), .Q(y));"), "DerivedClock q r"),
    (module("LATCH l (.D(a), .G(b), .Q(y));"), "CellUnknown LATCH"),
    (module("wire n; nand (y, a, n); nand (n, b, y);"), "Loop"),
    (module("SDFF f (.D(a), .SI(b), .SE(c), .CK(c), .Q(y));"), "CellUnknown SDFF"),
    (module("wire n; bufif1 (n, a, b); buf (y, n);"), "TristateInside n"),
    (module("wire n; bufif1 (n, a, b); bufif0 (n, c, b); buf (y, n);"), "TwoDrivers n"),
    (module("bufif1 (y, a, b); buf (z, y);", "input a, input b, output y, output z"), "TristateRead y"),
    (module("DFF f (.D(a), .CK(b), .QN(y));"), "PortUnknown f QN"),
    (module("buf (p, a);", "input a, inout p"), "InoutNotTristate p"),
    (module("", "input a, inout p"), "InoutNotTristate p"),
    (module("buf (a, b); buf (y, b);"), "InputDriven a"),
    (module(""), "NotDriven y"),
    (module("buf (y, a);", "input a, input a, output y"), "NameTwice a"),
)
# Changes of the counter's plan, and the fault; of PlanLine the line is the one that has the new text, but where a text
# is said.
PLANS = (
    ("length 4\n", "length 4 # four\n", "PlanLine"),
    ("control BC_1\n", f"usercode {'01' * 16}\ncontrol BC_1\n", "PlanLine"),
    ("clock 10\n", "clock 20.0\n", "PlanLine"),
    ("clock 10\n", "clock 20MHz\n", "PlanLine"),
    ("idcode 0001 0000000000000001 00000000001 1\n", "idcode 00010000000000000001000000000011\n", "PlanLine"),
    ("pin q[7] 5 BC_1\n", "pin q(7) 5 BC_1\n", "PlanPort q(7)"),
    ("pin clk 1 BC_4\n", "pin clk 1 BC_1\n", "PlanCell clk"),
    ("pin en 3 BC_1\n", "pin en 3 BC_2\n", "PlanCell en"),
    ("pin q[7] 5 BC_1\n", "pin q[7] 5 BC_4\n", "PlanCell q[7]"),
    ("opcode CLAMP 0100\n", "opcode CLAMP 0100\nopcode CLAMP 0101\n", "PlanTwice CLAMP"),
    ("pin en 3 BC_1\n", "pin en 3 BC_1\npin en 33 BC_1\n", "PlanTwice en"),
    ("pin en 3 BC_1\n", "pin en 2 BC_1\n", "PlanTwice 2"),
    ("pin en 3 BC_1\npin oe 4 BC_1\n", "pin en P3 BC_1\npin oe p3 BC_1\n", "PlanTwice p3"),
    ("pin en 3 BC_1\n", "", "PlanPortMissing en"),
    ("pin en 3 BC_1\n", "pin rn 3 BC_4\n", "PlanPortMissing en"),
    ("opcode PRELOAD 0001\n", "", "PlanOpcode PRELOAD"),
    ("opcode CLAMP 0100\n", "opcode CLAMP 00100\n", "PlanOpcode CLAMP"),
    ("opcode BYPASS 1111\n", "opcode BYPASS 1110\n", "PlanOpcode BYPASS"),
    ("opcode CLAMP 0100\n", "opcode CLAMP 0011\n", "PlanOpcode CLAMP"),
    ("capture 0001\n", "capture 0010\n", "PlanOpcode capture"),
    ("capture 0001\n", "capture 00001\n", "PlanOpcode capture"),
    ("opcode IDCODE 0010\n", "", "PlanIdcode"),
    ("idcode 0001 0000000000000001 00000000001 1\n", "", "PlanIdcode"),
    ("idcode 0001 0000000000000001 00000000001 1\n", "idcode 001 00000000000000001 00000000001 1\n", "PlanIdcode"),
    ("idcode 0001 0000000000000001 00000000001 1\n", "idcode 0001 0000000000000001 00000000001 0\n", "PlanIdcode"),
    ("idcode 0001 0000000000000001 00000000001 1\n", "idcode 0001 0000000000000001 00001111111 1\n", "PlanIdcode"),
    ("opcode CLAMP 0100\n", "opcode INTEST 0100\n", "PlanInstruction INTEST"),
    ("opcode CLAMP 0100\n", "opcode USERCODE 0100\n", "PlanInstruction USERCODE"),
    *(("entity counter8\n", f"entity {name}\n", f"PlanName {name}") for name in ("8bit", "a__b", "a_", "a.b", "in", "bus", "entity", "signal")),
    ("package DIP24\n", "package counter8\n", "PlanName counter8"),
    ("tck TCK 13\n", "tck CLK 13\n", "PlanName CLK"),
    ("linkage VDD 18\n", "linkage vdd 18\nlinkage VDD 20\n", "PlanName VDD"),
    ("tck TCK 13\n", "tck d 13\n", "PlanName d"),
    ("prefix bs_\n", "prefix c\n", "PrefixTaken"),
    ("length 4\n", "", "PlanLine"),
)


def refused(program, words, room):
    """What the program prints, with the status 1."""
    return run([program, *words], (1,), cwd=room).strip()


def netlists(program, room):
    events = keep(os.path.join(room, "none.events"), "events 1\n")
    for text, fault in NETLISTS:
        place, text = text.find(HERE), text.replace(HERE, "")
        said = refused(program, ("sim", keep(os.path.join(room, "net.v"), text), events), room).split()
        if place < 0:
            is_right = " ".join(said).startswith(fault)
        else:
            # (without a fault: BadWord within the word that begins there)
            end = re.match(r"\S*", text[place:]).end() + place
            is_right = said[0] == (fault or "BadWord") and (int(said[1]) == place if fault else place <= int(said[1]) < end)
        if not is_right:
            sys.exit(f"{text}\n{said} for {fault} {place}")
    return f"{len(NETLISTS)} netlists as other tools have them"


def plans(program, room):
    net, text = os.path.join(EXAMPLES, "counter8.v"), text_of(os.path.join(EXAMPLES, "counter8.plan"))
    for old, new, fault in PLANS:
        if text.count(old) != 1:
            sys.exit(f"{old!r} stands {text.count(old)} times in the counter's plan")
        plan = keep(os.path.join(room, "wrong.plan"), text.replace(old, new))
        said = refused(program, ("insert", net, plan, "out.v", "out.bsd"), room)
        wanted = f"PlanLine {text.count(chr(10), 0, text.index(old)) + 1}" if fault == "PlanLine" else fault
        if not (said + " ").startswith(wanted + " "):
            sys.exit(f"{new!r}: {said} for {wanted}")
    return f"{len(PLANS)} changes of the counter's plan"


def offset(text, mark):
    return text.index(mark)


def exchanged(program, room):
    """Files in one another's place."""
    net, plan, bsdl, events = (os.path.join(EXAMPLES, name) for name in ("counter8.v", "counter8.plan", "counter8.bsd", "counter8.events"))
    cells = [os.path.join(EXAMPLES, f"accumulator.{end}") for end in ("v", "events", "lib", "plan")]
    first, short = os.path.join(EXAMPLES, "first.canon.v"), keep(os.path.join(room, "short.plan"), re.sub(r"(?m)^(idcode|opcode IDCODE).*\n", "", text_of(plan)))
    idcode = offset(text_of(plan), "0000000000000001")
    quote, tick = offset(text_of(bsdl), '"'), offset(text_of(net), "`")
    cases = (
        (("sim", cells[0], cells[2], cells[1]), "LibLine 1"),
        (("sim", cells[0], cells[1]), "CellUnknown FASX1"),
        (("insert", cells[0], cells[3], "o.v", "o.bsd"), "CellUnknown FASX1"),
        (("insert", plan, net, "o.v", "o.bsd"), f"BadWord {idcode + 9}"),
        (("insert", short, net, "o.v", "o.bsd"), "BadSyntax 0 0"),
        (("showbsdl", net, "o.bsd"), f"BsdlWord {tick}"),
        (("showbsdl", first, "o.bsd"), "BsdlSyntax 0 0"),
        (("vectors", first, "o.events"), "BsdlSyntax 0 0"),
        (("canon", bsdl, "o.v"), f"BadWord {quote}"),
        (("check", bsdl, net, events), f"BadWord {quote}"),
        (("check", net, net, events), f"BsdlWord {tick}"),
        (("check", first, bsdl, events), "BsdlMeaning Ports 0"),
    )
    for words, fault in cases:
        said = refused(program, words, room)
        if said != fault:
            sys.exit(f"{words}: {said} for {fault}")
    return f"{len(cases)} commands with files in one another's place, or without LIB"


def packed(program, room):
    """A byte order mark before each kind of file, and each packed by gzip."""
    net, plan, bsdl, events, library = (text_of(os.path.join(EXAMPLES, name)) for name in ("counter8.v", "counter8.plan", "counter8.bsd", "counter8.events", "accumulator.lib"))
    files = {name: keep(os.path.join(room, name), text) for name, text in (("n.v", net), ("n.plan", plan), ("n.bsd", bsdl), ("n.events", events), ("n.lib", library))}
    cases = ((("sim", "n.v", "n.events"), "n.v", "BadWord 0"), (("insert", "n.v", "n.plan", "o.v", "o.bsd"), "n.plan", "PlanLine 1"))
    cases += ((("showbsdl", "n.bsd", "o.bsd"), "n.bsd", "BsdlWord 0"), (("sim", "n.v", "n.events"), "n.events", "EventLine 1"))
    cases += ((("sim", "n.v", "n.events", "n.lib"), "n.lib", "LibLine 1"),)
    for words, name, fault in cases:
        whole = text_of(files[name])
        for text in (BOM + whole, PACKED):
            keep(files[name], text)
            said = refused(program, words, room)
            if said != fault:
                sys.exit(f"{words} with {text[:3]!r} first in {name}: {said}")
        keep(files[name], whole)
    return f"{len(cases)} kinds of files with a byte order mark, and packed by gzip"


def statuses(program, room):
    """What isn't there, and what can't be written."""
    net, plan = (os.path.join(EXAMPLES, name) for name in ("counter8.v", "counter8.plan"))
    cases = (
        (("canon", net, "none/o.v"), 5, "WriteFault none/o.v"),
        (("insert", net, plan, "none/o.v", "o.bsd"), 5, "WriteFault none/o.v"),
        (("insert", net, plan, "o.v", "none/o.bsd"), 5, "WriteFault none/o.bsd"),
        (("canon", "none.v", "o.v"), 4, "ReadFault none.v"),
        (("canon", net, net), 2, f"SameName {net}"),
        (("canon", "-v", "o.v"), 2, "Usage"),
        (("canon", net), 2, "Usage"),
    )
    for words, status, fault in cases:
        said = run([program, *words], (status,), cwd=room).strip()
        if said != fault:
            sys.exit(f"{words}: {said} for {fault}")
    return f"{len(cases)} commands on what isn't there or can't be written"


def ports(program, room):
    """Ports that BSDL can't have, a pin line behind linkage, a user code in its wrong place."""
    counter, plan = (text_of(os.path.join(EXAMPLES, name)) for name in ("counter8.v", "counter8.plan"))
    code = "usercode " + "01" * 16 + "\n"
    second = plan.replace("plan 1", "plan 2").replace("idcode", code + "idcode", 1)
    behind = re.sub(r"(pin q\[0\] .*\n)((?:linkage .*\n)+)", r"\2\1", plan)
    cases = [(plan.replace("pin en", f"pin {name}"), re.sub(r"\ben\b", name, counter), f"PlanName {name}") for name in ("in", "out", "bus")]
    cases += [(behind, counter, f"PlanLine {behind.split(chr(10)).index('pin q[0] 12 BC_1') + 1}")]
    cases += [(second, counter, f"PlanLine {second.split(chr(10)).index(code.strip()) + 2}")]
    for text, netlist, fault in cases:
        words = ("insert", keep(os.path.join(room, "p.v"), netlist), keep(os.path.join(room, "p.plan"), text), "o.v", "o.bsd")
        said = refused(program, words, room)
        if said != fault:
            sys.exit(f"{said} for {fault}")
    return f"{len(cases)} plans with names that BSDL can't have, or with lines in another order"


def tried(program, room):
    for part in (netlists, plans, exchanged, packed, statuses, ports):
        yield f"{part(program, room)}: each is refused as the manual says"
