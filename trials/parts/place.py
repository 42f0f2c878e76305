"""scripts/place shows the byte that the program tells, and in a BSDL file the entry and the rule that are broken."""
import os, random, re, subprocess, sys

from chips import TOP, inserted, keep, run, text_of
from script_trials import DATA, demo, most_rows, refusals, script, with_own_register

NEEDS = ()
CHANGES = 300
# Of the counter's file: what stands there, what takes its place, the fault, and what the script says of that line.
ROW, STRING = "BsdlMeaning Row", "BsdlSyntax"
SPOILED = (
    ("3 (BC_1, oe, input, X)", "3 (BC_2, oe, input, X)", ROW, "row 3 is input, which takes BC_1 or BC_4, and has BC_2"),
    ("3 (BC_1, oe, input, X)", "3 (BC_1, ox, input, X)", ROW, "row 3 names ox, which is no port"),
    ("3 (BC_1, oe, input, X)", "3 (BC_1, en, input, X)", ROW, "row 3 names en, which row 2 names too"),
    ("3 (BC_1, oe, input, X)", "3 (BC_1, oe(0), input, X)", ROW, "row 3 names oe(0): a scalar has no index"),
    ("3 (BC_1, oe, input, X)", "3 (BC_1, TDI, input, X)", ROW, "row 3 names TDI, which is of the test access port"),
    ("3 (BC_1, oe, input, X)", "3 (BC_1, GND, input, X)", ROW, "row 3 names GND, which is linkage"),
    ("3 (BC_1, oe, input, X)", "3 (BC_1, oe, output3, X, 5, 0, Z)", ROW, "row 3 is output3, which stands at `out` alone, and oe is `in`"),
    ("3 (BC_1, oe, input, X)", "3 (BC_1, oe, input, X, 5, 0, Z)", ROW, "row 3 is input, which takes no control row"),
    ("3 (BC_1, oe, input, X)", "3 (BC_1, *, input, X)", ROW, "row 3 is input, which has a port, and names none"),
    ("5 (BC_1, *, control, 0)", "5 (BC_1, oe, control, 0)", ROW, "row 5 is a control row, which has `*` and no port, and names oe"),
    ("6 (BC_1, q(6), output3, X, 5, 0, Z)", "6 (BC_1, q(6), output3, X, 5, 1, Z)", ROW, "row 6 turns off by 1 at control row 5, and row 4 by 0"),
    ("6 (BC_1, q(6), output3, X, 5, 0, Z)", "6 (BC_1, q(6), output3, X, 4, 0, Z)", ROW, "row 6 names row 4 as its control row, which is none"),
    ("6 (BC_1, q(6), output3, X, 5, 0, Z)", "6 (BC_1, q(6), output3, X)", ROW, "row 6 is output3, and lacks the number of a control row"),
    ("6 (BC_1, q(6), output3, X, 5, 0, Z)", "6 (BC_1, q(6), output2, X)", ROW, "row 6 is an output2, which nothing turns off, and HIGHZ has"),
    ("6 (BC_1, q(6), output3, X, 5, 0, Z)", "6 (BC_1, q(8), output3, X, 5, 0, Z)", ROW, "row 6 names q(8): no bit of the vector"),
    ("3 (BC_1, oe, input, X)", "3 (BC_3, oe, input, X)", STRING, "`BC_3` stands where one of BC_1, BC_2, BC_4, BC_7"),
    ("3 (BC_1, oe, input, X)", "3 (BC_1, oe, observe_only, X)", STRING, "`observe_only` stands where one of input, clock"),
    ("3 (BC_1, oe, input, X)", "3 (BC_1, in, input, X)", STRING, "`in` is a reserved word of VHDL"),
    ("6 (BC_1, q(6), output3, X, 5, 0, Z)", "6 (BC_1, q(6), output3, X, 5, 0, PULL0)", STRING, "`PULL0` stands where `Z` belongs"),
    ('"12 (BC_1, q(0), output3, X, 5, 0, Z)"', '"12 (BC_1, q(0), output3, X, 5, 0, Z),"', STRING, "the end of the section's strings stands where a cell's number"),
    ("HIGHZ (0011)", "HIGHZ (0X11)", STRING, "`0X11` stands where 1 to 32 of 0 and 1 belongs"),
    ("q:(5,6,7,8,9,10,11,12)", "q:(5,6,7,8,9,10,11.12)", STRING, "`.` stands where `)` belongs"),
    ("BYPASS (BYPASS", "OWN (BYPASS", STRING, "`OWN` stands where one of BOUNDARY, BYPASS, DEVICE_ID"),
    ("DEVICE_ID (IDCODE)", "DEVICE_ID[32] (IDCODE)", STRING, "DEVICE_ID is a register of the design's own, which `statusbsdl` alone takes"),
    ("q:(5,6,7,8,9,10,11,12)", "q:(5,6,7,8,9,10,11)", "BsdlMeaning PinMap", "q has 8 bits and 7 pins"),
    ("oe:4,", "oe:3,", "BsdlMeaning PinMap", "the pin 3 stands twice"),
    ("en:3,", "ex:3,", "BsdlMeaning PinMap", "ex is no port of the entity"),
    ("VDD:18", "VDD:(18,20)", "BsdlMeaning PinMap", "VDD is one bit, which has one pin without parentheses"),
    ("HIGHZ (0011)", "INTEST (0011)", "BsdlMeaning Opcode", "the instruction INTEST isn't taken"),
    ("HIGHZ (0011)", "HIGHZ (0010)", "BsdlMeaning Opcode", "HIGHZ has the opcode of IDCODE"),
    ("HIGHZ (0011)", "HIGHZ (00110)", "BsdlMeaning Opcode", "the opcode of HIGHZ has 5 bits, and the instruction register 4"),
    ("BYPASS (1111)", "BYPASS (1110)", "BsdlMeaning Opcode", "the opcode of BYPASS isn't all ones"),
    ("CLAMP (0100)", "HIGHZ (0100)", "BsdlMeaning Opcode", "the instruction HIGHZ stands twice"),
    ('"00000000001" & "1"', '"00000000001" & "0"', "BsdlMeaning Idcode", "the last bit of the identification code is 0"),
    ("BYPASS (BYPASS, HIGHZ, CLAMP)", "BYPASS (BYPASS, HIGHZ, EXTEST)", "BsdlMeaning Register", "EXTEST stands at BYPASS; its register is BOUNDARY"),
    ("7 (BC_1, q(5)", "6 (BC_1, q(5)", "BsdlMeaning Boundary", "row 6 stands twice"),
    ("7 (BC_1, q(5)", "13 (BC_1, q(5)", "BsdlMeaning Boundary", "row 13 isn't below the boundary length, 13"),
    ('INSTRUCTION_CAPTURE of counter8 : entity is "0001"', 'INSTRUCTION_CAPTURE of counter8 : entity is "0010"', "BsdlMeaning Capture", "what is captured doesn't end in 01"),
    ("TAP_SCAN_MODE of TMS", "TAP_SCAN_MODE of q", "BsdlMeaning Tap", "q is no port of one bit with the mode `in`"),
    ("constant DIP24", "constant DIP25", "BsdlMeaning Name", "the constant is DIP25, and the generic's string DIP24"),
)
# Of the file of two_codes.
APART = "the instruction USERCODE and the section USERCODE_REGISTER don't stand together"
SPOILED_CODES = (
    ('entity is\n    "USERCODE (01010)," &', "entity is", "BsdlMeaning Usercode", APART),
    ("IDCODE (01011)", "IDCODE (01010)", "BsdlMeaning Opcode", "IDCODE has the opcode of USERCODE"),
    ('"10100110100101101001010101010110"', '"1010011010010110100101010101011"', STRING, "stands where 32 bits"),
    ('"10100110100101101001010101010110"', '"1010011010010110100101010101011X"', STRING, "stands where 32 bits"),
    ("BYPASS (BYPASS", "BYPASS (USERCODE, BYPASS", "BsdlMeaning Register", "USERCODE stands at BYPASS; its register is DEVICE_ID"),
)

# Of the counter's file with a register of the design's own.
EXTRA = "BsdlExtra"
SPOILED_OWN = (
    ("OWN[3] (RDOWN)", "OWN[0] (RDOWN)", EXTRA, "OWN has 0 bits; it may have 1 to 256"),
    ("OWN[3] (RDOWN)", "OWN[257] (RDOWN)", EXTRA, "OWN has 257 bits; it may have 1 to 256"),
    ("OWN[3] (RDOWN)", "bypass[3] (RDOWN)", EXTRA, "a register of the design's own has another name than BYPASS"),
    ("OWN[3] (RDOWN)", "OWN[3] (RDOWN), own[1] (RDOWN)", EXTRA, "the register own stands twice"),
    ("OWN[3] (RDOWN)", "OWN[3] (RDOWN), MORE[1] (rdown)", EXTRA, "the instruction rdown stands twice"),
    ("OWN[3] (RDOWN)", "OWN[3] (RDOWN), MORE[1] (RDMORE)", EXTRA, "RDMORE has no opcode"),
    ("RDOWN (0101)", "RDOWN (0100)", EXTRA, "RDOWN has the opcode of CLAMP"),
    ("RDOWN (0101)", "RDOWN (00101)", EXTRA, "the opcode of RDOWN has 5 bits, and the instruction register 4"),
    ("RDOWN (0101)", "RDELSE (0101)", "BsdlMeaning Opcode", "the instruction RDELSE isn't taken"),
    ("OWN[3] (RDOWN)", "OWN(3) (RDOWN)", STRING, "`OWN` stands where one of BOUNDARY, BYPASS, DEVICE_ID"),
    ("OWN[3] (RDOWN)", "OWN[] (RDOWN)", STRING, "`]` stands where the count of a register's bits belongs"),
)


def shown(path, place):
    """The lines and columns that the script shows, with what it says, and the byte over each mark."""
    lines = script("place", path, str(place)).split("\n")
    for head, line, mark in zip(lines[::3], lines[1::3], lines[2::3]):
        found = re.fullmatch(re.escape(path) + r":(\d+):(\d+)(?:: (.*))?", head)
        yield int(found[1]), int(found[2]), found[3] or "", line[len(mark) - 1 : len(mark)]


def spoiled_files(program, room, name, text, changes, command="showbsdl"):
    path, out = os.path.join(room, "spoiled.bsd"), os.path.join(room, "out.bsd")
    for old, new, fault, told in changes:
        if text.count(old) != 1:
            sys.exit(f"{old} stands {text.count(old)} times in the file of {name}")
        keep(path, text.replace(old, new))
        said = run([program, command, path, out], (1,)).split()
        if " ".join(said[: len(fault.split())]) != fault:
            sys.exit(f"{new}: {said}")
        places = list(shown(path, said[len(fault.split())]))
        line = text.count("\n", 0, text.index(old)) + 1
        if len(places) != 2 or told not in places[1][2] or places[1][0] != line:
            sys.exit(f"{new}: {places}")
    return f"{len(changes)} changes of the BSDL file of {name}: the entry and the rule are told each time"


# Words of a BSDL file that may take one another's place.
ALIKE = (
    "BC_1 BC_2 BC_4 BC_7",
    "input output2 output3 bidir clock control",
    "clk rn en oe q TCK TMS TDI TDO TRST VDD GND counter8 DIP24",
    "0 1",
    " ".join(map(str, range(34))),
    "1111 0000 0001 0010 0011 0100 111 10001",
    "EXTEST SAMPLE PRELOAD BYPASS IDCODE HIGHZ CLAMP INTEST BOUNDARY DEVICE_ID",
    "in out inout linkage",
)


def changed_words(program, room, text):
    """Words changed by chance for others alike: what the program refuses by a rule, or within a string, is told, and
    nothing is of what it takes."""
    path, chance, counts = os.path.join(room, "changed.bsd"), random.Random(2), [0, 0]
    spots = [(found, words.split()) for found in re.finditer(r"\w+", text) for words in ALIKE if found[0] in words.split()]
    for _ in range(CHANGES):
        found, words = chance.choice(spots)
        keep(path, text[: found.start()] + chance.choice(words) + text[found.end() :])
        done = subprocess.run([program, "showbsdl", path, os.path.join(room, "out.bsd")], capture_output=True, text=True)
        said = done.stdout.split()
        is_rule = said[:1] == ["BsdlMeaning"] or (said[:1] == ["BsdlSyntax"] and text_of(path)[int(said[1])] == '"')
        starts = [match.start() for match in re.finditer(r"(?m)^  (?:attribute|constant|port)\b", text_of(path))]
        places = [int(said[2 if said[0] == "BsdlMeaning" else 1])] if said else [start + 2 for start in starts]
        told = any(len(list(shown(path, place))) == 2 for place in (places if is_rule else places[:1] if said else chance.sample(places, 3)))
        if told != is_rule:
            sys.exit(f"{found[0]} in line {text.count(chr(10), 0, found.start()) + 1} changed: {said}, and {'a rule' if told else 'no rule'} is told")
        counts[is_rule] += 1
    return f"{CHANGES} words of it changed for others alike: of {counts[1]} the rule is told, and of {counts[0]} none"


def changed_bytes(program, room, command, path):
    """Bytes changed by chance: the place is the byte that the program tells."""
    text, spoiled, out = text_of(path), os.path.join(room, "spoiled"), os.path.join(room, "out")
    chance, count = random.Random(1), 0
    for _ in range(CHANGES):
        at = chance.randrange(len(text))
        keep(spoiled, text[:at] + chance.choice("#;(),x\t\n\r\"'`{") + text[at + 1 :] if chance.randrange(8) else text[:at])
        words = subprocess.run([program, command, spoiled, out], capture_output=True, text=True).stdout.split()
        if not words or words[0] not in ("BadWord", "BadSyntax", "BsdlWord", "BsdlSyntax"):
            continue
        place, now = int(words[1]), text_of(spoiled)
        line, column, told, byte = next(shown(spoiled, place))
        before = now[:place].split("\n")
        there = now[place : place + 1]
        if (line, column) != (len(before), len(before[-1]) + 1) or (there > " " and byte != there) or (told == "the text ends here") != (not there):
            sys.exit(f"{words}: line {line}, column {column}, {byte!r}, {told}")
        count += 1
    return f"{os.path.basename(path)}, {CHANGES} changes by chance: of {count} faults with a place each is shown"


def items(program, room, netlist):
    """The items of a netlist are those of its canonical text, a line each."""
    canonical = os.path.join(room, "canonical.v")
    run([program, "canon", netlist, canonical])
    lines = [line.strip() for line in text_of(canonical).split(");\n", 1)[1].split("\n")]
    lines = [line for line in lines if line and not line.startswith("wire ") and line != "endmodule"]
    wanted = sorted({0, len(lines) // 2, len(lines) - 1})
    told = script("place", netlist, "--item", *map(str, wanted)).split("\n")[::3]
    for number, head in zip(wanted, told):
        item = head.split(f"item {number}: ", 1)[1]
        if re.sub(r"\s", "", item) != re.sub(r"[\s;]", "", lines[number]):
            sys.exit(f"item {number} is {lines[number]}, and shown is {item}")
    return f"{os.path.basename(netlist)}: of {len(lines)} items those are shown that `canon` writes there"


LOOP = "module m (input a,\n output y);\nwire p, q; // items: 0\nand g (p, a, q), (y, p);\n/* 2 */ or h (q,\n  p, a);\nendmodule\n"


def loop(program, room):
    netlist = keep(os.path.join(room, "loop.v"), LOOP)
    said = run([program, "insert", netlist, os.path.join(TOP, "examples/counter8.plan"), os.path.join(room, "o.v"), os.path.join(room, "o.bsd")], (1,))
    told = [line for line in script("place", netlist, "--item", *said.split()[1:]).split("\n") if line.startswith(netlist)]
    if sorted(told) != [f"{netlist}:4:5: item 0: and g (p, a, q)", f"{netlist}:5:12: item 2: or h (q, p, a)"]:
        sys.exit(f"{said}: {told}")
    return said.strip()


def most(room, program):
    """One row of 4,091."""
    path = most_rows(room)
    keep(path, text_of(path).replace("4000 (BC_", "4000 (AC_"))
    said = run([program, "showbsdl", path, os.path.join(room, "out.bsd")], (1,)).split()
    places = list(shown(path, said[1]))
    if len(places) != 2 or "`AC_" not in places[1][2]:
        sys.exit(f"{said}: {places}")
    return f"one of 4,091 rows: line {places[1][0]}, {places[1][2]}"


# Lines of a library, the fault, and what is said of the cell that it names.
CELLS = (
    ("gate and Y A : A", "LibName and", "and is no simple name of Verilog, or a key word"),
    ("gate MUX2 Y A : A", "LibName MUX2", "MUX2 is one of the seven known cells"),
    ("gate X Y A : A\n  gate X Y B : B", "LibName X", "the name stands before, at line 2"),
    ("gate X Y mux : mux", "LibBody X", "its port mux is no simple name"),
    ("gate X Y A A : A", "LibBody X", "its port A stands twice"),
    ("gate X Y A : B", "LibBody X", "B is no input of it and no step"),
    ("gate X Y A : A and", "LibBody X", "`and` takes 2 values, and there stand 1"),
    ("gate X Y A B : A B", "LibBody X", "2 values are left at the end"),
    ("gate X Y A : " + "A " * 17 + "and " * 16, "LibBody X", "more than 16 values stand at once"),
    ("flop X DFF Q D D", "LibBody X", "its port D stands twice"),
)


def listed(program, room):
    """Libraries that the program refuses, and the rule that is told of each."""
    net, events, library = (os.path.join(TOP, "examples/first.v"), os.path.join(room, "none.events"), os.path.join(room, "wrong.lib"))
    keep(events, "events 1\nstart a 0\nstart b 0\n")
    for lines, fault, rule in CELLS:
        keep(library, f"cells 1\n{lines}\n")
        said = run([program, "sim", net, events, library], (1,)).strip()
        told = script("place", library, "--cell", fault.split()[1])
        if said != fault or rule not in told:
            sys.exit(f"{lines!r}: {said}: {told}")
    return f"{len(CELLS)} wrong libraries: the cell and the rule each time"


def tried(program, room):
    counter, first, bsdl = (os.path.join(TOP, "examples", name) for name in ("counter8.v", "first.v", "counter8.bsd"))
    for command, path in (("canon", counter), ("canon", first), ("showbsdl", bsdl)):
        yield changed_bytes(program, room, command, path)
    yield spoiled_files(program, room, "the counter", text_of(bsdl), SPOILED)
    codes = text_of(inserted(program, DATA, "two_codes", room)[1])
    yield spoiled_files(program, room, "two_codes", codes, SPOILED_CODES)
    yield spoiled_files(program, room, "the counter with a register of its own", text_of(with_own_register(room)), SPOILED_OWN, "statusbsdl")
    yield changed_words(program, room, text_of(bsdl))
    yield most(room, program)
    yield loop(program, room)
    yield listed(program, room)
    yield items(program, room, os.path.join(TOP, "examples/synthesis/pulse.net.v"))
    for netlist in (counter, first, demo(program, room, 9999)[0]):
        yield items(program, room, netlist)
    wrong = {"no file": [os.path.join(room, "missing"), "0"], "a folder": [room, "0"], "a place behind the end": [counter, "99999"]}
    wrong.update({"a place before the beginning": [counter, "--", "-1"], "no place": [counter], "a word as a place": [counter, "x"], "no word": []})
    wrong.update({"an item that isn't there": [counter, "--item", "32"], "items of a BSDL file": [bsdl, "--item", "0"]})
    wrong["a cell that isn't listed"] = [os.path.join(TOP, "examples/accumulator.lib"), "--cell", "X"]
    wrong["a place and a cell"] = [counter, "0", "--cell", "X"]
    wrong["items of a text that is cut off"] = [keep(os.path.join(room, "cut.v"), text_of(counter)[:1000]), "--item", "0"]
    yield refusals("place", wrong)
