"""The program of scripts/long_program is met by each chip, visits each transition, and finds rows that were
exchanged."""
import itertools, os, re, sys

from chips import TOP, keep, run, text_of
from script_trials import demo, most_rows, refusals, script, small_chips, with_own_register
from side_by_side import SideBySide, missed

NEEDS = ()
# Lines that cut the groups that look at what the core gives.
CUT = (62000, 68000, 76000, 83000)
ROW = re.compile(r'^    "(\d+) \((.*)\)(,?"[;]?(?: &)?)$', re.M)


def misses(netlist, events):
    """Whether the netlist misses an expectation, by the simulator of this folder."""
    return any(missed(SideBySide(text_of(netlist)), events))


def exchanged(text, one, other):
    """The BSDL text with two rows of the boundary register exchanged, and control cells named by their new numbers."""
    numbers = {one: other, other: one}
    rows = {int(number): fields for number, fields, _ in ROW.findall(text)}

    def row(found):
        number = int(found[1])
        fields = rows[numbers.get(number, number)].split(", ")
        if len(fields) > 4:
            fields[4] = str(numbers.get(int(fields[4]), int(fields[4])))
        return f'    "{number} ({", ".join(fields)}){found[3]}'

    return ROW.sub(row, text)


def by_check(program, room):
    """Each small chip, ten demonstration chips and one of a library's cells meet their programs, by `check`."""
    chips = list(small_chips(program, room)) + [(f"demo {number}", *demo(program, room, number)) for number in range(10)]
    netlist, bsdl, lib = (os.path.join(TOP, "examples/synthesis", name) for name in ("pulse.chip.v", "pulse.bsd", "small.cells"))
    for name, netlist, bsdl, *lib in [*chips, ("pulse", netlist, bsdl, lib)]:
        events = os.path.join(room, "long.events")
        core = ["--net", netlist, "--program", program, *(["--lib", *lib] if lib else [])]
        for more in ([], core):
            lines = script("long_program", bsdl, events, *more).split()[0]
            said = run([program, "check", netlist, bsdl, events, *lib]).strip()
            yield f"{name}{', --net' if more else ''}: {lines} lines, `check` says {said}"


def by_most(program, room):
    """With --most a program has no more lines, and the chip meets it."""
    _, netlist, bsdl = next(small_chips(program, room))
    events, told = os.path.join(room, "long.events"), []
    for most in (60, 1000, 2500, 2000000):
        said = script("long_program", "--most", str(most), bsdl, events).split("\n")
        lines = sum(line[:1] != "#" for line in text_of(events).splitlines()[1:])
        if said[0] != f"{lines} event lines" or lines > most or (len(said) > 2) != (most < 10**6) or misses(netlist, events):
            sys.exit(f"--most {most}: {lines} lines, {said}")
        told.append(f"{lines} of {most}")
    for most in CUT:
        said = script("long_program", "--most", str(most), bsdl, events, "--net", netlist, "--program", program).split("\n")
        lines = int(said[0].split()[0])
        if lines > most or len(said) < 3 or "done" not in run([program, "check", netlist, bsdl, events]):
            sys.exit(f"--most {most} --net: {said}")
        told.append(f"{lines} of {most} with --net")
    return f"with --most: {', '.join(told)} lines, which the counter meets"


def by_rows(program, room):
    """Every exchange of two rows of the counter's file is found."""
    _, netlist, bsdl = next(small_chips(program, room))
    text, events = text_of(bsdl), os.path.join(room, "long.events")
    rows = len(ROW.findall(text))
    pairs = list(itertools.combinations(range(rows), 2))
    for one, other in pairs:
        changed = keep(os.path.join(room, "changed.bsd"), exchanged(text, one, other))
        script("long_program", changed, events)
        if not misses(netlist, events):
            sys.exit(f"rows {one} and {other} exchanged: not found")
    return f"of {len(pairs)} exchanges of two rows of the counter's file all are found"


def with_codes(text):
    """The file of the chip with USERCODE, with something changed of its codes: by what it is."""
    code, usercode = re.findall(r"CODE_REGISTER of \w+ : entity is\n    (.*);", text)
    yield "the codes exchanged", text.replace(code, "@").replace(usercode, code).replace("@", usercode)
    yield "their opcodes exchanged", text.replace("(01011)", "@").replace("(01010)", "(01011)").replace("@", "(01010)")
    for place in range(1, 33):
        bit = "0" if usercode[place] == "1" else "1"
        yield f"bit {32 - place} of the user code", text.replace(usercode, usercode[:place] + bit + usercode[place + 1 :])


def by_codes(program, room):
    """Every change of what a file says of its codes is found."""
    _, netlist, bsdl = next(chip for chip in small_chips(program, room) if chip[0] == "two_codes")
    events, text, count = os.path.join(room, "long.events"), text_of(bsdl), 0
    for what, changed in with_codes(text):
        if changed == text:
            sys.exit(f"nothing is changed: {what}")
        script("long_program", keep(os.path.join(room, "changed.bsd"), changed), events)
        if not misses(netlist, events):
            sys.exit(f"{what}: not found")
        count += 1
    return f"of {count} changes of the codes of two_codes all are found"


def transitions(events, tap):
    """The transitions of the controller that a program makes."""
    sys.path.append(os.path.join(os.path.dirname(os.path.dirname(os.path.dirname(os.path.abspath(__file__)))), "scripts"))
    from machine import NEXT, RESET

    levels, state, seen = {}, RESET, set()
    for line in text_of(events).split("\n"):
        words = line.split()
        if not words or words[0] not in ("start", "set"):
            continue
        rises = words[1] == tap["TCK"] and words[2] == "1" and levels[tap["TCK"]] == "0"
        levels[words[1]] = words[2]
        if levels.get(tap["TRST"]) == "0":
            state = RESET
        elif rises:
            tms = int(levels[tap["TMS"]])
            seen.add((state, tms))
            state = NEXT[state][tms]
    return seen


def tried(program, room):
    yield from by_check(program, room)
    _, _, counter = next(small_chips(program, room))
    events = os.path.join(room, "long.events")
    script("long_program", counter, events)
    seen = transitions(events, {name: name for name in ("TCK", "TMS", "TRST")})
    if len(seen) != 32:
        sys.exit(f"of 32 transitions the counter's program makes {len(seen)}")
    yield "the counter's program makes all 32 transitions of the controller"
    yield by_most(program, room)
    yield by_rows(program, room)
    yield by_codes(program, room)
    bsdl = most_rows(room)
    said = script("long_program", bsdl, events).strip().split("\n")
    yield f"4,091 rows: {'; '.join(said)}"
    net = os.path.join(room, "net.v")
    keep(net, "module m (); endmodule\n")
    missing = os.path.join(room, "missing")
    wrong = {"no file": [missing, events], "a netlist": [net, events], "a folder to write to": [bsdl, room], "no word": []}
    wrong["room for nothing"] = ["--most", "20", bsdl, events]
    wrong["a library without a netlist"] = [bsdl, events, "--lib", net]
    wrong["another chip's netlist"] = [counter, events, "--net", net, "--program", program]
    wrong["a row less"] = [keep(os.path.join(room, "less.bsd"), text_of(bsdl).replace('    "7 (BC_1, a(7), input, X)," &\n', "")), events]
    wrong["a register of the design's own"] = [with_own_register(room), events]
    yield refusals("long_program", wrong)
