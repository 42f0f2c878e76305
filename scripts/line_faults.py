"""Where in a plan, a text of registers or of events a fault is: each function yields files, offsets, and what is to be
mended there.
"""
import re
from dataclasses import dataclass
from typing import List

from bsdl_names import why_barred
from netlist_uses import DIRECTIONS
from netlist_words import plain

TAP = ("tck", "tms", "tdi", "tdo", "trst")
EIGHT = ("BYPASS", "EXTEST", "SAMPLE", "PRELOAD", "IDCODE", "USERCODE", "HIGHZ", "CLAMP")
# The lines of a plan in their order, behind their first words.
PLAN = {
    "plan": "1, or 2",
    "entity": "NAME",
    "package": "NAME",
    "prefix": "TEXT, of 1 to 32 letters, digits and `_`",
    **dict.fromkeys(TAP, "NAME PIN"),
    "clock": "DIGITS, 1 to 4, in megahertz",
    "length": "N, from 2 to 32",
    "capture": "BITS",
    "opcode": "NAME BITS",
    "idcode": "BITS BITS BITS BITS",
    "usercode": "BITS, in `plan 2` alone",
    "control": "BC_1, or BC_2",
    "pin": "PORT PIN CELL",
    "linkage": "NAME PIN",
}
# What may follow a line, but for the next one of these.
FOLLOW = {None: ["plan"], "opcode": ["opcode", "idcode", "usercode", "control"], "idcode": ["usercode", "control"], "pin": ["pin", "linkage"], "linkage": ["linkage"]}
LINES = {"regs": "`status 1`, then lines `register NAME INSTR BITS WORD ..`", "events": "`events 1`, then `start`, `set` or `expect` with PIN VALUE"}
CELLS = {"input": "an input takes BC_1 or BC_4, and BC_4 where it clocks, clears or presets a flip-flop", "output": "an output takes BC_1 or BC_2", "inout": "an inout takes BC_7"}


@dataclass
class Line:
    words: List[str]
    places: List[int]

    def key(self):
        return self.words[0]


def lines_of(text):
    """The lines that aren't skipped."""
    place = 0
    for line in text.split("\n"):
        found = list(re.finditer(r"[^ \t\r]+", line))
        if found and not found[0][0].startswith("#"):
            yield Line([it[0] for it in found], [place + it.start() for it in found])
        place += len(line) + 1


def place_of_line(text, number):
    """The first word of a line, counted from 1, or the end of the text."""
    place = 0
    for _ in range(int(number) - 1):
        place = text.find("\n", place) + 1
        if not place:
            return len(text)
    return place + re.match(r"[ \t]*", text[place : place + 200]).end()


def of_line(files, role, number):
    yield role, place_of_line(files.text(role), number), f"the line can't stand here, or a word of it; in this order stand {LINES[role]}"


def plan_line(files, number):
    place, before, here = place_of_line(files.text("plan"), number), None, None
    for line in lines_of(files.text("plan")):
        if line.places[0] >= place:
            here = line.key() if line.places[0] == place else None
            break
        before = line.key()
    keys = list(PLAN)
    follow = FOLLOW.get(before) or [keys[keys.index(before) + 1]]
    if here in follow:
        told = f"the form of the line is `{here}` {PLAN[here]}, and nothing stands behind that"
    else:
        told = f"{f'behind `{before}`' if before else 'first'} stands {' or '.join(f'`{key}` {PLAN[key]}' for key in follow)}"
    yield "plan", place, told


def lines_with(files, role, key):
    return [line for line in lines_of(files.text(role)) if line.key() == key]


def bits(word):
    """A port bit without leading zeros of its index."""
    return re.sub(r"\[0+(\d+)\]$", r"[\1]", word)


def plan_twice(files, word):
    """Of an opcode, a port bit or a physical pin the second one."""
    lines = list(lines_of(files.text("plan")))
    roles = (
        [(line, 1) for line in lines if line.key() == "opcode" and line.words[1] == word],
        [(line, 1) for line in lines if line.key() == "pin" and bits(line.words[1]) == bits(word)],
        [(line, 2) for line in lines if line.key() in ("pin", "linkage", *TAP) and line.words[2].lower() == word.lower()],
    )
    for found in roles:
        if len(found) > 1:
            line, at = found[1]
            yield "plan", line.places[at], f"{word} stands before, in `{' '.join(found[0][0].words)}`: one of the two lines, or another word"
            return


def plan_opcode(files, name):
    if name == "capture":
        line = lines_with(files, "plan", "capture")[0]
        yield "plan", line.places[1], "what is captured is as long as `length` says, and ends in 01"
        return
    opcodes = lines_with(files, "plan", "opcode")
    found = [line for line in opcodes if line.words[1] == name]
    if not found:
        yield "plan", opcodes[-1].places[0], f"among the opcodes a line `opcode {name} BITS` is missing"
        return
    code, length = found[0].words[2], int(lines_with(files, "plan", "length")[0].words[1])
    others = [line.words[1] for line in opcodes if line.words[2] == code and line.words[1] != name]
    if len(code) != length:
        told = f"the opcode has {len(code)} bits, and `length` says {length}"
    else:
        told = "the opcode of BYPASS is all ones" if name == "BYPASS" and "0" in code else f"the opcode of {' and '.join(others)}, too: another code"
    yield "plan", found[0].places[2], told


def of_code(files, key, told):
    """A line `idcode` or `usercode`, and the opcode that goes with it."""
    name = key.upper()
    line, opcodes = lines_with(files, "plan", key), [it for it in lines_with(files, "plan", "opcode") if it.words[1] == name]
    if line and opcodes:
        yield "plan", line[0].places[1], told
    elif line:
        yield "plan", line[0].places[0], f"{name} has no opcode: take the line out, or add `opcode {name} BITS`"
    elif opcodes:
        yield "plan", opcodes[0].places[0], f"no line `{key}` stands in the plan: add it, or take this one out"


def plan_idcode(files):
    yield from of_code(files, "idcode", "version, part, manufacturer and 1 have 4, 16, 11 and 1 bits; the last is 1, and the manufacturer isn't 00001111111")


def plan_usercode(files):
    idcode = any(line.words[1] == "IDCODE" for line in lines_with(files, "plan", "opcode"))
    yield from of_code(files, "usercode", "a user code has 32 bits" if idcode else "USERCODE wants IDCODE: its opcode, and the line `idcode`")


def plan_instruction(files, word):
    for line in lines_with(files, "plan", "opcode"):
        if line.words[1] == word:
            yield "plan", line.places[1], "USERCODE wants `plan 2`" if word == "USERCODE" else f"the instructions are {', '.join(EIGHT)}: leave it out"


def pin_lines(files, word):
    return [line for line in lines_with(files, "plan", "pin") if bits(line.words[1]) == bits(word)]


def plan_port(files, word):
    for line in pin_lines(files, word):
        yield "plan", line.places[1], f"no bit of a port of {files.path('net')} is called so; a bit of a vector is NAME[INDEX]"


def port_of(files, word):
    return next((port for port in files.netlist.ports() if word in port.bits()), None)


def plan_port_missing(files, word):
    port = port_of(files, word)
    if port:
        yield "net", port.word.place, f"{word} has no pin line in {files.path('plan')}: add `pin {word} PIN CELL`"


def plan_cell(files, word):
    port = port_of(files, bits(word))
    for line in pin_lines(files, word):
        yield "plan", line.places[3], CELLS[port.kind] if port else "another cell"


def names_of_plan(files):
    """The names of the list in which none stands twice: file, place, name, in their order."""
    lines = list(lines_of(files.text("plan")))
    yield from (("plan", line.places[1], line.words[1]) for line in lines if line.key() in ("entity", "package"))
    yield from (("net", port.word.place, plain(port.word.text)) for port in files.netlist.ports())
    yield from (("plan", line.places[1], line.words[1]) for line in lines if line.key() in TAP)
    yield from (("plan", line.places[1], line.words[1]) for line in lines if line.key() == "linkage")


def plan_name(files, name):
    found = [it for it in names_of_plan(files) if it[2].lower() == name.lower()]
    barred = why_barred(name)
    if barred:
        role, place, _ = next(it for it in found if it[2] == name)
        yield role, place, f"{barred}: another name{' in the netlist, as by scripts/rename_ports' if role == 'net' else ''}"
    elif len(found) > 1:
        role, place, _ = [it for it in found[1:] if it[2] == name][-1]
        yield role, place, "the name stands before (case doesn't count): another name"
        yield (*found[0][:2], "here")
    else:
        role, place, _ = found[0]
        yield role, place, f"a wire, a gate or an instance of {files.path('net')} is called so: another name"


def prefix_taken(files, word):
    line = lines_with(files, "plan", "prefix")[0]
    yield "plan", line.places[1], "a name begins with the prefix: another prefix"
    for statement in files.netlist.statements(word):
        found = [it for it in statement.words if plain(it.text).startswith(word)]
        if found:
            yield "net", found[0].place, f"{plain(found[0].text)} begins with {word}"
            return


def registers(files):
    return lines_with(files, "regs", "register")


def status_name(files, word):
    names = [(line.places[at], line.words[at]) for line in registers(files) for at in (1, 2)]
    found = [place for place, name in names if name.lower() == word.lower()]
    if found:
        repeated = len(found) > 1 and not why_barred(word)
        told = why_barred(word) or ("the name stands before" if repeated else "a name of the standard's")
        yield "regs", found[1 if repeated else 0], f"{told}: another name"


def status_net(files, word):
    for line in registers(files):
        for at in range(4, len(line.words)):
            if line.words[at] == word:
                port = files.netlist.declaration(re.sub(r"\[\d+\]$", "", word))
                why = "a port: give its value to a wire, and name that" if port and port.kind in DIRECTIONS else "no bit of a wire that a cell drives"
                yield "regs", line.places[at], f"{word} is {why}"
                return


def status_opcode(files, word):
    for line in registers(files):
        if line.words[2] == word:
            yield "regs", line.places[3], "the opcode is as long as the plan's `length`, and no other instruction has it"


def event_illegal(files, number):
    """Where the line is the one behind the last, a bit has no start."""
    text = files.text("events")
    place = place_of_line(text, number)
    started = {bits(line.words[1]) for line in lines_with(files, "events", "start")}
    lacking = [bit for port in files.netlist.ports() if port.kind != "output" for bit in port.bits() if bit not in started]
    here = next((line for line in lines_of(text) if line.places[0] == place), None)
    if lacking and (here is None or here.key() != "start"):
        told = f"no start stands before for {', '.join(lacking[:8])}{' ..' * (len(lacking) > 8)}"
    else:
        told = "the line breaks a rule on events: " + rule_of(files, here)
    yield "events", place, told


def rule_of(files, line):
    if line is None:
        return "the lines end too early"
    port = port_of(files, bits(line.words[1]))
    if port is None:
        return f"{line.words[1]} is no bit of a port"
    if line.key() == "expect":
        return "an input isn't expected" if port.kind == "input" else "see `sim` in the manual"
    if port.kind == "output":
        return "an output has no start, and isn't set"
    if line.key() == "start":
        return "a bit has one start, and starts come before the other lines; a clock, clear or preset takes 0 and 1 alone"
    return "a clock, clear or preset takes 0 and 1 alone; in `check` the test access port has rules besides"


FINDERS = {
    "PlanTwice": plan_twice,
    "PlanOpcode": plan_opcode,
    "PlanIdcode": plan_idcode,
    "PlanUsercode": plan_usercode,
    "PlanInstruction": plan_instruction,
    "PlanPort": plan_port,
    "PlanPortMissing": plan_port_missing,
    "PlanCell": plan_cell,
    "PlanName": plan_name,
    "PrefixTaken": prefix_taken,
    "StatusName": status_name,
    "StatusNet": status_net,
    "StatusOpcode": status_opcode,
    "EventIllegal": event_illegal,
    "PlanLine": plan_line,
    "StatusLine": lambda files, number: of_line(files, "regs", number),
    "EventLine": lambda files, number: of_line(files, "events", number),
}
