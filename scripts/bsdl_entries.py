"""What the strings and sections of a BSDL file break: the entry, and the rule, by a reader of its own.

The program tells the string or the section, in the files that it refuses; the program alone says whether one is.
"""
import bisect, re

from boundary import REGISTERS, Words, ports_of
from bsdl_names import VHDL, is_identifier
from command import Fault

REQUIRED = ("EXTEST", "SAMPLE", "PRELOAD", "BYPASS")
CELLS = ("BC_1", "BC_2", "BC_4", "BC_7")
# The cells and the mode of the port that a function has, in words as the manual's.
ROLES = {
    "input": (("BC_1", "BC_4"), "in"),
    "clock": (("BC_4",), "in"),
    "output2": (("BC_1", "BC_2"), "out"),
    "output3": (("BC_1", "BC_2"), "out"),
    "bidir": (("BC_7",), "inout"),
    "control": (("BC_1", "BC_2"), None),
}


class Broken(Exception):
    """A rule that is broken, and the place in the file."""

    def __init__(self, place, rule):
        super().__init__(rule)
        self.place, self.rule = place, rule


class Run:
    """A word within a section's strings."""

    def __init__(self, text, place):
        self.text, self.place = text, place

    def is_key(self, word):
        return self.text.upper() == word.upper()


class Strings:
    """What the strings of a section hold, joined, as words that are taken one after another."""

    def __init__(self, pieces):
        """Each piece is a string's contents and the place of its first byte."""
        joined, starts, places = "", [], []
        for text, place in pieces:
            starts.append(len(joined))
            places.append(place)
            joined += text
        self.runs = []
        for found in re.finditer(r"\w+|[^ ]", joined, re.ASCII):
            piece = bisect.bisect_right(starts, found.start()) - 1
            self.runs.append(Run(found[0], places[piece] + found.start() - starts[piece]))
        last, place = pieces[-1]
        self.end = Run("", place + len(last))
        self.at = 0

    def next(self):
        return self.runs[self.at] if self.at < len(self.runs) else self.end

    def refuse(self, wanted):
        shown = f"`{self.next().text}`" if self.next().text else "the end of the section's strings"
        raise Broken(self.next().place, f"{shown} stands where {wanted} belongs")

    def one(self, test, wanted):
        if not test(self.next().text):
            self.refuse(wanted)
        self.at += 1
        return self.runs[self.at - 1]

    def take(self, word):
        return self.one(lambda text: text.upper() == word, f"`{word}`")

    def behind(self):
        """The word behind the next one."""
        return self.runs[self.at + 1].text if self.at + 1 < len(self.runs) else ""

    def took(self, word):
        is_it = self.next().text.upper() == word
        self.at += is_it
        return is_it

    def name(self, wanted):
        if self.next().text.lower() in VHDL:
            raise Broken(self.next().place, f"`{self.next().text}` is a reserved word of VHDL, where {wanted} belongs")
        return self.one(is_identifier, wanted)

    def integer(self, wanted):
        return self.one(lambda text: re.fullmatch(r"[0-9]{1,9}", text), wanted)

    def bits(self):
        return self.one(lambda text: re.fullmatch(r"[01]{1,32}", text), "1 to 32 of 0 and 1")

    def code(self):
        return self.one(lambda text: re.fullmatch(r"[01]{32}", text), "32 bits, with no blank between them,")

    def among(self, words, what):
        return self.one(lambda text: text.upper() in [word.upper() for word in words], f"one of {', '.join(words)} ({what})")

    def listed(self, entry):
        """Entries with commas between them."""
        entries = [entry(self)]
        while self.took(","):
            entries.append(entry(self))
        return entries

    def whole(self, read):
        """What is read, with nothing behind it."""
        value = read(self)
        if self.next() is not self.end:
            self.refuse("a comma, or the end of the section's strings,")
        return value


# Entries of sections


def pin_entry(strings):
    """A port, its pins, and whether they stand in parentheses."""
    port = strings.name("a port's name")
    strings.take(":")
    pin = lambda it: it.one(lambda text: re.fullmatch(r"\w{1,32}", text, re.ASCII), "a pin, 1 to 32 letters, digits and `_`,")
    if not strings.took("("):
        return port, [pin(strings)], False
    pins = strings.listed(pin)
    strings.take(")")
    return port, pins, True


def opcode_entry(strings):
    name = strings.one(is_identifier, "an instruction's name")
    strings.take("(")
    bits = strings.bits()
    strings.take(")")
    return name, bits


def access_entry(strings):
    register = strings.among(("BOUNDARY", "BYPASS", "DEVICE_ID"), "the registers that are taken")
    strings.take("(")
    names = strings.listed(lambda it: it.one(is_identifier, "an instruction's name"))
    strings.take(")")
    return register, names


def own_entry(strings):
    """A register of the design's own, how many bits it has, and its instruction."""
    name = strings.name("a register's name")
    strings.take("[")
    length = strings.integer("the count of a register's bits")
    strings.take("]")
    strings.take("(")
    instruction = strings.one(is_identifier, "an instruction's name")
    strings.take(")")
    return name, length, instruction


def access_entries(strings):
    """The entries of the three registers, and those of the design's own behind them."""
    entries, own = [access_entry(strings)], []
    while strings.took(","):
        if own or strings.behind() == "[":
            own.append(own_entry(strings))
        else:
            entries.append(access_entry(strings))
    return entries, own


class Row:
    """A row of the boundary register, by its words."""

    def __init__(self, strings):
        self.number = strings.integer("a cell's number")
        strings.take("(")
        self.cell = strings.among(CELLS, "the cells that are taken")
        strings.take(",")
        self.port, self.index = None, None
        if not strings.took("*"):
            self.port = strings.name("`*` or a port's name")
            if strings.took("("):
                self.index = int(strings.integer("an index").text)
                strings.take(")")
        strings.take(",")
        self.function = strings.among(tuple(ROLES), "the functions that are taken")
        strings.take(",")
        strings.among(("0", "1", "X"), "a safe value")
        self.control = None
        if strings.took(","):
            self.control = strings.integer("the number of a control cell")
            strings.take(",")
            self.disable = strings.among(("0", "1"), "a disable value")
            strings.take(",")
            strings.take("Z")
        strings.take(")")

    def role(self):
        return self.function.text.lower()

    def bit(self):
        return (self.port.text.lower(), self.index)

    def shown(self):
        return self.port.text if self.index is None else f"{self.port.text}({self.index})"


READERS = {
    "PIN_MAP_STRING": lambda strings: strings.listed(pin_entry),
    "INSTRUCTION_OPCODE": lambda strings: strings.listed(opcode_entry),
    "INSTRUCTION_CAPTURE": Strings.bits,
    "IDCODE_REGISTER": Strings.code,
    "USERCODE_REGISTER": Strings.code,
    "REGISTER_ACCESS": access_entries,
    "BOUNDARY_REGISTER": lambda strings: strings.listed(Row),
}


class Sections:
    """The sections of a BSDL file, found by the words that name them."""

    def __init__(self, text):
        self.words = Words(text)
        self.taken = self.words.words
        # A section's name, and the number of its first word.
        self.starts = {}
        for at, (word, _) in enumerate(self.taken):
            if word.lower() == "port":
                self.starts.setdefault("PORT", at)
            elif word.lower() == "constant":
                self.starts.setdefault("PIN_MAP_STRING", at)
            elif word.lower() == "attribute" and at + 1 < len(self.taken):
                self.starts.setdefault(self.taken[at + 1][0].upper(), at)

    def at_place(self, place):
        """The section whose first word, or one of whose strings, is at the place; and whether it is a string."""
        for at, (word, there) in enumerate(self.taken):
            if there == place:
                before = [(first, name) for name, first in self.starts.items() if first <= at]
                if before and (word.startswith('"') or max(before)[0] == at):
                    return max(before)[1], word.startswith('"')
        return None, False

    def value(self, name):
        """The number of the first word of a section's value, behind `is` or `:=`."""
        at = self.starts[name]
        while self.taken[at][0].lower() not in ("is", ":="):
            at += 1
        return at + 1

    def strings(self, name):
        if name not in self.starts:
            raise Fault(f"there is no section {name}")
        pieces, at = [], self.value(name)
        while at < len(self.taken) and self.taken[at][0].startswith('"'):
            word, place = self.taken[at]
            pieces.append((word[1:-1], place + 1))
            at += 2 if at + 1 < len(self.taken) and self.taken[at + 1][0] == "&" else len(self.taken)
        if not pieces:
            raise Fault(f"the section {name} has no string")
        return Strings(pieces)

    def entries(self, name):
        """What a section's strings hold; Broken at the first word that they can't."""
        return self.strings(name).whole(READERS[name])

    def opcodes(self):
        """The opcodes without those of the design's own registers, and these."""
        own = {instruction.text.upper() for _, _, instruction in self.entries("REGISTER_ACCESS")[1]}
        entries = self.entries("INSTRUCTION_OPCODE")
        return [it for it in entries if it[0].text.upper() not in own], [it for it in entries if it[0].text.upper() in own]

    def number(self, name):
        word = self.taken[self.value(name)][0] if name in self.starts else ""
        if not word.isdigit():
            raise Fault(f"the section {name} has no number")
        return int(word)

    def value_of_generic(self):
        """The number of the string behind `string :=`, the name of the pin map."""
        for at, (word, _) in enumerate(self.taken):
            if word.startswith('"'):
                return at
        raise Fault("there is no string")

    def first(self, name):
        """The place of a section's first word."""
        return self.taken[self.starts[name]][1]

    def ports(self):
        self.words.at = self.starts["PORT"]
        return list(ports_of(self.words))

    def tap(self):
        """The names of the test access port by their sections, and the places of these names."""
        return {name: self.taken[at + 3] for name, at in self.starts.items() if name.startswith("TAP_SCAN_")}


# Rules on what a section means; each begins with the section's own entries.


def twice(runs, what):
    before = set()
    for run in runs:
        if run.text.lower() in before:
            raise Broken(run.place, f"{what} {run.text} stands twice")
        before.add(run.text.lower())


def check_pin_map(sections):
    ports = {port.name.lower(): port for port in sections.ports()}
    entries = sections.entries("PIN_MAP_STRING")
    for name, pins, is_list in entries:
        port = ports.get(name.text.lower())
        if port is None:
            raise Broken(name.place, f"{name.text} is no port of the entity")
        is_vector = port.bits != [port.name]
        if is_vector != is_list:
            raise Broken(name.place, f"{name.text} is a vector, whose pins stand in parentheses" if is_vector else f"{name.text} is one bit, which has one pin without parentheses")
        if len(pins) != len(port.bits):
            raise Broken(name.place, f"{name.text} has {len(port.bits)} bits and {len(pins)} pins")
    twice([name for name, _, _ in entries], "the port")
    missing = set(ports) - {name.text.lower() for name, _, _ in entries}
    if missing:
        raise Broken(sections.first("PIN_MAP_STRING"), f"the pin map leaves out {', '.join(sorted(missing))}")
    twice([pin for _, pins, _ in entries for pin in pins], "the pin")


def check_opcodes(sections):
    length, (entries, _) = sections.number("INSTRUCTION_LENGTH"), sections.opcodes()
    place = sections.first("INSTRUCTION_OPCODE")
    for name, _ in entries:
        if name.text.upper() not in REGISTERS:
            raise Broken(name.place, f"the instruction {name.text} isn't taken; these are: {', '.join(REGISTERS)}")
    twice([name for name, _ in entries], "the instruction")
    there = {name.text.upper(): bits for name, bits in entries}
    for wanted in REQUIRED:
        if wanted not in there:
            raise Broken(place, f"{wanted} has no opcode")
    for name, bits in entries:
        if len(bits.text) != length:
            raise Broken(bits.place, f"the opcode of {name.text} has {len(bits.text)} bits, and the instruction register {length}")
    if "0" in there["BYPASS"].text:
        raise Broken(there["BYPASS"].place, "the opcode of BYPASS isn't all ones")
    before = {}
    for name, bits in entries:
        other = before.setdefault(bits.text, name.text)
        if other != name.text and {other.upper(), name.text.upper()} != {"SAMPLE", "PRELOAD"}:
            raise Broken(bits.place, f"{name.text} has the opcode of {other}")
    check_idcode(sections, there, place)
    check_usercode(sections, there, place)


def stand_together(sections, name, there, place):
    """Whether the instruction and its code are there; Broken where one of them is missing."""
    if (f"{name}_REGISTER" in sections.starts) != (name in there):
        raise Broken(place, f"the instruction {name} and the section {name}_REGISTER don't stand together")
    return name in there


def check_idcode(sections, there, place):
    if stand_together(sections, "IDCODE", there, place):
        code = sections.entries("IDCODE_REGISTER")
        if code.text[-1] == "0":
            raise Broken(code.place, "the last bit of the identification code is 0")
        if code.text[20:31] == "00001111111":
            raise Broken(code.place, "the manufacturer 00001111111 is no code")


def check_usercode(sections, there, place):
    if stand_together(sections, "USERCODE", there, place) and "IDCODE" not in there:
        raise Broken(there["USERCODE"].place, "USERCODE has an opcode, and IDCODE has none")


def check_access(sections):
    opcodes = {name.text.upper() for name, _ in sections.opcodes()[0]}
    entries, own = sections.entries("REGISTER_ACCESS")
    for register, names in entries:
        for name in names:
            if name.text.upper() not in opcodes:
                raise Broken(name.place, f"{name.text} has no opcode")
            if REGISTERS[name.text.upper()] != register.text.upper():
                raise Broken(name.place, f"{name.text} stands at {register.text}; its register is {REGISTERS[name.text.upper()]}")
    twice([name for _, names in entries for name in names], "the instruction")
    for entry in own:
        check_own(sections, *entry)
    check_own_opcodes(sections)
    twice([name for name, _, _ in own], "the register")
    twice([instruction for _, _, instruction in own], "the instruction")
    if len(own) > 16:
        raise Broken(own[16][0].place, f"{own[16][0].text} is the seventeenth register of the design's own")


def check_own(sections, name, length, instruction):
    if name.text.upper() in REGISTERS.values():
        raise Broken(name.place, f"a register of the design's own has another name than {name.text.upper()}")
    if not 1 <= int(length.text) <= 256:
        raise Broken(length.place, f"{name.text} has {int(length.text)} bits; it may have 1 to 256")
    if instruction.text.upper() in REGISTERS:
        raise Broken(instruction.place, f"{instruction.text} selects a register of the standard's")
    count = sum(instruction.is_key(it.text) for it, _ in sections.opcodes()[1])
    if count != 1:
        raise Broken(instruction.place, f"{instruction.text} has {'two opcodes' if count else 'no opcode'}")


def check_own_opcodes(sections):
    length, (base, own) = sections.number("INSTRUCTION_LENGTH"), sections.opcodes()
    before = {bits.text: name.text for name, bits in base}
    for name, bits in own:
        if len(bits.text) != length:
            raise Broken(bits.place, f"the opcode of {name.text} has {len(bits.text)} bits, and the instruction register {length}")
        other = before.setdefault(bits.text, name.text)
        if other != name.text:
            raise Broken(bits.place, f"{name.text} has the opcode of {other}")


def check_numbers(sections):
    length, rows = sections.number("BOUNDARY_LENGTH"), sections.entries("BOUNDARY_REGISTER")
    place = sections.first("BOUNDARY_LENGTH")
    if length == 0:
        raise Broken(place, "the boundary length is 0")
    before = set()
    for row in rows:
        number = int(row.number.text)
        if number >= length:
            raise Broken(row.number.place, f"row {number} isn't below the boundary length, {length}")
        if number in before:
            raise Broken(row.number.place, f"row {number} stands twice")
        before.add(number)
    if len(rows) != length:
        missing = min(set(range(length)) - before)
        raise Broken(place, f"the boundary length is {length}, and there are {len(rows)} rows; row {missing} is missing")


class Rows:
    """The rules on rows."""

    def __init__(self, sections):
        self.sections, self.rows = sections, sections.entries("BOUNDARY_REGISTER")
        self.ports = {port.name.lower(): port for port in sections.ports()}
        self.tap = {name.lower() for name, _ in sections.tap().values()}
        self.numbers = {int(row.number.text): row for row in self.rows}
        self.named = {int(row.control.text) for row in self.rows if row.control}

    def check(self):
        for row in self.rows:
            self.check_control(row) if row.role() == "control" else self.check_port(row)
            self.check_disable(row)
        self.check_bits()
        self.check_values()
        opcodes = {name.text.upper() for name, _ in self.sections.opcodes()[0]}
        for row in self.rows:
            if "HIGHZ" in opcodes and row.role() == "output2":
                self.refuse(row, row.function, "is an output2, which nothing turns off, and HIGHZ has an opcode")

    @staticmethod
    def refuse(row, run, rule):
        raise Broken(run.place, f"row {row.number.text} {rule}")

    def check_control(self, row):
        if row.port:
            self.refuse(row, row.port, f"is a control row, which has `*` and no port, and names {row.shown()}")
        self.check_cell(row)
        if int(row.number.text) not in self.named:
            self.refuse(row, row.number, "is a control row that no row names")

    def check_cell(self, row):
        cells = ROLES[row.role()][0]
        if row.cell.text.upper() not in cells:
            self.refuse(row, row.cell, f"is {row.role()}, which takes {' or '.join(cells)}, and has {row.cell.text}")

    def check_port(self, row):
        if not row.port:
            self.refuse(row, row.function, f"is {row.role()}, which has a port, and names none")
        port = self.ports.get(row.port.text.lower())
        if port is None:
            self.refuse(row, row.port, f"names {row.shown()}, which is no port")
        spelled = port.name if row.index is None else f"{port.name}[{row.index}]"
        if spelled not in port.bits:
            is_vector = port.bits != [port.name]
            self.refuse(row, row.port, f"names {row.shown()}: {'no bit of the vector' if is_vector else 'a scalar has no index'}")
        if row.port.text.lower() in self.tap or port.mode == "linkage":
            self.refuse(row, row.port, f"names {row.shown()}, which is {'linkage' if port.mode == 'linkage' else 'of the test access port'}")
        self.check_cell(row)
        mode = ROLES[row.role()][1]
        if port.mode != mode:
            self.refuse(row, row.function, f"is {row.role()}, which stands at `{mode}` alone, and {row.shown()} is `{port.mode}`")

    def check_disable(self, row):
        is_wanted = row.role() in ("output3", "bidir")
        if is_wanted and row.control is None:
            self.refuse(row, row.function, f"is {row.role()}, and lacks the number of a control row, its disable value and Z")
        if row.control and not is_wanted:
            self.refuse(row, row.control, f"is {row.role()}, which takes no control row")
        if row.control:
            control = self.numbers.get(int(row.control.text))
            if control is None or control.role() != "control":
                self.refuse(row, row.control, f"names row {row.control.text} as its control row, which is none")

    def check_bits(self):
        seen = {}
        for row in self.rows:
            if row.port:
                other = seen.setdefault(row.bit(), row)
                if other is not row:
                    self.refuse(row, row.port, f"names {row.shown()}, which row {other.number.text} names too")
        for name, port in self.ports.items():
            if name in self.tap or port.mode == "linkage":
                continue
            for bit in port.bits:
                index = int(bit[len(port.name) + 1 : -1]) if bit != port.name else None
                if (name, index) not in seen:
                    raise Broken(self.sections.first("BOUNDARY_REGISTER"), f"no row names {bit.replace('[', '(').replace(']', ')')}")

    def check_values(self):
        values = {}
        for row in self.rows:
            if row.control:
                other = values.setdefault(int(row.control.text), row)
                if other.disable.text != row.disable.text:
                    self.refuse(row, row.disable, f"turns off by {row.disable.text} at control row {row.control.text}, and row {other.number.text} by {other.disable.text}")


# The other rules


def check_names(sections):
    ports, place = sections.ports(), sections.first("PORT")
    entity, package, constant = (sections.taken[at][0].strip('"') for at in (1, sections.value_of_generic(), sections.starts["PIN_MAP_STRING"] + 1))
    before = set()
    for port in ports:
        if port.name.lower() in before:
            raise Broken(place, f"the port {port.name} stands twice")
        if port.name.lower() in (entity.lower(), package.lower()):
            raise Broken(place, f"the port {port.name} has the name of the entity or of the pin map")
        before.add(port.name.lower())
    count = sum(len(port.bits) for port in ports)
    if count > 4096:
        raise Broken(place, f"there are {count} port bits, more than 4,096")
    if constant.lower() != package.lower():
        raise Broken(sections.first("PIN_MAP_STRING"), f"the constant is {constant}, and the generic's string {package}")
    named = [sections.taken[at + 3] for name, at in sections.starts.items() if not name.startswith(("TAP_SCAN_", "PORT", "PIN_MAP_STRING"))]
    for name, there in [*named, sections.taken[-2]]:
        if name.lower() != entity.lower():
            raise Broken(there, f"{name} isn't the entity, which is {entity}")


def check_tap(sections):
    ports = {port.name.lower(): port for port in sections.ports()}
    for section, (name, place) in sections.tap().items():
        mode, port = "out" if section == "TAP_SCAN_OUT" else "in", ports.get(name.lower())
        if port is None or port.bits != [port.name] or port.mode != mode:
            raise Broken(place, f"{name} is no port of one bit with the mode `{mode}`")
    twice([Run(name, place) for name, place in sections.tap().values()], "the test access pin")


def check_length(sections):
    if not 2 <= sections.number("INSTRUCTION_LENGTH") <= 32:
        raise Broken(sections.first("INSTRUCTION_LENGTH"), "the instruction length isn't from 2 to 32")


def check_capture(sections):
    length, bits = sections.number("INSTRUCTION_LENGTH"), sections.entries("INSTRUCTION_CAPTURE")
    if len(bits.text) != length:
        raise Broken(bits.place, f"what is captured has {len(bits.text)} bits, and the instruction register {length}")
    if not bits.text.endswith("01"):
        raise Broken(bits.place, "what is captured doesn't end in 01")


# The rules that are told at a section's first word.
RULES = {
    "PORT": check_names,
    "PIN_MAP_STRING": check_pin_map,
    "TAP_SCAN_IN": check_tap,
    "INSTRUCTION_LENGTH": check_length,
    "INSTRUCTION_OPCODE": check_opcodes,
    "INSTRUCTION_CAPTURE": check_capture,
    "REGISTER_ACCESS": check_access,
    "BOUNDARY_LENGTH": check_numbers,
    "BOUNDARY_REGISTER": lambda sections: Rows(sections).check(),
}


def is_bsdl(text):
    return re.match(r"(?:\s|--[^\n]*)*entity\b", text, re.I) is not None


def broken_at(text, place):
    """What is broken in the string or section whose first byte is at the place; None where nothing is found."""
    try:
        sections = Sections(text)
        name, is_string = sections.at_place(place)
        if is_string and name in READERS:
            entries = sections.entries(name)
            if name == "REGISTER_ACCESS" and entries[1]:
                return Broken(entries[1][0][0].place, f"{entries[1][0][0].text} is a register of the design's own, which `statusbsdl` alone takes")
        elif is_string and name == "COMPONENT_CONFORMANCE":
            return Broken(place, 'the standard that is taken is "STD_1149_1_2001"')
        elif name in RULES and not is_string:
            RULES[name](sections)
    except Broken as broken:
        return broken
    except Fault:
        pass
    return None
