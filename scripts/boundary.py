"""What a BSDL file says of a chip, in the form that `insert` writes and `showbsdl` gives."""
import re
from dataclasses import dataclass, field
from typing import Dict, List, Optional

from command import Fault, text_of

WORD = re.compile(r'\s+|--[^\n]*|"[^"\n]*"|[A-Za-z]\w*|\d+(?:\.\d+(?:[eE][+-]?\d+)?)?|:=|[():;,&.*]')
ROW = re.compile(r"(\d+)\s*\(\s*(\w+)\s*,\s*(\*|\w+(?:\s*\(\s*\d+\s*\))?)\s*,\s*(\w+)\s*,\s*([01X])\s*(?:,\s*(\d+)\s*,\s*([01])\s*,\s*Z\s*)?\)", re.I)
# What is between TDI and TDO under each instruction.
BOUNDARY, BYPASS, DEVICE_ID = "BOUNDARY", "BYPASS", "DEVICE_ID"
REGISTERS = dict(EXTEST=BOUNDARY, SAMPLE=BOUNDARY, PRELOAD=BOUNDARY, BYPASS=BYPASS, IDCODE=DEVICE_ID, HIGHZ=BYPASS, CLAMP=BYPASS, USERCODE=DEVICE_ID)
FUNCTIONS = ("input", "clock", "output2", "output3", "bidir", "control")
# What to do with the file of a device that has registers of the design's own.
OWN = "where it selects a register of the design's own, give the file that `insert` writes for the same netlist and plan"


@dataclass
class Port:
    name: str
    mode: str
    # Its bits from the left, as events spell them: `a`, or `q[7]`.
    bits: List[str]


@dataclass
class Row:
    """A cell of the boundary register."""

    number: int
    cell: str
    # The bit as events spell it; None of a control cell.
    pin: Optional[str]
    function: str
    safe: str
    # The number of the control cell of its driver, and the value there that turns the driver off.
    control: Optional[int] = None
    disable: Optional[int] = None

    def is_read(self):
        """Whether it is the cell of an input, which only captures."""
        return self.function in ("input", "clock")

    def drives(self):
        return self.function in ("output2", "output3", "bidir")


@dataclass
class Device:
    entity: str
    package: str
    ports: List[Port]
    # The pin of the package that each bit of a port has, linkage too.
    physical: Dict[str, str]
    tdi: str = ""
    tms: str = ""
    tdo: str = ""
    trst: str = ""
    tck: str = ""
    rate: str = ""
    stops: str = ""
    length: int = 0
    # Of bits as the file has them the rightmost is nearest TDO.
    opcodes: Dict[str, str] = field(default_factory=dict)
    capture: str = ""
    code: Optional[str] = None
    usercode: Optional[str] = None
    rows: List[Row] = field(default_factory=list)

    def tap(self):
        return (self.tck, self.tms, self.tdi, self.tdo, self.trst)

    def row_of(self, pin):
        return self.row_of_pin.get(pin)

    def index(self):
        """Finds rows by pin, and the rows that each control cell turns off."""
        self.row_of_pin = {row.pin: row for row in self.rows if row.pin}
        self.controlled = {row.number: [] for row in self.rows if row.function == "control"}
        for row in self.rows:
            if row.control is not None:
                self.controlled[row.control].append(row)

    def disable_of(self, number):
        """The value of a control cell that turns its drivers off."""
        return self.controlled[number][0].disable

    def register_length(self, register):
        return {BOUNDARY: len(self.rows), BYPASS: 1, DEVICE_ID: 32}[register]


def spans(numbers):
    """Numbers as `4, 6-12`."""
    runs = []
    for number in sorted(numbers):
        if runs and number == runs[-1][1] + 1:
            runs[-1][1] = number
        else:
            runs.append([number, number])
    return ", ".join(str(first) if first == last else f"{first}-{last}" for first, last in runs)


def never_off(device):
    """A warning of the outputs that no row turns off, where there are any."""
    always = [row for row in device.rows if row.function == "output2"]
    if always:
        cells = f"cell{'s' * (len(always) > 1)} {spans(row.number for row in always)}"
        yield f"WARNING: no row turns these outputs off, which under EXTEST and CLAMP drive their bits: {cells}"


class Words:
    """The words of a BSDL file, which are taken one after another."""

    def __init__(self, text):
        self.words, place = [], 0
        while place < len(text):
            found = WORD.match(text, place)
            if not found:
                raise Fault(f"line {text.count(chr(10), 0, place) + 1}: {text[place]!r} begins no word of BSDL")
            if found[0].strip() and not found[0].startswith("--"):
                self.words.append((found[0], place))
            place = found.end()
        self.text, self.at = text, 0

    def next(self):
        return self.words[self.at][0] if self.at < len(self.words) else ""

    def line(self):
        place = self.words[self.at][1] if self.at < len(self.words) else len(self.text)
        return self.text.count("\n", 0, place) + 1

    def refuse(self, wanted):
        shown = self.next() or "the end"
        raise Fault(f"line {self.line()}: {shown} stands where {wanted} belongs; is this a file that `showbsdl` wrote?")

    def one(self):
        word = self.next()
        self.at += 1
        return word

    def take(self, text):
        """These words, without regard to case."""
        for word in text.split():
            if self.next().lower() != word.lower():
                self.refuse(word)
            self.at += 1

    def took(self, word):
        is_it = self.next().lower() == word.lower()
        self.at += is_it
        return is_it

    def name(self):
        if not self.next()[:1].isalpha():
            self.refuse("a name")
        return self.one()

    def integer(self):
        if not self.next().isdigit():
            self.refuse("a number")
        return int(self.one())

    def string(self):
        pieces = []
        while True:
            if not self.next().startswith('"'):
                self.refuse("a string")
            pieces.append(self.one()[1:-1])
            if not self.took("&"):
                return "".join(pieces)

    def attribute(self, name):
        """The head of an attribute of the entity; behind it stands the value."""
        self.take(f"attribute {name} of")
        self.name()
        self.take(": entity is")

    def text_attribute(self, name):
        self.attribute(name)
        value = self.string()
        self.take(";")
        return value

    def count_attribute(self, name):
        self.attribute(name)
        value = self.integer()
        self.take(";")
        return value

    def next_attribute(self):
        """The name of the attribute that comes next, if one does."""
        return self.words[self.at + 1][0].upper() if self.next().lower() == "attribute" else ""

    def signal(self, name):
        self.take(f"attribute {name} of")
        port = self.name()
        self.take(": signal is")
        return port


def ports_of(words):
    words.take("port (")
    while True:
        names = [words.name()]
        while words.took(","):
            names.append(words.name())
        words.take(":")
        mode = words.name().lower()
        if mode not in ("in", "out", "inout", "linkage"):
            raise Fault(f"line {words.line()}: the port mode {mode} isn't read here")
        bounds = None
        if not words.took("bit"):
            words.take("bit_vector (")
            left, way, right = words.integer(), words.name().lower(), words.integer()
            words.take(")")
            bounds = range(left, right + 1) if way == "to" else range(left, right - 1, -1)
        for name in names:
            yield Port(name, mode, [name] if bounds is None else [f"{name}[{index}]" for index in bounds])
        if not words.took(";"):
            break
    words.take(") ;")


def physical_of(ports, text):
    """The pin of the package of each bit."""
    known = {port.name.lower(): port for port in ports}
    physical = {}
    for name, pins in re.findall(r"(\w+)\s*:\s*(\w+|\([^)]*\))", text):
        port = known.get(name.lower())
        pins = re.findall(r"\w+", pins)
        if port is None or len(pins) != len(port.bits):
            raise Fault(f"the pin map gives {name} {len(pins)} pins, which is no port of so many bits")
        physical.update(zip(port.bits, pins))
    for port in ports:
        if port.bits[0] not in physical:
            raise Fault(f"the pin map leaves out {port.name}")
    return physical


def spelled_bits(ports):
    """Each bit as events spell it, by how BSDL spells it in lower case."""
    return {bit.replace("[", "(").replace("]", ")").lower(): bit for port in ports for bit in port.bits}


def rows_of(ports, text, count):
    bits = spelled_bits(ports)
    rows = {}
    for number, cell, port, function, safe, control, disable in ROW.findall(text):
        number, pin, function = int(number), None, function.lower()
        if function not in FUNCTIONS or (port == "*") != (function == "control"):
            raise Fault(f"cell {number} has the function {function} at {port}, which isn't read here")
        if port != "*":
            pin = bits.get(re.sub(r"\s", "", port).lower())
            if pin is None:
                raise Fault(f"cell {number} stands at {port}, which is no bit of a port")
        if number in rows:
            raise Fault(f"cell {number} stands twice in the boundary register")
        steered = (int(control), int(disable)) if control else (None, None)
        rows[number] = Row(number, cell.upper(), pin, function, safe.upper(), *steered)
    if sorted(rows) != list(range(count)):
        raise Fault(f"the boundary register has {len(rows)} rows that can be read, and its length is {count}")
    for row in rows.values():
        if (row.control is not None) != (row.function in ("output3", "bidir")):
            raise Fault(f"cell {row.number}: {row.function} with, or without, a control cell")
        if row.control is not None and (row.control not in rows or rows[row.control].function != "control"):
            raise Fault(f"cell {row.number} names cell {row.control} as its control cell, which is none")
    return [rows[number] for number in range(count)]


def head_of(words):
    """From the entity to the pin map: a device without its test logic."""
    words.take("entity")
    entity = words.name()
    words.take("is generic ( PHYSICAL_PIN_MAP : string :=")
    package = words.string()
    words.take(") ;")
    ports = list(ports_of(words))
    words.take("use STD_1149_1_2001 . all ;")
    words.text_attribute("COMPONENT_CONFORMANCE")
    words.attribute("PIN_MAP")
    words.take("PHYSICAL_PIN_MAP ; constant")
    words.name()
    words.take(": PIN_MAP_STRING :=")
    physical = physical_of(ports, words.string())
    words.take(";")
    return Device(entity, package, ports, physical)


def test_access_of(words, device):
    """The five pins of the test access port."""
    spelled = {port.name.lower(): port.name for port in device.ports}

    def port(name):
        if name.lower() not in spelled:
            raise Fault(f"line {words.line()}: {name} is no port")
        return spelled[name.lower()]

    for place, name in (("tdi", "IN"), ("tms", "MODE"), ("tdo", "OUT"), ("trst", "RESET")):
        setattr(device, place, port(words.signal(f"TAP_SCAN_{name}")))
        words.take("true ;")
    device.tck = port(words.signal("TAP_SCAN_CLOCK"))
    words.take("(")
    device.rate = words.one()
    words.take(",")
    device.stops = words.name().upper()
    words.take(") ;")


def code_of(words, name):
    """The bits of an attribute that may be left out."""
    return re.sub(r"\s", "", words.text_attribute(name)) if words.next_attribute() == name else None


def instructions_of(words, device):
    device.length = words.count_attribute("INSTRUCTION_LENGTH")
    opcodes = re.findall(r"(\w+)\s*\(\s*([01]+)\s*\)", words.text_attribute("INSTRUCTION_OPCODE"))
    device.opcodes = {name.upper(): bits for name, bits in opcodes}
    device.capture = words.text_attribute("INSTRUCTION_CAPTURE").strip()
    device.code, device.usercode = (code_of(words, f"{name}_REGISTER") for name in ("IDCODE", "USERCODE"))
    for name, bits in [*device.opcodes.items(), ("what is captured", device.capture)]:
        if len(bits) != device.length:
            raise Fault(f"{name}: {bits} hasn't the length of the instruction register, {device.length}")
    for name in device.opcodes:
        if name not in REGISTERS:
            raise Fault(f"the instruction {name} isn't read here; {OWN}")
    for name in ("BYPASS", "EXTEST", "SAMPLE", "PRELOAD"):
        if name not in device.opcodes:
            raise Fault(f"there is no opcode of {name}")
    for name, code in (("IDCODE", device.code), ("USERCODE", device.usercode)):
        if (name in device.opcodes) != (code is not None) or len(code or "1" * 32) != 32:
            raise Fault(f"{name} and its code of 32 bits don't stand together")
    if device.usercode and not device.code:
        raise Fault("USERCODE stands without IDCODE")


def read_device(path):
    """The device of the BSDL file; a Fault says what can't be read."""
    try:
        words = Words(text_of(path))
        device = head_of(words)
        test_access_of(words, device)
        instructions_of(words, device)
        words.text_attribute("REGISTER_ACCESS")
        count = words.count_attribute("BOUNDARY_LENGTH")
        device.rows = rows_of(device.ports, words.text_attribute("BOUNDARY_REGISTER"), count)
        words.take("end")
        words.name()
        words.take(";")
        if words.next():
            words.refuse("the end")
    except Fault as fault:
        raise Fault(f"{path}: {fault}") from None
    device.index()
    return device
