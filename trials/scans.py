"""OpenOCD scans a netlist that Icarus Verilog plays. All that it is told is what the BSDL file says."""
import os, re, sys

from bridge import bench, bridged, simulated
from chips import Module, text_of

MARK = [1, 0, 1, 1, 0, 0, 1, 0]
# The instructions under which the update stages hold the pins.
HOLDING = ("EXTEST", "CLAMP", "HIGHZ")


class Row:
    def __init__(self, fields):
        self.kind, self.pin, self.function = fields[0], fields[1].replace("(", "[").replace(")", "]"), fields[2]
        self.control, self.disable = (int(fields[4]), int(fields[5])) if len(fields) > 4 else (None, None)

    def is_input(self):
        return self.function in ("input", "clock")


class Device:
    """What a BSDL file says, as far as the scans need it."""

    def __init__(self, text):
        self.text = text
        self.tap = {name: re.search(rf"TAP_SCAN_{name} of (\w+) :", text)[1] for name in ("IN", "MODE", "OUT", "RESET", "CLOCK")}
        self.length = int(self.value("INSTRUCTION_LENGTH"))
        self.opcodes = dict(re.findall(r"(\w+) \((\d+)\)", self.value("INSTRUCTION_OPCODE")))
        self.capture = self.strings("INSTRUCTION_CAPTURE")
        self.code, usercode = (self.strings(name) if name in text else None for name in ("IDCODE_REGISTER", "USERCODE_REGISTER"))
        # What comes out of the identification register, the bit nearest TDO first.
        self.codes = {"IDCODE": self.bits(self.code), "USERCODE": self.bits(usercode)}
        rows = re.findall(r"\d+ \((\w+, (?:[^()]|\(\d+\))*)\)", self.strings("BOUNDARY_REGISTER"))
        self.rows = [Row(fields.split(", ")) for fields in rows]
        lengths = {"BOUNDARY": int(self.value("BOUNDARY_LENGTH")), "BYPASS": 1, "DEVICE_ID": 32}
        access = self.strings("REGISTER_ACCESS")
        self.lengths = {
            instruction: lengths[register]
            for register, names in re.findall(r"(\w+) \(([^)]*)\)", access)
            for instruction in names.split(", ")
        }
        # The registers of the design's own by their instructions: a name and a length.
        self.own = {instruction: (name, int(length)) for name, length, instruction in re.findall(r"(\w+)\[(\d+)\] \((\w+)\)", access)}
        self.lengths |= {instruction: length for instruction, (_, length) in self.own.items()}

    def value(self, attribute):
        return re.search(rf"attribute {attribute} of \w+ : entity is\s+([^;]*);", self.text)[1]

    @staticmethod
    def bits(code):
        return [int(bit) for bit in reversed(re.sub(" ", "", code or ""))]

    def strings(self, attribute):
        return "".join(re.findall(r'"([^"]*)"', self.value(attribute)))


def drive(device, last):
    """The bits that are shifted into the boundary register before the last instruction, and what each output then
    reads."""
    bits = [(number * number + number // 3) % 2 for number in range(len(device.rows))]
    # Of the control cells every other lets its outputs go.
    controls = sorted({row.control for row in device.rows if row.control is not None})
    disables = {row.control: row.disable for row in device.rows}
    for place, number in enumerate(controls):
        bits[number] = disables[number] if place % 2 else 1 - disables[number]
    readings = {}
    for number, row in enumerate(device.rows):
        if row.function in ("output2", "output3", "bidir"):
            let_go = last == "HIGHZ" or row.control is not None and bits[row.control] == row.disable
            readings[row.pin] = "z" if let_go else str(bits[number])
    return bits, readings


def scan(bits):
    return "drscan chip.tap " + " ".join(f"1 {bit}" for bit in bits)


def load(code):
    return f"irscan chip.tap 0x{int(code, 2):x}"


def instruct(device, name):
    return load(device.opcodes[name])


def opening(device, path, resets="trst_only"):
    """OpenOCD's first steps: it finds the chip, where this has a code by its code."""
    identification = f" -expected-id 0x{int(device.code, 2):08x}" if device.code else ""
    yield from ("adapter driver remote_bitbang", "remote_bitbang port 0", f"remote_bitbang host {path}", f"reset_config {resets}")
    yield "adapter speed 1000; gdb_port disabled; tcl_port disabled; telnet_port disabled"
    yield f"jtag newtap chip tap -irlen {device.length} -ircapture 0x{int(device.capture, 2):x} -irmask 0x{2 ** device.length - 1:x}{identification}"
    yield "init"


def steps(device, path, bits, last):
    """What OpenOCD is to do; each line that it echoes begins with what it is."""
    yield from opening(device, path)
    for name in device.opcodes:
        if name not in HOLDING:
            length = device.lengths.get(name, 1)
            yield instruct(device, name)
            yield f'echo "length {name} [{scan(MARK + [0] * length)}]"'
    yield instruct(device, "SAMPLE")
    yield f'echo "capture SAMPLE [{scan(bits)}]"'
    yield instruct(device, "PRELOAD")
    yield scan(bits)
    yield instruct(device, "EXTEST")
    yield f'echo "capture EXTEST [{scan(bits)}]"'
    yield instruct(device, last)
    yield "runtest 1; shutdown"


def warnings_of(said):
    return re.findall(r"^(?:Warn|Error)(?! : gdb services).*$", said, re.M)


def scanned(said, device, values):
    """What the scans are to show by the BSDL file and what they showed, by what is compared."""
    wanted, told = {"warnings": []}, {"warnings": warnings_of(said)}
    if device.code:
        wanted["code"], told["code"] = True, f"tap/device found: 0x{int(device.code, 2):08x}" in said
    echoed = re.findall(r"^(length|capture) (\w+) ((?:[01]+ ?)+)$", said, re.M)
    bits = {(kind, name): [int(bit) for bit in shown.split()] for kind, name, shown in echoed}
    for name in device.opcodes:
        if name not in HOLDING:
            # What was shifted in comes out behind the register's own bits.
            length = device.lengths.get(name, 1)
            wanted["length", name], told["length", name] = MARK, bits.get(("length", name), [])[length:]
            if name in device.codes:
                wanted["code", name], told["code", name] = device.codes[name], bits.get(("length", name), [])[:length]
    for name in ("SAMPLE", "EXTEST"):
        captured = bits.get(("capture", name), [])
        wanted["captured", name], told["captured", name] = len(device.rows), len(captured)
        for bit, row in zip(captured, device.rows):
            if row.is_input():
                wanted["capture", name, row.pin], told["capture", name, row.pin] = values[row.pin], bit
    return wanted, told


def pins_read(pins, module):
    """The readings that the bench printed at its end, by pin."""
    read = dict(line.split() for line in pins.split("\n") if " " in line)
    return {pin: value for port in module.ports for pin, value in zip(port.pins(), read.get(port.name, ""))}


def scan_trial(room, netlist, models, device, last):
    """How many things were compared in one trial that ends with the instruction; the trial ends where one differs."""
    module = Module(text_of(netlist))
    inputs = [row.pin for row in device.rows if row.is_input()]
    values = {pin: (number + number // 2 + 1) % 2 for number, pin in enumerate(inputs)} | {device.tap["MODE"]: 1}
    simulation = simulated(room, bench(module, device.tap, values), netlist, *models)
    bits, readings = drive(device, last)
    said, pins = bridged(room, simulation, steps(device, os.path.join(room, "bits"), bits, last))
    wanted, told = scanned(said, device, values)
    wanted |= readings
    told |= {pin: value for pin, value in pins_read(pins, module).items() if pin in readings}
    differing = [(what, wanted[what], told.get(what)) for what in wanted if wanted[what] != told.get(what)]
    if differing:
        sys.exit(f"{netlist}, {last}: {differing[:4]}\n{said[-3000:]}")
    return len(wanted)


def scan_trials(room, netlist, models, device):
    """What the trials found, by the instruction at the end of each."""
    counts = {last: scan_trial(room, netlist, models, device, last) for last in HOLDING if last in device.opcodes}
    return ", ".join(f"{count} ({last})" for last, count in counts.items())
