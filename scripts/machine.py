"""The test logic of a device at work, by IEEE Std 1149.1-2001: the controller, the registers, and what is known at the
pins where nothing is known of the core. Bits are 0, 1 and X; a pin may be Z besides. In a list of bits place 0 is
nearest TDO."""
from collections import deque

from boundary import BOUNDARY, BYPASS, DEVICE_ID, REGISTERS

X, Z = "x", "z"
RESET, IDLE = "Test-Logic-Reset", "Run-Test/Idle"
# Each state of the controller, and those that follow it where TMS is 0 and 1.
NEXT = {RESET: (IDLE, RESET), IDLE: (IDLE, "Select-DR-Scan")}
for _kind, _other in (("DR", "Select-IR-Scan"), ("IR", RESET)):
    NEXT[f"Select-{_kind}-Scan"] = (f"Capture-{_kind}", _other)
    NEXT[f"Capture-{_kind}"] = NEXT[f"Shift-{_kind}"] = (f"Shift-{_kind}", f"Exit1-{_kind}")
    NEXT[f"Exit1-{_kind}"] = (f"Pause-{_kind}", f"Update-{_kind}")
    NEXT[f"Pause-{_kind}"] = (f"Pause-{_kind}", f"Exit2-{_kind}")
    NEXT[f"Exit2-{_kind}"] = (f"Shift-{_kind}", f"Update-{_kind}")
    NEXT[f"Update-{_kind}"] = (IDLE, "Select-DR-Scan")
STABLE = (RESET, IDLE, "Pause-DR", "Pause-IR")
# The instructions under which update bits stand at the pins; under HIGHZ nothing drives them.
HOLDING = ("EXTEST", "CLAMP", "HIGHZ")


def way(start, end):
    """The shortest levels of TMS from one state to another."""
    found, seen = deque([(start, ())]), {start}
    while found:
        state, levels = found.popleft()
        if state == end:
            return list(levels)
        for level in (0, 1):
            after = NEXT[state][level]
            if after not in seen:
                seen.add(after)
                found.append((after, levels + (level,)))
    raise ValueError(f"no state {end}")


def bits_of(text):
    """The bits of an opcode or a code, the one nearest TDO first."""
    return [int(bit) for bit in reversed(text)]


def inverse(bits):
    return [bit if bit == X else 1 - bit for bit in bits]


def drive(value, enable):
    """What a driver gives that 1 enables."""
    return Z if enable == 0 else value if enable == 1 else X


def join(one, other):
    """What a pin reads that two drive."""
    if Z in (one, other):
        return other if one == Z else one
    return one if one == other else X


class TestLogic:
    """It begins in reset; `outside` is what stands at each input and inout, by pin."""

    def __init__(self, device, outside):
        self.device, self.outside = device, outside
        self.reset_opcode = bits_of(device.opcodes.get("IDCODE") or device.opcodes["BYPASS"])
        self.named = {}
        for name in REGISTERS:
            if name in device.opcodes:
                self.named.setdefault(tuple(bits_of(device.opcodes[name])), name)
        self.code = bits_of(device.code) if device.code else []
        self.usercode = bits_of(device.usercode) if device.usercode else self.code
        self.capture = bits_of(device.capture)
        self.reset()

    def reset(self):
        """TRST is 0."""
        count = len(self.device.rows)
        self.state, self.tdo, self.bypass = RESET, Z, 0
        self.instruction, self.latched = deque([0] * self.device.length), self.reset_opcode
        self.ident, self.boundary, self.update = deque([0] * len(self.code)), deque([0] * count), [0] * count

    def in_effect(self):
        return self.named.get(tuple(self.latched), "BYPASS")

    def selected(self):
        return REGISTERS[self.in_effect()]

    def own(self, row):
        """What the driver of a cell's pin gives."""
        name = self.in_effect()
        if name == "HIGHZ":
            return Z if row.control is not None else self.update[row.number]
        if name not in HOLDING:
            return X
        value = self.update[row.number]
        if row.control is None:
            return value
        level = self.update[row.control]
        return drive(value, inverse([level])[0] if row.disable else level)

    def reading(self, row):
        """What the pin of a cell reads."""
        if row.is_read():
            return self.outside[row.pin]
        return join(self.own(row), self.outside[row.pin]) if row.function == "bidir" else self.own(row)

    def captured(self, row):
        extest = self.in_effect() == "EXTEST"
        if row.is_read() or (row.function == "bidir" and extest):
            value = self.reading(row)
            return X if value == Z else value
        return self.update[row.number] if row.cell == "BC_2" and extest else X

    def captured_code(self):
        return self.usercode if self.in_effect() == "USERCODE" else self.code

    def shift(self, register, bit):
        register.popleft()
        register.append(bit)

    def rise_of_data(self, tdi):
        selected, captures = self.selected(), self.state == "Capture-DR"
        if selected == BYPASS:
            self.bypass = 0 if captures else tdi
        elif captures:
            fresh = self.captured_code() if selected == DEVICE_ID else [self.captured(row) for row in self.device.rows]
            setattr(self, "ident" if selected == DEVICE_ID else "boundary", deque(fresh))
        else:
            self.shift(self.ident if selected == DEVICE_ID else self.boundary, tdi)

    def rise(self, tms, tdi):
        """A rising edge of TCK: the present state acts, and then the controller moves."""
        if self.state == "Capture-IR":
            self.instruction = deque(self.capture)
        elif self.state == "Shift-IR":
            self.shift(self.instruction, tdi)
        elif self.state in ("Capture-DR", "Shift-DR"):
            self.rise_of_data(tdi)
        self.state = NEXT[self.state][tms]

    def nearest(self):
        """The bit nearest TDO of the register that the instruction selects."""
        selected = self.selected()
        return self.bypass if selected == BYPASS else self.ident[0] if selected == DEVICE_ID else self.boundary[0]

    def fall(self):
        """A falling edge of TCK."""
        self.tdo = self.nearest() if self.state == "Shift-DR" else self.instruction[0] if self.state == "Shift-IR" else Z
        if self.state == "Update-IR":
            self.latched = list(self.instruction)
        elif self.state == RESET:
            self.latched = self.reset_opcode
        elif self.state == "Update-DR" and self.selected() == BOUNDARY:
            self.update = [0 if row.cell == "BC_4" else bit for row, bit in zip(self.device.rows, self.boundary)]
