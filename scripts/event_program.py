"""A test program as it grows: lines of events, and the chip as they leave it. What it expects is worked out by a model of
the test logic in which nothing is known of the core."""
import copy
from dataclasses import dataclass

from machine import HOLDING, IDLE, NEXT, STABLE, X, Z, TestLogic, bits_of, inverse, way

# What a text may have at most, and less.
MOST_BYTES = 16_000_000
UPDATES = ("Update-DR", "Update-IR")


class Full(Exception):
    """There is no more room."""


def drawn(count, seed):
    """So many bits that look random."""
    bits, state = [], seed
    for _ in range(count):
        bits.append(state & 1)
        state = (state >> 1) ^ (0xB8 if state & 1 else 0)
    return bits


def in_turn(count, first):
    return [(first + place) % 2 for place in range(count)]


@dataclass
class Look:
    """A line that expects at a pin what the core gives, by the number of the look that tells it."""

    pin: str
    number: int


class Captured(str):
    """An unknown value, X, that was captured of a pin, at which a look told it."""

    number = None


class Program:
    """The lines so far, and the chip as they leave it. Of two twins each gives the test logic the inverse of what the
    other gives where the core can't see it."""

    def __init__(self, device, most, is_twin=False):
        self.device, self.lines, self.size = device, [], 0
        self.count, self.most = 0, most
        # Whether what isn't known is looked at too; how many such looks there are; and those that tell what stands at pins
        # where no instruction holds them, as long as nothing is put to a pin.
        self.learns, self.looks, self.told, self.is_twin = False, 0, {}, is_twin
        self.opcodes = {name: bits_of(opcode) for name, opcode in device.opcodes.items()}
        self.levels = {device.tck: 0, device.tms: 1, device.tdi: 0, device.trst: 0}
        self.add("events 1")
        outside = {}
        for port in device.ports:
            for pin in port.bits if port.mode in ("in", "inout") else ():
                value = Z if port.mode == "inout" else int(pin == device.tms)
                self.add(f"start {pin} {value}")
                outside[pin] = value
        self.logic = TestLogic(device, outside)
        self.seen = [device.row_of(pin) for port in device.ports if port.mode in ("out", "inout") for pin in port.bits if device.row_of(pin)]
        driving = [row for row in device.rows if row.pin]
        self.inputs = [row.pin for row in driving if row.is_read() or row.function == "bidir"]
        self.inouts = [row.pin for row in driving if row.function == "bidir"]
        # Inputs that may be clocks, clears or presets of the core, which reads them under each instruction.
        self.clocks = [row.pin for row in driving if row.cell == "BC_4"]
        # An instruction for each register.
        self.registers = [name for name in ("BYPASS", "PRELOAD", "IDCODE") if name in device.opcodes]
        # Room for the end.
        self.most -= len(self.seen) + 8

    # Lines

    def add(self, line):
        self.lines.append(line)
        self.size += len(f"expect {line.pin} 0" if isinstance(line, Look) else line) + 1
        self.count += 1
        if self.count > self.most or self.size > MOST_BYTES:
            raise Full

    def say(self, text):
        """A comment, which is no event."""
        self.lines.append(f"# {text}")
        self.size += len(text) + 3

    def set(self, pin, level):
        """A pin of the test access port takes a level, where it has another."""
        if self.levels[pin] == level:
            return
        self.add(f"set {pin} {level}")
        self.levels[pin] = level
        device, logic = self.device, self.logic
        if self.levels[device.trst] == 0:
            logic.reset()
        elif pin == device.tck and level == 1:
            logic.rise(self.levels[device.tms], self.levels[device.tdi])
        elif pin == device.tck:
            logic.fall()

    def put(self, pin, value):
        """An input or an inout takes a value from outside."""
        self.told = {}
        if self.logic.outside[pin] != value:
            self.add(f"set {pin} {value}")
            self.logic.outside[pin] = value
            if self.levels[self.device.trst] == 0:
                self.logic.reset()

    def expect(self, pin, value):
        if value != X:
            self.add(f"expect {pin} {value}")
        elif isinstance(value, Captured):
            self.add(Look(pin, value.number))
        elif self.learns:
            self.add(Look(pin, self.number_of(pin)))

    def number_of(self, pin):
        """The number of the look at what isn't known at a pin: the same one where that can't have changed."""
        if pin == self.device.tdo or self.logic.in_effect() in HOLDING:
            self.looks += 1
            return self.looks - 1
        if pin not in self.told:
            self.told[pin] = self.looks
            self.looks += 1
        return self.told[pin]

    def lines_with(self, values):
        """The program's lines, with what the looks tell, by their numbers, where it is known. A pin that was let go has
        told nothing of what was captured."""
        for line in self.lines:
            if not isinstance(line, Look):
                yield line
            elif values.get(line.number, X) != X and (line.pin, values[line.number]) != (self.device.tdo, Z):
                yield f"expect {line.pin} {values[line.number]}"

    def look_at_tdo(self):
        self.expect(self.device.tdo, self.logic.tdo)

    def look_at_pins(self):
        for row in self.seen:
            self.expect(row.pin, self.logic.reading(row))

    def look(self):
        self.look_at_tdo()
        self.look_at_pins()

    # Cycles of TCK

    def clock(self, tms, tdi=0, rise=False, pins=False, shaken=False):
        """A cycle; TDO is looked at behind it, and where it is asked for also between the edges, and the pins behind
        both. Where it is shaken, TMS and TDI have other levels while TCK is 1."""
        device = self.device
        self.set(device.tms, tms)
        self.set(device.tdi, tdi)
        self.set(device.tck, 1)
        if rise:
            self.look_at_tdo()
        if pins:
            self.look_at_pins()
        if shaken:
            self.set(device.tms, 1 - tms)
            self.set(device.tdi, 1 - tdi)
        self.set(device.tck, 0)
        self.look_at_tdo()
        if pins:
            self.look_at_pins()

    def move(self, levels, rise=True, pins=False):
        """Cycles with these levels of TMS. With `pins` these are looked at where an update register may move."""
        for level in levels:
            self.clock(int(level), 0, rise, pins and NEXT[self.logic.state][int(level)] in UPDATES)

    def shift(self, bits, pauses=(), looks=0, rise=False, shaken=False):
        """A cycle a bit; behind each of the pauses it goes through the pause state and back. Looks at the pins are
        spread over it."""
        looked = {(number + 1) * len(bits) // (looks + 1) for number in range(looks)}
        for number, bit in enumerate(bits):
            is_last = number == len(bits) - 1
            if number + 1 in pauses and not is_last:
                self.clock(1, bit, rise)
                self.move("0010", rise)
            else:
                self.clock(int(is_last), bit, rise, number in looked, shaken)

    def data(self, bits, before="100", after="10", pins=False, **more):
        """From Run-Test/Idle through the register that the instruction selects, and back."""
        self.move(before, False)
        self.shift(bits, **more)
        self.move(after, False, pins)

    def code(self, bits, after="10", pins=False, **more):
        """From Run-Test/Idle through the instruction register, and back."""
        self.move("1100")
        self.shift(bits, rise=True, **more)
        self.move(after, True, pins)

    def plain_scan(self, before, bits):
        """A scan as `vectors` makes it, with a look at the pins behind Update."""
        self.move(before, False)
        self.shift(bits)
        self.clock(1)
        self.look_at_pins()
        self.clock(0)

    def begin(self):
        """It leaves reset."""
        self.look()
        self.set(self.device.trst, 1)
        self.look()

    def shift_part(self, bits):
        """Bits of a scan that goes no further."""
        for bit in bits:
            self.clock(0, bit, True)

    def sample(self, bits):
        """A data scan under SAMPLE. What it captures of outputs is what stands at their pins."""
        self.move("10", False)
        told = {}
        for row in self.seen if self.learns else ():
            if self.logic.reading(row) == X:
                told[row.number] = Captured(X)
                told[row.number].number = self.number_of(row.pin)
                self.expect(row.pin, X)
        self.set(self.device.tms, 0)
        self.set(self.device.tck, 1)
        for number, value in told.items():
            if self.logic.boundary[number] == X:
                self.logic.boundary[number] = value
        self.set(self.device.tck, 0)
        self.look_at_tdo()
        self.shift(bits)
        self.move("10", False)

    def load(self, name, **more):
        self.code(self.opcodes[name], **more)

    def go_to(self, state, rise=True):
        self.move(way(self.logic.state, state), rise)

    def length(self):
        """Of the register between TDI and TDO."""
        return self.device.register_length(self.logic.selected())

    # What is outside

    def rest(self):
        """Inputs at 0, and inouts left alone."""
        for pin in self.inputs:
            self.put(pin, Z if pin in self.inouts else 0)

    def number_pins(self, turn, driven):
        """Up to Shift-DR. Inputs, and inouts where they are driven, show a bit of their numbers while it is captured,
        and inputs then the other."""
        self.move("10", False)
        self.show_numbers(turn, driven)
        self.move("0", False)
        for pin in self.inputs:
            if pin not in self.inouts:
                self.put(pin, 1 - self.logic.outside[pin])

    def show_numbers(self, turn, driven):
        place = turn // 2 % max(1, (len(self.device.rows) - 1).bit_length())
        for row in map(self.device.row_of, self.inputs):
            self.put(row.pin, (row.number >> place ^ turn) & 1 if row.is_read() or driven else Z)

    def on_row(self, bits=None):
        """All drivers on, and these bits besides, or bits that look random."""
        bits = bits or drawn(len(self.device.rows), 0x5D)
        return [1 - self.device.disable_of(row.number) if row.function == "control" else bit for row, bit in zip(self.device.rows, bits)]

    def off_row(self):
        """All drivers off, and 0 besides."""
        return [self.device.disable_of(row.number) if row.function == "control" else 0 for row in self.device.rows]

    def trst_pulse(self, is_high, looks):
        """TRST goes to 0 with TCK at 0 or at 1, which may not act then, and back to 1."""
        device = self.device
        if is_high:
            self.set(device.tck, 1)
        self.set(device.trst, 0)
        self.look_at_tdo()
        if looks:
            self.look_at_pins()
        self.set(device.tck, 0)
        self.look_at_tdo()
        if is_high:
            self.move("00")
            self.clock(1, 1, True)
            self.clock(0, 1, True)
        self.set(device.trst, 1)
        self.look_at_tdo()

    # What is kept so that a step can be taken back

    def mark(self):
        logic = copy.copy(self.logic)
        logic.outside = dict(self.logic.outside)
        for name in ("instruction", "ident", "boundary"):
            setattr(logic, name, getattr(self.logic, name).copy())
        return len(self.lines), self.size, self.count, self.looks, dict(self.levels), logic

    def back_to(self, mark):
        length, self.size, self.count, self.looks, self.levels, self.logic = mark
        del self.lines[length:]

    def take(self, group, most=None):
        """Adds the steps of a group for which there is room, and which are so many at most; None where these are all, or
        the number and the name of the first that was left out."""
        self.say(group.__doc__)
        self.told = {}
        mark, steps, name = self.mark(), 0, "all of it"
        if most == 0:
            return steps, name
        try:
            for name in group(self):
                mark, steps = self.mark(), steps + 1
                if steps == most:
                    return steps, name
        except Full:
            self.back_to(mark)
            self.say(f"left out for want of room, from here on: {name}")
            return steps, name
        return None

    def end(self):
        """Into reset; for that there always is room."""
        self.most = float("inf")
        self.set(self.device.trst, 0)
        self.look()


class StillProgram(Program):
    """A program that SVF can say. TDO is looked at behind falling edges in shift states, TRST moves and other pins are
    worked and looked at in stable states, and these are so where `works_pins` says it; else they keep their levels."""

    def __init__(self, device, most, works_pins):
        self.works_pins, self.is_owed = works_pins, False
        super().__init__(device, most)

    def is_stable(self):
        return self.logic.state in STABLE and self.levels[self.device.tck] == 0

    def put(self, pin, value):
        if self.works_pins and self.is_stable():
            super().put(pin, value)

    def look_at_tdo(self):
        if self.logic.state.startswith("Shift") and self.levels[self.device.tck] == 0:
            super().look_at_tdo()

    def look_at_pins(self):
        """Now, or in the next stable state."""
        self.is_owed = self.works_pins and not self.is_stable()
        if self.works_pins and self.is_stable():
            super().look_at_pins()

    def clock(self, tms, tdi=0, rise=False, pins=False, shaken=False):
        super().clock(tms, tdi)
        if pins or self.is_owed:
            self.look_at_pins()

    def shift_part(self, bits):
        """It ends in the pause."""
        super().shift_part(bits[:-1])
        self.clock(1, bits[-1])
        self.clock(0)

    def number_pins(self, turn, driven):
        """A scan in SVF works no pin: only in Run-Test/Idle they have their numbers."""
        self.show_numbers(turn, driven)
        self.move("100")

    def trst_pulse(self, is_high, looks):
        self.set(self.device.trst, 0)
        if looks:
            self.look_at_pins()
        self.set(self.device.trst, 1)
