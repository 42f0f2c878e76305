"""The rows of an interconnect test: which drivers of a board's nets are on together, what each row gives, and what the
pins are to read.

Each net has a number, and drives its bits one row after another, and then their complements. The first bit is 0 in all
numbers, so none is the complement of another. Drivers that share a control cell are on together. In a phase no net has
two drivers on; each control cell is on in some phase, or is told to stay off. All are off between phases.
"""
from collections import defaultdict
from dataclasses import dataclass
from typing import Dict, List, Optional, Tuple

from board import Net, Pin
from boundary import Row
from command import Fault


@dataclass
class Driver:
    pin: Pin
    row: Row
    # The bit of a scan.
    place: int
    # The number of its net, or None where that isn't tested.
    net: Optional[int]

    def cell(self):
        """Its control cell, by the chip; None where nothing turns it off."""
        return (self.pin.chip, self.row.control) if self.row.control is not None else None


@dataclass
class Reader:
    pin: Pin
    place: int


@dataclass
class Step:
    """A row of all chips, by the bits of a scan, and the level of each net, None where it isn't known. A row between
    phases has none."""

    bits: List[str]
    levels: List[Optional[int]]
    phase: Optional[int] = None
    pattern: Optional[int] = None


class NetTest:
    """The nets that can be tested, by number, with their drivers and readers; the others with the reason."""

    def __init__(self, board):
        self.board = board
        self.untested: List[Tuple[Net, str]] = []
        self.nets: List[Net] = []
        for net in board.nets:
            why = self.why_untested(net)
            self.untested.append((net, why)) if why else self.nets.append(net)
        self.number_of = {pin: number for number, net in enumerate(self.nets) for pin in net.pins}
        self.why_of = {pin: why for net, why in self.untested for pin in net.pins}
        self.readers: List[List[Reader]] = [[] for _ in self.nets]
        self.drivers: List[Driver] = []
        self.by_cell: Dict[tuple, List[Driver]] = defaultdict(list)
        for chip in board.chips.values():
            for row in chip.device.rows:
                self.take(chip, row)
        # Drivers that nothing turns off, and the nets that they drive always.
        self.always = [driver for driver in self.drivers if driver.cell() is None]
        self.always_on = {driver.net for driver in self.always if driver.net is not None}
        self.check()
        self.barred = {cell: why for cell, drivers in self.by_cell.items() if (why := self.why_off(drivers))}
        self.phases = list(self.phases_of())
        # The driver of each net that has one in a phase.
        self.driving = [self.drivers_in(cells) for cells in self.phases]
        # The first bit is 0 in all numbers.
        self.width = max(1, (len(self.nets) - 1).bit_length()) + 1

    def why_untested(self, net):
        """Why a net isn't driven: what it has that isn't known, or of the test access port."""
        for pin in net.pins:
            chip = self.board.chips[pin.chip]
            if pin.bit in chip.device.tap():
                return f"{pin} is of the test access port"
            if pin.bit in chip.linkage:
                return f"{pin} is linkage"
        return f"there is {net.others[0]}" if net.others else None

    def take(self, chip, row):
        if row.pin is None:
            return
        pin, place = Pin(chip.name, row.pin), chip.place + row.number
        number = self.number_of.get(pin)
        if row.drives():
            driver = Driver(pin, row, place, number)
            self.drivers.append(driver)
            if row.control is not None:
                self.by_cell[driver.cell()].append(driver)
        elif pin in self.board.holds:
            raise Fault(f"HOLD {pin}: it drives nothing")
        if number is not None and not row.function.startswith("output"):
            self.readers[number].append(Reader(pin, place))

    def check(self):
        """No net has two drivers that are always on, and levels are held where they can be."""
        owners = {}
        for driver in self.always:
            other = owners.setdefault(driver.net, driver)
            if driver.net is not None and other is not driver:
                raise Fault(f"the net {self.nets[driver.net].shown()} has two drivers that nothing turns off, {other.pin} and {driver.pin}")
        for driver in self.drivers:
            level = self.board.holds.get(driver.pin)
            if level == "z" and driver.cell() is None:
                raise Fault(f"HOLD {driver.pin} z: nothing turns it off")
            if level in ("0", "1") and driver.net is not None:
                raise Fault(f"HOLD {driver.pin} {level}: it is in a net whose test gives it levels; HOLD {driver.pin} z keeps it off")

    def why_off(self, drivers):
        """Why a control cell is never turned on; None where it may be."""
        seen = {}
        for driver in drivers:
            if self.board.holds.get(driver.pin) == "z":
                return f"{driver.pin} is held at z"
            if driver.pin in self.why_of:
                return f"{driver.pin} is in a net that isn't tested"
            if driver.net in self.always_on:
                return f"the net of {driver.pin} has a driver that nothing turns off"
            if driver.net is not None and seen.setdefault(driver.net, driver) is not driver:
                return f"{seen[driver.net].pin} and {driver.pin} drive one net"
        return None

    def phases_of(self):
        """Sets of control cells that are on together: each takes those that weren't on yet, and then the others, as long
        as no net has two drivers."""
        nets_of = {cell: {driver.net for driver in drivers} - {None} for cell, drivers in self.by_cell.items() if cell not in self.barred}
        waiting, done = [cell for cell, nets in nets_of.items() if nets], []
        if not waiting and self.always_on:
            yield set()
        while waiting:
            busy, cells = set(self.always_on), set()
            for cell in waiting + done:
                if busy.isdisjoint(nets_of[cell]):
                    busy |= nets_of[cell]
                    cells.add(cell)
            done += [cell for cell in waiting if cell in cells]
            waiting = [cell for cell in waiting if cell not in cells]
            yield cells

    def drivers_in(self, cells):
        on = [driver for cell in cells for driver in self.by_cell[cell]]
        return {driver.net: driver for driver in [*self.always, *on] if driver.net is not None}

    def bit(self, number, pattern):
        """The level of a net in a pattern: its bits from the left, and then their complements."""
        turned, place = divmod(pattern, self.width)
        return (number >> self.width - 1 - place & 1) ^ turned

    def row_of_rest(self):
        """All drivers off that can be; other bits at their safe or held levels, or 0."""
        bits = []
        for chip in reversed(self.board.chips.values()):
            device = chip.device
            for row in device.rows:
                if row.function == "control":
                    bits.append(str(device.disable_of(row.number)))
                else:
                    held = self.board.holds.get(Pin(chip.name, row.pin), row.safe)
                    bits.append(held if held in ("0", "1") else "0")
        return bits

    def levels_at_rest(self, rest):
        levels = [None] * len(self.nets)
        for driver in self.always:
            if driver.net is not None:
                levels[driver.net] = int(rest[driver.place])
        return levels

    def steps(self):
        """All rows in turn: at rest, and then each phase with rest behind it."""
        rest = self.row_of_rest()
        still = Step(rest, self.levels_at_rest(rest))
        yield still
        for phase, cells in enumerate(self.phases):
            enabled = list(rest)
            for chip, number in cells:
                place = self.board.chips[chip].place + number
                enabled[place] = "1" if rest[place] == "0" else "0"
            for pattern in range(2 * self.width):
                bits, levels = list(enabled), [None] * len(self.nets)
                for number, driver in self.driving[phase].items():
                    levels[number] = self.bit(number, pattern)
                    bits[driver.place] = str(levels[number])
                yield Step(bits, levels, phase, pattern)
            yield still

    def wanted(self, step):
        """What the cells are to capture behind a row, by bits of a scan; x where nothing is known."""
        wanted = ["x"] * self.board.length()
        for number, level in enumerate(step.levels):
            if level is not None:
                for reader in self.readers[number]:
                    wanted[reader.place] = str(level)
        return wanted
