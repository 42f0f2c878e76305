"""A netlist with many changed copies, one change each, played side by side: bit m of each value belongs to copy m, and
copy 0 is unchanged. It means what `check` means: all settles before flip-flops step, which take the D of before the
event.

A value is a pair of numbers, the copies in which it is 1 and those in which it is 0; in the others it is unknown. A pin
has a third number: the copies in which it is let go."""
import heapq
from functools import reduce

from chips import FLOPS, Module, text_of

# After so many expectations, copies that have been found aren't followed any longer.
FORGET = 100


def both(one, other):
    return one[0] & other[0], one[1] | other[1]


def either(one, other):
    return one[0] | other[0], one[1] & other[1]


def unlike(one, other):
    return (one[0] & other[1]) | (one[1] & other[0]), (one[0] & other[0]) | (one[1] & other[1])


def inverse(value):
    return value[1], value[0]


FOLDS = {"and": both, "nand": both, "or": either, "nor": either, "xor": unlike, "xnor": unlike}


def given(kind, operands):
    """What a gate gives; a bufif gives a pin's three numbers."""
    if kind in FOLDS:
        value = reduce(FOLDS[kind], operands)
        return inverse(value) if kind in ("nand", "nor", "xnor") else value
    if kind in ("buf", "assign"):
        return operands[0]
    if kind == "not":
        return inverse(operands[0])
    if kind == "MUX2":
        a, b, s = operands
        return (a[0] & s[1]) | (b[0] & s[0]), (a[1] | s[0]) & (b[1] | s[1])
    datum, control = operands[0], operands[1] if kind == "bufif1" else inverse(operands[1])
    return datum[0] & control[0], datum[1] & control[0], control[1]


def joined(one, other):
    """What a pin reads that two drive."""
    ones = (one[0] & other[0]) | (one[2] & other[0]) | (one[0] & other[2])
    zeros = (one[1] & other[1]) | (one[2] & other[1]) | (one[1] & other[2])
    return ones, zeros, one[2] & other[2]


def merged(value, other, mask):
    return tuple((one & ~mask) | (two & mask) for one, two in zip(value, other))


class Cell:
    def __init__(self, number, item):
        self.number, self.name, self.kind = number, item.name, item.kind
        if item.links:
            output = "Y" if item.kind == "MUX2" else "Q"
            self.output = item.links[output]
            names = ("A", "B", "S") if item.kind == "MUX2" else ("D", "CK", "RN", "SN")
            self.operands = [item.links[name] for name in names if name in item.links]
        else:
            self.output, self.operands = item.operands[0], item.operands[1:]
        # What it is in some of the copies: the copy's bit, its kind and its operands; and copies in which its output is
        # stuck.
        self.every_change, self.stuck = [], [0, 0]
        # Those of them that are still played.
        self.changes = []

    def is_flop(self):
        return self.kind in FLOPS


class SideBySide:
    def __init__(self, text):
        self.module = Module(text)
        self.cells = [Cell(number, item) for number, item in enumerate(self.module.items)]
        self.copies = 1

    def change(self, cell, kind, operands):
        """A new copy in which the cell has another kind or other operands; the number of the copy."""
        cell.every_change.append((1 << self.copies, kind, operands))
        self.copies += 1
        return self.copies - 1

    def stick(self, cell, level):
        """A new copy in which the cell's output is stuck."""
        cell.stuck[1 - level] |= 1 << self.copies
        self.copies += 1
        return self.copies - 1

    def begin(self, core=None):
        """Before the starts. `core` gives a flip-flop's level at the start by its cell, or None for an unknown one."""
        self.all = (1 << self.copies) - 1
        self.forget(0)
        self.values = {"1'b0": (0, self.all), "1'b1": (self.all, 0)}
        self.driven, self.outside, self.changed = {}, {}, {}
        self.inouts = {pin for port in self.module.ports if port.direction == "inout" for pin in port.pins()}
        self.gates = [cell for cell in self.cells if not cell.is_flop()]
        self.flops = [cell for cell in self.cells if cell.is_flop()]
        self.order_gates()
        self.flops_at = {}
        for cell in self.flops:
            for net in set(cell.operands[1:]):
                self.flops_at.setdefault(net, []).append(cell)
        self.core = core
        self.is_started = False

    def forget(self, copies):
        """From now on these copies needn't differ from the unchanged one."""
        for cell in self.cells:
            cell.changes = [change for change in cell.every_change if not change[0] & copies]

    def order_gates(self):
        """Ranks the gates so that each comes behind those that it reads, and lists the readers of each net."""
        driver = {cell.output: cell for cell in self.gates}
        self.rank, self.readers = {}, {}
        for cell in self.gates:
            reads = {operand for operands in [cell.operands, *(it[2] for it in cell.changes)] for operand in operands}
            for net in reads:
                self.readers.setdefault(net, []).append(cell)
            stack = [cell]
            while stack:
                top = stack[-1]
                below = [driver[net] for net in top.operands if net in driver and driver[net].number not in self.rank]
                if top.number in self.rank or not below:
                    self.rank.setdefault(top.number, len(self.rank))
                    stack.pop()
                else:
                    stack.extend(below)
        self.ranked = sorted(self.gates, key=lambda cell: self.rank[cell.number])

    def level(self, letter):
        return {"0": (0, self.all, 0), "1": (self.all, 0, 0), "z": (0, 0, self.all)}.get(letter.lower(), (0, 0, 0))

    def put(self, net, value):
        """A net takes a value; what it had before the event is kept."""
        had = self.values.get(net, (0, 0))
        if had != value:
            self.changed.setdefault(net, had)
            self.values[net] = value
            for cell in self.readers.get(net, ()):
                rank = self.rank[cell.number]
                if rank not in self.waiting:
                    self.waiting.add(rank)
                    heapq.heappush(self.heap, rank)

    def output_of(self, cell):
        value = given(cell.kind, [self.values.get(net, (0, 0)) for net in cell.operands])
        for mask, kind, operands in cell.changes:
            value = merged(value, given(kind, [self.values.get(net, (0, 0)) for net in operands]), mask)
        return self.with_stuck(cell, value)

    @staticmethod
    def with_stuck(cell, value):
        high, low = cell.stuck
        if high | low:
            value = ((value[0] & ~low) | high, (value[1] & ~high) | low, *(part & ~(high | low) for part in value[2:]))
        return value

    def put_output(self, cell):
        value = self.output_of(cell)
        if len(value) == 3:
            self.driven[cell.output] = value
            if cell.output in self.inouts:
                self.put(cell.output, joined(value, self.outside[cell.output])[:2])
        else:
            self.put(cell.output, value)

    def settle(self):
        while self.heap:
            rank = heapq.heappop(self.heap)
            self.waiting.discard(rank)
            self.put_output(self.ranked[rank])

    @staticmethod
    def forced(kind, value, reset):
        """What a flip-flop holds under its clear or preset."""
        if reset is None:
            return value
        ones, zeros = value[0] & reset[0], value[1] & reset[0]
        return (ones, zeros | reset[1]) if kind.endswith("R") else (ones | reset[1], zeros)

    def next_of(self, kind, operands, kept):
        before = [self.changed.get(net, self.values.get(net, (0, 0))) for net in operands]
        after = [self.values.get(net, (0, 0)) for net in operands]
        one, other = (before[1], after[1]) if "N" not in kind else (after[1], before[1])
        steps = one[1] & other[0]
        value = merged(kept, before[0], steps)
        return self.forced(kind, value, after[2] if len(operands) > 2 else None)

    def step(self, cell):
        kept = self.held[cell.number]
        value = self.next_of(cell.kind, cell.operands, kept)
        for mask, kind, operands in cell.changes:
            value = merged(value, self.next_of(kind, operands, kept), mask)
        return self.with_stuck(cell, value)

    def flip(self):
        """Flip-flops step whose clock, clear or preset has changed."""
        cells = {cell.number: cell for net in self.changed for cell in self.flops_at.get(net, ())}
        stepped = [(cell, self.step(cell)) for cell in cells.values()]
        for cell, value in stepped:
            self.held[cell.number] = value
            self.put(cell.output, value)
        self.settle()

    def start(self, pin, letter):
        self.outside[pin] = self.level(letter)

    def started(self):
        """After the starts: all settles, flip-flops are unknown but where they are cleared or preset."""
        self.is_started = True
        self.heap, self.waiting = [], set()
        for pin, value in self.outside.items():
            self.values[pin] = value[:2]
        self.held = {}
        for cell in self.flops:
            begin = self.core(cell) if self.core else None
            self.held[cell.number] = (0, 0) if begin is None else (self.all * begin, self.all * (1 - begin))
            self.values[cell.output] = self.held[cell.number]
        for cell in self.ranked:
            self.put_output(cell)
        self.heap, self.waiting = [], set()
        for cell in self.flops:
            value = self.start_of(cell)
            self.held[cell.number] = value
            self.put(cell.output, value)
        self.settle()

    def start_of(self, cell):
        kept = self.held[cell.number]
        resets = lambda operands: self.values.get(operands[2], (0, 0)) if len(operands) > 2 else None
        value = self.forced(cell.kind, kept, resets(cell.operands))
        for mask, kind, operands in cell.changes:
            value = merged(value, self.forced(kind, kept, resets(operands)), mask)
        return self.with_stuck(cell, value)

    def set(self, pin, letter):
        self.changed = {}
        self.outside[pin] = self.level(letter)
        value = self.outside[pin]
        if pin in self.inouts and pin in self.driven:
            value = joined(self.driven[pin], value)
        self.put(pin, value[:2])
        self.settle()
        self.flip()

    def reading(self, pin):
        """What a pin reads: the copies in which it is 1, 0 and let go."""
        if pin in self.driven:
            value = self.driven[pin]
            return joined(value, self.outside[pin]) if pin in self.inouts else value
        return (*self.values.get(pin, (0, 0)), 0)

    def misses(self, pin, letter):
        """The copies in which the pin doesn't read this."""
        ones, zeros, let_go = self.reading(pin)
        met = {"0": zeros, "1": ones, "z": let_go}.get(letter.lower())
        return self.all & ~(met if met is not None else ~(ones | zeros | let_go))


def events_of(path):
    for line in text_of(path).split("\n"):
        words = line.split()
        if words and not words[0].startswith("#") and words[0] != "events":
            yield words


def missed(netlist, path, found=0):
    """Plays the program, and gives after each expectation the copies that miss it, but for those found before."""
    netlist.begin()
    netlist.forget(found)
    for act, pin, letter in events_of(path):
        if act == "start":
            netlist.start(pin, letter)
            continue
        if not netlist.is_started:
            netlist.started()
        if act == "set":
            netlist.set(pin, letter)
        else:
            yield netlist.misses(pin, letter)


def played(netlist, path, found=0):
    """The copies that miss an expectation of the program, and those that another one found, which is in it."""
    for number, copies in enumerate(missed(netlist, path, found), 1):
        found |= copies
        if number % FORGET == 0:
            netlist.forget(found)
    return found
