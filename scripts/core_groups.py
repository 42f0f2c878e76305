"""Groups of the longer program that look at what the core gives. That isn't known: but two runs with the same clocks, in
which the test logic differs alone where the core can't see it, give the same wherever the core's value stands. So of two
programs that are twins one is played by `lavkhind sim`, and the other expects what it told."""
from machine import HOLDING, Z, inverse

# Patterns of the core's inputs.
TURNS = 4


def pattern(number, turn):
    """The bit of a pin or cell: all at 0, all at 1, in turn, and the inverse."""
    return (0, 1, number & 1, 1 - (number & 1))[turn]


def codes_at_work(p):
    """The codes under which no instruction holds the pins: those that have an opcode, and those one bit from one."""
    codes = {tuple(code): name for name, code in p.opcodes.items()}
    named = [(name, code) for name, code in p.opcodes.items() if name not in HOLDING]
    near = {}
    for name, code in p.opcodes.items():
        for place in range(p.device.length):
            other = tuple(1 - bit if number == place else bit for number, bit in enumerate(code))
            if other not in codes:
                near.setdefault(other, f"a code near {name}")
    return named + [(name, list(code)) for code, name in near.items()]


def work_clocks(p, turn, behind):
    """All clocks, clears and presets of the core go to a level, and then each alone to the other one and back."""
    for pin in p.clocks:
        p.put(pin, (0, 1, 1, 0)[turn])
    for pin in p.clocks:
        for _ in range(2):
            p.put(pin, 1 - p.logic.outside[pin])
            behind()


def put_pattern(p, turn):
    """The core's inputs take a pattern, but for its clocks; inouts are let go in the first two."""
    for row in map(p.device.row_of, p.inputs):
        if row.pin not in p.clocks:
            p.put(row.pin, Z if row.function == "bidir" and turn < 2 else pattern(row.number, turn))


def at_work(p):
    """what the core gives where no instruction holds the pins, under each code near an opcode too: with a row of update bits, and with the opposite one, it is the same"""
    row = p.on_row()
    for word in (row, inverse(row)):
        for name, code in codes_at_work(p):
            yield f"the core at work under {name}"
            p.load("PRELOAD")
            p.data(inverse(word) if p.is_twin else word)
            for turn in range(TURNS):
                put_pattern(p, turn)
                # The pins are looked at before Update-IR and behind it, and are the same.
                p.code(code, pins=True)
                work_clocks(p, turn, p.look_at_pins)
                p.load("PRELOAD")
            p.rest()


def held_row(p, turn):
    """Update bits for EXTEST: of twins they are opposite at outputs, and the same where the core reads them."""
    word = [pattern(row.number, turn) for row in p.device.rows]
    for row in p.device.rows:
        seen = p.device.controlled[row.number] if row.function == "control" else [row]
        if p.is_twin and all(it.function in ("output2", "output3") for it in seen):
            word[row.number] = 1 - word[row.number]
    return word


def held(p):
    """what the core gives where instructions hold the pins: it reads update bits, and is the same when its input pins have other levels"""
    for turn in range(TURNS):
        word = held_row(p, turn)
        for name in (name for name in HOLDING if name in p.opcodes):
            yield f"the core under {name}, row {turn}"
            p.load("PRELOAD")
            p.data(word)
            p.load(name)
            for row in map(p.device.row_of, p.inputs):
                if row.is_read() and row.pin not in p.clocks:
                    p.put(row.pin, pattern(row.number, turn) ^ (not p.is_twin))
            work_clocks(p, turn, (lambda: p.data(word)) if name == "EXTEST" else p.look_at_pins)
            p.load("EXTEST")
            p.data(word)
            p.rest()
