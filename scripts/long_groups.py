"""The groups of the longer program: each goes from Run-Test/Idle to Run-Test/Idle, and yields, with a name, where it may be
cut off."""
from core_groups import at_work, held
from event_program import drawn, in_turn
from machine import HOLDING, IDLE, NEXT, STABLE, inverse, way


def as_vectors(p):
    """what `vectors` does"""
    p.move("0", False)
    if p.device.code:
        p.plain_scan("100", [0] * 32)
    for name, opcode in p.opcodes.items():
        yield f"the scans of {name}"
        p.plain_scan("1100", opcode)
        for first in (1, 0):
            p.plain_scan("100", in_turn(p.length(), first))


def first_register(p):
    """the register that reset selects, with more bits than it has: they come out behind its own"""
    p.go_to("Test-Logic-Reset")
    p.move("1110")
    p.data(drawn(p.length() + 40, 0x9F), rise=True)
    yield "the register that reset selects"


def columns(p):
    """both columns of the controller: pauses, Exit2 to Shift and to Update, captures without a shift"""
    for name in p.registers:
        opcode = p.opcodes[name]
        yield f"the instruction register, to {name}"
        p.code(opcode, pauses=range(1, p.device.length))
        # Through the pause before the first bit, and behind the last one.
        p.move("11010010")
        p.shift(opcode, rise=True)
        p.move("0010")
        p.shift(opcode, rise=True)
        p.move("00110")
        # What is captured, latched: a code with 01 at its end.
        p.move("110110")
        p.move("1101011")
        p.move("100")
        p.shift(drawn(5, 0x2D), rise=True)
        p.move("10")
        yield f"the register of {name}"
        p.load(name)
        length = p.length()
        bits = drawn(length + 35, 0x33)
        for word in (bits, inverse(bits)):
            p.data(word, pauses=(1, 2, 3, 5, length - 1, length, length + 2, length + 3, length + 7, length + 12))
        yield f"Exit2 to Update under {name}"
        p.data(drawn(length, 0x71), after="0110")
        p.data(drawn(length + 3, 0x2B), rise=True)
        p.move("1011011010011")
        p.go_to(IDLE)
        yield f"to reset by Select-IR-Scan under {name}"
        p.move("11100")
        p.load(name)


def without_rest(p):
    """scans without a stable state between: Update to Select, and Exit2 to Shift and at once to Update"""
    for name in p.registers:
        yield f"Update to Select under {name}"
        p.load(name)
        p.data(drawn(p.length(), 0x71), after="11")
        p.move("00")
        p.shift([1, 0], rise=True)
        p.move("01011")
        p.move("0")


def between_edges(p):
    """TMS and TDI count at the rising edge alone: they have other levels while TCK is 1"""
    for name in p.registers:
        yield f"the scans of {name}"
        p.code(in_turn(p.device.length, 1) + p.opcodes[name], shaken=True)
        p.data(drawn(p.length() + 11, 0x4B), shaken=True)


def each_instruction(p):
    """each instruction: its opcode behind bits that come out first, and scans that are longer than its register, with inputs at 0 and at 1"""
    for name, opcode in p.opcodes.items():
        yield f"the scans of {name}"
        p.code(in_turn(p.device.length, 1) + opcode, pins=True)
        length = p.length()
        for level in (0, 1):
            for pin in p.inputs:
                p.put(pin, level)
            count = 2 * length if name == "SAMPLE" else length + 32
            p.data(drawn(count, 0x5D + level), looks=4 if name in HOLDING else 0, pins=name == "EXTEST")
        p.rest()


def nearby_codes(p):
    """codes that are one bit from an opcode, and none themselves, act as BYPASS"""
    for name, opcode in p.opcodes.items():
        for place in range(p.device.length):
            near = [1 - bit if number == place else bit for number, bit in enumerate(opcode)]
            if near not in p.opcodes.values():
                yield f"a code near {name}"
                p.code(near)
                p.data([1, 0, 1, 1], rise=True)


def numbers(p):
    """Rows in which each cell has a bit of its number, and their complements; first and last some with all alike, of
    which two have all drivers on."""
    count = len(p.device.rows)
    yield p.off_row()
    yield p.off_row()
    yield p.on_row([0] * count)
    yield p.on_row([1] * count)
    for place in range(max(1, (count - 1).bit_length())):
        word = [number >> place & 1 for number in range(count)]
        yield word
        yield inverse(word)
    yield [1] * count
    yield [0] * count


def numbered(p):
    """under EXTEST inputs and outputs have their numbers, bit by bit, and the complements; inouts are also driven from outside"""
    p.load("PRELOAD")
    p.data(drawn(len(p.device.rows), 0x5D))
    p.load("EXTEST", pins=True)
    for turn, word in enumerate(numbers(p)):
        for driven in (False, True) if p.inouts else (False,):
            yield f"row {turn} of numbers under EXTEST"
            p.number_pins(turn, driven)
            p.data(word, before="", pins=True)
    p.rest()


def left_alone(p):
    """what an instruction leaves alone: a row that was preloaded stays through others, under CLAMP and HIGHZ too"""
    row = drawn(len(p.device.rows), 0x5D)
    for word in (row, inverse(row)):
        yield "a row that stays"
        p.load("PRELOAD")
        p.data(word)
        for name in ("BYPASS", "CLAMP", "IDCODE", "USERCODE", "HIGHZ", "CLAMP"):
            if name in p.opcodes:
                p.load(name, pins=True)
                p.data(drawn(p.length() + 9, 0x21), rise=True)
        p.load("EXTEST", pins=True)
        p.load("PRELOAD")
        p.data(word)
        p.load("BYPASS")
        p.data([1, 0, 1])
        p.load("EXTEST", pins=True)


def pairs(p):
    """each instruction behind each other one, with a look at the pins while its opcode is shifted in, and around Update-IR"""
    p.load("PRELOAD")
    p.data(p.on_row())
    for before in p.opcodes:
        for name in p.opcodes:
            if name != before:
                yield f"{name} behind {before}"
                p.load(before)
                p.load(name, pins=True, looks=p.device.length - 1)


def reset_by(p, how, first, state):
    """From a state to reset, by five ones on TMS, or by TRST with TCK at 0 or at 1; what is there afterwards is
    scanned."""
    fives = how == "TMS"
    is_bypass = not fives and list(NEXT).index(state) % 2 == 0
    p.load("BYPASS" if is_bypass else "EXTEST")
    shows = state in ("Shift-DR", IDLE, "Exit1-DR")
    if not is_bypass and shows and (first == "1000" or fives):
        p.data([1] * len(p.device.rows), pins=True)
    levels = way(IDLE, state) if state != IDLE else []
    p.move([1, 1, 1, 0, 1, 1, 1] if fives and state == "Test-Logic-Reset" else levels)
    if fives:
        p.move("11111")
    else:
        p.trst_pulse(how == "TRST with TCK at 1", state in ("Shift-DR", IDLE))
        if first == "1000":
            p.move("1000" + "11111")
    p.move("0" if fives or first == "1000" else "000")
    p.data(drawn(p.length() + 9, 0x47), rise=True)
    if state in ("Shift-DR", IDLE):
        p.load("EXTEST", pins=True)


def resets(p):
    """resets from each of the sixteen states"""
    for state in NEXT:
        yield f"reset by TMS from {state}, with BYPASS before"
        p.load("BYPASS")
        p.go_to(state)
        p.move("111110")
        p.data(drawn(p.length() + 9, 0x47), rise=True)
    for how in ("TMS", "TRST", "TRST with TCK at 1"):
        for first in ("1000", "0000")[: 1 if how == "TMS" else 2]:
            for state in NEXT:
                yield f"reset by {how} from {state}"
                reset_by(p, how, first, state)


def walks(p):
    """one bit alone at 1, and then at 0, in each cell in turn, under EXTEST"""
    p.load("EXTEST")
    for level in (1, 0):
        for place in range(len(p.device.rows)):
            yield f"a walk of {level} at cell {place}"
            p.data([level if number == place else 1 - level for number in range(len(p.device.rows))], pins=True)


def sampled(p):
    """one pin alone at 1, and then at 0, under SAMPLE: it is captured, with what else stands at pins"""
    p.load("SAMPLE")
    for level in (1, 0):
        for alone in p.inputs:
            yield f"a walk of {level} at the pin {alone}"
            for pin in p.inputs:
                p.put(pin, level if pin == alone else 1 - level)
            p.sample(drawn(p.length() + 3, 0x2D))
    p.rest()


def trst_within(p):
    """TRST within a scan under each instruction, of its register and of the instruction register: that ends it, and nothing of it stays"""
    for name in p.opcodes:
        for before in ("100", "1100"):
            yield f"TRST within a scan under {name}"
            p.load("PRELOAD")
            p.data(p.on_row())
            p.load(name)
            p.move(before)
            p.shift_part(drawn(3, 0x5D))
            p.trst_pulse(False, True)
            p.move("0")
            p.data(drawn(p.length() + 9, 0x47), rise=True)
            p.load("EXTEST", pins=True)
            p.data(p.off_row(), pins=True)


def resets_at_rest(p):
    """resets from stable states, by five ones on TMS and by TRST, with the pins held before and without"""
    for how in ("TMS", "TRST"):
        for state in STABLE:
            for name in ("EXTEST", "BYPASS"):
                yield f"reset by {how} from {state} under {name}"
                p.load(name)
                p.data([1] * p.length(), pins=True)
                p.go_to(state)
                if how == "TMS":
                    p.move("11111")
                else:
                    p.trst_pulse(False, True)
                p.move("0")
                p.data(drawn(p.length() + 9, 0x47))
                p.load("EXTEST", pins=True)
                p.data(p.off_row(), pins=True)


# In their order; what is first is taken first where there is no room for all.
GROUPS = (as_vectors, first_register, columns, without_rest, between_edges, each_instruction, nearby_codes, numbered, left_alone, trst_within)
GROUPS += (resets, pairs, at_work, held, sampled, walks)
# Those that look at what the core gives, where that can be learned; at_work and held do nothing else.
OF_THE_CORE = (at_work, held)
LEARNING = (*OF_THE_CORE, sampled)
# Those that SVF can say; sampled is of use where it works pins.
AT_REST = (as_vectors, first_register, columns, each_instruction, nearby_codes, numbered, left_alone, trst_within, resets_at_rest, pairs, sampled, walks)
