"""Texts of events on a netlist: played by Icarus Verilog and by `sim`, where their readings differ, and why."""
import itertools, os, re

from chips import CELLS, HERE, keep, run, spelled, text_of

SETTLED = os.path.join(HERE, "settled.v")
# Parts of a netlist in whose place there may stand what Lavkhind means by them.
CONTROLS, ASSIGNS, FLOPS = "a bufif with an unknown control", "assign passes z on", "flip-flops before the nets have settled"
REASONS = (CONTROLS, ASSIGNS, FLOPS)
# So the inputs of designs are called that clock, clear or preset, which take 0 and 1 alone; and those that clear or
# preset at 0.
CONTROL = re.compile("clk|gate|clear|preset|rn|rst_n")
FORCING = re.compile("clear|preset|rn|rst_n")


def with_parts(text, parts):
    """The written text with what Lavkhind means in the place of these parts."""
    if ASSIGNS in parts:
        text = re.sub(r"^  assign (.*) = (.*);$", r"  buf (\1, \2);", text, flags=re.M)
    if CONTROLS in parts:
        numbers = itertools.count()
        text = re.sub(r"^  (bufif[01]) (?=\()", lambda found: f"  trial_{found[1]} trial_gate_{next(numbers)} ", text, flags=re.M)
        text = re.sub(r"^  (bufif[01]) ", r"  trial_\1 ", text, flags=re.M)
    return text


def known_cells(parts):
    """The text of the seven cells; the settled ones stand in models/cells.v too, under the same names."""
    cells = text_of(SETTLED)
    return cells if FLOPS in parts else cells[: cells.index("module MUX2")] + text_of(CELLS)


def fewest(parts, is_so):
    """The fewest of the parts of which it is so, in words; None where it is so of none."""
    for size in range(1, len(parts) + 1):
        for some in itertools.combinations(parts, size):
            if is_so(some):
                return " and ".join(some)
    return None


def lines_of(path):
    """The lines of an event text that say something, as number and words."""
    lines = enumerate(text_of(path).split("\n"), 1)
    told = ((number, line.split()) for number, line in lines)
    return [(number, words) for number, words in told if words and not words[0].startswith("#")][1:]


def bench(module, events):
    """A bench that plays the events, and prints the readings of all outputs and inouts at the start and after each
    set."""
    seen = [number for number, port in enumerate(module.ports) if port.direction != "input"]
    show = f'$display("@%0d{" %b" * len(seen)}", {{}}{"".join(f", p{number}" for number in seen)});'
    pins = {}
    yield from ("`timescale 1ns/1ns", "module trial_bench;", "  event act, kept;")
    for number, port in enumerate(module.ports):
        outside = "o" if port.direction == "inout" else "p"
        yield f"  {'reg' if port.direction == 'input' else 'wire'} {port.range()}p{number};"
        if port.direction == "inout":
            yield f"  reg {port.range()}o{number};"
            yield f"  assign p{number} = o{number};"
        for pin, index in zip(port.pins(), port.bits()):
            pins[pin] = f"{outside}{number}" + ("" if index is None else f"[{index}]")
    links = ", ".join(f".{spelled(port.name)}(p{number})" for number, port in enumerate(module.ports))
    yield f"  {spelled(module.name)} chip ({links});"
    yield from ("  task settle; begin #1 -> act; #1 -> kept; #1; end endtask", "  initial begin", "    #1")
    started = False
    for number, words in events:
        if words[0] == "set" and not started:
            started = True
            yield f"    settle; {show.format(0)}"
        if words[0] != "expect":
            yield f"    {pin_of(pins, words[1])} = 1'b{words[2].lower()};"
        if words[0] == "set":
            yield f"    settle; {show.format(number)}"
    if not started:
        yield f"    settle; {show.format(0)}"
    yield from ("    $finish;", "  end", "endmodule")


def pin_of(pins, word):
    """What the word of an event line names: a pin, perhaps with zeros before its index."""
    return pins[word] if word in pins else pins[re.sub(r"\[0+(?=\d)", "[", word)]


def icarus(room, module, events, *paths):
    """The readings that Icarus prints of the netlist in these files, by line, as one string for all outputs and
    inouts."""
    simulation = os.path.join(room, "bench.vvp")
    text = keep(os.path.join(room, "bench.v"), "\n".join(bench(module, events)) + "\n")
    run(["iverilog", "-g2001", "-s", "trial_bench", "-o", simulation, text, *paths])
    lines = run(["vvp", "-n", simulation]).split("\n")
    return {int(words[0][1:]): "".join(words[1:]) for words in map(str.split, lines) if words and words[0].startswith("@")}


def simulated(program, netlist, path, pins, *library):
    """The readings that `sim` prints, in the same form; `library` is the name of a library, or nothing."""
    place = {pin: number for number, pin in enumerate(pins)}
    readings, now, line = {}, [""] * len(pins), 0
    for words in map(str.split, run([program, "sim", netlist, path, *library]).split("\n")):
        if words and words[0].startswith("@") and len(words) == 1:
            readings[line] = "".join(now)
            line = int(words[0][1:])
        elif words and words[0] == "done" and len(words) == 3:
            readings[line] = "".join(now)
        elif words:
            now[place[words[0]]] = words[1]
    return readings


def read_pins(module):
    """The pins that have readings, in their order there."""
    return [pin for port in module.ports if port.direction != "input" for pin in port.pins()]


def differences(one, other, pins):
    """Where two readings differ: the line and the pin."""
    return [(line, pin, a, b) for line in one for pin, a, b in zip(pins, one[line], other.get(line, "?" * len(pins))) if a != b]


def drawn_events(module, chance, count):
    """A text of random events: each input begins at 0 and each inout let go, and then one pin changes at a time. Clocks
    change often, clears and presets are seldom 0; other inputs are x now and then, where the module has no inout."""
    pins = {pin: port.direction for port in module.ports if port.direction != "output" for pin in port.pins()}
    drawn = [pin for pin in pins for _ in range(4 if pin.startswith("clk") else 1)]
    lines = ["events 1", *(f"start {pin} {'z' if direction == 'inout' else 0}" for pin, direction in pins.items())]
    is_plain = "inout" not in pins.values()
    for _ in range(count):
        pin = chance.choice(drawn)
        letters = "01z" if pins[pin] == "inout" else "0101010x" if is_plain and not CONTROL.match(pin) else "01"
        lines.append(f"set {pin} {chance.choice('01111111' if FORCING.match(pin) else letters)}")
    return "\n".join(lines) + "\n"
