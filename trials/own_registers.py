"""Registers of a design's own for a chip, and what their wires carry in a netlist without test logic, which Icarus plays
beside the chip."""
import os, random, sys

from chips import FLOPS, TOP, WORD, Module, cells_of, place, spelled

sys.path.append(os.path.join(TOP, "scripts"))
from machine import NEXT

# How many bits the registers have, in this order, as far as there are opcodes; None: one of each wire.
LENGTHS = (17, 256, 1, 3, None)
MOST = 256
# So many times each captures, but the first.
ROUNDS = 12


def wires_of(module, library):
    """The bits of wires that a cell drives, as texts of registers spell them, with how Verilog spells them."""
    ports = [Module.port(WORD.findall(line)) for line in module.wires]
    bits = {port.name: dict(zip(port.bits(), port.pins())) for port in ports}
    outs = {"MUX2": "Y", **dict.fromkeys(FLOPS, "Q"), **{cell.name: cell.out for cell in cells_of(library)}}
    found = {}
    for item in module.items:
        net = item.operands[0] if item.operands else item.links.get(outs[item.kind])
        name, index = place(net) if net else (None, None)
        if name in bits:
            # (a vector of one bit may stand for it whole)
            index = next(iter(bits[name])) if index is None else index
            found[bits[name][index]] = spelled(name) + ("" if index is None else f"[{index}]")
    return found


def free_opcodes(plan):
    """The opcodes that a plan leaves, from both ends."""
    lines = [line.split() for line in plan.split("\n")]
    used = {words[2] for words in lines if words[:1] == ["opcode"]}
    length = next(int(words[1]) for words in lines if words[:1] == ["length"])
    for number in range(2 ** (length - 1)):
        for code in (number, 2**length - 1 - number):
            if f"{code:0{length}b}" not in used:
                yield f"{code:0{length}b}"


class Register:
    def __init__(self, number, opcode, words):
        self.name, self.instruction, self.opcode, self.words = f"OWN_{number}", f"Read{number}", opcode, words

    def line(self):
        return f"register {self.name} {self.instruction} {self.opcode} {' '.join(self.words)}"


def registers_for(plan, wires):
    """Registers of the wires, whose words repeat where there are fewer wires than bits."""
    names = list(wires)
    for number, (length, opcode) in enumerate(zip(LENGTHS, free_opcodes(plan)) if names else ()):
        words = names[:MOST] if length is None else [names[(5 * k + k // 7 + number) % len(names)] for k in range(length)]
        yield Register(number, opcode, words)


def pulses_of(device):
    """What is done at each pulse but the last: clears and presets come at the first one, and seldom after that."""
    chance, forces = random.Random(1), [row.pin for row in device.rows if row.function == "input" and row.kind == "BC_4"]
    for number in range(ROUNDS):
        yield [(pin, level) for pin in forces if number == 0 or chance.randrange(8) == 0 for level in (0, 1)]


class Beside:
    """Lines of a bench (bridge.py) that play the original at the chip's pins, and move these until the last pulse."""

    def __init__(self, module, original, device, wires, path):
        self.original, self.device, self.wires, self.path = original, device, wires, path
        numbers = {port.name: number for number, port in enumerate(module.ports)}
        self.outputs = [port for port in original.ports if port.direction != "input"]
        # The names in the bench of the chip's ports, and of the original's.
        self.pins = {name: f"p{number}" for name, number in numbers.items()}
        self.names = {port.name: ("o" if port in self.outputs else "p") + str(numbers[port.name]) for port in original.ports}
        self.bits = {pin: self.names[port.name] + pin[len(port.name) :] for port in original.ports for pin in port.pins()}

    def lines(self):
        yield from (f"  wire {port.range()}{self.names[port.name]};" for port in self.outputs)
        links = ", ".join(f".{spelled(port.name)}({self.names[port.name]})" for port in self.original.ports)
        yield f"  {spelled(self.original.name)} original ({links});"
        yield f"  wire [{len(self.wires) - 1}:0] carried = {{{', '.join(f'original.{wire}' for wire in self.wires.values())}}};"
        yield from ("  integer told, moved, pulses, state, seed;", "  initial begin", f'    told = $fopen("{self.path}");')
        yield from ("    moved = 0; pulses = 0; state = 0; seed = 1;", "  end")
        yield from (*self.asking(), *self.answered(), *self.pulsed())

    def asking(self):
        """Follows the controller, and tells what the wires carry before the edge in Capture-DR."""
        states = list(NEXT)
        tck, trst = (self.pins[self.device.tap[name]] for name in ("CLOCK", "RESET"))
        yield from ("  task asking;", '    if (asked == "t" || asked == "u") state = 0;')
        yield f'    else if (asked >= "4" && asked <= "7" && {tck} === 0 && {trst} === 1) begin'
        yield from (f'      if (state == {states.index("Capture-DR")}) $fdisplay(told, "captured %b", carried);', "      case (state)")
        for number, state in enumerate(states):
            low, high = (states.index(after) for after in NEXT[state])
            yield f'        {number}: state = asked >= "6" ? {high} : {low};'
        yield from ("      endcase", "    end", "  endtask")

    def answered(self):
        """Counts where the chip's outputs are others than the original's, and moves a pin, but no clear and no preset."""
        moving = [row.pin for row in self.device.rows if row.function == "clock" or row.is_input() and row.kind != "BC_4"]
        yield from ("  task answered;", "    begin")
        yield f"      if ({{{', '.join(self.pins[port.name] for port in self.outputs)}}} !== {{{', '.join(self.names[port.name] for port in self.outputs)}}}) moved = moved + 1;"
        if moving:
            yield f"      if (pulses <= {ROUNDS}) case ({{$random(seed)}} % {len(moving)})"
            yield from (f"        {number}: {self.bits[pin]} = ~{self.bits[pin]};" for number, pin in enumerate(moving))
            yield "      endcase"
        yield from ("      #10;", "    end", "  endtask")

    def pulsed(self):
        yield from ("  task pulsed;", "    begin", '      $fdisplay(told, "moved %0d", moved);', "      moved = 0;", "      pulses = pulses + 1;", "      case (pulses)")
        for number, done in enumerate(pulses_of(self.device), 1):
            yield f"        {number}: begin {' '.join(f'{self.bits[pin]} = {level}; #10;' for pin, level in done)} end"
        yield from ("        default: ;", "      endcase", "    end", "  endtask")

    def told(self, text):
        """What these lines wrote: by pulses how often outputs differed, and by captures the value of each wire."""
        words = [line.split() for line in text.split("\n")[:-1]]
        moved = [int(value) for word, value in words if word == "moved"]
        return moved, [dict(zip(self.wires, values)) for word, values in words if word == "captured"]
