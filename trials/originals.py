"""yosys proves that a netlist with test logic is the original one while TRST is low."""
import os, sys

from chips import FLOPS, HERE, TOP, Item, Module, Port, cells_of, keep, library_of, models_of, place, run, spelled, text_of
from equality import proved

CELLS = [os.path.join(TOP, "models/cells_synthesis.v"), os.path.join(HERE, "core_flops.v")]


def tap_of(plan):
    """The names of the test access port in the plan, by the word of their lines."""
    lines = (line.split() for line in plan.split("\n"))
    return {words[0]: words[1] for words in lines if words and words[0] in ("tck", "tms", "tdi", "tdo", "trst")}


class Opened:
    """A module whose pins are taken apart: behind each output bit stands whether it is driven, and an inout is an input
    and such outputs."""

    def __init__(self, module, name):
        self.module, self.name = module, name
        self.ports, self.items, self.more = [], [], []
        for port in module.ports:
            if port.direction == "inout":
                self.ports.append(Port("input", port.bounds, port.name))
                self.ports.append(Port("output", port.bounds, port.name + "/out"))
            else:
                self.ports.append(port)
            if port.direction != "input":
                self.ports.append(Port("output", port.bounds, port.name + "/on"))
        directions = {port.name: port.direction for port in module.ports}
        bits = {port.name: port.bits() for port in module.ports}
        let_go = set()
        for item in module.items:
            if item.kind not in ("bufif0", "bufif1"):
                self.items.append(item)
                continue
            name, index = place(item.operands[0])
            # (a vector of one bit may stand for it whole)
            index = bits[name][0] if index is None else index
            let_go.add((name, index))
            out = name + "/out" if directions[name] == "inout" else name
            on = self.bit(name + "/on", index)
            self.items.append(Item("buf" if item.kind == "bufif1" else "not", None, [on, item.operands[2]], None))
            self.items.append(Item("and", None, [self.bit(out, index), item.operands[1], on], None))
        for port in module.ports:
            for index in port.bits():
                if port.direction == "output" and (port.name, index) not in let_go:
                    self.items.append(Item("buf", None, [self.bit(port.name + "/on", index), "1'b1"], None))

    @staticmethod
    def bit(name, index):
        return spelled(name) + ("" if index is None else f"[{index}]")

    def with_core(self, flops):
        """The flip-flops of the core are cells of their own."""
        for item in self.items:
            if item.name in flops and item.kind in FLOPS:
                item.kind = "core_" + item.kind

    def tie(self, name):
        """An input becomes the constant 0."""
        self.ports = [port for port in self.ports if port.name != name]
        self.more += [f"  wire {spelled(name)};", f"  assign {spelled(name)} = 1'b0;"]

    def text(self):
        ports = ",\n".join(f"  {port.direction} {port.range()}{spelled(port.name)}" for port in self.ports)
        items = [item.line() for item in self.items]
        return "\n".join([f"module {self.name} (\n{ports}\n);", *self.module.wires, *self.more, *items, "endmodule"]) + "\n"


def with_known(module, library):
    """The module with the known flip-flops in the place of listed ones."""
    flops = {cell.name: cell for cell in cells_of(library) if cell.kind}
    for item in module.items:
        cell = flops.get(item.kind)
        if cell:
            force = {"R": ["RN"], "S": ["SN"]}.get(cell.kind[-1], [])
            names = dict(zip([cell.out, *cell.inputs], ["Q", "D", "CK", *force]))
            item.kind, item.links = cell.kind, {names[port]: net for port, net in item.links.items()}
    return module


def flops_of(module):
    return {item.name: item.kind for item in module.items if item.kind in FLOPS}


def opened(original, written, tap):
    """The texts of the original with the pins of the test access port, and of the written one with TRST at 0."""
    core, chip = Opened(original, "gold"), Opened(written, "gate")
    for name in ("tck", "tms", "tdi"):
        core.ports.append(Port("input", None, tap[name]))
    for name in (tap["tdo"], tap["tdo"] + "/on"):
        core.ports.append(Port("output", None, name))
        core.items.append(Item("buf", None, [spelled(name), "1'b0"], None))
    chip.tie(tap["trst"])
    flops = flops_of(original)
    kept = {name: kind for name, kind in flops_of(written).items() if name in flops}
    if kept != flops:
        sys.exit(f"the core's flip-flops aren't those of the original: {sorted(set(flops.items()) ^ set(kept.items()))[:3]}")
    core.with_core(flops)
    chip.with_core(flops)
    return core.text(), chip.text(), len(flops)


def equal(room, gold, gate, models):
    """What yosys proves; the trial ends where it doesn't prove the two equal."""
    paths = [keep(os.path.join(room, name), text) for name, text in (("gold.v", gold), ("gate.v", gate))]
    steps = [f"read_verilog {' '.join([*CELLS, *models, *paths])}", "proc", "flatten gold gate", *["opt_expr gate", "opt_dff gate", "opt_clean gate"] * 3]
    steps += ["delete MUX2 DFF DFFN DFFR DFFNR DFFS DFFNS", "expose -evert -sep / t:core_*", "select -assert-none gate/t:$dff gate/t:$adff gate/t:$_*DFF*"]
    points, log = proved(steps)
    if points is None:
        sys.exit(f"yosys does not prove all\n{log[-2000:]}")
    return points


def original_proved(program, folder, name, netlist, room):
    """What yosys proves of the netlist that a command wrote of a chip; the trial ends where it doesn't prove that it is
    the original with TRST low."""
    canonical = os.path.join(room, "original.v")
    run([program, "canon", os.path.join(folder, name + ".v"), canonical])
    library = library_of(folder, name)
    original, written = (with_known(Module(text_of(path)), library) for path in (canonical, netlist))
    gold, gate, flops = opened(original, written, tap_of(text_of(os.path.join(folder, name + ".plan"))))
    points = equal(room, gold, gate, models_of(room, library))
    return f"equal with TRST low: {len(original.items)} cells in {len(written.items)}, {flops} flip-flops by name, {points}"
