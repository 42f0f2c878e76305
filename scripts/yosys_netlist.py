"""Modules as yosys writes them in JSON, and their text in the netlist language, with the names of the RTL."""
import json, re

from command import Fault
from listed_cells import FLOPS
from netlist_words import spelled

GATES = {"$_NOT_": "not", "$_BUF_": "buf", "$_AND_": "and", "$_OR_": "or", "$_XOR_": "xor", "$_NAND_": "nand", "$_NOR_": "nor", "$_XNOR_": "xnor"}
OWN_FLOPS = {"$_DFF_P_": "DFF", "$_DFF_N_": "DFFN", "$_DFF_PN0_": "DFFR", "$_DFF_NN0_": "DFFNR", "$_DFF_PN1_": "DFFS", "$_DFF_NN1_": "DFFNS"}
THREE_STATES = "$_TBUF_"
LONGEST = 255


class Names:
    """Names of one module, each given once."""

    def __init__(self, taken, others):
        self.taken, self.front = set(taken), ""
        while any(re.match(rf"{self.front}[ng]\d", name) for name in (*taken, *others)):
            self.front += "_"

    def take(self, name):
        """The name, or None where it stands already or is none of the netlist language."""
        if name in self.taken or not re.fullmatch(rf"[!-~]{{1,{LONGEST}}}", name):
            return None
        self.taken.add(name)
        return name

    def free(self, name, fallback):
        return self.take(name) or self.take(self.front + fallback) or next(filter(None, map(self.take, (f"{self.front}{fallback}_{n}" for n in range(10**6)))))


class Bits:
    """The bits of a port or a net with their indices, from the left: None of a scalar."""

    def __init__(self, what, is_narrow=False):
        first, count = what.get("offset", 0), len(what["bits"])
        indices = [None] if count == 1 and first == 0 and not is_narrow else list(range(first, first + count))
        if not what.get("upto"):
            indices.reverse()
        # yosys has the rightmost bit first.
        self.pairs = list(zip(indices, reversed(what["bits"])))

    def range(self):
        left, right = self.pairs[0][0], self.pairs[-1][0]
        return "" if left is None else f"[{left}:{right}] "


def unescaped(names):
    """A table by names as they are: yosys has a `\\` before one that begins with a digit, `$` or `\\`."""
    table = {}
    for name, what in names.items():
        bare = name[1:] if name.startswith("\\") else name
        table[name if bare in names else bare] = what
    return table


def module_of(path, name):
    """The module of a text of yosys."""
    with open(path, encoding="utf-8", errors="replace") as file:
        module = unescaped(json.load(file)["modules"])[name]
    return {**module, **{part: unescaped(module[part]) for part in ("ports", "cells", "netnames")}}


def net_names(module):
    """The names of the RTL that each bit has: the fewest steps down first, then the shortest."""
    names = {}
    for name, what in module["netnames"].items():
        if not what.get("hide_name"):
            for index, bit in Bits(what).pairs:
                names.setdefault(bit, []).append(name if index is None else f"{name}[{index}]")
    return {bit: sorted(them, key=lambda name: (name.count("."), len(name), name)) for bit, them in names.items()}


class Netlist:
    """The module in the netlist language.

    `narrow` are the ports of the range [0:0], `listed` the cells of a library by name, `flops` those that stand for
    known kinds, and `renamed` other names of ports.
    """

    def __init__(self, name, module, narrow=(), listed=None, flops=None, renamed=None):
        self.name, self.cells, self.listed, self.kinds, renamed = name, module["cells"], listed or {}, flops or {}, renamed or {}
        self.ports = {renamed.get(port, port): (what["direction"], Bits(what, port in narrow)) for port, what in module["ports"].items()}
        unknown = [port for port in renamed if port not in module["ports"]]
        if unknown or len(self.ports) < len(module["ports"]):
            raise Fault(f"{unknown[0]} is no port of {name}" if unknown else "two ports have one name by --port")
        self.names = Names([*self.ports, *(cell for cell, what in self.cells.items() if not what.get("hide_name"))], module["netnames"])
        self.rtl_names = net_names(module)
        self.items, self.wires, self.counts = [], [], {}
        # The flip-flops by what they drive, and inouts that nothing drives.
        self.flop_names, self.idle_inouts = {}, []
        # The word of each bit that is a net, and the bare name of it; the drivers of pins that need a bufif1 of their
        # own.
        self.nets, self.bare, self.moved, self.inouts = {}, {}, {}, set()
        self.three_states = {what["connections"]["Y"][0]: what for what in self.cells.values() if what["type"] == THREE_STATES}
        self.driven = {bits[0] for what in self.cells.values() for port, bits in what["connections"].items() if bits and self.is_output(what, port)}
        self.place_ports()
        for cell, what in self.cells.items():
            self.place_nets(cell, what)
        for cell, what in self.cells.items():
            self.place_cell(cell, what)

    def is_output(self, cell, port):
        return cell.get("port_directions", {}).get(port) == "output" or (cell["type"] in self.listed and self.listed[cell["type"]].out == port)

    def place_ports(self):
        """Inputs and inouts are their bits' nets, then outputs; a port bit whose net is another's is fed by it."""
        order = {"input": 0, "inout": 1, "output": 2}
        fed = []
        for port, (direction, bits) in sorted(self.ports.items(), key=lambda it: order[it[1][0]]):
            for index, bit in bits.pairs:
                word = spelled(port) + ("" if index is None else f"[{index}]")
                bare = port if index is None else f"{port}[{index}]"
                if isinstance(bit, str) or bit in self.nets:
                    fed.append((direction, word, bare, bit))
                    continue
                self.nets[bit], self.bare[bit] = word, bare
                if direction == "inout":
                    self.inouts.add(bare)
                if direction == "inout" and bit not in self.three_states:
                    self.drive_pin(word, bit)
        for direction, word, bare, bit in fed:
            self.feed(direction, word, bare, bit)

    def drive_pin(self, word, bit):
        """An inout that nothing drives, or a gate: it has a bufif1 all the same."""
        if bit in self.driven:
            self.moved[bit] = self.new_net("n")
        else:
            self.idle_inouts.append(self.bare[bit])
        self.put("bufif1", self.gate_name(), [word, self.moved.get(bit, "1'b0"), "1'b1" if bit in self.driven else "1'b0"])

    def feed(self, direction, word, bare, bit):
        if bit == "z":
            self.put("bufif1", self.gate_name(), [word, "1'b0", "1'b0"])
        elif direction == "inout" and bit in self.nets and self.bare[bit] in self.inouts:
            raise Fault(f"the inouts {self.bare[bit]} and {bare} are one net, and a netlist of gates can't tell which drives the other")
        elif direction == "inout":
            self.put("bufif1", self.gate_name(), [word, self.net(bit, bare), "1'b1"])
        elif bit in self.three_states and self.bare[bit] not in self.inouts:
            # What is let go can't be read, so it is driven once more.
            links = self.three_states[bit]["connections"]
            self.put("bufif1", self.gate_name(), [word, self.net(links["A"][0], bare), self.net(links["E"][0], bare)])
        else:
            self.put("buf", self.gate_name(), [word, self.net(bit, bare)])

    def new_net(self, fallback, name=None):
        name = self.names.free(name or f"{self.names.front}{fallback}{len(self.wires)}", f"{fallback}{len(self.wires)}")
        self.wires.append(name)
        return spelled(name)

    def net(self, bit, reader):
        """The word of a bit; `reader` tells who reads it."""
        if isinstance(bit, str):
            if bit == "z":
                raise Fault(f"{reader} has 1'bz where 0 or 1 is wanted: it is let go always, or a net of three states is read")
            return "1'b1" if bit == "1" else "1'b0"
        if bit not in self.nets:
            name = next(filter(None, map(self.names.take, self.rtl_names.get(bit, ()))), None)
            if name:
                self.wires.append(name)
                self.nets[bit], self.bare[bit] = spelled(name), name
            else:
                self.nets[bit] = self.new_net("n")
                self.bare[bit] = self.wires[-1]
        return self.nets[bit]

    def gate_name(self):
        return self.names.free(f"{self.names.front}g{len(self.items)}", f"g{len(self.items)}")

    def put(self, kind, name, operands):
        self.items.append(f"{kind} {spelled(name)}{'' if spelled(name).endswith(' ') else ' '}({', '.join(operands)});")
        self.counts[kind] = self.counts.get(kind, 0) + 1

    def cell_name(self, cell, what, out):
        """Instances of the RTL keep their names; a flip-flop has its net's, with _reg behind."""
        if not what.get("hide_name"):
            return cell
        if what["type"] not in OWN_FLOPS:
            return self.gate_name()
        self.net(out, cell)
        bare = self.bare[out]
        return self.names.free(re.sub(r"(\[\d+\])?$", r"_reg\1", bare, count=1), f"g{len(self.items)}_reg")

    def place_nets(self, cell, what):
        if not self.is_known(what["type"]):
            raise Fault(f"{cell} is of {what['type']}, which is no gate and no listed cell")
        for port, bits in what["connections"].items():
            if len(bits) > 1:
                raise Fault(f"{cell} is of {what['type']}, whose port {port} has {len(bits)} bits; a cell of a netlist has ports of one")
            if bits:
                self.net(bits[0], cell)

    def is_known(self, kind):
        return kind in GATES or kind in OWN_FLOPS or kind in (THREE_STATES, "$_MUX_", "MUX2") or kind in self.listed or kind in FLOPS

    def place_cell(self, cell, what):
        kind, links = what["type"], what["connections"]
        out = next((bits[0] for port, bits in links.items() if bits and self.is_output(what, port)), None)
        name = self.cell_name(cell, what, out)
        pins = {port: self.moved[bits[0]] if self.is_output(what, port) and bits[0] in self.moved else self.net(bits[0], cell) for port, bits in links.items() if bits}
        if kind in GATES:
            self.put(GATES[kind], name, [pins[port] for port in "YAB" if port in pins])
        elif kind == THREE_STATES:
            self.put("bufif1", name, [pins["Y"], pins["A"], pins["E"]])
        elif kind == "$_MUX_":
            self.put("MUX2", name, [f".{port}({pins[port]})" for port in "ABSY"])
        elif kind in OWN_FLOPS:
            self.flop_names[out] = name
            self.put_flop(name, OWN_FLOPS[kind], pins)
        else:
            self.put(kind, name, [f".{port}({pin})" for port, pin in pins.items()])

    def flops_within(self):
        """A flip-flop of each instance of the RTL that had a net of its own there, by the instance."""
        found = {}
        for bit, flop in self.flop_names.items():
            for name in self.rtl_names.get(bit, ()):
                found.setdefault(name.rpartition(".")[0], flop)
        return found

    def put_flop(self, name, known, pins):
        taken = [pins[port] for port in "DCR" if port in pins]
        cell = self.kinds.get(known)
        ports = (*FLOPS[known], "Q") if cell is None else (*cell.inputs, cell.out)
        self.put(cell.name if cell else known, name, [f".{port}({pin})" for port, pin in zip(ports, (*taken, pins["Q"]))])

    def lines(self):
        yield f"module {spelled(self.name)} ("
        yield ",\n".join(f"  {direction} {bits.range()}{spelled(port)}" for port, (direction, bits) in self.ports.items())
        yield ");"
        yield from (f"  wire {spelled(wire)};" for wire in self.wires)
        yield from (f"  {item}" for item in self.items)
        yield "endmodule"
