"""Modules of the wide netlist language as modules of the netlist language: of single bits, of links by name, and of
canonical text."""
from narrow_checks import Checks, interfaces_of, is_split, links_of, new_name, width_of
from netlist_words import spelled
from wide_modules import Assign, Gate, Instance, Link, Module, Net, Part, Supply, read_modules
from wide_words import Constant


def narrowed(text, boxes=None):
    """The narrow modules of a text; `boxes` are the ports of a library's boxes, by name."""
    modules = read_modules(text)
    checks = Checks(modules, interfaces_of(modules, boxes or {}))
    return [Narrowing(scope, checks.interfaces).module() for scope in checks.scopes]


def bits_from_left(net, bounds):
    if bounds is None:
        return [Part(net, None, None)]
    left, right = bounds
    return [Part(net, index, None) for index in (range(left, right - 1, -1) if left >= right else range(left, right + 1))]


class Narrowing:
    """The narrow module of one whose faults were looked for. Its expressions are operands: single bits, or whole nets in
    a link."""

    def __init__(self, scope, interfaces):
        self.scope, self.interfaces, self.items, self.new_wires = scope, interfaces, [], []

    def module(self):
        module = self.scope.module
        for item in module.items:
            self.place(item)
        return Module(module.name, module.ports, [*module.wires, *self.scope.implicit, *self.new_wires], self.items)

    def place(self, item):
        if isinstance(item, Assign):
            self.assign(item.left, item.right)
        elif isinstance(item, Supply):
            for bit in bits_from_left(item.net, self.scope.bounds[item.net]):
                self.items.append(Assign((bit,), (Constant(1, item.value),)))
        elif isinstance(item, Gate):
            inputs = list(map(self.operand, item.inputs))
            for number, output in enumerate(item.outputs):
                self.items.append(Gate(item.kind, None if number else item.name, [self.operand(output)], inputs))
        else:
            self.place_instance(item)

    def bits(self, expression):
        for leaf in expression:
            if isinstance(leaf, Constant):
                yield from leaf.bits()
            elif leaf.left is None:
                yield from bits_from_left(leaf.net, self.scope.bounds[leaf.net])
            else:
                yield from bits_from_left(leaf.net, (leaf.left, leaf.left if leaf.right is None else leaf.right))

    def operand(self, expression):
        """An expression of one bit: a whole net stays one."""
        leaf = expression[0]
        return (leaf._replace(right=None),) if isinstance(leaf, Part) else (leaf,)

    def assign(self, left, right):
        if self.scope.width(left) == 1:
            self.items.append(Assign(self.operand(left), self.operand(right)))
            return
        for one, other in zip(self.bits(left), self.bits(right)):
            self.items.append(Assign((one,), (other,)))

    def place_instance(self, item):
        interface = self.interfaces.get(item.cell)
        links, behind = [], []
        for link in links_of(item, interface):
            if link.given is None:
                links.append(Link(link.port, None))
            elif interface is None or not is_split(link, interface):
                links.append(Link(link.port, self.operand(link.given)))
            else:
                port, name = interface.ports[link.port], new_name(item, link)
                wire = Net(name, (width_of(port.range) - 1, 0))
                self.new_wires.append(wire)
                whole = (Part(name, None, None),)
                links.append(Link(link.port, whole))
                if port.direction == "input":
                    for one, other in zip(bits_from_left(name, wire.range), self.bits(link.given)):
                        self.items.append(Assign((one,), (other,)))
                else:
                    behind += [Assign((other,), (one,)) for one, other in zip(bits_from_left(name, wire.range), self.bits(link.given))]
        self.items.append(Instance(item.cell, item.name, links))
        self.items += behind


class Printer:
    """The canonical text of narrow modules; each name is spelled once."""

    def __init__(self):
        self.names = {}

    def name(self, name):
        if name not in self.names:
            self.names[name] = spelled(name)
        return self.names[name]

    def operand(self, expression):
        if not expression:
            return ""
        leaf = expression[0]
        if isinstance(leaf, Constant):
            return f"1'b{leaf.value}"
        return self.name(leaf.net) if leaf.left is None else f"{self.name(leaf.net)}[{leaf.left}]"

    def declared(self, net):
        bounds = "" if net.range is None else f"[{net.range[0]}:{net.range[1]}] "
        return f"  {net.direction or 'wire'} {bounds}{self.name(net.name)}"

    def item(self, item):
        if isinstance(item, Assign):
            return f"  assign {self.operand(item.left)} = {self.operand(item.right)};"
        if isinstance(item, Gate):
            name = "" if item.name is None else f"{self.name(item.name)} "
            return f"  {item.kind} {name}({', '.join(map(self.operand, (*item.outputs, *item.inputs)))});"
        links = ", ".join(f".{self.name(link.port)}({self.operand(link.given)})" for link in item.links)
        return f"  {self.name(item.cell)} {self.name(item.name)} ({links});"

    def lines(self, module):
        yield f"module {self.name(module.name)} (" + ("" if module.ports else ");")
        if module.ports:
            yield ",\n".join(map(self.declared, module.ports))
            yield ");"
        for wire in module.wires:
            yield f"{self.declared(wire)};"
        yield from map(self.item, module.items)
        yield "endmodule"


def canonical(modules):
    """The canonical text of narrow modules, one after another."""
    printer = Printer()
    return "".join(f"{line}\n" for module in modules for line in printer.lines(module))
