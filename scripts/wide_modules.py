"""Modules of the wide netlist language as trees, and the reader of its grammar."""
from typing import List, NamedTuple, Optional, Tuple

from wide_words import CONSTANT, END, NAME, NUMBER, UNKNOWN, Constant, Refused, cut

# Gates of one input and many outputs, of many inputs, and of three states.
BUFFERS, LOGIC, TRISTATES = ("buf", "not"), ("and", "or", "nand", "nor", "xor", "xnor"), ("bufif0", "bufif1")
DIRECTIONS, NETS, SUPPLIES = ("input", "output", "inout"), ("wire", "tri"), ("supply0", "supply1")


class Part(NamedTuple):
    """A net, a bit of it or some: `left` alone is an index, neither stands for the whole net."""

    net: str
    left: Optional[int]
    right: Optional[int]
    place: int = 0

    def is_whole(self):
        return self.left is None


class Net(NamedTuple):
    """A port with its direction, or a wire."""

    name: str
    range: Optional[Tuple[int, int]]
    direction: Optional[str] = None


class Assign(NamedTuple):
    """Sides are tuples of leaves, parts and constants, from the left; as all expressions."""

    left: tuple
    right: tuple
    place: int = 0


class Supply(NamedTuple):
    net: str
    value: int
    place: int = 0


class Gate(NamedTuple):
    kind: str
    name: Optional[str]
    outputs: List[tuple]
    inputs: List[tuple]
    place: int = 0


class Link(NamedTuple):
    """`port` is None by position, `given` where nothing is linked."""

    port: Optional[str]
    given: Optional[tuple]
    place: int = 0


class Instance(NamedTuple):
    cell: str
    name: str
    links: List[Link]
    is_placed: bool = False
    place: int = 0


class Module(NamedTuple):
    name: str
    ports: List[Net]
    wires: List[Net]
    items: list
    place: int = 0


def read_modules(text):
    """The modules of a text; a Refused says what is no word, or the first word with which no text goes on."""
    reader = Reader(text)
    modules = [reader.module()]
    while reader.kind() != END:
        modules.append(reader.module())
    return modules


class Body:
    """What is read of a module behind its header: `undeclared` are names of the header without a direction yet."""

    def __init__(self, undeclared):
        self.undeclared, self.declared, self.wires, self.items = set(undeclared), {}, [], []


class Reader:
    def __init__(self, text):
        self.kinds, self.values, self.places = cut(text)
        self.at = 0

    def kind(self):
        return self.kinds[self.at]

    def place(self):
        return self.places[self.at]

    def fault(self):
        place = self.place()
        return Refused(f"ConstUnknown {place}" if self.kind() == UNKNOWN else f"BadSyntax {place} {self.at}", place)

    def take(self, kind):
        """The value of the next word, which is of this kind."""
        if self.kinds[self.at] != kind:
            raise self.fault()
        self.at += 1
        return self.values[self.at - 1]

    def takes(self, kind):
        """Whether the next word is of this kind, which is then taken."""
        is_next = self.kinds[self.at] == kind
        self.at += is_next
        return is_next

    def listed(self, read):
        """What stands between commas."""
        found = [read()]
        while self.takes(","):
            found.append(read())
        return found

    def module(self):
        place = self.place()
        self.take("module")
        name, names, ports = self.take(NAME), [], []
        if self.takes("(") and not self.takes(")"):
            if self.kind() in DIRECTIONS:
                ports = self.declared_ports()
            else:
                names = self.listed(lambda: self.take(NAME))
            self.take(")")
        self.take(";")
        body = Body(names)
        while not (self.kind() == "endmodule" and not body.undeclared):
            self.item(body)
        self.at += 1
        ports = ports or [body.declared[port] for port in names]
        own = {(port.name, port.range) for port in ports}
        return Module(name, ports, [wire for wire in body.wires if (wire.name, wire.range) not in own], body.items, place)

    def head(self):
        """What stands before declared names."""
        if self.kind() in NETS:
            self.at += 1
        return self.range()

    def range(self):
        if not self.takes("["):
            return None
        left = self.take(NUMBER)
        self.take(":")
        right = self.take(NUMBER)
        self.take("]")
        return left, right

    def declared_ports(self):
        ports, direction, bounds = [], None, None
        while True:
            if self.kind() in DIRECTIONS:
                direction = self.take(self.kind())
                bounds = self.head()
            ports.append(Net(self.take(NAME), bounds, direction))
            if not self.takes(","):
                return ports

    def item(self, body):
        kind = self.kind()
        if kind not in ITEMS or (kind in DIRECTIONS and not body.undeclared):
            raise self.fault()
        if kind != NAME:
            self.at += 1
        ITEMS[kind](self, body, kind)
        self.take(";")

    def directions(self, body, direction):
        bounds = self.head()
        while True:
            if self.values[self.at] not in body.undeclared:
                raise self.fault()
            name = self.take(NAME)
            body.undeclared.remove(name)
            body.declared[name] = Net(name, bounds, direction)
            # A comma goes on only where a name is left.
            if not body.undeclared or not self.takes(","):
                return

    def wires(self, body, kind):
        bounds = self.range()
        while True:
            place = self.place()
            name = self.take(NAME)
            body.wires.append(Net(name, bounds))
            if self.takes("="):
                body.items.append(Assign((Part(name, None, None, place),), self.expression(), place))
            if not self.takes(","):
                return

    def supplies(self, body, kind):
        bounds = self.range()
        while True:
            place = self.place()
            name = self.take(NAME)
            body.wires.append(Net(name, bounds))
            body.items.append(Supply(name, int(kind[-1]), place))
            if not self.takes(","):
                return

    def assigns(self, body, kind):
        while True:
            place = self.place()
            left = self.side()
            self.take("=")
            body.items.append(Assign(left, self.expression(), place))
            if not self.takes(","):
                return

    def gates(self, body, kind):
        while True:
            place = self.place()
            name = self.take(NAME) if self.kind() == NAME else None
            self.take("(")
            terms = [self.side()]
            self.take(",")
            terms.append(self.expression())
            if kind in TRISTATES:
                self.take(",")
                terms.append(self.expression())
            else:
                # A constant is no output, so it is the last of a buffer's.
                while not (kind in BUFFERS and any(isinstance(leaf, Constant) for leaf in terms[-1])) and self.takes(","):
                    terms.append(self.expression())
            self.take(")")
            outputs = len(terms) - 1 if kind in BUFFERS else 1
            body.items.append(Gate(kind, name, terms[:outputs], terms[outputs:], place))
            if not self.takes(","):
                return

    def instances(self, body, kind):
        cell = self.take(NAME)
        while True:
            place = self.place()
            name = self.take(NAME)
            self.take("(")
            is_placed = self.kind() not in (".", ")")
            links = self.placed() if is_placed else self.listed(self.link) if self.kind() == "." else []
            self.take(")")
            body.items.append(Instance(cell, name, links, is_placed, place))
            if not self.takes(","):
                return

    def link(self):
        self.take(".")
        place = self.place()
        port = self.take(NAME)
        self.take("(")
        given = None if self.kind() == ")" else self.expression()
        self.take(")")
        return Link(port, given, place)

    def placed(self):
        """Links by position; the first is empty only where a comma is behind it."""
        links = []
        while True:
            place = self.place()
            is_empty = self.kind() == "," or (links and self.kind() == ")")
            links.append(Link(None, None if is_empty else self.expression(), place))
            if not self.takes(","):
                return links

    def side(self):
        """An expression without constants."""
        if self.takes("{"):
            parts = tuple(self.listed(self.part))
            self.take("}")
            return parts
        return (self.part(),)

    def expression(self):
        if self.kinds[self.at] == "{":
            self.at += 1
            leaves = tuple(self.listed(self.leaf))
            self.take("}")
            return leaves
        return (self.leaf(),)

    def leaf(self):
        return self.take(CONSTANT) if self.kinds[self.at] == CONSTANT else self.part()

    def part(self):
        place = self.places[self.at]
        net = self.take(NAME)
        if self.kinds[self.at] != "[":
            return Part(net, None, None, place)
        self.at += 1
        left, right = self.take(NUMBER), None
        if self.takes(":"):
            right = self.take(NUMBER)
        self.take("]")
        return Part(net, left, right, place)


ITEMS = {NAME: Reader.instances, "assign": Reader.assigns}
ITEMS.update(dict.fromkeys(DIRECTIONS, Reader.directions))
ITEMS.update(dict.fromkeys(NETS, Reader.wires))
ITEMS.update(dict.fromkeys(SUPPLIES, Reader.supplies))
ITEMS.update(dict.fromkeys((*BUFFERS, *LOGIC, *TRISTATES), Reader.gates))
