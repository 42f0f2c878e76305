"""Random texts of the wide netlist language: modules below a top, whose nets are all driven, each bit once, and without
circles. Whatever a text reads stands before in it, so that simulators take its nets that aren't declared."""
import random, re

BASES = {"b": 1, "o": 3, "h": 4, "d": 0}
KEY_WORDS = ("and", "output", "wire", "supply1", "end", "table")
LOGIC = ("and", "or", "nand", "nor", "xor", "xnor")
FLOPS = {"DFF": (), "DFFN": (), "DFFR": ("RN",), "DFFNR": ("RN",), "DFFS": ("SN",), "DFFNS": ("SN",)}
# What the texts with boxes are of, and a library of them: ports from the left, outputs first.
BOXES = {
    "RAM": ([("Q", (7, 0)), ("RDY", None)], [("A", (0, 3)), ("D", (7, 0)), ("WE", None)]),
    "PLL": ([("CLK", (2, 1))], [("REF", None), ("SEL", (0, 0))]),
    "TIE": ([("HI", None), ("LO", None)], []),
}
LIBRARY = "boxes 1\n" + "".join(
    "box " + " ".join([name, *(port + ("" if bounds is None else f"[{bounds[0]}:{bounds[1]}]") for port, bounds in outputs), ":"]
                      + [port + ("" if bounds is None else f"[{bounds[0]}:{bounds[1]}]") for port, bounds in inputs]) + "\n"
    for name, (outputs, inputs) in BOXES.items()
)


def spelled(name):
    """A name, escaped where it must be."""
    return name if re.fullmatch(r"[A-Za-z_][\w$]*", name) and name not in KEY_WORDS else f"\\{name} "


class Net:
    """A net with its bits from the left, each as the net and a place."""

    def __init__(self, name, bounds, direction="wire"):
        self.name, self.bounds, self.direction = name, bounds, direction
        left, right = bounds or (0, 0)
        self.indices = list(range(left, right - 1, -1) if left >= right else range(left, right + 1))
        self.bits = [(self, place) for place in range(len(self.indices))]

    def range(self):
        return f"[{self.bounds[0]}:{self.bounds[1]}] " if self.bounds else ""


class Drawing:
    """What is drawn by chance: names, ranges, constants, and expressions of given bits."""

    def __init__(self, chance):
        self.chance = chance
        # Key words that may still be names here.
        self.key_words = chance.sample(KEY_WORDS, len(KEY_WORDS))

    def likely(self, share):
        return self.chance.random() < share

    def named(self, base):
        if self.likely(0.8):
            return base
        if self.key_words and self.likely(0.2):
            return self.key_words.pop()
        return base + self.chance.choice(["[3]", ".q", ":x", "/y", "$z", "-"])

    def bounds(self):
        if self.likely(0.35):
            return None
        low, width = self.chance.choice([0, 0, 0, 1, 4]), self.chance.choice([1, 2, 2, 3, 4, 5, 8, 13])
        return (low + width - 1, low) if self.likely(0.7) else (low, low + width - 1)

    def constant(self, values):
        width, value = len(values), int("".join(map(str, values)), 2)
        base = self.chance.choice("bohd")
        if base == "d":
            digits = str(value)
        else:
            digits = f"{value:{dict(b='b', o='o', h='x')[base]}}"
            if self.likely(0.5):
                digits = digits.rjust(-(-width // BASES[base]), "0")
        return f"{width}'{self.chance.choice([base, base.upper()])}{self.chance.choice([digits, digits.upper()])}"

    def part(self, bits):
        net, start, end = bits[0][0], bits[0][1], bits[-1][1]
        if len(bits) == len(net.bits) and (net.bounds is None or self.likely(0.8)):
            return spelled(net.name)
        if len(bits) == 1 and self.likely(0.8):
            return f"{spelled(net.name)}[{net.indices[start]}]"
        return f"{spelled(net.name)}[{net.indices[start]}:{net.indices[end]}]"

    def expression(self, bits):
        """Bits and values from the left, as runs of neighbours with cuts between."""
        runs = []
        for bit in bits:
            last = runs[-1][-1] if runs else None
            if last is not None and isinstance(bit, int) and isinstance(last, int) and len(runs[-1]) < 20 and self.likely(0.9):
                runs[-1].append(bit)
            elif isinstance(bit, tuple) and isinstance(last, tuple) and bit[0] is last[0] and bit[1] == last[1] + 1 and self.likely(0.9):
                runs[-1].append(bit)
            else:
                runs.append([bit])
        words = [self.constant(run) if isinstance(run[0], int) else self.part(run) for run in runs]
        return words[0] if len(words) == 1 and self.likely(0.9) else "{" + self.chance.choice([", ", ",", " ,"]).join(words) + "}"


class ModuleText(Drawing):
    """One module; `open` are the bits that nothing drives yet, `known` the nets that may be read."""

    def __init__(self, chance, name, children, is_top, boxes):
        super().__init__(chance)
        self.name, self.children, self.is_top, self.boxes, self.count = name, children, is_top, boxes, 0
        self.ports = [Net(self.named(f"i{number}"), self.bounds(), "input") for number in range(chance.randint(1, 4))]
        self.ports += [Net(self.named(f"o{number}"), self.bounds(), "output") for number in range(chance.randint(1, 4))]
        if is_top:
            self.ports += [Net("ck", None, "input"), Net("rn", None, "input")]
            if self.likely(0.25):
                self.ports.append(Net("io", self.bounds(), "inout"))
        chance.shuffle(self.ports)
        self.wires = [Net(self.named(f"w{number}"), self.bounds()) for number in range(chance.randint(0, 7))]
        self.declared = [net for net in self.wires if net.bounds or self.likely(0.7)]
        self.known = [net for net in self.ports if net.direction == "input" and net.name not in ("ck", "rn")]
        self.open, self.items = [bit for net in (*self.ports, *self.wires) if net.direction in ("output", "wire") for bit in net.bits], []
        self.seen = {}

    def new(self, base):
        self.count += 1
        return f"{base}{self.count}"

    def take(self, count):
        """Bits that are driven from now on, and mostly neighbours."""
        count = min(count, len(self.open))
        if self.likely(0.2):
            bits = self.chance.sample(self.open, count)
        else:
            start = self.chance.randrange(len(self.open) - count + 1)
            bits = self.open[start : start + count]
        gone = set(bits)
        self.open = [bit for bit in self.open if bit not in gone]
        return bits

    def drive(self, bits):
        """These bits may be read: a run of each net, as it grows."""
        for net, place in bits:
            self.seen.setdefault(net, set()).add(place)
            if len(self.seen[net]) == len(net.bits):
                self.known.append(net)

    def read(self, count):
        """An expression of so many bits that are driven, or constants."""
        bits = []
        while len(bits) < count:
            left = count - len(bits)
            if self.likely(0.15):
                bits += [self.chance.randint(0, 1) for _ in range(self.chance.randint(1, left))]
                continue
            net = self.chance.choice(self.known)
            start = 0 if self.likely(0.5) else self.chance.randrange(len(net.bits))
            bits += net.bits[start : start + left]
        return self.expression(bits)

    def assigns(self):
        pairs, driven = [], []
        for _ in range(self.chance.choice([1, 1, 1, 2, 3])):
            if self.open:
                bits = self.take(self.chance.randint(1, 14))
                pairs.append(f"{self.expression(bits)} = {self.read(len(bits))}")
                driven += bits
        self.drive(driven)
        return f"assign {', '.join(pairs)};"

    def logic(self):
        bits = self.take(1)
        name = spelled(self.named(self.new("g"))) + " " if self.likely(0.6) else ""
        text = f"{self.chance.choice(LOGIC)} {name}({self.expression(bits)}, {', '.join(self.read(1) for _ in range(self.chance.randint(1, 4)))});"
        self.drive(bits)
        return text

    def buffers(self):
        gates, driven, kind = [], [], self.chance.choice(["buf", "not"])
        for _ in range(self.chance.choice([1, 1, 2])):
            if self.open:
                bits = self.take(self.chance.choice([1, 1, 2, 3]))
                name = self.new("b") + " " if self.likely(0.6) else ""
                gates.append(f"{name}({', '.join(self.expression([bit]) for bit in bits)}, {self.read(1)})")
                driven += bits
        self.drive(driven)
        return f"{kind} {', '.join(gates)};"

    def given(self):
        nets = [Net(self.named(self.new("d")), self.bounds())]
        nets += [Net(self.new("d"), nets[0].bounds) for _ in range(self.chance.choice([0, 0, 1]))]
        text = ", ".join(f"{spelled(net.name)} = {self.read(len(net.bits))}" for net in nets)
        self.known += nets
        return f"{self.chance.choice(['wire', 'wire', 'tri'])} {nets[0].range()}{text};"

    def supplies(self):
        nets = [Net(self.new("s"), None) for _ in range(self.chance.randint(1, 2))]
        self.known += nets
        return f"{self.chance.choice(['supply0', 'supply1'])} {', '.join(net.name for net in nets)};"

    def linked(self, kind, name, outputs, inputs, is_placed=False, order=None):
        """An instance; of each output, at whose place is None for nothing, the bits that it drives."""
        links = {port.name: self.read(len(port.bits)) for port in inputs if not port.name.startswith("open")}
        driven = []
        for port in outputs:
            links[port.name] = ""
            if self.likely(0.85) and len(port.bits) <= len(self.open):
                bits = self.take(len(port.bits))
                links[port.name] = self.expression(bits)
                driven += bits
        self.drive(driven)
        if is_placed:
            # (A comma before nothing would be another link.)
            text = self.chance.choice([", ", ","]).join(links[port.name] for port in order)
            is_placed = text != ""
        if not is_placed:
            text = ", ".join(f".{spelled(port)}({link})" for port, link in self.chance.sample(list(links.items()), len(links)) if link or self.likely(0.5))
        return f"{spelled(kind)} {spelled(name)} ({text});"

    def child(self):
        child = self.chance.choice(self.children)
        outputs, inputs = ([port for port in child.ports if port.direction == direction] for direction in ("output", "input"))
        return self.linked(child.name, self.named(self.new("u")), outputs, inputs, self.likely(0.35), child.ports)

    def box(self):
        kind = self.chance.choice(list(BOXES))
        outputs, inputs = ([Net(*port) for port in ports] for ports in BOXES[kind])
        return self.linked(kind, self.new("x"), outputs, inputs)

    def cell(self):
        if self.likely(0.5):
            return self.linked("MUX2", self.new("m"), [Net("Y", None)], [Net(port, None) for port in "ABS"])
        kind = self.chance.choice(list(FLOPS))
        bits = self.take(1)
        more = "".join(f", .{port}(rn)" for port in FLOPS[kind])
        text = f"{kind} {self.new('f')} (.D({self.read(1)}), .CK(ck){more}, .Q({self.expression(bits)}));"
        self.drive(bits)
        return text

    def tristate(self):
        """A driver of a bit that nothing reads afterwards."""
        outputs = [bit for bit in self.open if bit[0].direction == "output"]
        if not outputs:
            return self.logic()
        bit = self.chance.choice(outputs)
        self.open.remove(bit)
        return f"{self.chance.choice(['bufif0', 'bufif1'])} {self.chance.choice(['', self.new('t') + ' '])}({self.expression([bit])}, {self.read(1)}, {self.read(1)});"

    def body(self):
        kinds = [self.assigns] * 5 + [self.logic] * 3 + [self.buffers] * 2 + [self.given, self.supplies]
        kinds += [self.child] * 5 * bool(self.children) + [self.box] * 5 * self.boxes + [self.cell, self.cell, self.tristate] * self.is_top
        while self.open:
            self.items.append(self.chance.choice(kinds)())
        for port in self.ports:
            if port.direction == "inout":
                # (As a part select Icarus has another strength there, where it is unknown whether it drives.)
                pins = [spelled(port.name) + (f"[{index}]" if port.bounds else "") for index in port.indices]
                self.items += [f"bufif1 ({pin}, {self.read(1)}, {self.read(1)});" for pin in pins]

    def header(self):
        """The header, and the items that declare its ports."""
        if self.likely(0.45):
            words, before = [], None
            for port in self.ports:
                head = f"{port.direction} {self.chance.choice(['', '', 'wire '])}{port.range()}"
                words.append(spelled(port.name) if before == (port.direction, port.bounds) and self.likely(0.5) else head + spelled(port.name))
                before = port.direction, port.bounds
            return f"module {spelled(self.name)} ({', '.join(words)});", []
        lines = [f"{port.direction} {port.range()}{spelled(port.name)};" for port in self.chance.sample(self.ports, len(self.ports))]
        lines += [f"{self.chance.choice(['wire', 'tri'])} {port.range()}{spelled(port.name)};" for port in self.ports if self.likely(0.2)]
        return f"module {spelled(self.name)} ({', '.join(spelled(port.name) for port in self.ports)});", lines

    def text(self):
        self.body()
        first, lines = self.header()
        lines += [f"{self.chance.choice(['wire', 'wire', 'tri'])} {net.range()}{spelled(net.name)};" for net in self.declared]
        # (yosys takes attributes of instances alone.)
        fronts = {True: ["", "", '(* src = "a.v:1" *) '], False: ["", "", "", "/* b */ ", "/**/"]}
        items = [self.chance.choice(fronts[item.startswith("t")]) + item for item in self.items]
        return "\n".join([first, *(f"  {line}" for line in (*lines, *items)), "endmodule"]) + "\n"


def wide_text(seed, boxes=False):
    """The text of a seed; its modules are called by it, the top one as `top_of` says. With `boxes` instances of the
    library's are among the items."""
    chance = random.Random(seed)
    children, text = [], "`timescale 1ns/1ps\n// a text by chance\n"
    for number in range(chance.randint(0, 3)):
        child = ModuleText(chance, f"t{seed}_c{number}", children[:], False, boxes)
        text += child.text()
        children.append(child)
    return text + ModuleText(chance, top_of(seed), children, True, boxes).text()


def top_of(seed):
    return f"t{seed}_top"
