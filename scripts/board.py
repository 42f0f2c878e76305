"""A board: its chips by their BSDL files, their order in the chain, and the nets between their pins; from a text of
lines, and from a netlist that KiCad writes."""
import os, re
from dataclasses import dataclass, field
from itertools import takewhile
from typing import Dict, List

from boundary import Device, read_device, spelled_bits
from command import Fault, text_of

FORMS = {
    "CHIP": "CHIP NAME BSDL",
    "CHAIN": "CHAIN NAME ..",
    "NET": "NET NAME.PIN ..",
    "HOLD": "HOLD NAME.PIN 0, 1 or z",
}
KICAD_WORD = re.compile(r'[()]|"(?:\\.|[^"\\])*"|[^\s()"]+')
# Pins of other parts that drive nothing, by KiCad's types.
QUIET = ("passive", "input", "no_connect", "free")


@dataclass(frozen=True)
class Pin:
    """A port bit of a chip, as events spell it."""

    chip: str
    bit: str

    def __str__(self):
        return f"{self.chip}.{self.bit}"


@dataclass
class Chip:
    name: str
    device: Device
    # The bit of a scan in which its cell 0 stands.
    place: int = 0

    def __post_init__(self):
        self.port_bits = spelled_bits(self.device.ports)
        self.package_pins = {pin.lower(): bit for bit, pin in self.device.physical.items()}
        self.linkage = {bit for port in self.device.ports if port.mode == "linkage" for bit in port.bits}

    def bit_of(self, word):
        """The port bit that a word names, by itself or by its pin of the package; None where there is none."""
        port_bit = self.port_bits.get(word.replace("[", "(").replace("]", ")").lower())
        packaged = self.package_pins.get(word.lower())
        if port_bit and packaged and port_bit != packaged:
            other = self.device.physical[port_bit]
            raise Fault(f"{self.name}.{word} is a port, at the pin {other}, and the pin of {packaged}: name the one or the other so")
        return port_bit or packaged


@dataclass
class Net:
    name: str
    pins: List[Pin]
    # What else may drive it, or that nothing is known of.
    others: List[str] = field(default_factory=list)

    def shown(self):
        pins = " ".join(map(str, self.pins))
        return f"{self.name} ({pins})" if self.name else pins


class Board:
    """Its chips stand in the order of the chain, from TDI to TDO."""

    def __init__(self):
        self.chips: Dict[str, Chip] = {}
        self.nets: List[Net] = []
        self.net_of: Dict[Pin, Net] = {}
        self.holds: Dict[Pin, str] = {}

    def add_net(self, net):
        for pin in net.pins:
            other = self.net_of.setdefault(pin, net)
            if other is not net:
                raise Fault(f"{pin} is in two nets: {other.shown()}, and {net.shown()}")
        if len(set(net.pins)) < len(net.pins):
            raise Fault(f"a pin stands twice in the net {net.shown()}")
        self.nets.append(net)

    def pin_of(self, word):
        """The pin of a word CHIP.PIN."""
        name, dot, rest = word.partition(".")
        if not dot or name not in self.chips:
            raise Fault(f"{word} names no pin of a chip: {'there is no chip ' + name if dot else 'it has no dot'}")
        bit = self.chips[name].bit_of(rest)
        if bit is None:
            raise Fault(f"{word} is no port bit, and no pin of the package, of {self.chips[name].device.entity}")
        return Pin(name, bit)

    def order(self, names):
        """The chain from TDI to TDO; cell 0 of the last chip is bit 0 of a scan."""
        seen = set()
        for name in names:
            if name not in self.chips:
                raise Fault(f"there is no chip {name}")
            if name in seen:
                raise Fault(f"{name} stands twice in the chain")
            seen.add(name)
        for name in self.chips:
            if name not in seen:
                raise Fault(f"{name} isn't in the chain")
        self.chips = {name: self.chips[name] for name in names}
        place = 0
        for chip in reversed(self.chips.values()):
            chip.place = place
            place += len(chip.device.rows)

    def length(self):
        return sum(len(chip.device.rows) for chip in self.chips.values())

    def check_links(self):
        """Where a net has the TDO of a chip and the TDI of another, the chain must have them so."""
        names = list(self.chips)
        following = dict(zip(names, names[1:]))
        for net in self.nets:
            outs = [pin.chip for pin in net.pins if pin.bit == self.chips[pin.chip].device.tdo]
            ins = [pin.chip for pin in net.pins if pin.bit == self.chips[pin.chip].device.tdi]
            for out in outs:
                for into in ins:
                    if following.get(out) != into:
                        raise Fault(f"the net {net.shown()} has the TDO of {out} and the TDI of {into}, which isn't the next in the chain")


class Lines:
    """The lines of a board's text, which stand in any order: chips are taken first, then their chain, nets and levels."""

    def __init__(self, path):
        self.path, self.board = path, Board()
        self.by_kind = {kind: [] for kind in FORMS}
        for number, line in enumerate(text_of(path).split("\n"), 1):
            words = list(takewhile(lambda word: word[0] != "#", line.split()))
            if words:
                if words[0] not in FORMS:
                    raise Fault(f"{path}: line {number}: {words[0]} begins no line; these do: {', '.join(FORMS)}")
                self.by_kind[words[0]].append((number, words[1:]))

    def read(self):
        if len(self.by_kind["CHAIN"]) != 1:
            raise Fault(f"{self.path}: one line {FORMS['CHAIN']} gives the order of the chips, from TDI to TDO")
        for kind in FORMS:
            for number, words in self.by_kind[kind]:
                try:
                    getattr(self, kind.lower())(words)
                except Fault as fault:
                    raise Fault(f"{self.path}: line {number}: {fault}") from None
        return self.board

    def chip(self, words):
        if len(words) != 2 or "." in words[0]:
            raise Fault(f"the form is {FORMS['CHIP']}, and a name has no dot")
        name, path = words
        if name in self.board.chips:
            raise Fault(f"the chip {name} stands twice")
        self.board.chips[name] = Chip(name, read_device(os.path.join(os.path.dirname(self.path), path)))

    def chain(self, words):
        self.board.order(words)

    def net(self, words):
        if not words:
            raise Fault(f"the form is {FORMS['NET']}")
        self.board.add_net(Net("", [self.board.pin_of(word) for word in words]))

    def hold(self, words):
        if len(words) != 2 or words[1] not in ("0", "1", "z"):
            raise Fault(f"the form is {FORMS['HOLD']}")
        pin = self.board.pin_of(words[0])
        if pin in self.board.holds:
            raise Fault(f"{pin} is held twice")
        self.board.holds[pin] = words[1]


def parsed(text):
    """The lists of a KiCad file, each with its words and lists."""
    stack = [[]]
    for word in KICAD_WORD.findall(text):
        if word == "(":
            stack.append([])
        elif word == ")":
            if len(stack) == 1:
                raise Fault("a parenthesis is closed that wasn't opened")
            done = stack.pop()
            stack[-1].append(done)
        else:
            stack[-1].append(re.sub(r"\\(.)", r"\1", word[1:-1]) if word[0] == '"' else word)
    if len(stack) != 1:
        raise Fault("a parenthesis isn't closed")
    return stack[0]


def lists_of(parent, name):
    return [it for it in parent if isinstance(it, list) and it[:1] == [name]]


def value_of(parent, name):
    """The word behind a name, in a list of its own; or empty."""
    found = lists_of(parent, name)
    return found[0][1] if found and len(found[0]) > 1 and isinstance(found[0][1], str) else ""


def kicad_net(board, lines):
    """A net of KiCad's, with the pins of the board's chips; what other parts have there is told where it may drive."""
    net = Net(value_of(lines, "name"), [])
    for node in lists_of(lines, "node"):
        part, number, kind = (value_of(node, name) for name in ("ref", "pin", "pintype"))
        chip = board.chips.get(part)
        bit = chip.package_pins.get(number.lower()) if chip else None
        if bit:
            net.pins.append(Pin(part, bit))
        elif chip:
            net.others.append(f"{part}.{number}, which its BSDL file doesn't have")
        elif kind.split("+")[0] not in QUIET:
            net.others.append(f"{part}.{number}{f', {kind}' if kind else ', of no type'}")
    return net


def add_kicad(board, path):
    """Takes the nets of a KiCad netlist on which chips of the board are."""
    try:
        top = lists_of(parsed(text_of(path)), "export")
        nets = [lists_of(it, "net") for it in lists_of(top[0], "nets")] if top else []
        if not nets:
            raise Fault("there are no nets of `(export .. (nets ..))`; is this a netlist that KiCad writes?")
        for lines in nets[0]:
            net = kicad_net(board, lines)
            if net.pins:
                board.add_net(net)
    except Fault as fault:
        raise Fault(f"{path}: {fault}") from None


def read_board(path, kicad=None):
    board = Lines(path).read()
    if kicad:
        add_kicad(board, kicad)
    board.check_links()
    return board
