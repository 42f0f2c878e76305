"""What the statements of a netlist declare, and what they do with a name, each with its place.

A text of any length is cut into statements; only those in which a name stands are read word by word. The texts have the
grammar's form.
"""
import re
from dataclasses import dataclass
from typing import List, Tuple

from command import Fault
from listed_cells import FLOPS
from netlist_words import DECLARATIONS, WORD, Word, items_in, plain

STATEMENT = re.compile(
    r"(?:[^;/\\(`]+|//[^\n]*|/\*[\s\S]*?\*/|\(\*[\s\S]*?\*\)|\\[!-~]+[ \t\n\r\f]|`(?:timescale|default_nettype)\b[^\n]*|[/\\(`])*(?:;|\Z)"
)
# How a statement begins that may declare something.
DECLARES = re.compile(r"\s*(?:(?:endmodule|module|input|output|inout|wire)\b|[/(`])")
DIRECTIONS = ("input", "output", "inout")
GATES = ("buf", "not", "and", "or", "nand", "nor", "xor", "xnor", "bufif0", "bufif1")
# What the known cells drive.
OUTPUTS = {"MUX2": "Y", **{kind: "Q" for kind in FLOPS}}


def words_between(text, place, end):
    while place < end:
        found = WORD.match(text, place, end)
        if not found:
            raise Fault(f"no word of the netlist language begins at byte {place}")
        if found["dropped"] is None:
            yield Word(found[0], place)
        place = found.end()


@dataclass
class Declaration:
    """A port or a wire; `kind` is a direction, `wire`, or None in a header's list of names alone."""

    kind: str
    bounds: Tuple[int, int]
    word: Word

    def count(self):
        return abs(self.bounds[0] - self.bounds[1]) + 1 if self.bounds else 1

    def bits(self):
        """The bits as faults print them, from the left."""
        name = plain(self.word.text)
        if not self.bounds:
            return [name]
        left, right = self.bounds
        step = 1 if left <= right else -1
        return [f"{name}[{index}]" for index in range(left, right + step, step)]

    def shown(self):
        return f"{plain(self.word.text)} is {'a vector' if self.bounds else 'one bit'}{f', [{self.bounds[0]}:{self.bounds[1]}]' if self.bounds else ''}"


@dataclass
class Use:
    """An operand of a gate or an assignment, or a cell's link; `word` is None where the link is empty."""

    word: Word
    index: Word
    port: Word
    drives: bool

    def is_bit(self, bit):
        name, index = bit
        return self.word is not None and plain(self.word.text) == name and (self.index is None or int(self.index.text) == index)

    def place(self):
        return (self.word or self.port).place


@dataclass
class Part:
    """A gate, an instance or an assignment, with what it uses."""

    kind: str
    name: Word
    uses: List[Use]
    first: Word
    # Where its statement begins, with the kind.
    kind_place: int = 0

    def is_cell(self):
        return self.kind not in GATES and self.kind != "assign"


class Statement:
    """The words of a statement, without an `endmodule` before it."""

    def __init__(self, words):
        self.words = words[1:] if words and words[0].text == "endmodule" else words

    def kind(self):
        return self.words[0].text if self.words else ""

    def declarations(self):
        if self.kind() == "module":
            yield from declared([word for word in self.words[2:] if word.text not in ("(", ")")], None)
        elif self.kind() in DECLARATIONS:
            yield from declared(self.words, None)

    def parts(self, outputs):
        if self.words and self.kind() not in DECLARATIONS:
            for item in items_in([word for word in self.words if word.text != ";"]):
                part = part_of(item, outputs)
                part.kind_place = self.words[0].place
                yield part


def declared(words, kind):
    """Directions, ranges and names, as headers and declarations have them."""
    bounds, at = None, 0
    while at < len(words):
        text = words[at].text
        if text in DIRECTIONS or (text == "wire" and at == 0):
            kind, bounds = text, None
        elif text == "[":
            bounds = (int(words[at + 1].text), int(words[at + 3].text))
            at += 4
        elif text not in ("wire", ",", ";"):
            yield Declaration(kind, bounds, words[at])
        at += 1


def operands_of(words):
    """The operands that commas or `=` part, in the outermost parentheses where there are some: each a word and an index."""
    found = [[]]
    for word in words:
        if word.text in (",", "="):
            found.append([])
        elif word.text not in ("(", ")"):
            found[-1].append(word)
    return [(words[0], words[2] if len(words) > 1 else None) for words in found if words]


def part_of(item, outputs):
    kind, words = plain(item.kind), item.words
    if kind == "assign":
        return Part(kind, None, [Use(word, index, None, at == 0) for at, (word, index) in enumerate(operands_of(words))], words[0])
    name = None if words[0].text == "(" else words[0]
    rest = words[1:] if name else words
    if kind in GATES:
        return Part(kind, name, [Use(word, index, None, at == 0) for at, (word, index) in enumerate(operands_of(rest))], words[0])
    uses, at = [], 1
    while at < len(rest) and rest[at].text == ".":
        port, end = rest[at + 1], at + 3
        while rest[end].text != ")":
            end += 1
        linked = rest[at + 3 : end]
        uses.append(Use(linked[0] if linked else None, linked[2] if len(linked) > 1 else None, port, outputs.get(kind) == plain(port.text)))
        at = end + 2
    return Part(kind, name, uses, words[0])


class Netlist:
    """A text of one module or more; `cells` are those of a library."""

    def __init__(self, text, cells=()):
        self.text, self.outputs = text, {**OUTPUTS, **{cell.name: cell.out for cell in cells}}

    def statements(self, name="", is_wanted=lambda text, start, end: True):
        """Those in which the name stands, of those that are wanted."""
        for found in STATEMENT.finditer(self.text):
            start, end = found.span()
            if start < end and self.text.find(name, start, end) >= 0 and is_wanted(self.text, start, end):
                yield Statement(list(words_between(self.text, start, end)))

    def declarations(self, name=None):
        """Those of a name, or all; a name that a header lists alone is none."""
        for statement in self.statements(name or "", DECLARES.match):
            for it in statement.declarations():
                if it.kind and (name is None or plain(it.word.text) == name):
                    yield it

    def declaration(self, name):
        return next(self.declarations(name), None)

    def ports(self):
        return (it for it in self.declarations() if it.kind in DIRECTIONS)

    def parts(self, name=""):
        """The parts in whose statement the name stands."""
        for statement in self.statements(name):
            yield from statement.parts(self.outputs)

    def wide_parts(self, most):
        """The parts with more operands or links than that."""
        for statement in self.statements("", lambda text, start, end: text.count(",", start, end) >= most):
            yield from (part for part in statement.parts(self.outputs) if len(part.uses) > most)

    def named(self, name):
        """The gate or the instance of a name."""
        return next((part for part in self.parts(name) if part.name and plain(part.name.text) == name), None)

    def bit(self, text):
        """A bit as a fault prints it: its name, and its index or None."""
        found = re.fullmatch(r"(.+)\[(\d+)\]", text, re.S)
        if found and not self.declaration(text):
            return found[1], int(found[2])
        return text, None

    def uses(self, bit):
        """Each use of a bit, with its part."""
        for part in self.parts(bit[0]):
            for use in part.uses:
                if use.is_bit(bit):
                    yield part, use

    def words(self, name):
        """The words that are the name, whatever it stands for."""
        for statement in self.statements(name):
            yield from (word for word in statement.words if plain(word.text) == name)

    def definitions(self, name):
        """The words that give something this name, in the order of the text, each with its declaration, where it has one."""
        for statement in self.statements(name):
            yield from ((it.word, it) for it in statement.declarations() if plain(it.word.text) == name)
            yield from ((part.name, None) for part in statement.parts(self.outputs) if part.name and plain(part.name.text) == name)
