"""Libraries of cells, as the commands read them: their lines, the rules on them, and models of their cells."""
import re
from dataclasses import dataclass, field
from typing import List, Tuple

from command import Fault, text_of
from netlist_words import is_simple

# The known flip-flops: the names of their ports behind Q.
FLOPS = dict(DFF=("D", "CK"), DFFN=("D", "CK"), DFFR=("D", "CK", "RN"), DFFNR=("D", "CK", "RN"), DFFS=("D", "CK", "SN"), DFFNS=("D", "CK", "SN"))
KNOWN = ("MUX2", *FLOPS)
# How many values a step takes.
STEPS = {"not": 1, "and": 2, "or": 2, "xor": 2, "mux": 3}
MOST_INPUTS, MOST_STEPS, MOST_VALUES, MOST_PORTS, LONGEST = 16, 64, 16, 1024, 255
# A port of a box that has a range.
BOX_PORT = re.compile(r"(.+)\[(\d{1,9}):(\d{1,9})\]", re.ASCII)
# The kinds of pads, and what the ports behind the kind are: what it drives, what lets it, and what it reads.
PADS = {"in": "C", "out": "I", "tri1": "IE", "tri0": "IE", "bidi1": "IEC", "bidi0": "IEC"}


class Broken(Fault):
    """The rule that a cell breaks."""


def is_name(word):
    return is_simple(word) and len(word) <= LONGEST


def inverse(value):
    """The inverse of an expression; Verilog has no two `~` behind one another."""
    return f"~({value})" if value.startswith("~") else f"~{value}"


def expression(steps):
    """Steps as an expression of Verilog."""
    values = []
    for step in steps:
        taken = [values.pop() for _ in range(STEPS.get(step, 0))][::-1]
        if step == "not":
            values.append(inverse(taken[0]))
        elif step == "mux":
            values.append(f"({taken[1]} & {inverse(taken[0])} | {taken[2]} & {taken[0]})")
        elif taken:
            values.append(f"({taken[0]} {dict(zip(('and', 'or', 'xor'), '&|^'))[step]} {taken[1]})")
        else:
            values.append(f"1'b{step}" if step in ("0", "1") else step)
    return values[0]


@dataclass
class Cell:
    """A gate with its steps, or a flip-flop with its kind."""

    name: str
    out: str
    inputs: List[str]
    steps: List[str] = None
    kind: str = None
    # The number of its line, from 1.
    number: int = 0

    def line(self):
        if self.kind:
            return f"flop {self.name} {self.kind} {self.out} {' '.join(self.inputs)}"
        return f"gate {' '.join([self.name, self.out, *self.inputs])} : {' '.join(self.steps)}"

    def check(self):
        """The rules on a cell by itself."""
        if not is_name(self.name):
            raise Broken(f"{self.name} is no simple name of Verilog, or a key word")
        if self.name in KNOWN:
            raise Broken(f"{self.name} is one of the seven known cells")
        check_ports([self.out, *self.inputs])
        if self.steps is not None:
            self.check_steps()

    def check_steps(self):
        depth = 0
        for step in self.steps:
            wanted = STEPS.get(step, 0)
            if not wanted and step not in self.inputs and step not in ("0", "1"):
                raise Broken(f"{step} is no input of it and no step")
            if depth < wanted:
                raise Broken(f"`{step}` takes {wanted} value{'s' * (wanted > 1)}, and there stand {depth}")
            depth += 1 - wanted
            if depth > MOST_VALUES:
                raise Broken(f"more than {MOST_VALUES} values stand at once")
        if depth != 1:
            raise Broken(f"{depth} values are left at the end, and a cell has one")

    def model(self):
        """A module for simulators; a flip-flop is the known one."""
        ports = ", ".join([*(f"input {port}" for port in self.inputs), f"output {self.out}"])
        if self.kind:
            links = ", ".join(f".{port}({link})" for port, link in zip((*FLOPS[self.kind], "Q"), (*self.inputs, self.out)))
            body = f"  {self.kind} flop ({links});"
        else:
            body = f"  assign {self.out} = {expression(self.steps)};"
        return f"module {self.name} ({ports});\n{body}\nendmodule\n"


def cell_of(number, words):
    """The cell of a line; None where its form is none of a cell."""
    if words[0] == "flop" and len(words) > 2 and len(words) == 4 + len(FLOPS.get(words[2], ())):
        return Cell(words[1], words[3], words[4:], kind=words[2], number=number)
    if words[0] != "gate":
        return None
    # Of several `:` the first that fits parts the line.
    for colon in range(3, min(len(words), 4 + MOST_INPUTS)):
        if words[colon] == ":" and 1 <= len(words) - colon - 1 <= MOST_STEPS:
            return Cell(words[1], words[2], words[3:colon], words[colon + 1 :], number=number)
    return None


def lines_of(text):
    """The words of the lines that aren't skipped, with their numbers."""
    for number, line in enumerate(text.split("\n"), 1):
        words = re.findall(r"[^ \t\r]+", line)
        if words and not words[0].startswith("#"):
            yield number, words


@dataclass
class BoxPort:
    """A port of a cell of which nothing else is known."""

    name: str
    direction: str
    range: Tuple[int, int] = None


@dataclass
class Box:
    """A cell of which its ports are known alone; of a pad, at a pin of the chip, `bond` is the pin's."""

    name: str
    ports: List[BoxPort]
    bond: str = None

    def check(self):
        """The rules on a box by itself."""
        if not is_name(self.name):
            raise Broken(f"{self.name} is no simple name of Verilog, or a key word")
        if self.name in KNOWN:
            raise Broken(f"{self.name} is one of the seven known cells")
        check_ports([port.name for port in self.ports])


def check_ports(ports):
    for place, port in enumerate(ports):
        if not is_name(port) or port == "mux":
            raise Broken(f"its port {port} is no simple name of Verilog, or a key word, or `mux`")
        if port in ports[:place]:
            raise Broken(f"its port {port} stands twice")


def box_ports(words, direction, may_be_wide=True):
    for word in words:
        found = BOX_PORT.fullmatch(word) if may_be_wide else None
        yield BoxPort(found[1], direction, (int(found[2]), int(found[3]))) if found else BoxPort(word, direction)


def groups_of(words):
    """The words between colons."""
    groups = [[]]
    for word in words:
        if word == ":":
            groups.append([])
        else:
            groups[-1].append(word)
    return groups


def box_of(words):
    """The box or the pad of a line; None where its form is none of one."""
    front, *groups = groups_of(words)
    if words[0] == "box":
        if len(front) < 2 or len(groups) not in (1, 2):
            return None
        name, bond, own, groups = words[1], None, [], [front[2:], *groups]
    else:
        roles = PADS.get(front[3]) if len(front) > 3 else None
        if roles is None or len(front) != 4 + len(roles) or len(groups) not in (0, 2, 3):
            return None
        name, bond = front[1:3]
        own = [BoxPort(bond, "inout"), *(BoxPort(port, "output" if role == "C" else "input") for port, role in zip(front[4:], roles))]
    if sum(map(len, groups)) > MOST_PORTS:
        return None
    # Rails are linked to supplies, which nothing drives.
    facing = [list(box_ports(group, direction, place < 2)) for place, (group, direction) in enumerate(zip(groups, ("output", "input", "input")))]
    return Box(name, [*own, *(port for group in facing for port in group)], bond)


@dataclass
class Library:
    """What a library lists, each in its order; `cuts` are names of instances."""

    cells: List[Cell] = field(default_factory=list)
    boxes: List[Box] = field(default_factory=list)
    cuts: List[str] = field(default_factory=list)


# The kinds of lines of a text that begins with `boxes 1`, in the order in which they stand.
KINDS = ("gate", "flop", "box", "pad", "cut")
FORMS = {
    "cells": "`gate NAME OUT {IN} : STEP {STEP}` and `flop NAME KIND Q D CK [R]`",
    "boxes": "`gate NAME OUT {IN} : STEP {STEP}`, `flop NAME KIND Q D CK [R]`, `box NAME {OUT} : {IN}`, `pad NAME BOND KIND ..` and `cut INSTANCE`",
}


class LibraryReader:
    """Takes the lines of a library behind its first, which is `KIND 1`."""

    def __init__(self, kind):
        self.kind, self.library, self.names, self.reached = kind, Library(), set(), 0

    def take(self, where, number, words):
        """Takes a line; a Fault says that it is none, or which rule it breaks."""
        stage = max(1, KINDS.index(words[0])) if words[0] in KINDS else 0
        found = self.listed(number, words)
        if found is None or (stage > 1 and self.kind == "cells"):
            raise Fault(f"{where} is none of {FORMS[self.kind]}")
        if stage < self.reached:
            raise Fault(f"{where} stands too late; the order is {', '.join(KINDS)}")
        self.reached = stage
        if isinstance(found, str):
            self.cut(where, found)
        else:
            self.add(where, found)

    @staticmethod
    def listed(number, words):
        if words[0] in ("box", "pad"):
            return box_of(words)
        if words[0] == "cut":
            return words[1] if len(words) == 2 else None
        return cell_of(number, words)

    def cut(self, where, name):
        if not re.fullmatch(rf"[!-~]{{1,{LONGEST}}}", name) or name in self.library.cuts:
            raise Fault(f"{where}: {name} is no instance's name, or stands twice")
        self.library.cuts.append(name)

    def add(self, where, cell):
        try:
            cell.check()
        except Broken as broken:
            raise Fault(f"{where}: {broken}") from None
        if cell.name in self.names:
            raise Fault(f"{where}: the cell {cell.name} stands twice")
        self.names.add(cell.name)
        (self.library.boxes if isinstance(cell, Box) else self.library.cells).append(cell)


def read_library(path):
    """What a library lists; a Fault names the first line that breaks a rule."""
    reader = None
    for number, words in lines_of(text_of(path)):
        where = f"{path}: line {number}"
        if reader is not None:
            reader.take(where, number, words)
        elif words in (["cells", "1"], ["boxes", "1"]):
            reader = LibraryReader(words[0])
        else:
            raise Fault(f"{where} is neither `cells 1` nor `boxes 1`, with which a library begins")
    if reader is None:
        raise Fault(f"{path}: there is no line `cells 1` or `boxes 1`")
    return reader.library


def read_cells(path):
    """The gates and the flip-flops of a library."""
    return read_library(path).cells
