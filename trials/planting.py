"""Plants the faults of trials/data/planted.faults into the netlists that `insert` wrote."""
import os, re, sys
from dataclasses import dataclass, field
from typing import List

from chips import Module, text_of
from script_trials import DATA, TOP

LIST = os.path.join(DATA, "planted.faults")
# The chips that the list names, and where their netlists and plans are.
FOLDERS = {"counter8": os.path.join(TOP, "examples"), "both_ways": DATA, "two_codes": DATA}
HEAD = re.compile(r"fault (\w+), ([^:]+): (.+)")
CELL = re.compile(r"  \w+ (\w+) \(.*\);")


@dataclass
class Planted:
    chip: str
    kind: str
    what: str
    # The cells as the faulty netlist has them.
    lines: List[str] = field(default_factory=list)

    def name(self):
        return f"{self.chip}, {self.kind}: {self.what}"


def faults():
    """The list's faults in their order."""
    listed = []
    for number, line in enumerate(text_of(LIST).split("\n"), 1):
        head = HEAD.fullmatch(line)
        if head:
            listed.append(Planted(*head.groups()))
        elif CELL.fullmatch(line) and listed:
            listed[-1].lines.append(line)
        elif line and not line.startswith("#"):
            sys.exit(f"{LIST}: line {number} is no fault and no cell")
    return listed


def output_of(line):
    """The net that a cell drives, as it is spelled."""
    item = Module.item(re.findall(r"\\\S+\s|1'[bBoOdDhH][01]|[A-Za-z_][\w$]*|\d+|\S", line))
    return item.links["Q" if "Q" in item.links else "Y"] if item.links else item.operands[0]


def planted(text, fault):
    """The netlist with the fault; the trial ends where the list doesn't fit the netlist."""
    lines = text.rstrip("\n").split("\n")
    places = {found[1]: place for place, line in enumerate(lines) for found in [CELL.fullmatch(line)] if found}
    wires, added = [], []
    for line in fault.lines:
        name = CELL.fullmatch(line)[1]
        if name not in places:
            wires.append(f"  wire {output_of(line)};")
            added.append(line)
            continue
        there = lines[places[name]]
        if there == line or output_of(there) != output_of(line):
            sys.exit(f"{fault.name()}: {line.strip()} doesn't stand in the place of {there.strip()}")
        lines[places[name]] = line
    first = next(place for place, line in enumerate(lines) if line.startswith("  wire "))
    return "\n".join([*lines[:first], *wires, *lines[first:-1], *added, lines[-1]]) + "\n"
