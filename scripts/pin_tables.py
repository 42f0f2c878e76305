"""Tables of pins, and orders of port bits: lists, and what a DEF file says of where pins are."""
import csv, re
from dataclasses import dataclass

from command import Fault, text_of

CELLS = ("BC_1", "BC_2", "BC_4", "BC_7")
TAP = ("tck", "tms", "tdi", "tdo", "trst")
COLUMNS = ("port", "pin", "cell")
PIN = re.compile(r"\d{1,32}|(?=.{1,32}$)[A-Za-z](_?[A-Za-z0-9])*", re.ASCII)
# A pin of a DEF file: its name, what is told of it, and a place among that.
DEF_PINS = re.compile(r"^[ \t]*PINS\s+\d+\s*;(.*?)^[ \t]*END\s+PINS\b", re.M | re.S)
DEF_PIN = re.compile(r"-\s+(\S+)\s+\+(.*?);", re.S)
DEF_PLACE = re.compile(r"\+\s*(?:PLACED|FIXED|COVER)\s*\(\s*(-?\d+)\s+(-?\d+)\s*\)")
DEF_AREA = re.compile(r"^[ \t]*DIEAREA((?:\s*\(\s*-?\d+\s+-?\d+\s*\))+)", re.M)


@dataclass
class Row:
    """A port bit, or a name of the test access port or of linkage, with its pin and cell where they are told."""

    port: str
    pin: str
    cell: str
    # The file and the line.
    place: str


def rows_of(path):
    """The rows of a table; a first one of `port`, `pin` and `cell` tells the order of the columns."""
    columns = None
    for number, row in enumerate(csv.reader(text_of(path).split("\n")), 1):
        row = [it.strip() for it in row]
        if not any(row) or row[0].startswith("#"):
            continue
        if columns is None:
            named = [it.lower() for it in row]
            columns = named if "port" in named and set(named) <= set(COLUMNS) else list(COLUMNS)
            if columns is named:
                continue
        place = f"{path}: line {number}"
        if len(row) > len(columns):
            raise Fault(f"{place}: there are more than the columns {', '.join(columns)}")
        yield checked(Row(**{**dict.fromkeys(COLUMNS, ""), **dict(zip(columns, row))}, place=place))


def checked(row):
    if not row.port:
        raise Fault(f"{row.place}: no port stands there")
    if row.pin and not PIN.fullmatch(row.pin):
        raise Fault(f"{row.place}: {row.pin} is no pin: digits alone, or a letter and then letters, digits and single `_`, 32 at most")
    if row.cell.lower() in (*TAP, "linkage"):
        row.cell = row.cell.lower()
    elif row.cell and row.cell.upper() not in CELLS:
        raise Fault(f"{row.place}: {row.cell} is none of {', '.join((*CELLS, *TAP, 'linkage'))}")
    else:
        row.cell = row.cell.upper()
    if row.cell.lower() in (*TAP, "linkage") and not row.pin:
        raise Fault(f"{row.place}: {row.port} has no pin")
    return row


class Table:
    """A table for the ports of a netlist: `bits` by port."""

    def __init__(self, path, bits):
        self.rows, self.tap, self.linkage, pins = {}, {}, [], {}
        spelled = {bit: bit for them in bits.values() for bit in them}
        for row in rows_of(path):
            if row.pin.lower() in pins:
                raise Fault(f"{row.place}: the pin {row.pin} stands before, at {pins[row.pin.lower()]}")
            if row.pin:
                pins[row.pin.lower()] = row.port
            if row.cell in (*TAP, "linkage") and row.port.lower() in map(str.lower, bits):
                raise Fault(f"{row.place}: {row.port} is a port of the netlist, which has a boundary cell; leave it out of the module, or take the row out")
            if row.cell in TAP:
                if row.cell in self.tap:
                    raise Fault(f"{row.place}: {row.cell} stands twice")
                self.tap[row.cell] = row
            elif row.cell == "linkage":
                self.linkage.append(row)
            else:
                self.put(row, bits, spelled)
        self.pins = set(pins)

    def put(self, row, bits, spelled):
        """A row of a bit, or of a whole vector, which has no pin of its own."""
        those = [spelled[row.port]] if row.port in spelled else bits.get(row.port, [])
        if not those:
            raise Fault(f"{row.place}: {row.port} is no bit of a port")
        if row.pin and len(those) > 1:
            raise Fault(f"{row.place}: {row.port} has {len(those)} bits, and a pin is of one")
        for bit in those:
            if bit in self.rows:
                raise Fault(f"{row.place}: {bit} stands before")
            self.rows[bit] = row


def round_the_edge(area, place):
    """How far round the die a place is, from the lower left corner up the left edge, and on."""
    xs, ys = zip(*area)
    left, right, low, high = min(xs), max(xs), min(ys), max(ys)
    x, y = place
    near = {"left": x - left, "top": high - y, "right": right - x, "bottom": y - low}
    edge = min(near, key=near.get)
    far = dict(left=y - low, top=x - left, right=high - y, bottom=right - x)[edge]
    return ("left", "top", "right", "bottom").index(edge), far


def order_of_def(text, path):
    """The names of a DEF file's pins: those that are placed round the die, and then the others as they stand."""
    pins = DEF_PINS.search(text)
    if not pins:
        raise Fault(f"{path}: there is no `PINS .. END PINS`, as a DEF file has")
    found = [(re.sub(r"\\(.)", r"\1", name), DEF_PLACE.search("+" + told)) for name, told in DEF_PIN.findall(pins[1])]
    placed = [(name, (int(place[1]), int(place[2]))) for name, place in found if place]
    area = DEF_AREA.search(text)
    corners = [tuple(map(int, it)) for it in re.findall(r"(-?\d+)\s+(-?\d+)", area[1])] if area else [place for _, place in placed]
    names = [name for name, place in sorted(placed, key=lambda it: round_the_edge(corners, it[1]))]
    # (a bit of a vector stands as NAME[INDEX] in a netlist, whatever stands round the index here)
    return list(dict.fromkeys(re.sub(r"[<(](\d+)[>)]$", r"[\1]", name) for name in [*names, *(name for name, place in found if not place)]))


def order_of(path, bits):
    """The bits in the order of a list of ports and bits, or of a DEF file; others aren't in it."""
    text = text_of(path)
    is_def = re.search(r"^[ \t]*(?:VERSION|DESIGN|PINS)\s+\S+\s*;", text, re.M) is not None
    names = order_of_def(text, path) if is_def else re.sub(r"(?m)^[ \t]*#.*", "", text).split()
    there = {bit for them in bits.values() for bit in them}
    order = {}
    for name in names:
        those = [name] if name in there else bits.get(name, [])
        if not those and not is_def:
            raise Fault(f"{path}: {name} is no port, and no bit of one")
        for bit in those:
            if bit in order and not is_def:
                raise Fault(f"{path}: {bit} stands twice")
            order[bit] = None
    if not order:
        raise Fault(f"{path}: no pin there is a port of the netlist")
    return list(order)
