"""qflow places the pins of a chip; the order that scripts/draft_plan takes from its DEF file goes once round the die."""
import os, re, sys

from chips import keep, run, text_of
from script_trials import script

NEEDS = ("qflow", "graywolf")
RTL = """module t (input clk, input [3:0] a, input b, output reg [3:0] y, output z);
  assign z = ^a & b;
  always @(posedge clk) y <= a + {3'b0, b};
endmodule
"""
LIBERTY = "/usr/share/qflow/tech/osu035/osu035_stdcells.lib"


def placed(room):
    """The DEF file, and the place of each of its pins."""
    for name in ("source", "synthesis", "layout"):
        os.mkdir(os.path.join(room, name))
    keep(os.path.join(room, "source/t.v"), RTL)
    run(["qflow", "-T", "osu035", "-p", room, "synthesize", "place", "t"], cwd=room)
    path = os.path.join(room, "layout/t.def")
    pins = text_of(path).split("\nPINS ")[1].split("END PINS")[0]
    return path, {name: (int(x), int(y)) for name, x, y in re.findall(r"- (\S+) \+[^;]*?PLACED \( (\S+) (\S+) \)", pins)}


def length(places):
    """The way from each place to the next."""
    return sum(abs(one[0] - two[0]) + abs(one[1] - two[1]) for one, two in zip(places, places[1:]))


def tried(program, room):
    if not os.path.exists(LIBERTY):
        sys.exit(f"there is no {LIBERTY}, of Debian's package qflow-tech-osu035")
    path, places = placed(room)
    netlist, cells = os.path.join(room, "t.net.v"), os.path.join(room, "t.cells")
    keep(cells, script("liberty_cells", LIBERTY))
    script("from_rtl", "t", os.path.join(room, "source/t.v"), "--liberty", LIBERTY, "--out", netlist, "--program", program)
    plans = [script("draft_plan", netlist, cells, *more, "--program", program) for more in ((), ("--order", path))]
    drafted, ordered = ([places[bit] for bit in re.findall(r"(?m)^pin (\S+) ", plan)] for plan in plans)
    outputs = [os.path.join(room, name) for name in ("o.v", "o.bsd")]
    run([program, "insert", netlist, keep(os.path.join(room, "t.plan"), plans[1]), *outputs, cells])
    xs, ys = zip(*places.values())
    around = 2 * (max(xs) - min(xs) + max(ys) - min(ys))
    if sorted(ordered) != sorted(drafted) or not length(ordered) <= around or not length(ordered) < length(drafted):
        sys.exit(f"{length(ordered)} from pin to pin, and {length(drafted)} in the order of the ports; {around} round all: {ordered}")
    yield f"{len(places)} pins: {length(ordered) / around:.2f} of the way round them from cell to cell, and {length(drafted) / around:.2f} in the order of the ports; `insert` takes the plan"
