"""Each script that reads a chip is tried on the greatest demonstration chip, of 100,138 cells, and on the chip of
examples/synthesis."""
import os

from chips import TOP, keep, run, text_of
from script_trials import demo, script

NEEDS = ()
NUMBER = 9999


def last_line(text):
    return text.rstrip("\n").split("\n")[-1]


def shown(program, room, name, module, netlist, bsdl, lib=()):
    """What the scripts make of a chip that has test logic, with the library of its cells."""
    path = lambda end: os.path.join(room, f"{name}{end}")
    script("draw", bsdl, path(".svg"))
    yield f"{name}: draw: a picture of {len(text_of(path('.svg')))} bytes"
    script("long_program", bsdl, path(".long"))
    yield f"{name}: long_program: `check` says {last_line(run([program, 'check', netlist, bsdl, path('.long'), *lib]))}"
    run([program, "vectors", bsdl, path(".events")])
    script("svf", bsdl, path(".svf"))
    script("bench", "--module", module, bsdl, path(".events"), path(".bench.v"), *lib)
    script("vcd", "--bsdl", bsdl, "--program", program, netlist, path(".events"), path(".vcd"), *lib)
    yield f"{name}: svf, bench, vcd: " + ", ".join(f"{len(text_of(path(end)))} bytes" for end in (".svf", ".bench.v", ".vcd"))
    place = script("place", netlist, "1000").split("\n")
    yield f"{name}: place: {place[0].rsplit('/', 1)[-1]}, of byte 1,000"


def tried(program, room):
    netlist, bsdl = demo(program, room, NUMBER)
    plan = keep(os.path.join(room, "plan"), script("draft_plan", "--program", program, netlist))
    report = run([program, "insert", netlist, plan, os.path.join(room, "again.v"), os.path.join(room, "again.bsd")])
    yield f"demo {NUMBER}: draft_plan: `insert` takes its draft: {last_line(report)}"
    yield from shown(program, room, f"demo{NUMBER}", "demo", netlist, bsdl)
    folder = os.path.join(TOP, "examples/synthesis")
    chip = [os.path.join(folder, name) for name in ("pulse.chip.v", "pulse.bsd")]
    yield from shown(program, room, "pulse", "pulse", *chip, [os.path.join(folder, "small.cells")])
