"""The manual's way on to layout, with the small library: flip-flops of the falling edge share one inverter of TCK, cells
of the library stay as they are, and what comes out plays the program."""
import os, re, sys

from chips import CELLS, TOP, keep, run, text_of
from script_trials import script, two_hundred

NEEDS = ("yosys", "iverilog", "vvp")
EXAMPLE = os.path.join(TOP, "examples/synthesis")
SMALL, LISTED = (os.path.join(EXAMPLE, name) for name in ("small.lib", "small.cells"))
SYNTHESIS = os.path.join(TOP, "models/cells_synthesis.v")
# The library has no flip-flop for the falling edge but with a clear.
PLAIN = re.compile(r"  cell \(DFFNRX1\) \{[\s\S]*?\n  \}\n")
OPEN = "module \\$_TBUF_ (input A, input E, output Y);\n  TBUFX1 _TECHMAP_REPLACE_ (.A(A), .EN(E), .Y(Y));\nendmodule\n"
MODELS = "module TBUFX1 (input A, input EN, output Y);\n  bufif1 (Y, A, EN);\nendmodule\n"


def steps(module, netlist, library, opened, mapped, before=""):
    """The manual's steps."""
    yield from (before, f"read_verilog {SYNTHESIS} {netlist}", f"hierarchy -check -top {module}", "proc", "flatten", "tribuf", f"synth -top {module}")
    yield from (f"dfflibmap -liberty {library}", "opt_merge", f"abc -liberty {library}", f"techmap -map {opened}", "opt_clean -purge", f"write_verilog -noattr {mapped}")


def mapped(room, module, netlist, library, before=""):
    path = os.path.join(room, f"{module}.mapped.v")
    opened = keep(os.path.join(room, "open.v"), OPEN)
    run(["yosys", "-q", "-p", "; ".join(filter(None, steps(module, netlist, library, opened, path, before)))])
    return path


def played(program, room, netlist, bsdl):
    """What the bench says of the program of `vectors`; the models of the library have QN besides."""
    events, bench, simulation = (os.path.join(room, name) for name in ("chip.events", "bench.v", "bench.vvp"))
    run([program, "vectors", bsdl, events])
    script("bench", bsdl, events, bench, LISTED)
    with_qn = re.sub(r"(module DFFRX1 \([^;]*)\);", r"\1, output QN);\n  assign QN = ~Q;", text_of(bench))
    keep(bench, with_qn + MODELS)
    run(["iverilog", "-g2001", "-o", simulation, bench, netlist, CELLS])
    said = run(["vvp", "-n", simulation]).strip()
    if not re.fullmatch(r"done \d+ 0", said):
        sys.exit(f"{netlist}: the bench says {said[-500:]}")
    return said


def tried(program, room):
    netlist, bsdl = two_hundred(program, room)
    rising = keep(os.path.join(room, "rising.lib"), PLAIN.sub("", text_of(SMALL)))
    text = text_of(mapped(room, "pins200", netlist, rising))
    inverters = len(re.findall(r"INVX1 \S+ \(\s*\.A\(TCK\)", text))
    flops = len(re.findall(r"^  DFF\w+ ", text, re.M))
    if inverters != 1:
        sys.exit(f"200 pins: {inverters} inverters of TCK for {flops} flip-flops")
    yield f"200 pins, a library without flip-flops of the falling edge: one inverter of TCK for {flops} flip-flops; {played(program, room, os.path.join(room, 'pins200.mapped.v'), bsdl)}"
    chip, bsdl = (os.path.join(EXAMPLE, name) for name in ("pulse.chip.v", "pulse.bsd"))
    path = mapped(room, "pulse", chip, SMALL, f"read_liberty -lib {SMALL}")
    yield f"pulse, which has cells of the library: {played(program, room, path, bsdl)}"
