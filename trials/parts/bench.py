"""The benches of scripts/bench say under Icarus what `check` says, on netlists as written and on spoiled ones."""
import os, re, sys

from chips import CELLS, TOP, keep, run, text_of
from script_trials import demo, most_rows, refusals, script, small_chips, with_own_register

NEEDS = ("iverilog", "vvp")
# Of the longest program so many lines are played.
FRONT = 4000


def played(room, bsdl, events, netlist, *more):
    """What the bench prints."""
    bench, simulation = os.path.join(room, "bench.v"), os.path.join(room, "bench.vvp")
    script("bench", bsdl, events, bench, *more)
    run(["iverilog", "-g2001", "-o", simulation, bench, netlist, CELLS])
    return run(["vvp", "-n", simulation])


def apart(room, netlist):
    """The netlist with its inner vectors as single wires: Icarus takes minutes over a vector of thousands of bits that
    gates drive one by one."""
    text = text_of(netlist)
    for left, right, name in re.findall(r"^  wire \[(\d+):(\d+)\] (\w+);$", text, re.M):
        low, high = sorted((int(left), int(right)))
        single = "\n".join(f"  wire \\{name}[{number}] ;" for number in range(low, high + 1))
        text = text.replace(f"  wire [{left}:{right}] {name};", single)
        text = re.sub(rf"(?<![\\\w]){name}\[(\d+)\]", rf"\\{name}[\1] ", text)
    return keep(os.path.join(room, "apart.v"), text)


def spoiled(room, netlist):
    """The netlist with an inserted flip-flop that isn't cleared by TRST, but whose D is stuck: it is unknown at first,
    and then 0."""
    text, count = re.subn(r"(DFFR bs_c\d+ \(\.D\()\w+(\).*)", r"\g<1>1'b0\2", text_of(netlist), count=1)
    if not count:
        sys.exit(f"{netlist} has no inserted flip-flop")
    return keep(os.path.join(room, "spoiled.v"), text)


def tried(program, room):
    vectors, long = os.path.join(room, "vectors.events"), os.path.join(room, "long.events")
    chips = list(small_chips(program, room))
    for name, netlist, bsdl in chips:
        run([program, "vectors", bsdl, vectors])
        script("long_program", bsdl, long)
        said = [played(room, bsdl, events, netlist).strip() for events in (vectors, long)]
        if not all(re.fullmatch(r"done \d+ 0", it) for it in said):
            sys.exit(f"{name}: {said}")
        yield f"{name}: the programs of `vectors` and long_program: {', '.join(said)}"
    name, netlist, bsdl = chips[0]
    run([program, "vectors", bsdl, vectors])
    changed = spoiled(room, netlist)
    said, wanted = played(room, bsdl, vectors, changed), run([program, "check", changed, bsdl, vectors], (6,))
    if said != wanted:
        sys.exit(f"a spoiled counter: the bench prints\n{said}\nand check\n{wanted}")
    yield f"a spoiled counter: the bench misses what `check` misses, {said.strip().split()[-1]} expectations"
    cells, netlist, bsdl = (os.path.join(TOP, "examples/synthesis", end) for end in ("small.cells", "pulse.chip.v", "pulse.bsd"))
    run([program, "vectors", bsdl, vectors])
    bench, simulation = os.path.join(room, "bench.v"), os.path.join(room, "bench.vvp")
    script("bench", bsdl, vectors, bench, cells)
    run(["iverilog", "-g2001", "-o", simulation, bench, netlist, CELLS])
    said, wanted = run(["vvp", "-n", simulation]), run([program, "check", netlist, bsdl, vectors, cells])
    if said != wanted:
        sys.exit(f"pulse: the bench prints\n{said}\nand check\n{wanted}")
    yield f"pulse, of a library's cells, with the models of its text: {said.strip()}"
    wanted = text_of(bench)
    for words in (["--step", "50", bsdl, vectors, bench, cells], [bsdl, vectors, bench, "--step", "50", cells], [bsdl, "--module", "pulse", vectors, "--step", "50", bench, cells]):
        keep(bench, "")
        script("bench", *words)
        if text_of(bench) != wanted:
            sys.exit(f"another bench by the words {words}")
    yield "the same with LIB and options in another order"
    netlist, bsdl = demo(program, room, 999)
    run([program, "vectors", bsdl, vectors])
    yield f"demo 999: {played(room, bsdl, vectors, apart(room, netlist), '--module', 'demo').strip()}"
    bsdl = most_rows(room)
    script("long_program", bsdl, long)
    front = keep(os.path.join(room, "front.events"), "".join(text_of(long).splitlines(True)[:FRONT]))
    bench = os.path.join(room, "bench.v")
    script("bench", bsdl, front, bench)
    run(["iverilog", "-g2001", "-t", "null", bench, keep(os.path.join(room, "most.v"), MOST)])
    script("bench", bsdl, long, bench)
    yield f"4,091 rows: a bench of {text_of(bench).count(chr(10))} lines"
    _, netlist, bsdl = chips[0]
    wrong = {"no file": [bsdl, os.path.join(room, "missing"), bench], "a netlist": [netlist, vectors, bench], "no events": [bsdl, bsdl, bench]}
    wrong["a folder to write to"] = [bsdl, vectors, room]
    wrong["a pin of another chip"] = [chips[1][2], vectors, bench]
    wrong["a netlist as the library"] = [bsdl, vectors, bench, netlist]
    wrong["no time"] = [bsdl, vectors, bench, "--step", "0"]
    wrong["two times"] = [bsdl, vectors, bench, "--step", "50", "--step", "60"]
    wrong["a register of the design's own"] = [with_own_register(room), vectors, bench]
    yield refusals("bench", wrong)


MOST = """module most (input [2044:0] a, output [2045:0] y, input TCK, input TMS, input TDI, output TDO, input TRST);
endmodule
"""
