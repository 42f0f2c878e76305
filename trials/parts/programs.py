"""What the manual says of the two programs on machines that aren't quite that of `insert`: the counter with TRST cut off
parts of its test logic, and with update bits that other events clear or leave. Icarus plays the benches of both."""
import os, re, sys

from chips import CELLS, keep, run, text_of
from script_trials import script, small_chips

NEEDS = ("iverilog", "vvp")
FLOP = re.compile(r"^  (DFFN?[RS]) bs_c\d+ \(.*\.[RS]N\((TRST)\), \.Q\((\w+)\)\);$", re.M)
CONTROLLER, LENGTH = 16, 4
# Lines of the two programs that are missed: with update bits that TRST doesn't clear, and that Test-Logic-Reset clears.
LEFT, CLEARED = (8, 320), (0, 8)


def parts_of(text):
    """The inserted flip-flops in their order, by what they are for."""
    flops = list(FLOP.finditer(text))
    falling = [it for it in flops if it[1].startswith("DFFN")]
    return {"the controller": flops[:CONTROLLER], "the latched instruction": falling[:LENGTH], "the update bits": falling[LENGTH:-2], "TDO": falling[-2:]}


def with_clear(text, flops, word):
    """The netlist with another clear or preset of these flip-flops."""
    for found in sorted(flops, key=lambda it: -it.start()):
        text = text[: found.start(2)] + word + text[found.end(2) :]
    return text


def cleared_by_state(text, parts):
    """The netlist with update bits that TRST clears, and so does Test-Logic-Reset."""
    state = parts["the controller"][0][3]
    gates = f"  wire leaves, clear;\n  not (leaves, {state});\n  and (clear, TRST, leaves);\nendmodule"
    return with_clear(text, parts["the update bits"], "clear").replace("endmodule", gates)


def missed(room, benches, text, models):
    """How many lines of each program are missed."""
    netlist, simulation = keep(os.path.join(room, "changed.v"), text), os.path.join(room, "changed.vvp")
    for bench in benches:
        run(["iverilog", "-g2001", "-o", simulation, bench, netlist, models])
        yield int(run(["vvp", "-n", simulation]).split()[-1])


def at_reset_values(room):
    """The models with flip-flops that begin at their values of reset."""
    text = text_of(CELLS).replace("initial if (RN === 1'b0) Q", "initial Q").replace("initial if (SN === 1'b0) Q", "initial Q")
    return keep(os.path.join(room, "begun.v"), text)


def tried(program, room):
    _, netlist, bsdl = next(small_chips(program, room))
    events, benches = os.path.join(room, "chip.events"), [os.path.join(room, name) for name in ("vectors.v", "long.v")]
    run([program, "vectors", bsdl, events])
    script("bench", bsdl, events, benches[0])
    script("long_program", bsdl, events)
    script("bench", bsdl, events, benches[1])
    text, begun = text_of(netlist), at_reset_values(room)
    parts = parts_of(text)
    for what, flops in parts.items():
        at_x, at_reset = (list(missed(room, benches, with_clear(text, flops, "1'b1"), models)) for models in (CELLS, begun))
        if 0 in at_x or at_reset[0] or not at_reset[1]:
            sys.exit(f"TRST cut off {what}: missed are {at_x}, and from values of reset {at_reset}")
    yield f"TRST cut off {', '.join(parts)}: both programs find each where flip-flops begin at x; from values of reset `vectors` finds none, and long_program each"
    left = tuple(missed(room, benches, with_clear(text, parts["the update bits"], "1'b1"), CELLS))
    cleared = tuple(missed(room, benches, cleared_by_state(text, parts), CELLS))
    if (left, cleared) != (LEFT, CLEARED):
        sys.exit(f"with update bits that TRST leaves {left} are missed, and with those that Test-Logic-Reset clears {cleared}")
    yield f"update bits that TRST doesn't clear: {left[0]} and {left[1]} lines missed; that Test-Logic-Reset clears: {cleared[0]} and {cleared[1]}"
