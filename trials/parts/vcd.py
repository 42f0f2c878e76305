"""The dumps of scripts/vcd give at each time the readings of `sim`, and the controller's states."""
import os, re, sys

from chips import TOP, keep, run, text_of
from script_trials import demo, most_rows, refusals, script, small_chips, with_own_register

NEEDS = ()


def values_at(path):
    """The values of all signals after each time, by name; vectors as their bits from the left."""
    names, now, moments = {}, {}, []
    for line in text_of(path).split("\n"):
        words = line.split()
        if not words:
            continue
        if words[0] == "$var":
            names[words[3]] = words[4]
        elif words[0].startswith("#"):
            moments.append(dict(now))
        elif words[0][0] in "bs":
            now[names[words[1]]] = words[0][1:]
        elif words[0][0] in "01xz" and len(words) == 1:
            now[names[words[0][1:]]] = words[0][0]
    return moments[1:]


def readings_at(said, events):
    """The readings after each `set`, by pin, as `sim` prints them."""
    now, at, changes = {}, 0, {}
    for line in said.split("\n"):
        words = line.split()
        if len(words) == 1 and words[0].startswith("@"):
            at = int(words[0][1:])
        elif len(words) == 2:
            changes.setdefault(at, []).append(words)
    now.update(changes.get(0, ()))
    yield dict(now)
    for number, line in enumerate(text_of(events).split("\n"), 1):
        if line.startswith("set "):
            now.update(changes.get(number, ()))
            yield dict(now)


def compared(name, moments, said, events):
    """How many readings are the same; the trial ends where one differs."""
    count = 0
    wanted = list(readings_at(said, events))
    if len(moments) != len(wanted):
        sys.exit(f"{name}: {len(moments)} times for {len(wanted)}")
    for time, (dump, readings) in enumerate(zip(moments, wanted)):
        ports = {}
        for pin, value in readings.items():
            found = re.fullmatch(r"(.*)\[(\d+)\]", pin)
            ports.setdefault(found[1] if found else pin, []).append((int(found[2]) if found else 0, value))
        for port, bits in ports.items():
            bits = "".join(value for _, value in sorted(bits, reverse=True))
            count += len(bits)
            if dump[port] != bits:
                sys.exit(f"{name}: at {time} {port} is {dump[port]} for {bits}")
    return count


def tried(program, room):
    events, dump, said = (os.path.join(room, name) for name in ("chip.events", "chip.vcd", "chip.said"))
    chips = list(small_chips(program, room))
    for name, netlist, bsdl in [*chips, ("demo 999", *demo(program, room, 999))]:
        run([program, "vectors", bsdl, events])
        keep(said, run([program, "sim", netlist, events]))
        script("vcd", netlist, events, dump, "--bsdl", bsdl, "--said", said)
        moments = values_at(dump)
        states = {it["controller"] for it in moments}
        yield f"{name}: {compared(name, moments, text_of(said), events)} readings as `sim` has them; {len(states)} states of the controller"
    _, netlist, bsdl = chips[0]
    run([program, "vectors", bsdl, events])
    script("vcd", netlist, events, dump, "--program", program)
    netlist, library = (os.path.join(TOP, "examples", name) for name in ("accumulator.v", "accumulator.lib"))
    own = os.path.join(TOP, "examples/accumulator.events")
    script("vcd", netlist, own, dump, library, "--program", program)
    said_of_cells = run([program, "sim", netlist, own, library])
    yield f"accumulator, of a library's cells: {compared('accumulator', values_at(dump), said_of_cells, own)} readings as `sim` has them"
    wanted = text_of(dump)
    for words in (["--program", program, netlist, own, dump, library], [netlist, "--program", program, own, dump, library], [netlist, own, dump, "--program", program, library]):
        keep(dump, "")
        script("vcd", *words)
        if text_of(dump) != wanted:
            sys.exit(f"another dump by the words {words}")
    yield "the same with LIB and options in another order"
    unlisted = [netlist, own, dump, "--program", program]
    _, netlist, bsdl = chips[0]
    most = most_rows(room)
    run([program, "vectors", most, events])
    keep(said, "".join(f"y[{number}] 0\n" for number in reversed(range(2046))) + "TDO z\n")
    script("vcd", netlist, events, dump, "--bsdl", most, "--said", said)
    yield f"4,091 rows: a dump of {text_of(dump).count(chr(10))} lines"
    run([program, "vectors", bsdl, events])
    wrong = {"no netlist": [os.path.join(room, "missing"), events, dump, "--program", program], "no events": [netlist, bsdl, dump]}
    wrong["a folder to write to"] = [netlist, events, room, "--program", program]
    wrong["the BSDL file of another chip"] = [netlist, events, dump, "--bsdl", chips[5][2], "--program", program]
    wrong["readings of another chip"] = [netlist, events, dump, "--said", said, "--bsdl", bsdl]
    wrong["cells of a library without it"] = unlisted
    wrong["what `sim` didn't print"] = [netlist, events, dump, "--said", bsdl]
    wrong["a register of the design's own"] = [netlist, events, dump, "--bsdl", with_own_register(room), "--program", program]
    yield refusals("vcd", wrong)
