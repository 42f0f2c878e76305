"""OpenOCD plays the SVF of scripts/svf on the written netlist, which Icarus simulates: without a mismatch, and with one
where the BSDL file says something else. A player of this folder plays what has PIO, which OpenOCD refuses."""
import os, re, sys

from bridge import bench, bridged, simulated
from chips import Module, keep, run, text_of
from script_trials import demo, most_rows, refusals, script, small_chips, with_own_register
from svf_player import events_of_svf

NEEDS = ("openocd", "iverilog", "vvp")
TAP = {"CLOCK": "TCK", "MODE": "TMS", "IN": "TDI", "OUT": "TDO", "RESET": "TRST"}


def steps(path, svf, lengths):
    """What OpenOCD is to do: instruction registers of these lengths, the one nearest TDO first."""
    yield from ("adapter driver remote_bitbang", "remote_bitbang port 0", f"remote_bitbang host {path}", "reset_config trst_only")
    yield "adapter speed 1000; gdb_port disabled; tcl_port disabled; telnet_port disabled"
    yield from (f"jtag newtap chip tap{number} -irlen {length} -ignore-version -expected-id 0" for number, length in enumerate(lengths))
    yield "init"
    yield f'if {{[catch {{svf {svf} quiet}} said]}} {{echo "svf failed"}} else {{echo "svf passed"}}'
    yield "shutdown"


def plays(room, module, tap, netlists, svf, lengths=(4,)):
    """Whether OpenOCD plays the file without a mismatch; the trial ends where it stops for another reason."""
    simulation = simulated(room, bench(module, tap, {tap["MODE"]: 1}), *netlists)
    said, _ = bridged(room, simulation, steps(os.path.join(room, "bits"), svf, lengths))
    if "svf passed" not in said and "tdo check error" not in said.lower():
        sys.exit(f"OpenOCD on {svf}:\n{said[-3000:]}")
    return "svf passed" in said


def spoiled(text):
    """The counter's file with one thing changed: by what it is."""
    yield "a row (BC_2 for BC_1 at q(7))", text.replace("(BC_1, q(7)", "(BC_2, q(7)")
    yield "a code", text.replace('"0001" & "0000000000000001"', '"0001" & "0000000000000011"')
    yield "an opcode", text.replace("IDCODE (0010)", "IDCODE (0110)")
    yield "what the instruction register captures", text.replace('entity is "0001";', 'entity is "0101";')


def spoiled_usercode(text):
    """So the file of the chip with a user code."""
    usercode = re.search(r"USERCODE_REGISTER of \w+ : entity is\n    (.*);", text)[1]
    yield "the first bit of the user code", text.replace(usercode, '"0' + usercode[2:])
    yield "its last bit", text.replace(usercode, usercode[:-2] + '1"')
    yield "their opcodes exchanged", text.replace("(01011)", "@").replace("(01010)", "(01011)").replace("@", "(01010)")


def spoiled_without_code(text):
    """So the file of a chip without an identification code."""
    yield "an opcode", text.replace("EXTEST (000)", "EXTEST (011)")
    yield "what the instruction register captures", text.replace('entity is "001";', 'entity is "101";')
    yield "a code that isn't there", with_code(text)


def with_code(text):
    """The file with IDCODE, by a free opcode."""
    text = text.replace('"BYPASS (111)," &', '"BYPASS (111)," &\n    "IDCODE (110)," &')
    code = '\n    "0001" & "0000000000000001" & "00000000001" & "1";\n'
    text = re.sub(r"(?m)^(  attribute )REGISTER_ACCESS( of \w+ : entity is)$", lambda found: f"{found[1]}IDCODE_REGISTER{found[2]}{code}{found[0]}", text)
    return re.sub(r'(BYPASS \([\w, ]*\))";', r'\1," &\n    "DEVICE_ID (IDCODE)";', text)


# The chips whose files are changed.
SPOILED = {"counter8": spoiled, "two_codes": spoiled_usercode, "both_ways": spoiled_without_code}

# Those of which the longer program is played.
LONGER = ("counter8", "both_ways", "gates", "two_codes")


PAIR = """module pair (input TCK, input TMS, input TDI, output TDO, input TRST);
  wire between;
  wire [7:0] q;
  wire [2:0] p;
  both_ways first (.way(1'b0), .other_way(1'b0), .d(2'b0), .p(p), .TCK(TCK), .TMS(TMS), .TDI(TDI), .TDO(between), .TRST(TRST));
  counter8 last (.clk(1'b0), .rn(1'b0), .en(1'b0), .oe(1'b0), .q(q), .TCK(TCK), .TMS(TMS), .TDI(between), .TDO(TDO), .TRST(TRST));
endmodule
"""


def chain(program, room, chips):
    """Two chips in a chain, each tested through the other."""
    netlists = [netlist for name, netlist, _ in chips if name in ("counter8", "both_ways")]
    pair = keep(os.path.join(room, "pair.v"), PAIR)
    head = "module pair (\n" + ",\n".join(f"  {'output' if name == 'TDO' else 'input'} {name}" for name in TAP.values()) + "\n);\nendmodule\n"
    svf = os.path.join(room, "chain.svf")
    for name, _, bsdl in chips:
        if name in ("counter8", "both_ways"):
            where = ["--ir-before", "3", "--chips-before", "1"] if name == "counter8" else ["--ir-behind", "4", "--chips-behind", "1"]
            script("svf", bsdl, svf, *where, "--program", program)
            if not plays(room, Module(head), TAP, [pair, *netlists], svf, (4, 3)):
                sys.exit(f"{name} in a chain: a mismatch")
            script("svf", bsdl, svf, "--program", program)
            if plays(room, Module(head), TAP, [pair, *netlists], svf, (4, 3)):
                sys.exit(f"{name} in a chain, which the file doesn't know: no mismatch")
    return "two chips in a chain: each passes with its header and trailer, and not without"


# Two counters in a chain, the first one's q[0] (cell 12, under control cell 5) wired to the last one's en (cell 2): the
# example of the manual.
BOARD = """module board (input TCK, input TMS, input TDI, output TDO, input TRST);
  wire between;
  wire [7:0] q, r;
  counter8 first (.clk(1'b0), .rn(1'b0), .en(1'b0), .oe(1'b0), .q(q), .TCK(TCK), .TMS(TMS), .TDI(TDI), .TDO(between), .TRST(TRST));
  counter8 last (.clk(1'b0), .rn(1'b0), .en(NET), .oe(1'b0), .q(r), .TCK(TCK), .TMS(TMS), .TDI(between), .TDO(TDO), .TRST(TRST));
endmodule
"""
NET_TEST = """TRST ON;
TRST OFF;
STATE RESET;
ENDIR IDLE;
ENDDR IDLE;
SDR 64 TDI (0000000000000000) TDO (1000100310001003) MASK (ffffffffffffffff);
SIR 8 TDI (11);
SDR 26 TDI (0000000);
SIR 8 TDI (00);
SDR 26 TDI (2040000);
SDR 26 TDI (0040000) TDO (0000004) MASK (0000004);
SDR 26 TDI (0000000) TDO (0000000) MASK (0000004);
SIR 8 TDI (ff);
STATE RESET;
"""


def net_test(room, chips):
    """A net between two chips: whole, broken, and shorted to 1."""
    head = "module board (\n" + ",\n".join(f"  {'output' if name == 'TDO' else 'input'} {name}" for name in TAP.values()) + "\n);\nendmodule\n"
    svf = keep(os.path.join(room, "net.svf"), NET_TEST)
    for net, passes in (("q[0]", True), ("1'bz", False), ("1'b1", False), ("q[1]", False)):
        board = keep(os.path.join(room, "board.v"), BOARD.replace("NET", net))
        if plays(room, Module(head), TAP, [board, chips[0][1]], svf, (4, 4)) != passes:
            sys.exit(f"the net is {net}: {'a' if passes else 'no'} mismatch")
    return "a net between two counters on a board: no mismatch where it is whole, and one where it is broken, stuck or wired to another pin"


def tap_of(text):
    """The ports of the test access port, and the length of the instruction register, by the file."""
    tap = {what: re.search(rf"TAP_SCAN_{what} of (\w+) :", text)[1] for what in TAP}
    return tap, int(re.search(r"INSTRUCTION_LENGTH of \w+ : entity is (\d+)", text)[1])


def spoiled_files(program, room, name, netlist, bsdl):
    """A chip with one thing changed in its file: a mismatch must come each time."""
    svf, told = os.path.join(room, "changed.svf"), []
    tap, length = tap_of(text_of(bsdl))
    for what, text in SPOILED[name](text_of(bsdl)):
        if text == text_of(bsdl):
            sys.exit(f"nothing is changed: {what}")
        script("svf", keep(os.path.join(room, "changed.bsd"), text), svf, "--program", program)
        if plays(room, Module(text_of(netlist)), tap, [netlist], svf, (length,)):
            sys.exit(f"{name}: {what} changed: no mismatch")
        told.append(what)
    return f"{name} with one thing changed in its file: a mismatch each time ({'; '.join(told)})"


def meets(program, room, netlist, bsdl, svf):
    """Whether the netlist misses nothing of the file, by the player of this folder and `check`."""
    tap, _ = tap_of(text_of(bsdl))
    events = keep(os.path.join(room, "svf.events"), events_of_svf(Module(text_of(netlist)), tap, text_of(svf)))
    return "missed" not in run([program, "check", netlist, bsdl, events], (0, 6))


def exchanged_pins(text):
    """The counter's file with the cells of two outputs exchanged, and those of two inputs."""
    for one, other in (("q(0)", "q(2)"), ("en", "oe")):
        yield f"{one} and {other}", text.replace(f"1, {one},", "@").replace(f"1, {other},", f"1, {one},").replace("@", f"1, {other},")


def longer(program, room, chips):
    """The longer program, by OpenOCD and with other pins by the player of this folder."""
    svf, with_pins = (os.path.join(room, name) for name in ("long.svf", "pins.svf"))
    for name, netlist, bsdl in chips:
        counts = script("svf", "--long", bsdl, svf).split("\n")[0]
        told = script("svf", "--long", "--pins", bsdl, with_pins).split("\n")[0]
        tap, length = tap_of(text_of(bsdl))
        if not plays(room, Module(text_of(netlist)), tap, [netlist], svf, (length,)):
            sys.exit(f"{name}, the longer program: a mismatch")
        if not all(meets(program, room, netlist, bsdl, path) for path in (svf, with_pins)):
            sys.exit(f"{name}, the longer program: the player of this folder finds a mismatch")
        yield f"{name}, the longer program: OpenOCD finds no mismatch ({counts}), and none comes with --pins ({told})"
    _, netlist, bsdl = chips[0]
    for what, text in exchanged_pins(text_of(bsdl)):
        changed = keep(os.path.join(room, "changed.bsd"), text)
        script("svf", "--long", changed, svf)
        script("svf", "--long", "--pins", changed, with_pins)
        if text == text_of(bsdl) or [meets(program, room, netlist, bsdl, path) for path in (svf, with_pins)] != [True, False]:
            sys.exit(f"the cells of {what} exchanged: --pins doesn't find it, or more does")
    yield "cells of two outputs and of two inputs exchanged in the counter's file: a mismatch with --pins, and none without"


def warned(program, room, chips):
    """Outputs that no row turns off are told in the file and by the script, and no others."""
    svf, count = os.path.join(room, "chip.svf"), 0
    for name, _, bsdl in chips:
        always = re.findall(r'^    "(\d+) \(BC_\d, [^,]+, output2,', text_of(bsdl), re.M)
        said = script("svf", bsdl, svf, "--program", program)
        told = [re.findall(r"no row turns these outputs off, .*: cells? (.*)$", text, re.M) for text in (said, text_of(svf))]
        numbers = [str(number) for part in ", ".join(told[0]).split(", ") if part for first, _, last in [part.partition("-")] for number in range(int(first), int(last or first) + 1)]
        if told[0] != told[1] or sorted(numbers) != sorted(always):
            sys.exit(f"{name}: cells {always} are always on, and told are {told}")
        count += bool(always)
    return f"outputs that no row turns off: told of {count} of {len(chips)} chips, each of their cells"


def tried(program, room):
    chips = list(small_chips(program, room))
    svf = os.path.join(room, "chip.svf")
    for name, netlist, bsdl in chips:
        counts = script("svf", bsdl, svf, "--program", program).split("\n")[0]
        tap, length = tap_of(text_of(bsdl))
        if not plays(room, Module(text_of(netlist)), tap, [netlist], svf, (length,)):
            sys.exit(f"{name}: a mismatch")
        codes = [word for word in ("IDCODE", "USERCODE") if f"{word}_REGISTER" in text_of(bsdl)]
        yield f"{name}, {' and '.join(codes) or 'without IDCODE'}: OpenOCD finds no mismatch ({counts})"
    for name, netlist, bsdl in chips:
        if name in SPOILED:
            yield spoiled_files(program, room, name, netlist, bsdl)
    _, netlist, bsdl = chips[0]
    yield chain(program, room, chips)
    yield net_test(room, chips)
    netlist, demo_bsdl = demo(program, room, 999)
    yield f"demo 999: {script('svf', demo_bsdl, svf, '--mask-inputs', '--program', program).split(chr(10))[0]}"
    most = most_rows(room)
    yield f"4,091 rows: {script('svf', most, svf, '--program', program).split(chr(10))[0]}"
    yield from longer(program, room, [chip for chip in chips if chip[0] in LONGER])
    yield warned(program, room, chips)
    events = keep(os.path.join(room, "pins.events"), "events 1\nstart TCK 0\nstart TRST 0\nstart en 0\nset en 1\n")
    wrong = {"no file": [os.path.join(room, "missing"), svf], "a netlist": [netlist, svf], "a folder to write to": [bsdl, room, "--program", program]}
    wrong["no events"] = [bsdl, svf, "--events", bsdl]
    wrong["events that set other pins"] = [bsdl, svf, "--events", events]
    wrong["--long in a chain"] = [bsdl, svf, "--long", "--ir-before", "3", "--chips-before", "1"]
    wrong["--long with --events"] = [bsdl, svf, "--long", "--events", events]
    wrong["a chip without an instruction register"] = [bsdl, svf, "--chips-before", "1"]
    wrong["no program"] = [bsdl, svf, "--program", os.path.join(room, "missing")]
    wrong["a register of the design's own"] = [with_own_register(room), svf, "--program", program]
    yield refusals("svf", wrong)
