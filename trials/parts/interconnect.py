"""OpenOCD plays what scripts/interconnect writes on boards of two and of five chips, which Icarus simulates, wired by
the board's nets: whole, and with a fault in the wiring. What the script tells of the run must name the nets."""
import os, re, subprocess, sys

from bridge import bench, bridged, simulated
from chips import TOP, Module, inserted, keep, spelled, text_of
from script_trials import DATA, SCRIPTS, refusals, script

sys.path.append(SCRIPTS)
from boundary import read_device

NEEDS = ("openocd", "iverilog", "vvp")
TAP = {"CLOCK": "TCK", "MODE": "TMS", "IN": "TDI", "OUT": "TDO", "RESET": "TRST"}
# Two chips, with nets of one driver, of two, and of three pins.
TWO = """CHIP U1 counter8.out.bsd
CHIP U2 both_ways.out.bsd
CHAIN U1 U2
NET U1.q[0] U2.way
NET U1.q[1] U2.other_way
NET U1.q[2] U2.d[0] U1.rn
NET U1.q[3] U2.d[1]
NET U1.q[4] U2.p[0]
NET U1.q[5] U2.p[1]
NET U2.p[2] U1.clk
NET U2.same U1.en
NET U2.sum U1.oe
"""
TWO_FAULTS = """open U2.way
open U1.q[1]
open U1.rn
open U2.p[0]
stuck0 U1.q[0]
stuck0 U2.p[1]
stuck0 U1.oe
stuck1 U2.d[1]
stuck1 U1.q[2]
stuck1 U1.clk
short U1.q[0] U1.q[1]
short U1.q[4] U2.same
short U1.en U1.oe
exchanged U2.way U2.other_way
exchanged U2.p[0] U2.p[1]
exchanged U1.q[2] U1.q[3]
"""
# Five chips: a bus of inouts and an output, drivers that nothing turns off (U5), and pins in no net.
FIVE = """CHIP U1 counter8.out.bsd
CHIP U2 both_ways.out.bsd
CHIP U3 both_ways.out.bsd
CHIP U4 two_codes.out.bsd
CHIP U5 gates.out.bsd
CHAIN U3 U1 U5 U4 U2
NET U1.q[0] U2.p[0] U3.p[0] U5.spare
NET U2.p[1] U3.p[1] U4.d
NET U2.p[2] U3.p[2] U1.en
NET U1.q[1] U2.way
NET U1.q[2] U2.other_way
NET U1.q[3] U2.d[0] U3.d[0]
NET U1.q[4] U5.a
NET U1.q[5] U5.b
NET U4.q U3.way
NET U4.y U5.c
NET U5.y[0] U1.rn
NET U5.y[1] U1.oe
NET U5.y[2] U3.other_way U4.clear_n
NET U5.y[3] U2.d[1]
NET U2.same U3.d[1]
NET U2.sum U4.clk
HOLD U5.s 1
HOLD U1.q[7] 1
"""
FIVE_FAULTS = """open U5.spare
open U1.q[0]
open U2.p[1]
open U3.d[0]
open U4.q
open U5.y[2]
open U2.d[1]
stuck0 U3.p[0]
stuck0 U1.q[3]
stuck0 U5.y[1]
stuck1 U2.p[2]
stuck1 U2.other_way
stuck1 U4.y
short U1.q[1] U1.q[2]
short U2.p[0] U2.p[1]
short U4.q U5.y[0]
short U5.y[1] U5.y[3]
short U2.same U1.q[4]
short U1.q[3] U2.sum
exchanged U5.a U5.b
exchanged U3.p[1] U3.p[2]
exchanged U4.q U4.y
exchanged U2.d[1] U2.other_way
exchanged U2.same U2.sum
"""
KINDS = {"open": "open", "stuck0": "stuck at 0", "stuck1": "stuck at 1", "short": "short", "exchanged": "exchanged"}


class Chip:
    def __init__(self, name, bsdl):
        self.name, self.netlist = name, bsdl[:-4] + ".v"
        self.module, self.device = Module(text_of(self.netlist)), read_device(bsdl)

    def pins(self, port):
        return [f"{self.name}.{pin}" for pin in port.pins()]


class Board:
    """The chips in the order of the chain, from TDI to TDO, and the wire at each pin."""

    def __init__(self, room, text):
        self.path = keep(os.path.join(room, "board"), text)
        lines = [line.split() for line in text.split("\n") if line]
        files = {words[1]: os.path.join(room, words[2]) for words in lines if words[0] == "CHIP"}
        self.chips = [Chip(name, files[name]) for words in lines if words[0] == "CHAIN" for name in words[1:]]
        self.nets = [words[1:] for words in lines if words[0] == "NET"]
        self.wires = {pin: f"net{number}" for number, net in enumerate(self.nets) for pin in net}
        for number, chip in enumerate(self.chips):
            device = chip.device
            ends = {device.tdi: f"link{number}", device.tdo: f"link{number + 1}"}
            for port in chip.module.ports:
                for pin in chip.pins(port):
                    self.wires.setdefault(pin, f"own{len(self.wires)}")
            tap = {device.tck: "TCK", device.tms: "TMS", device.trst: "TRST", **ends}
            self.wires.update((f"{chip.name}.{port}", wire) for port, wire in tap.items())

    def net(self, pin):
        """The net of a pin, as the script tells it."""
        return next(" ".join(net) for net in self.nets if pin in net)

    def verilog(self, wires, beside=()):
        """The board as a module of the test access port."""
        yield "module board (" + ", ".join(f"{'output' if name == 'TDO' else 'input'} {name}" for name in TAP.values()) + ");"
        yield from (f"  wire {wire};" for wire in dict.fromkeys(wires.values()) if wire not in TAP.values())
        yield from ("  assign link0 = TDI;", f"  assign TDO = link{len(self.chips)};")
        for chip in self.chips:
            links = [f".{spelled(port.name)}({{{', '.join(wires[pin] for pin in chip.pins(port))}}})" for port in chip.module.ports]
            yield f"  {spelled(chip.module.name)} {chip.name} ({', '.join(links)});"
        yield from (*beside, "endmodule")

    def planted(self, fault):
        """The wires with a fault, and what stands beside the chips."""
        kind, *pins = fault.split()
        wires, beside = dict(self.wires), []
        if kind == "open":
            wires[pins[0]] = "cut"
        elif kind == "exchanged":
            wires[pins[0]], wires[pins[1]] = wires[pins[1]], wires[pins[0]]
        elif kind == "short":
            wires = {pin: self.wires[pins[0]] if wire == self.wires[pins[1]] else wire for pin, wire in wires.items()}
        else:
            beside = [f"  assign (supply0, supply1) {wires[pins[0]]} = {kind[-1]};"]
        return wires, beside


def steps(room, svf, ignoring):
    """What OpenOCD is to do; the SVF tells the chain."""
    yield from ("adapter driver remote_bitbang", "remote_bitbang port 0", f"remote_bitbang host {room}/bits", "reset_config trst_only")
    yield "adapter speed 1000; gdb_port disabled; tcl_port disabled; telnet_port disabled"
    yield from re.findall(r"(?m)^! openocd: (.*)$", text_of(svf))
    yield from ("init", f"svf {svf} quiet{' ignore_error' if ignoring else ''}", "shutdown")


def told(board, log):
    """What the script tells of a run, and its status."""
    words = [sys.executable, os.path.join(SCRIPTS, "interconnect"), board.path, "--tell", log]
    done = subprocess.run(words, stdin=subprocess.DEVNULL, capture_output=True, text=True)
    if done.returncode not in (0, 6):
        sys.exit(f"interconnect --tell: status {done.returncode}\n{done.stderr}")
    return done.stdout, done.returncode


def played(room, board, svf, unknown, wires, beside=(), ignoring=True):
    """What is told of OpenOCD's run on the board with these wires; what isn't known reads as `unknown`."""
    verilog = keep(os.path.join(room, "board.v"), "\n".join(board.verilog(wires, beside)) + "\n")
    module = Module("module board (\n" + ",\n".join(f"  {'output' if name == 'TDO' else 'input'} {name}" for name in TAP.values()) + "\n);\nendmodule\n")
    netlists = list({chip.module.name: chip.netlist for chip in board.chips}.values())
    simulation = simulated(room, bench(module, TAP, {"TMS": 1}, unknown=unknown), verilog, *netlists)
    said, _ = bridged(room, simulation, steps(room, svf, ignoring))
    return told(board, keep(os.path.join(room, "log"), said))


def missing(board, fault, said):
    """What isn't told of a fault: its nets and no others, in one line, its kind, and its pins where it is at pins."""
    kind, *pins = fault.split()
    head, _, what = said.strip().partition(": ")
    nets = {board.net(pin) for pin in pins}
    if {" ".join(net) for net in board.nets if " ".join(net) in head} != nets or "\n" in what:
        return "nets"
    if KINDS[kind] not in what:
        return "kind"
    return "pins" if kind in ("open", "exchanged") and not all(pin in what for pin in pins) else None


def board_tried(room, text, faults):
    """Plays a whole board, and one with each fault, where two drivers that differ, and pins that are open, read as 0 and as
    1 in turn; the trial ends where a fault isn't told."""
    board = Board(room, text)
    svf = keep(os.path.join(room, "board.svf"), script("interconnect", board.path))
    count = rows_checked(board, svf)
    for unknown in (0, 1):
        said, status = played(room, board, svf, unknown, board.wires)
        if status or said != "no mismatch\n":
            sys.exit(f"the whole board: {said}")
    faults = faults.strip().split("\n")
    for number, fault in enumerate(faults):
        said, status = played(room, board, svf, number % 2, *board.planted(fault))
        lacks = missing(board, fault, said) if status else "mismatch"
        if lacks:
            sys.exit(f"{len(board.chips)} chips, {fault}: its {lacks} should be told, and not: {said}")
    kinds = [fault.split()[0] for fault in faults]
    told = ", ".join(f"{what} {kinds.count(kind)}" for kind, what in KINDS.items())
    what = f"{len(board.chips)} chips, {len(board.nets)} nets, {count} rows"
    return f"{what}: a whole board passes, and of {len(faults)} faults all are told by nets, pins and kind: {told}"


def drivers_on(board, bits):
    """The pins whose drivers a row turns on, each with its level."""
    for chip in reversed(board.chips):
        rows = chip.device.rows
        for row in rows:
            if row.drives() and (row.control is None or bits >> row.control & 1 != row.disable):
                yield f"{chip.name}.{row.pin}", bits >> row.number & 1
        bits >>= len(rows)


def rows_checked(board, svf):
    """In each row that is in effect under EXTEST no net has two drivers on, and none takes over from another without a
    row between; each driver is on alone at both levels, or is told to stay off; a driver with a control cell of its own
    is off, where it is in no net. What is on together, and what is driven in no net, is told beforehand."""
    text = text_of(svf)
    scans = re.findall(r"(?m)^S([DI])R \d+ TDI \(([0-9a-f\s]*)\)", text)
    rows = [int(re.sub(r"\s", "", bits), 16) for kind, bits in scans if kind == "D"][1:]
    stay = re.findall(r"\S+", " ".join(re.findall(r"(?m)^! stays off: (.*) \(cell", text)))
    together = [set(pins.split()) for pins in re.findall(r"(?m)^! on together: (.*) \(cell", text)]
    levels = re.findall(r"(?m)^! driven at ([01]), in no net that is tested: (.*)$", text)
    outside = {(pin, int(level)) for level, pins in levels for pin in pins.split()}
    net_of = {pin: number for number, net in enumerate(board.nets) for pin in net}
    seen, before = set(), {}
    for bits in rows:
        on = dict(drivers_on(board, bits))
        now = {}
        for pin in on.keys() & net_of.keys():
            if now.setdefault(net_of[pin], pin) != pin or before.get(net_of[pin], pin) != pin:
                sys.exit(f"{pin} is turned on into another driver")
        seen |= set(on.items())
        before = now
    for chip in board.chips:
        for row in chip.device.rows:
            pin = f"{chip.name}.{row.pin}"
            alone = [(pin, level) in seen for level in (0, 1)]
            shares = {f"{chip.name}.{other.pin}" for other in chip.device.rows if row.drives() and other.control == row.control}
            if row.drives() and pin in net_of and all(alone) == (pin in stay) or pin in stay and any(alone):
                sys.exit(f"{pin}: driven at 0 and 1: {alone}")
            if row.drives() and row.control is not None and any(alone):
                if not shares & net_of.keys() or len(shares) > 1 and shares not in together:
                    sys.exit(f"{pin} is driven, in no net or with others, and that isn't told")
    if {(pin, level) for pin, level in seen if pin not in net_of} != outside:
        sys.exit(f"told to be driven in no net: {outside}")
    return len(rows)


def kicad_netlist(board, others, quoted):
    """The board's nets as KiCad writes them, by pins of the package, with nodes of other parts."""
    physical = {f"{chip.name}.{bit}": pin for chip in board.chips for bit, pin in chip.device.physical.items()}
    lines = ['(export (version "E")', "  (nets"]
    for number, net in enumerate([*board.nets, *others]):
        lines.append(f'    (net (code "{number}") (name "/net{number}")')
        for node in net:
            pin, _, kind = node.partition(":")
            part = pin.split(".")[0]
            lines.append(f'      (node (ref "{part}") (pin "{physical.get(pin, pin[len(part) + 1 :])}") (pintype "{kind or "bidirectional"}"))')
        lines[-1] += ")"
    text = "\n".join(lines) + "))\n"
    return text if quoted else text.replace('"', "")


def without_comments(text):
    return re.sub(r"(?m)^!.*\n", "", text)


def kicad_tried(room):
    """By KiCad's netlist, quoted and not, the test is the same; what other parts may drive is never driven."""
    board = Board(room, TWO)
    svf = script("interconnect", board.path)
    chips = keep(os.path.join(room, "chips"), "\n".join(line for line in TWO.split("\n") if line.startswith("CH")) + "\n")
    quiet = [["U1.GND:power_in", "C1.2:passive"], ["U1.TDO:output", "U2.TDI:input"], ["J1.1:passive", "J1.2:passive"]]
    board.nets[0] += ["R1.1:passive", "U9.4:input"]
    for quoted in (True, False):
        path = keep(os.path.join(room, "netlist"), kicad_netlist(board, quiet, quoted))
        if without_comments(script("interconnect", chips, "--kicad", path)) != without_comments(svf):
            sys.exit("by KiCad's netlist the test is another")
    path = keep(os.path.join(room, "netlist"), kicad_netlist(board, [["U1.q[6]:output", "U9.3:output"]], True))
    driven = keep(os.path.join(room, "driven.svf"), script("interconnect", chips, "--kicad", path))
    board = Board(room, TWO)
    rows_checked(board, driven)
    if "! stays off: U1.q[7]" not in text_of(driven) or "U9.3" not in text_of(driven):
        sys.exit("an output of another part: its net is driven, or isn't told")
    return "by KiCad's netlist, quoted or not, the same test; a net with an output of another part isn't driven"


def manual_tried(room):
    """The board of the manual, with the open pin that is told there: OpenOCD prints the lines that stand there."""
    block = re.search(r"    \$ cat > /tmp/board\n((?: {4}.*\n)*)", text_of(os.path.join(TOP, "docs/MANUAL.md")))[1]
    parts = re.split(r"(?m)^    \$ .*\n", block)
    text, shown, said = parts[0], parts[-2], parts[-1].strip()
    board = Board(room, re.sub(r"(?m)^    ", "", text).replace("out.bsd", "counter8.out.bsd").replace("U2.2\n", "U2.rn\n"))
    svf = keep(os.path.join(room, "board.svf"), script("interconnect", board.path))
    lines, status = played(room, board, svf, 0, *board.planted(f"open {said.split()[-1]}"))
    errors = re.findall(r"Error: tdo.*|Error:  .*", shown)
    if lines.strip() != said or status != 6 or errors != re.findall(r"Error: tdo.*|Error:  .*", text_of(os.path.join(room, "log"))):
        sys.exit(f"the board of the manual: {lines}{text_of(os.path.join(room, 'log'))}")
    return f"the board of the manual: OpenOCD prints the {len(errors)} lines of mismatches that stand there, and told is {said}"


def stopped_tried(room):
    """Where OpenOCD stops at its first mismatch, the net is told."""
    board = Board(room, TWO)
    svf = keep(os.path.join(room, "board.svf"), script("interconnect", board.path))
    said, status = played(room, board, svf, 0, *board.planted("open U1.rn"), ignoring=False)
    if status != 6 or said.split(":")[0] != f"net {board.net('U1.rn')}" or "U1.rn reads" not in said:
        sys.exit(f"a run that stops: {said}")
    return "a run that stops at its first mismatch: the net and the pin are told"


def chain_tried(room):
    """A chip with another code, or another length, than its file has: told, and by its name."""
    board = Board(room, TWO)
    file = board.chips[0].netlist[:-2] + ".bsd"
    text = text_of(file)
    for what, old, new in (("code", '"0001" & "0000000000000001"', '"0001" & "0000000000000011"'), ("captured", 'entity is "0001";', 'entity is "0101";')):
        keep(file, text.replace(old, new))
        svf = keep(os.path.join(room, "board.svf"), script("interconnect", board.path))
        said, status = played(room, board, svf, 0, board.wires)
        if status != 6 or not said.startswith("chain: U1: ") or what not in said.split("\n")[0]:
            sys.exit(f"a chip of another file: {said}")
    keep(file, text)
    return "a chip with another code, or other captured bits, than its file has: its name is told"


def wrong_inputs(room):
    """Boards, netlists and logs that are refused."""
    lines = TWO.strip().split("\n")
    keep(os.path.join(room, "pins.bsd"), text_of(os.path.join(room, "counter8.out.bsd")).replace('"clk:1,"', '"clk:oe,"'))
    boards = {
        "no chain": [line for line in lines if "CHAIN" not in line],
        "two chains": [*lines, "CHAIN U2 U1"],
        "a chain without a chip": [line.replace("CHAIN U1 U2", "CHAIN U1") for line in lines],
        "a chain with a chip twice": [line.replace("CHAIN U1 U2", "CHAIN U1 U2 U1") for line in lines],
        "a chain of other chips": [line.replace("CHAIN U1 U2", "CHAIN U1 U2 U3") for line in lines],
        "a chip twice": [lines[0], *lines],
        "a BSDL file that isn't there": ["CHIP U9 none.bsd", *lines],
        "another word": [*lines, "WIRE U1.q[7] U2.sum"],
        "a net without pins": [*lines, "NET"],
        "a pin that isn't there": [*lines, "NET U1.q[8]"],
        "a chip that isn't there": [*lines, "NET U3.q[7]"],
        "a pin without a chip": [*lines, "NET q"],
        "a pin in two nets": [*lines, "NET U1.q[0] U1.q[7]"],
        "a pin twice, by its port and its package": [*lines, "NET U1.q[7] U1.5"],
        "a level at an input": [*lines, "HOLD U1.oe 1"],
        "a level at a net's driver": [*lines, "HOLD U1.q[0] 1"],
        "a level that is none": [*lines, "HOLD U1.q[7] 2"],
        "a level twice": [*lines, "HOLD U1.q[7] 1", "HOLD U1.q[7] 0"],
        "a port that is another's pin of the package": ["CHIP U9 pins.bsd", "CHAIN U9", "NET U9.oe"],
        "another order": [*lines, "NET U2.TDO U1.TDI"],
        "nothing to drive": lines[:3],
        "two drivers that are always on": ["CHIP U5 gates.out.bsd", "CHAIN U5", "NET U5.y[0] U5.y[1]"],
        "a driver held off that is always on": ["CHIP U5 gates.out.bsd", "CHAIN U5", "NET U5.y[0]", "HOLD U5.y[1] z"],
    }
    cases = {what: [keep(os.path.join(room, f"wrong{number}"), "\n".join(text) + "\n")] for number, (what, text) in enumerate(boards.items())}
    board = keep(os.path.join(room, "board"), TWO)
    cases["no file"] = [os.path.join(room, "missing")]
    for number, text in enumerate(("(export (nets (net", "(export))", "(export (version E))", TWO)):
        cases[f"a netlist of KiCad's that is none, {number}"] = [board, "--kicad", keep(os.path.join(room, f"kicad{number}"), text)]
    cases["a log that is none"] = [board, "--tell", board]
    log = "svf processing file: x\nError: tdo check error at line 1\nError:   READ = 0x0\n"
    cases["a log of another test"] = [board, "--tell", keep(os.path.join(room, "other.log"), log)]
    return cases


def tried(program, room):
    for folder, name in ((os.path.join(TOP, "examples"), "counter8"), *((DATA, name) for name in ("both_ways", "two_codes", "gates"))):
        inserted(program, folder, name, room)
    yield board_tried(room, TWO, TWO_FAULTS)
    yield board_tried(room, FIVE, FIVE_FAULTS)
    yield manual_tried(room)
    yield stopped_tried(room)
    yield chain_tried(room)
    yield kicad_tried(room)
    yield refusals("interconnect", wrong_inputs(room))
