"""A run of yosys over RTL: its script, and what it says in words of the RTL."""
import os, re, shutil, subprocess
from dataclasses import dataclass, field
from typing import List, Tuple

from command import Fault, keep, text_of
from liberty_library import Liberty
from yosys_netlist import module_of, net_names

# What yosys comes to, where no library says else.
OWN_GATES = "abc -g AND,NAND,OR,NOR,XOR,XNOR,MUX"
# Cells that hold values and that no flip-flop of the netlist language is, by their kinds: what they are, and what can
# be done.
HELD = (
    (r"\$_DLATCH_[NP]_|\$_DLATCH_[NP][NP][01]_|\$_SR_", "a latch", "give it a value in each case (often an `always @*` leaves one out), or take the clock gate out"),
    (r"\$_DFFSRE?_\w+_|\$_DLATCHSR_\w+_", "both cleared and preset", "take one of the two"),
    (r"\$_ALDFFE?_\w+_", "loaded without a clock, with a value that isn't constant", "load it at the clock, or clear it to a constant"),
)
# Warnings that aren't handed on: three states are kept, and the others are told in other words.
SKIPPED = r"Yosys has only limited support for tri-state|multiple conflicting drivers|found logic loop|Wire .* is used but has no driver|Complex async reset"
# At most so many names are told of one fault.
SHOWN = 8
# In the room: what yosys reads of the library, and the module with all instances of the library's cells.
LIBRARY, PLACED = "library.lib", "placed.json"


@dataclass
class Design:
    """What is to be synthesised."""

    top: str
    files: List[str]
    # The cells of a Liberty file, or None.
    liberty: Liberty = None
    defines: List[str] = field(default_factory=list)
    folders: List[str] = field(default_factory=list)


def quoted(word):
    if re.search(r'["\n\\]', word):
        raise Fault(f"yosys takes no such name: {word!r}")
    return f'"{word}"'


def library_steps(design, room):
    """Reads the library: a cell of it that RTL names stays, but for one that isn't listed and whose function says all
    of it."""
    liberty, models = design.liberty, os.path.join(room, "models.v")
    own = set(re.findall(r"\bmodule\s+\\?(\w+)", "\n".join(map(text_of, design.files))))
    keep(models, "".join(model for name, model in {**liberty.three_states, **liberty.black_boxes}.items() if name not in own))
    keep(os.path.join(room, LIBRARY), liberty.explained)
    yield f"read_verilog {models}"
    yield f"read_liberty -nooverwrite -ignore_miss_func -ignore_miss_dir -ignore_miss_data_latch {LIBRARY}"
    for cell in liberty.cells:
        yield f"blackbox {cell.name}"
    # Instances of listed cells stay, also where nothing reads them; all of the library's are still there in `placed`.
    yield from (f"setattr -set keep 1 */t:{cell.name}" for cell in liberty.cells)
    anew = [name for name in (*sorted(liberty.logic), *liberty.three_states) if name not in own and re.fullmatch(r"\w+", name)]
    yield from (f"setattr -mod -set keep_hierarchy 1 {name}" for name in anew)
    yield from (f"hierarchy -check -top {design.top}", "proc", "flatten", f"write_json {PLACED}", "setattr -mod -unset keep_hierarchy *")


def steps(design, room):
    """The lines of yosys' script. Files are links in the room, whose names have no blanks."""
    more = [*(f"-D{it}" for it in design.defines), *(f"-I{os.path.abspath(it)}" for it in design.folders)]
    for path in design.files:
        kind = "-sv " if path.endswith((".sv", ".svh")) else ""
        yield f"read_verilog -dump_vlog2 {kind}{' '.join(map(quoted, [*more, os.path.abspath(path)]))}"
    if design.liberty:
        yield from library_steps(design, room)
    yield from (f"hierarchy -check -top {design.top}", "proc", "flatten", "tribuf -logic", "opt_clean", "log from_rtl: first check", "check", f"write_json {os.path.join(room, 'first.json')}")
    yield from (f"synth -noabc -nofsm -top {design.top}", "log from_rtl: second check", "check", f"write_json {os.path.join(room, 'before.json')}")
    yield from ("dfflegalize -cell $_DFF_?_ x -cell $_DFF_?N?_ x", f"abc -liberty {LIBRARY}" if design.liberty else OWN_GATES)
    yield from ("setundef -zero", "opt_clean", f"write_json {os.path.join(room, 'after.json')}")


def bits_of(names):
    return ", ".join(names[:SHOWN]) + (f" and {len(names) - SHOWN} more" if len(names) > SHOWN else "")


class Run:
    """yosys' log, and the modules that it wrote, which may not be there."""

    def __init__(self, design, room):
        self.design, self.room = design, room
        if not shutil.which("yosys"):
            raise Fault("there is no yosys on the path; it comes from the RTL to gates")
        script = os.path.join(room, "steps.ys")
        with open(script, "w", encoding="utf-8") as file:
            file.write("\n".join(steps(design, room)) + "\n")
        done = subprocess.run(["yosys", "-s", script], stdin=subprocess.DEVNULL, stdout=subprocess.PIPE, stderr=subprocess.STDOUT, cwd=room)
        self.log, self.status = done.stdout.decode("utf-8", "replace"), done.returncode

    def told(self, text):
        """yosys' words with names and files as the RTL and the command have them."""
        for path in self.design.files:
            text = text.replace(os.path.abspath(path), path)
        if self.design.liberty:
            text = text.replace(LIBRARY, self.design.liberty.path)
        text = re.sub(r"\$\w+\$(\S+:\d+)\$\d+", r"at \1", text)
        return re.sub(r"\\(?=[^\s\\])", "", text)

    def module(self, name):
        path = os.path.join(self.room, name)
        return module_of(path, self.design.top) if os.path.exists(path) else None

    def narrow_ports(self):
        """The ports that are declared [0:0], which yosys holds as scalars."""
        found = re.findall(rf"(?ms)^ *module \\?{re.escape(self.design.top)} ?\(.*?^ *endmodule", self.log)
        ports = re.findall(r"^ *(?:input|output|inout)\b[^\n]*?\[0:0\] (\\\S+|\w+) ?;", found[-1], re.M) if found else ()
        return {port[1:] if port.startswith("\\") else port for port in ports}

    def idle_pins(self):
        """The bits of outputs that are 1'bz always, by port and place from the right; synthesis takes them for 0."""
        ports = self.module("first.json")["ports"].items()
        return {(port, place) for port, what in ports for place, bit in enumerate(what["bits"]) if bit == "z" and what["direction"] == "output"}

    def placed(self):
        """The instances of the library's cells in the RTL, with their cells."""
        module = self.module(PLACED)
        return {name: cell["type"] for name, cell in module["cells"].items()} if module else {}

    def warnings(self):
        """What yosys warns of, but for its checks and three states, each once."""
        lines = re.findall(r"^(?!ABC)(.*?)Warning: (.*)$", self.log, re.M)
        return [self.told(where + what) for where, what in dict.fromkeys(lines) if not re.match(SKIPPED, what)]

    def lost_latches(self):
        """Signals of a latch, of which none is left where a netlist comes of it."""
        return [self.told(name) for name in dict.fromkeys(re.findall(r"^Latch inferred for signal `(\S+)' from", self.log, re.M))]

    def checked(self, which):
        """The lines of the first or the second check."""
        parts = self.log.split(f"from_rtl: {which} check\n")
        return parts[-1].split("\nFound and reported")[0] if len(parts) > 1 else ""

    def undriven(self):
        names = re.findall(rf"Warning: Wire {re.escape(self.design.top)}\.(.*) is used but has no driver", self.checked("first"))
        return [re.sub(r"^\\| (?=\[)", "", name) for name in dict.fromkeys(names)]

    def conflicts(self):
        """Nets with several drivers, with what drives each; where it has no name in the RTL, its place there."""
        for name, body in re.findall(rf"Warning: multiple conflicting drivers for {re.escape(self.design.top)}\.(.*):\n((?:    .*\n)*)", self.checked("first")):
            yield self.told(re.sub(r" (?=\[)", "", name)), "; ".join(self.told(line.strip()) for line in body.strip().split("\n"))

    def loops(self):
        """The nets of each circle that have names in the RTL."""
        cells = (self.module("before.json") or {}).get("cells", {})
        for body in re.findall(r"Warning: found logic loop in module .*:\n((?:    .*\n)*)", self.checked("second")):
            names = re.findall(r"^    wire \\(.*)$", body, re.M)
            items = [cells.get(name, {}).get("attributes", {}).get("src", "") for name in re.findall(r"^    cell (\S+) ", body, re.M)]
            places = [self.told(re.sub(r"\.\d+-\d+\.\d+$", "", src)) for src in items if src]
            yield bits_of(list(dict.fromkeys(names))) or bits_of(list(dict.fromkeys(places))) or "nets without names"

    def held(self):
        """What the kinds of HELD are found at, and flip-flops with a value at power-up, in words."""
        module = self.module("before.json")
        if module is None:
            return
        names = net_names(module)
        for kinds, what, remedy in HELD:
            found = [names.get(cell["connections"]["Q"][0], ["a net without a name"])[0] for cell in module["cells"].values() if re.fullmatch(kinds, cell["type"])]
            if found:
                yield f"{bits_of(sorted(set(found)))}: {what}; {remedy}"
        begun = []
        for name, net in module["netnames"].items():
            init = net.get("attributes", {}).get("init", "")
            if re.search("[01]", init) and not net.get("hide_name"):
                begun.append(name)
        if begun:
            yield f"{bits_of(begun)}: a value at power-up, as of `reg q = 0` or `initial`, which no flip-flop of a chip has; clear or preset it by a port"

    def refusals(self):
        """Why no netlist comes of it, in lines; none where one does."""
        yield from (f"{name} has several drivers: {what}" for name, what in self.conflicts())
        yield from (f"a circle without a flip-flop: {names}" for names in self.loops())
        if self.status == 0:
            return
        held = list(self.held()) if "cannot be legalized" in self.log else []
        if held:
            yield from held
            return
        errors = re.findall(r"^(.*?)ERROR: (.*)$", self.log, re.M)
        yield from (f"yosys: {self.told(where + what)}" for where, what in errors or [("", f"status {self.status}\n" + self.log[-500:])])
