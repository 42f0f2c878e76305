"""How many of the sixty faults of trials/data/planted.faults are found: by `check` with the program of
scripts/long_program, and by OpenOCD with what scripts/svf says of it, while Icarus plays the netlist. With --net
long_program learns of the core from the netlist without the fault, or from the faulty one itself."""
import os, subprocess, sys

from chips import Module, inserted, keep, text_of
from parts.svf import plays, tap_of
from planting import FOLDERS, faults, planted
from script_trials import script
from svf_player import events_of_svf

NEEDS = ("openocd", "iverilog", "vvp")
# The longer program's lines when the list was made, and how many more it may have.
LINES, MOST = {"counter8": 51123, "both_ways": 31530, "two_codes": 50182}, 2
# So many faults must be found at least: by the longer program with --net, and by its SVF, which must find seven more than
# that of the program of `vectors` (13).
BY_CHECK, BY_SVF = 54, 23


class Chip:
    """A chip of the list without a fault, and its programs."""

    def __init__(self, program, room, name):
        self.program, self.room, self.name = program, room, name
        self.netlist, self.bsdl = inserted(program, FOLDERS[name], name, room)
        self.text = text_of(self.netlist)
        self.tap, self.length = tap_of(text_of(self.bsdl))
        self.svf, self.pins_svf = self.path("svf"), self.path("pins.svf")
        script("svf", "--long", self.bsdl, self.svf)
        script("svf", "--long", "--pins", self.bsdl, self.pins_svf)
        self.programs = {"long_program": self.path("long"), "long_program --net": self.path("net")}
        script("long_program", self.bsdl, self.programs["long_program"])
        said = script("long_program", self.bsdl, self.programs["long_program --net"], "--net", self.netlist, "--program", program)
        if int(said.split()[0]) > MOST * LINES[name]:
            sys.exit(f"{name}: {said.split()[0]} lines, and there were {LINES[name]}")
        self.lines = f"{name} {said.split()[0]} of {LINES[name]} then"
        for what, svf in (("svf --long", self.svf), ("svf --long --pins", self.pins_svf)):
            self.programs[what] = keep(svf + ".events", events_of_svf(Module(self.text), self.tap, text_of(svf)))
        if any(self.is_missed(self.netlist, events) for events in self.programs.values()) or not self.is_played(self.netlist):
            sys.exit(f"{name} without a fault misses something")

    def path(self, end):
        return os.path.join(self.room, f"{self.name}.{end}")

    def is_missed(self, netlist, events):
        """Whether `check` says that the netlist misses a line."""
        done = subprocess.run([self.program, "check", netlist, self.bsdl, events], stdout=subprocess.DEVNULL)
        if done.returncode not in (0, 6):
            sys.exit(f"{netlist}: `check` ends with status {done.returncode}")
        return done.returncode == 6

    def is_played(self, netlist):
        """Whether OpenOCD finds no mismatch."""
        return plays(self.room, Module(self.text), self.tap, [netlist], self.svf, (self.length,))

    def by_itself(self, netlist):
        """Whether the program finds something that learns of the core from the faulty netlist."""
        events = self.path("itself")
        script("long_program", self.bsdl, events, "--net", netlist, "--program", self.program)
        return self.is_missed(netlist, events)

    def finds(self, netlist):
        """Which of the programs find something. OpenOCD isn't asked where a player that sees more finds nothing."""
        found = {what: self.is_missed(netlist, events) for what, events in self.programs.items()}
        found["long_program --net of itself"] = found["long_program"] or self.by_itself(netlist)
        found["svf --long, OpenOCD"] = found["svf --long"] and not self.is_played(netlist)
        return found


def tried(program, room):
    chips = {name: Chip(program, room, name) for name in FOLDERS}
    yield f"lines with --net: {', '.join(chip.lines for chip in chips.values())}"
    counts = {}
    for fault in faults():
        found = chips[fault.chip].finds(keep(os.path.join(room, "faulty.v"), planted(chips[fault.chip].text, fault)))
        for what, is_found in found.items():
            counts[what] = counts.get(what, 0) + is_found
        left = [what for what in ("long_program", "long_program --net", "long_program --net of itself") if not found[what]]
        if left:
            yield f"{fault.name()}: not found by {', '.join(left)}"
    told = ", ".join(f"{what} {count}" for what, count in counts.items())
    if counts["long_program --net"] < BY_CHECK or counts["svf --long, OpenOCD"] < BY_SVF:
        sys.exit(f"too few faults are found: {told}")
    yield f"of {len(faults())} faults are found by {told}"
