"""Plays SVF as a tester does that knows nothing but the standard of the format: it makes events for `check` of it."""
import os, re, sys

from chips import TOP

sys.path.append(os.path.join(TOP, "scripts"))
from machine import IDLE, NEXT, RESET, STABLE, way  # noqa: E402

NAMES = {"RESET": RESET, "IDLE": IDLE}
for _kind in ("DR", "IR"):
    NAMES[f"{_kind}SELECT"] = f"Select-{_kind}-Scan"
    for _name in ("Capture", "Shift", "Exit1", "Pause", "Exit2", "Update"):
        NAMES[f"{_kind}{_name.upper()}"] = f"{_name}-{_kind}"
GIVEN, SEEN = {"H": "1", "L": "0", "Z": "z"}, {"U": "1", "D": "0"}


def bits_of(digits, count):
    number = int(digits, 16)
    return [str(number >> place & 1) for place in range(count)]


class Player:
    """`tap` names the ports of the test access port, and `pins` all other inputs and inouts with what they have at first."""

    def __init__(self, tap, pins):
        self.tap, self.pins, self.state = tap, dict(pins), RESET
        self.names, self.lines, self.ends = [], [], {"IR": IDLE, "DR": IDLE}
        self.spelled = {}

    def set(self, what, value):
        self.lines.append(f"set {self.tap[what]} {value}")

    def clock(self, tms, tdi="0"):
        self.set("MODE", tms)
        self.set("IN", tdi)
        self.set("CLOCK", 1)
        self.set("CLOCK", 0)
        self.state = NEXT[self.state][int(tms)]

    def go(self, state):
        for level in way(self.state, state):
            self.clock(level)

    def path(self, names):
        for name in names:
            tms = NEXT[self.state].index(NAMES[name])
            self.clock(tms)

    def scan(self, kind, words):
        count = int(words[0])
        given = dict(re.findall(r"(\w+)\(([0-9a-fA-F]+)\)", "".join(words[1:])))
        sent = bits_of(given["TDI"], count)
        wanted, mask = (bits_of(given.get(name, "0"), count) for name in ("TDO", "MASK"))
        self.go(f"Shift-{kind}")
        for place in range(count):
            if mask[place] == "1":
                self.lines.append(f"expect {self.tap['OUT']} {wanted[place]}")
            self.clock(int(place == count - 1), sent[place])
        self.go(self.ends[kind])

    def work(self, letters):
        """A PIO: what is given first, and then what is seen."""
        for pin, letter in zip(self.names, letters):
            if letter in GIVEN and pin in self.pins:
                self.lines.append(f"set {pin} {GIVEN[letter]}")
        self.lines += [f"expect {pin} {SEEN[letter]}" for pin, letter in zip(self.names, letters) if letter in SEEN]

    def command(self, words):
        name = words[0]
        if name in ("SIR", "SDR"):
            self.scan(name[1:], words[1:])
        elif name in ("ENDIR", "ENDDR"):
            self.ends[name[3:]] = NAMES[words[1]]
        elif name == "STATE" and words[1:] == ["RESET"]:
            self.path_of_reset()
        elif name == "STATE":
            self.go(NAMES[words[1]]) if len(words) == 2 else self.path(words[1:])
        elif name == "RUNTEST":
            self.go(NAMES[words[1]])
            for _ in range(int(words[2])):
                self.clock(int(self.state == RESET))
        elif name == "TRST":
            self.set("RESET", int(words[1] == "OFF"))
            self.state = RESET
        elif name == "PIOMAP":
            self.names = [self.spelled[it] for it in re.findall(r"(?:IN|OUT|INOUT) (\w+)", " ".join(words))]
        elif name == "PIO":
            self.work(words[1].strip("()"))
        elif name not in ("FREQUENCY", "HIR", "HDR", "TIR", "TDR"):
            sys.exit(f"SVF has no command {name}")
        if self.state not in STABLE:
            sys.exit(f"{' '.join(words)} ends in {self.state}")

    def path_of_reset(self):
        for _ in range(5):
            self.clock(1)

    def events(self, text):
        """The text as events."""
        self.spelled = dict(re.findall(r"(?m)^! (\w+) is (\S+), pin", text))
        tap = {"CLOCK": 0, "MODE": 1, "IN": 0, "RESET": 0}
        starts = [f"start {self.tap[what]} {value}" for what, value in tap.items()]
        starts += [f"start {pin} {value}" for pin, value in self.pins.items()]
        for line in re.sub(r"(?m)^!.*$", "", text).split(";"):
            if line.split():
                self.command(line.split())
        return "\n".join(["events 1", *starts, *self.lines]) + "\n"


def events_of_svf(module, tap, text):
    """The events of an SVF text for a module; its inputs begin at 0, and its inouts are let go."""
    ports = [port for port in module.ports if port.direction != "output" and port.name not in tap.values()]
    pins = {pin: "z" if port.direction == "inout" else "0" for port in ports for pin in port.pins()}
    return Player(tap, pins).events(text)
