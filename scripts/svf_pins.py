"""Pins beside the test access port in SVF: PIOMAP names them, and each PIO works them and looks at them."""
import re

WORKED = {"0": "L", "1": "H", "z": "Z", "x": "Z"}
SEEN = {"0": "D", "1": "U"}
WAYS = {"in": "IN", "out": "OUT", "inout": "INOUT"}


class Pins:
    """What is given to each input and inout, and what the next PIO is to look for."""

    def __init__(self, device):
        self.names, self.ways, self.given, self.wanted = {}, {}, {}, {}
        self.is_changed, self.compared, self.left_out = False, 0, 0
        tap, taken = device.tap(), set()
        for port in device.ports:
            for pin in port.bits if port.mode in WAYS and port.name not in tap else ():
                name = re.sub(r"\W", "_", pin.rstrip("]"))
                while name.lower() in taken:
                    name += "_"
                taken.add(name.lower())
                self.names[pin], self.ways[pin] = name, WAYS[port.mode]
        self.physical = device.physical

    def mapped(self):
        yield from (f"! {name} is {pin}, pin {self.physical[pin]}" for pin, name in self.names.items())
        yield f"PIOMAP ({' '.join(f'{self.ways[pin]} {name}' for pin, name in self.names.items())});"

    def letter(self, pin):
        return SEEN[self.wanted[pin]] if pin in self.wanted else WORKED[self.given[pin]] if pin in self.given else "X"

    def said(self):
        """The PIO for what is still to be said."""
        lines = [f"PIO ({''.join(map(self.letter, self.names))});"] if self.is_changed or self.wanted else []
        self.compared += len(self.wanted)
        self.is_changed, self.wanted = False, {}
        return lines

    def put(self, pin, value):
        """A pin is worked; what had to be seen before that."""
        lines = self.said() if self.wanted else []
        self.given[pin], self.is_changed = value, True
        return lines

    def expect(self, pin, value):
        """A pin is looked at, which SVF says of 0 and 1, and of an inout where it is let go from outside."""
        if value not in SEEN or self.given.get(pin, "z") != "z":
            self.left_out += 1
            return []
        lines = self.said() if self.wanted.get(pin, value) != value else []
        self.wanted[pin] = value
        return lines
