"""What is wrong with a board's nets, by what its pins read in an interconnect test: open, stuck, short or exchanged.

A reader that follows the number of its net is right. One that reads one level alone is open or stuck; one that follows
the number of another net is exchanged, or shorted to a stronger driver; nets that read alike, and neither as the one nor
as the other, are short of each other.
"""
from collections import defaultdict


def listed(words):
    """Words of a sentence, joined."""
    words = list(map(str, words))
    return " and ".join([", ".join(words[:-1]), words[-1]] if len(words) > 1 else words)


class NetFaults:
    """`read` gives the bits of the scan that shows a pattern of a phase, as a number; of a pattern that isn't there all
    was read as wanted."""

    def __init__(self, test, read):
        self.test, self.read = test, read
        self.full = (1 << test.width) - 1
        # What each wrong reader of a net read, by phase: the number, and the complement.
        self.wrong = defaultdict(dict)
        self.lines = {}
        for phase, drivers in enumerate(test.driving):
            for number in drivers:
                for reader in test.readers[number]:
                    got = self.response(phase, number, reader)
                    if got != (number, number ^ self.full):
                        self.wrong[number][phase, reader.pin] = got

    def response(self, phase, number, reader):
        """The bits that a reader gave in a phase, and those where the net had the complement."""
        got = 0
        for pattern in range(2 * self.test.width):
            bits = self.read.get((phase, pattern))
            level = self.test.bit(number, pattern) if bits is None else bits >> reader.place & 1
            got = got << 1 | level
        return got >> self.test.width, got & self.full

    def told(self):
        """A line for each fault."""
        explained = set()
        for phase in range(len(self.test.phases)):
            explained |= self.tell_phase(phase)
        for number in self.wrong:
            if number not in explained:
                self.tell_alone(number)
        return list(self.lines)

    def tell(self, numbers, what):
        nets = [self.test.nets[number].shown() for number in sorted(numbers)]
        self.lines[f"{'nets' if len(nets) > 1 else 'net'} {', '.join(nets)}: {what}"] = True

    def tell_phase(self, phase):
        """Tells the faults of a phase that are between nets, and gives the nets."""
        drivers = self.test.driving[phase]
        follows, alike = defaultdict(lambda: defaultdict(list)), defaultdict(set)
        for number, wrong in self.wrong.items():
            for (there, pin), got in wrong.items():
                if there == phase and not self.is_level(got):
                    is_number = got[0] ^ got[1] == self.full and got[0] in drivers
                    follows[number][got[0]].append(pin) if is_number else alike[got].add(number)
        explained = set()
        for got, numbers in alike.items():
            explained |= self.tell_short(got, numbers, drivers)
        for number, others in follows.items():
            for other, pins in others.items():
                explained |= self.tell_following(number, other, pins, follows, drivers)
        return explained

    def is_level(self, got):
        return got in ((0, 0), (self.full, self.full))

    def tell_short(self, got, numbers, drivers):
        """Nets that read alike; where there is one, the other is one that nothing reads."""
        if len(numbers) == 1:
            others = [other for number in numbers for other in self.joined(number, got)]
            numbers = numbers.union(other for other in others if other in drivers and not self.test.readers[other])
        if len(numbers) > 1:
            self.tell(numbers, "short")
            return numbers
        return set()

    def joined(self, number, got):
        """The numbers of nets with which a net reads so, where 0 wins, or where 1 does."""
        full, (first, turned) = self.full, got
        if not first & ~number and not turned & number:
            yield first | ~turned & ~number & full
        if not number & ~first and not (number ^ full) & ~turned:
            yield number & ~turned | ~number & first & full

    def tell_following(self, number, other, pins, follows, drivers):
        """Pins of a net that follow another net's number."""
        back = follows[other][number] if other in follows else []
        if back:
            if number < other:
                places = list(self.exchanges(number, other, pins, back, drivers))
                self.tell({number, other}, f"exchanged {', or '.join(places)}".rstrip())
            return {number, other}
        where = self.test.nets[other].shown()
        is_whole = len(pins) == len(self.readers_of(number, drivers))
        self.tell({number, other}, f"short, and {where} is the stronger; or wired to it alone: {listed(pins)}" if is_whole else f"wired to {where}: {listed(pins)}")
        return {number, other}

    def readers_of(self, number, drivers):
        """The pins that read a net, but for its driver."""
        return [reader.pin for reader in self.test.readers[number] if reader.pin != drivers[number].pin]

    def exchanges(self, number, other, pins, back, drivers):
        """Two pins of one chip that may be exchanged."""
        pairs = [(pins[0], back[0])] if len(pins) == len(back) == 1 else []
        if set(pins) >= set(self.readers_of(number, drivers)) and set(back) >= set(self.readers_of(other, drivers)):
            pairs.append((drivers[number].pin, drivers[other].pin))
        for one, another in pairs:
            if one.chip == another.chip:
                yield f"at {one} and {another}"

    def tell_alone(self, number):
        """Tells a net that is stuck or open."""
        wrong = self.wrong[number]
        there = {(phase, reader.pin) for phase in self.phases_of(number) for reader in self.test.readers[number]}
        levels = {got[0] & 1 if self.is_level(got) else None for got in wrong.values()}
        causes = []
        if set(wrong) == there and len(levels) == 1 and None not in levels:
            causes.append(f"stuck at {levels.pop()}")
        sides = self.sides(number)
        if sides:
            ends = [str(pin) for side in sides if len(side) == 1 for pin in side]
            between = f"between {listed(sides[0])} and, on the other side, {listed(sides[1])}"
            causes.append(f"open at {' or '.join(ends)}" if ends else f"open {between}")
        pins = dict.fromkeys(pin for _, pin in wrong)
        self.tell({number}, ", or ".join(causes) or f"wrong at {listed(pins)}")

    def phases_of(self, number):
        """The phases in which a net is driven, each with the driver's pin."""
        return {phase: drivers[number].pin for phase, drivers in enumerate(self.test.driving) if number in drivers}

    def sides(self, number):
        """The pins on the two sides of a break; None where no break gives these readings. From each driver those on the
        other side are wrong."""
        readers = {reader.pin for reader in self.test.readers[number]}
        near = far = None
        for phase, driver in self.phases_of(number).items():
            wrong = {pin for there, pin in self.wrong[number] if there == phase}
            if near is None:
                near, far = readers - wrong | {driver}, set(wrong)
            elif driver not in near | far:
                (near if wrong == far & readers else far).add(driver)
            if driver in wrong or wrong != (far if driver in near else near) & readers:
                return None
        return (sorted(far, key=str), sorted(near, key=str)) if far else None
