"""What the trials share: the program, the chips of a folder, and modules as `canon` and `insert` write them."""
import os, re, subprocess, sys

TOP = os.path.dirname(os.path.dirname(os.path.abspath(__file__)))
HERE = os.path.join(TOP, "trials")
CELLS = os.path.join(TOP, "models/cells.v")
PROGRAM = os.path.join(TOP, "crates/lavkhind/out/lavkhind")
FLOPS = ("DFF", "DFFN", "DFFR", "DFFNR", "DFFS", "DFFNS")
WORD = re.compile(r"\\\S+\s|1'[bBoOdDhH][01]|[A-Za-z_][\w$]*|\d+|\S")


def words_given(usage):
    """The program, and the words of the command line without it; or the usage, where that is asked for, and the end."""
    words = sys.argv[1:]
    if "--help" in words or "-h" in words:
        print(usage)
        sys.exit()
    if "--program" not in words:
        if not os.path.exists(PROGRAM):
            sys.exit("there is no proved program: ./prove makes it")
        return PROGRAM, words
    at = words.index("--program")
    return os.path.abspath(words[at + 1]), words[:at] + words[at + 2 :]


def run(words, statuses=(0,), **more):
    """What the command prints; the trial ends where its status is another."""
    done = subprocess.run(words, stdin=subprocess.DEVNULL, capture_output=True, text=True, encoding="latin-1", **more)
    if done.returncode not in statuses:
        sys.exit(f"{' '.join(words)} ended with status {done.returncode}\n{done.stdout[-2000:]}{done.stderr[-2000:]}")
    return done.stdout


def version(words):
    """The first line that a tool prints of itself."""
    done = subprocess.run(words, stdin=subprocess.DEVNULL, capture_output=True, text=True)
    return next(line.strip() for line in (done.stdout + done.stderr).split("\n") if line.strip())


def text_of(path):
    with open(path, encoding="latin-1", newline="") as file:
        return file.read()


def keep(path, text):
    with open(path, "w", encoding="latin-1", newline="") as file:
        file.write(text)
    return path


def chips_of(folder):
    """The names of the chips of a folder: each has NAME.v, NAME.plan and event texts NAME.events or NAME.*.events; and a
    library NAME.lib or NAME.cells, where it has listed cells."""
    return sorted(name[:-5] for name in os.listdir(folder) if name.endswith(".plan"))


def events_of(folder, name):
    """The event texts of a chip, as paths."""
    found = [file for file in sorted(os.listdir(folder)) if re.fullmatch(re.escape(name) + r"(\.\w+)?\.events", file)]
    return [os.path.join(folder, file) for file in found]


def library_of(folder, name):
    """The library of a chip's cells, in a list that is empty where it has none: NAME.lib or NAME.cells."""
    paths = [os.path.join(folder, name + end) for end in (".lib", ".cells")]
    return [path for path in paths if os.path.exists(path)][:1]


def cells_of(library):
    """The cells of a library, which is given in such a list."""
    sys.path.append(os.path.join(TOP, "scripts"))
    from listed_cells import read_cells

    return [cell for path in library for cell in read_cells(path)]


def models_of(room, library):
    """Models of a library's cells, as the path of a text, in such a list."""
    return [keep(os.path.join(room, "models.v"), "".join(cell.model() for cell in cells_of(library)))] if library else []


def inserted(program, folder, name, room, registers=None):
    """The written netlist and BSDL file of a chip, as paths; with the path of a text of registers those of `status`."""
    paths = [os.path.join(room, name + end) for end in (".out.v", ".out.bsd")]
    given = [os.path.join(folder, name + end) for end in (".v", ".plan")]
    words = ["status", *given, registers] if registers else ["insert", *given]
    run([program, *words, *paths, *library_of(folder, name)])
    return paths


def plain(word):
    """A name as its bytes."""
    return word[1:-1] if word.startswith("\\") else word


def spelled(name):
    """A name as an escaped one, which stands for it everywhere."""
    return f"\\{name} "


class Port:
    def __init__(self, direction, bounds, name):
        self.direction, self.bounds, self.name = direction, bounds, name

    def range(self):
        return f"[{self.bounds[0]}:{self.bounds[1]}] " if self.bounds else ""

    def bits(self):
        """The index of each bit from the left; None of a scalar port."""
        if not self.bounds:
            return [None]
        left, right = self.bounds
        step = 1 if right >= left else -1
        return list(range(left, right + step, step))

    def pins(self):
        return [self.name if index is None else f"{self.name}[{index}]" for index in self.bits()]


class Item:
    """A gate, an instance or an assignment: its kind, its name or None, and its operands or links as they are
    spelled."""

    def __init__(self, kind, name, operands, links):
        self.kind, self.name, self.operands, self.links = kind, name, operands, links

    def line(self):
        if self.kind == "assign":
            return f"  assign {self.operands[0]} = {self.operands[1]};"
        arguments = ", ".join(self.operands or [f".{port}({net})" for port, net in self.links.items()])
        return f"  {self.kind} {spelled(self.name) if self.name else ''}({arguments});"


class Module:
    """A module in canonical text: one declaration or item a line."""

    def __init__(self, text):
        lines = text.rstrip("\n").split("\n")
        self.name = plain(WORD.findall(lines[0])[1])
        self.ports, self.wires, self.items = [], [], []
        for line in lines[1:-1]:
            words = WORD.findall(line)
            if words[0] in ("input", "output", "inout"):
                self.ports.append(self.port(words))
            elif words[0] == "wire":
                self.wires.append(line)
            elif words[0] not in (")", "endmodule"):
                self.items.append(self.item(words))

    @staticmethod
    def port(words):
        bounds = (int(words[2]), int(words[4])) if words[1] == "[" else None
        return Port(words[0], bounds, plain(words[6 if bounds else 1]))

    @staticmethod
    def item(words):
        if words[0] == "assign":
            at = words.index("=")
            return Item("assign", None, ["".join(words[1:at]), "".join(words[at + 1 : -1])], None)
        named = words[1] != "("
        inner = words[3 if named else 2 : -2]
        name = plain(words[1]) if named else None
        parts, depth = [[]], 0
        for word in inner:
            depth += (word == "(") - (word == ")")
            if word == "," and depth == 0:
                parts.append([])
            else:
                parts[-1].append(word)
        if inner[0] != ".":
            return Item(words[0], name, ["".join(part) for part in parts], None)
        return Item(words[0], name, None, {part[1]: "".join(part[3:-1]) for part in parts})


def place(pin):
    """The name and the index of a spelled net bit."""
    words = WORD.findall(pin)
    return plain(words[0]), int(words[2]) if len(words) > 1 else None
