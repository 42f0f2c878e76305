"""Wide texts and the flat modules that became of them, played side by side by Icarus Verilog."""
import os, re

from chips import CELLS, Module, keep, run, spelled

STEPS = 60


def vector(bits):
    return f"[{bits - 1}:0]"


class Side:
    """One text of a bench: its ports, as slices of an input vector, of an output vector, and of one of inouts."""

    def __init__(self, number, flat, chance):
        self.number, self.chance, self.flat = number, chance, flat
        self.widths = {"input": 0, "output": 0, "inout": 0}
        self.slices = []
        self.clock = None
        for port in flat.ports:
            low, width = self.widths[port.direction], len(port.bits())
            self.widths[port.direction] += width
            self.slices.append((port.name, port.direction, f"[{low + width - 1}:{low}]"))
            if port.name == "ck":
                self.clock = low

    def instance(self, kind, name):
        vectors = {"input": f"in{self.number}", "output": f"{name}{self.number}", "inout": f"io_{name}{self.number}"}
        links = ", ".join(f".{spelled(port)}({vectors[direction]}{bits})" for port, direction, bits in self.slices)
        return f"  {spelled(kind)} {name}_chip{self.number} ({links});"

    def lines(self, top, flat):
        n, widths = self.number, self.widths
        yield f"  reg {vector(widths['input'])} in{n};"
        yield f"  wire {vector(widths['output'])} wide{n}, flat{n};"
        if widths["inout"]:
            yield f"  reg {vector(widths['inout'])} out{n};"
            yield f"  wire {vector(widths['inout'])} io_wide{n} = out{n}, io_flat{n} = out{n};"
        yield from (self.instance(top, "wide"), self.instance(flat, "flat"))

    def drawn(self, width, letters):
        return f"{width}'b{''.join(self.chance.choice(letters) for _ in range(width))}"

    def steps(self):
        """The clock changes alone."""
        n, level = self.number, "0"
        both = f"{{wide{n}{f', io_wide{n}' if self.widths['inout'] else ''}}}"
        other = both.replace("wide", "flat")
        for step in range(STEPS):
            if step and self.chance.random() < 0.4:
                level = "1" if level == "0" else "0"
                yield f"    in{n}[{self.clock}] = 1'b{level};"
            else:
                letters = "01010101xz" if step % 3 else "01"
                bits = list(self.drawn(self.widths["input"], letters).partition("b")[2])
                bits[-1 - self.clock] = level
                yield f"    in{n} = {len(bits)}'b{''.join(bits)};"
                if self.widths["inout"]:
                    yield f"    out{n} = {self.drawn(self.widths['inout'], 'zzz01')};"
            yield f"    #1 look({n}, {step}, {both} === {other}, ^{both});"


def bench(sides):
    yield from ("`timescale 1ns/1ps", "module wide_bench;", "  integer alike, differ, known;")
    for side, top, flat in sides:
        yield from side.lines(top, flat)
    yield from ("  task look; input integer number, step; input is_same, parity; begin", "    if (is_same) alike = alike + 1;")
    yield from ('    else begin differ = differ + 1; $display("text %0d differs in step %0d", number, step); end',)
    yield from ("    if (parity === 1'b0 || parity === 1'b1) known = known + 1;", "  end endtask")
    yield from ("  initial begin", "    alike = 0; differ = 0; known = 0;")
    for side, _, _ in sides:
        yield from side.steps()
    yield from ('    $display("alike %0d differ %0d known %0d", alike, differ, known);', "    $finish;", "  end", "endmodule")


def played(room, texts, chance):
    """Plays pairs of a wide text and a flat one, by their number; gives how many readings are alike, how many differ, and of
    how many all bits are known, and what Icarus prints of those that differ."""
    paths, sides = [], []
    for number, (wide, flat) in texts.items():
        module = Module(flat)
        other = f"{module.name}_flat"
        paths.append(keep(os.path.join(room, f"wide{number}.v"), wide))
        paths.append(keep(os.path.join(room, f"flat{number}.v"), flat.replace(f"module {module.name} (", f"module {other} (", 1)))
        sides.append((Side(number, module, chance), module.name, other))
    text, simulation = keep(os.path.join(room, "wide_bench.v"), "\n".join(bench(sides)) + "\n"), os.path.join(room, "wide_bench.vvp")
    run(["iverilog", "-g2001", "-s", "wide_bench", "-o", simulation, text, CELLS, *paths])
    log = run(["vvp", "-n", simulation])
    found = re.search(r"alike (\d+) differ (\d+) known (\d+)", log)
    return (*map(int, found.groups()), log.split("alike")[0].strip())
