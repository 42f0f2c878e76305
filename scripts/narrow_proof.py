"""A proof by yosys that narrow modules are those that they were made of. Each module is taken by itself, and its instances
as cells of which nothing is known: whatever they give, they read the same, and so do the module's outputs and nets."""
import os, re, shutil, subprocess, tempfile

from command import Fault, keep
from listed_cells import FLOPS
from netlist_words import spelled
from wide_modules import DIRECTIONS, Gate, Instance, Net, Part

# The last words that a port's name has which is an output, where nothing else tells.
OUTPUT_NAMES = re.compile(r"(?i)Y|Z|ZN|Q|QN|X|XN|O|OUT|S|SUM|CO|GCLK|.*OUT")
INPUT, OUTPUT = DIRECTIONS[:2]


def known_ports(library):
    """The ports of the seven cells and of a library's, by the cell."""
    known = {name: [*(Net(port, None, INPUT) for port in ports), Net("Q", None, OUTPUT)] for name, ports in FLOPS.items()}
    known["MUX2"] = [*(Net(port, None, INPUT) for port in "ABS"), Net("Y", None, OUTPUT)]
    for cell in library.cells if library else ():
        known[cell.name] = [Net(cell.out, None, OUTPUT), *(Net(port, None, INPUT) for port in cell.inputs)]
    for box in library.boxes if library else ():
        known[box.name] = [Net(port.name, port.range, None if port.name == box.bond else port.direction) for port in box.ports]
    return known


class Directions:
    """The directions of ports of which none is known: of cells that nothing tells of, and of inouts. What drives a net
    without another driver is an output, and what is linked to a driven one an input."""

    def __init__(self, modules, ports):
        self.ports, self.readers, self.driven = ports, {}, set()
        self.found = {(cell, port.name): port.direction for cell, them in ports.items() for port in them if port.direction in (INPUT, OUTPUT)}
        for module in modules:
            self.ports.setdefault(module.name, module.ports)
            self.found.update({(module.name, port.name): port.direction for port in module.ports if port.direction != "inout"})
        for module in modules:
            self.look_at(module)
        self.settle()

    def look_at(self, module):
        bounds = {net.name: net.range for net in (*module.ports, *module.wires)}

        def bits(expression):
            for leaf in expression or ():
                if not isinstance(leaf, Part):
                    yield None
                elif leaf.left is None and bounds[leaf.net]:
                    left, right = sorted(bounds[leaf.net])
                    yield from ((module.name, leaf.net, index) for index in range(left, right + 1))
                else:
                    yield (module.name, leaf.net, leaf.left)

        for port in module.ports:
            if port.direction == INPUT:
                self.driven.update(bits((Part(port.name, None, None),)))
        for item in module.items:
            if not isinstance(item, Instance):
                self.driven.update(bits(item.outputs[0] if isinstance(item, Gate) else item.left))
                continue
            cell = self.ports.setdefault(item.cell, [])
            for link in item.links:
                port = (item.cell, link.port)
                if port not in self.found and all(link.port != known.name for known in cell):
                    cell.append(Net(link.port, None))
                if self.found.get(port) == OUTPUT:
                    self.driven.update(bits(link.given))
                elif port not in self.found:
                    self.readers.setdefault(port, set()).update(bits(link.given))

    def settle(self):
        """Inputs first; then what alone is left at a net, or else has an output's name, or is the first."""
        at = {}
        for port, bits in self.readers.items():
            for bit in bits:
                at.setdefault(bit, []).append(port)
        left = dict.fromkeys(self.readers)
        open_ports = [port for port, bits in self.readers.items() if None in bits or bits & self.driven]
        while True:
            while open_ports:
                port = open_ports.pop()
                left.pop(port, None)
                self.found.setdefault(port, INPUT)
            alone = next((port for port in left if any(len([other for other in at[bit] if other in left]) == 1 for bit in self.readers[port])), None)
            named = alone or next((port for port in left if OUTPUT_NAMES.fullmatch(port[1])), None) or next(iter(left), None)
            if named is None:
                return
            left.pop(named)
            self.found[named] = OUTPUT
            for bit in self.readers[named]:
                open_ports += [other for other in at[bit] if other in left]

    def stubs(self, names):
        """Modules without insides, for yosys."""
        for name in names:
            ports = ", ".join(f"{self.found.get((name, port.name), INPUT)} {bounds_of(port)}{spelled(port.name)}" for port in self.ports[name])
            yield f"(* blackbox *) module {spelled(name)} ({ports}); endmodule\n"


def bounds_of(port):
    return "" if port.range is None else f"[{port.range[0]}:{port.range[1]}] "


def pattern_of(name):
    """What names a module in a script of yosys: signs with a meaning there stand for any."""
    return re.sub(r"[^\w.:/]", "?", name)


def steps(path, modules, names):
    """The script, in a folder with the files of `prove`; `names` are three that no module has."""
    for design, text in (("before", path), ("after", "after.v")):
        yield from ("read_verilog -lib cells.v", f'read_verilog "{text}"', "hierarchy", f"design -stash {design}")
    for module in modules:
        if not module.items:
            # yosys takes a module without insides for a black box, which isn't selected.
            yield from ("design -load before", f"select -assert-none {pattern_of(module.name)}", "design -reset")
            continue
        # What nothing drives, and what is let go, is 0 in one proof, and 1 in the other.
        for level in ("zero", "one"):
            yield from module_steps(module, level, *names)


def module_steps(module, level, gold, gate, both):
    yield from ("read_verilog -lib cells.v modules.v", f"design -copy-from before -as {gold} {pattern_of(module.name)}")
    yield f"design -copy-from after -as {gate} {pattern_of(module.name)}"
    yield "expose -evert -sep / " + " ".join(f"{one}/t:* {one}/t:$* %d" for one in (gold, gate))
    # Without buffers an assign has no direction, and -cut finds no driver.
    yield f"insbuf {gold} {gate}"
    if any(port.direction == "inout" for port in module.ports):
        # What drives a pin is an output, and what it reads an input.
        yield f"select -set pins {gold}/i:* {gold}/o:* %i {gate}/i:* {gate}/o:* %i"
        yield from ("delete -port @pins", "expose -cut @pins")
    yield from (f"check {gold} {gate}", f"setundef -undriven -{level} {gold} {gate}", f"equiv_make {gold} {gate} {both}")
    yield from (f"hierarchy -top {both}", "equiv_simple -short", "equiv_simple", "equiv_status", "design -reset")


def prove(path, modules, printed, library):
    """Has yosys prove the printed modules equal to those of a text, and says how many points it proved; a Fault says why it
    didn't."""
    if not shutil.which("yosys"):
        raise Fault("there is no yosys on the path, which proves")
    if '"' in path or "\n" in path:
        raise Fault(f"yosys takes no such name: {path!r}")
    own = [module.name for module in modules]
    if len(set(map(pattern_of, own))) < len(own):
        raise Fault("yosys can't tell the modules by their names")
    found = Directions(modules, known_ports(library))
    names = ["before_it", "after_it", "both_of_it"]
    while any(name.startswith(tuple(names)) for name in found.ports):
        names = [f"{name}_" for name in names]
    with tempfile.TemporaryDirectory(prefix="lavkhind-narrow-") as room:
        keep(os.path.join(room, "cells.v"), "".join(found.stubs([name for name in found.ports if name not in own])))
        keep(os.path.join(room, "modules.v"), "".join(found.stubs(own)))
        keep(os.path.join(room, "after.v"), printed)
        keep(os.path.join(room, "steps.ys"), "\n".join(steps(os.path.abspath(path), modules, names)) + "\n")
        done = subprocess.run(["yosys", "-s", "steps.ys"], stdin=subprocess.DEVNULL, stdout=subprocess.PIPE, stderr=subprocess.STDOUT, cwd=room)
        log = done.stdout.decode("utf-8", "replace")
    return verdict(done.returncode, log, modules)


def verdict(status, log, modules):
    error = re.search(r"ERROR: (.*)", log)
    if status or error:
        raise Fault(f"yosys doesn't prove it: {error[1] if error else f'status {status}'}")
    conflict = re.search(r"multiple conflicting drivers for (.*):", log)
    if conflict:
        raise Fault(f"yosys can't prove it: {conflict[1]} has several drivers")
    counts = [(int(shown), int(left)) for shown, left in re.findall(r"Of those cells (\d+) are proven and (\d+) are unproven", log)]
    filled = [module.name for module in modules if module.items]
    if len(counts) != 2 * len(filled):
        raise Fault("yosys comes to no end of its proof")
    for number, (shown, left) in enumerate(counts):
        if left:
            raise Fault(f"yosys doesn't prove {filled[number // 2]}: of {shown + left} points it leaves {left} open")
    return f"yosys proves {sum(shown for shown, _ in counts[::2])} points of {len(modules)} modules"
