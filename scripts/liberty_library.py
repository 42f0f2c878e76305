"""The cells of a Liberty file that a library can list, and why the others can't be."""
import re

from command import Fault, text_of
from liberty_groups import read_liberty, without_groups
from listed_cells import MOST_INPUTS, MOST_STEPS, Broken, Cell, expression
from netlist_words import spelled

WORD = re.compile(r"\s*([A-Za-z_][\w$.]*(?:\[\d+\])?|[01](?![\w])|['!^*&+|()])")
# Operators of two sides, the one that binds least first; a blank is `&` too.
LEVELS = (("+|", "or"), ("*&", "and"), ("^", "xor"))


class Function:
    """A function as steps, operands first. `'` and `!` bind most, then `^`, then `*`, `&` and a blank, then `+` and
    `|`."""

    def __init__(self, text):
        self.words, place, text = [], 0, text.strip()
        while place < len(text):
            found = WORD.match(text, place)
            if not found:
                raise Broken(f"its function {text!r} isn't understood")
            self.words.append(found[1])
            place = found.end()
        self.text, self.at = text, 0
        self.steps = self.level(0)
        if self.at < len(self.words):
            raise Broken(f"its function {text!r} isn't understood")

    def next(self):
        return self.words[self.at] if self.at < len(self.words) else ""

    def takes(self, signs):
        found = self.next() != "" and self.next() in signs
        self.at += found
        return found

    def level(self, number):
        if number == len(LEVELS):
            return self.inverted()
        signs, step = LEVELS[number]
        steps = self.level(number + 1)
        while self.takes(signs) or (step == "and" and self.next() not in ("", ")", "+", "|", "^", "'")):
            steps = [*steps, *self.level(number + 1), step]
        return steps

    def inverted(self):
        if self.takes("!"):
            return [*self.inverted(), "not"]
        word = self.next()
        self.at += 1
        if word == "(":
            steps = self.level(0)
            if not self.takes(")"):
                raise Broken(f"its function {self.text!r} isn't understood")
        elif word and word not in "'!^*&+|)":
            steps = [word]
        else:
            raise Broken(f"its function {self.text!r} isn't understood")
        while self.takes("'"):
            steps = [*steps, "not"]
        return steps


class LibertyCell:
    """A cell of the file, with its pins by direction."""

    def __init__(self, group):
        self.group, self.name = group, group.name()
        self.pins = {name: pin for pin in group.of_kind("pin") for name in pin.words}
        self.inputs = self.facing("input")
        self.outputs = self.facing("output")

    def facing(self, direction):
        return [name for name, pin in self.pins.items() if pin.values.get("direction", "").strip() == direction]

    def area(self):
        try:
            return float(self.group.values.get("area", ""))
        except ValueError:
            return 0.0

    def bar(self):
        """Tells why no cell of one output comes of it."""
        group = self.group
        if group.of_kind("bus", "bundle"):
            raise Broken("it has a bus or a bundle of pins")
        if self.facing("inout") or group.values.get("pad_cell", "").strip().lower() == "true":
            raise Broken("it is a pad, or has an inout: pads stand outside of the module")
        if "clock_gating_integrated_cell" in group.values:
            raise Broken("it is a clock gate")
        if group.of_kind("latch", "latch_bank"):
            raise Broken("it is a latch")
        if group.of_kind("statetable"):
            raise Broken("it has a state table")
        if group.of_kind("ff_bank") or len(group.of_kind("ff")) > 1:
            raise Broken("it has several flip-flops")
        if not self.outputs:
            raise Broken("it has no output")
        for name in self.outputs:
            if "three_state" in self.pins[name].values:
                raise Broken(f"{name} has three states, which are bufif1 and bufif0 of the netlist language")

    def function(self, name):
        text = self.pins[name].values.get("function", "").strip()
        if not text:
            raise Broken(f"its output {name} has no function")
        return Function(text)

    def gate(self):
        if len(self.outputs) > 1:
            raise Broken(f"it has {len(self.outputs)} outputs, {', '.join(self.outputs)}")
        steps = self.function(self.outputs[0]).steps
        for step in steps:
            if step not in self.inputs and step not in ("0", "1", "not", "and", "or", "xor"):
                raise Broken(f"its function reads {step}, which is no input")
        if len(self.inputs) > MOST_INPUTS or len(steps) > MOST_STEPS:
            raise Broken(f"it has {len(self.inputs)} inputs and {len(steps)} steps, and at most {MOST_INPUTS} and {MOST_STEPS} can be")
        return Cell(self.name, self.outputs[0], self.inputs, steps), None

    def input_of(self, what, text, inverted):
        """The input of a flip-flop's clock, clear or preset, and whether it has the sense."""
        steps = Function(text).steps
        while steps[-2:] == ["not", "not"]:
            steps = steps[:-2]
        if steps[0] not in self.inputs or steps[1:] not in ([], ["not"]):
            raise Broken(f"its {what} is {text!r}, no input alone")
        if inverted and steps[1:] == []:
            raise Broken(f"its {what} acts where {steps[0]} is 1, and a known one acts at 0")
        return steps[0], steps[1:] != []

    def flop(self, group):
        """The flip-flop, and a note on what of it isn't listed."""
        values = group.values
        forces = [what for what in ("clear", "preset") if values.get(what, "").strip()]
        if len(forces) == 2:
            raise Broken("it has both a clear and a preset")
        state, other = (*group.words, "", "")[:2]
        outs = {name: self.function(name).steps for name in self.outputs}
        straight = [name for name, steps in outs.items() if steps in ([state], [other, "not"])]
        if not straight:
            raise Broken("no output gives what it holds: each is inverted, or a function")
        data = Function(values.get("next_state", "")).steps
        if len(data) > 1 or data[0] not in self.inputs:
            raise Broken(f"what it holds next is {values.get('next_state', '')!r}, no input alone (a scan flip-flop, or one with an enable)")
        clock, falls = self.input_of("clock", values.get("clocked_on", ""), False)
        force = [self.input_of(forces[0], values[forces[0]], True)[0]] if forces else []
        ports = [data[0], clock, *force]
        if set(self.inputs) != set(ports):
            raise Broken(f"it has the inputs {', '.join(name for name in self.inputs if name not in ports)} besides")
        kind = "DFF" + "N" * falls + dict(clear="R", preset="S").get(forces[0] if forces else "", "")
        unlisted = [name for name in self.outputs if name != straight[0]]
        note = f"without {', '.join(unlisted)}, which nothing may be linked to: a `not` behind {straight[0]}" if unlisted else None
        return Cell(self.name, straight[0], ports, kind=kind), note

    def is_logic(self):
        """Whether functions and flip-flops say all of it, so that synthesis can put gates in its place."""
        if self.group.of_kind("bus", "bundle"):
            return False
        try:
            self.bar()
        except Broken:
            return len(self.group.of_kind("latch")) == 1
        return all(self.pins[name].values.get("function", "").strip() for name in self.outputs)

    def three_states(self):
        """A model of a cell with one output of three states, or None."""
        if len(self.outputs) != 1 or self.facing("inout") or "three_state" not in self.pins[self.outputs[0]].values:
            return None
        out = self.outputs[0]
        try:
            value, off = expression(self.function(out).steps), expression(Function(self.pins[out].values["three_state"]).steps)
        except Broken:
            return None
        ports = ", ".join([*(f"input {name}" for name in self.inputs), f"output {out}"])
        return f"module {self.name} ({ports});\n  assign {out} = {off} ? 1'bz : {value};\nendmodule\n"

    def black_box(self, widths):
        """A module with its ports and nothing inside; `widths` are those of the library's types of buses."""
        own = {**widths, **widths_of(self.group)}
        ports = [(pin, "") for pin in self.group.of_kind("pin")]
        for bus in self.group.of_kind("bus"):
            ports.append((bus, f"[{own.get(bus.values.get('bus_type', '').strip(), 1) - 1}:0] "))
        for bundle in self.group.of_kind("bundle"):
            ports += [(pin, "") for pin in bundle.of_kind("pin")]
        told = []
        for port, bounds in ports:
            direction = port.values.get("direction", "").strip()
            told += [f"{direction if direction in ('input', 'output') else 'inout'} {bounds}{spelled(name)}" for name in port.words]
        return f"(* blackbox *)\nmodule {spelled(self.name)} ({', '.join(told)});\nendmodule\n"

    def listed(self):
        """The cell as it is listed, and a note or None."""
        self.bar()
        flops = self.group.of_kind("ff")
        cell, note = self.flop(flops[0]) if flops else self.gate()
        cell.check()
        return cell, note


def widths_of(group):
    """How many bits a bus of each type has, by the types of a group."""
    return {it.name(): int(it.values.get("bit_width", "").strip() or 1) for it in group.of_kind("type") if it.values.get("bit_width", "1").strip().isdigit()}


class Liberty:
    """The cells of a file: those that are listed, with their areas; and what is said of others, by their names."""

    def __init__(self, path):
        self.path, self.cells, self.areas, self.left_out, self.notes = path, [], {}, {}, {}
        # Of those that are left out: which synthesis can put gates in the place of, and models of the others.
        self.logic, self.three_states, self.black_boxes = set(), {}, {}
        library, text = read_liberty(path, text_of(path))
        self.widths, others = widths_of(library), []
        for group in library.of_kind("cell"):
            found = LibertyCell(group)
            try:
                cell, note = found.listed()
            except Broken as broken:
                self.leave_out(found, str(broken))
                if found.name not in self.logic:
                    others.append(group)
                continue
            if cell.name in self.areas:
                raise Fault(f"{path}: the cell {cell.name} stands twice")
            self.cells.append(cell)
            self.areas[cell.name] = found.area()
            if note:
                self.notes[cell.name] = note
        if not self.cells:
            raise Fault(f"{path}: of {len(self.left_out)} cells none can be listed{''.join(f'; {name}: {why}' for name, why in list(self.left_out.items())[:1])}")
        # What synthesis reads: some other cells, as those with a bus, make it refuse the whole text.
        self.explained = without_groups(text, others)

    def leave_out(self, found, why):
        self.left_out[found.name] = why
        model = found.three_states()
        if model:
            self.three_states[found.name] = model
        elif found.is_logic():
            self.logic.add(found.name)
        else:
            self.black_boxes[found.name] = found.black_box(self.widths)

    def text(self, source):
        return "\n".join([f"# the cells of {source}, by scripts/liberty_cells", "cells 1", *(cell.line() for cell in self.cells)]) + "\n"

    def flop_of(self, kind):
        """The smallest flip-flop of a kind, or None."""
        found = [cell for cell in self.cells if cell.kind == kind]
        return min(found, key=lambda cell: self.areas[cell.name]) if found else None
