"""Where the fault is that a command told, as lines to show, and what to mend. Places are found by a reader of these
scripts' own; what is refused the program alone tells.
"""
import os, re

import line_faults, module_faults, netlist_faults
from bsdl_entries import Sections
from command import Fault, text_of
from listed_cells import read_cells
from netlist_uses import Netlist
from netlist_words import plain
from places import of_cell, of_items, of_offset, spot

# What stands behind a command: `-` is an output.
FORMS = {
    "insert": "net plan - - lib",
    "status": "net plan regs - - lib",
    "strip": "net bsdl - - lib",
    "vectors": "bsdl -",
    "check": "net bsdl events lib",
    "sim": "net events lib",
    "flatten": "net top - lib",
    "canon": "net -",
    "showbsdl": "bsdl -",
    "statusbsdl": "bsdl -",
}
# What is to be mended of faults that have no place.
PLAIN = {
    "TooLong": "the file has more than 16,777,216 bytes: drop comments and attributes, or split the events",
    "TooMany": "there are too many, as counted with the room for the test logic, or below TOP: a smaller netlist; see the limits in the manual",
    "NotInserted": "no netlist and plan give this module and this device: see `strip` in the manual",
}
BSDL = {
    "BsdlWord": "no word of BSDL goes on with this byte",
    "BsdlSyntax": "no BSDL file of this order of sections goes on with this word: see what is refused of common files, in the manual",
    "BsdlMeaning": "the section breaks a rule on BSDL files",
    "BsdlExtra": "a rule on registers of the design's own is broken",
}


class Files:
    """The texts of a command by what they are: `paths` by the words of FORMS."""

    def __init__(self, command, paths):
        self.command, self.paths, self.texts, self.read = command, paths, {}, None
        for role, path in paths.items():
            if role not in ("-", "top") and not os.path.isfile(path):
                raise Fault(f"{path} can't be read twice, so no line is shown")

    def path(self, role):
        return self.paths[role]

    def text(self, role):
        if role not in self.texts:
            self.texts[role] = text_of(self.path(role))
        return self.texts[role]

    @property
    def netlist(self):
        if self.read is None:
            self.read = Netlist(self.text("net"), self.cells())
        return self.read

    def cells(self):
        """The cells of the library; none where it has a form that isn't read here."""
        try:
            return read_cells(self.path("lib")) if "lib" in self.paths else []
        except Fault:
            return []

    def spot(self, role, offset, told):
        return spot(self.path(role), self.text(role), offset, told)


def other_port(files):
    """The first port that the netlist and the BSDL file don't both have."""
    modes = dict(input="in", output="out", inout="inout")
    there = {port.name.lower(): port for port in Sections(files.text("bsdl")).ports() if port.mode != "linkage"}
    for port in files.netlist.ports():
        name = plain(port.word.text)
        other = there.pop(name.lower(), None)
        if other is None or other.mode != modes[port.kind] or len(other.bits) != port.count():
            told = "has no such port" if other is None else f"has it as `{other.mode}` of {len(other.bits)}"
            yield from files.spot("net", port.word.place, f"the netlist's ports aren't those of {files.path('bsdl')}, which {told}")
            return
    for port in there.values():
        found = re.search(rf"\b{re.escape(port.name)}\b", files.text("bsdl"), re.I)
        yield from files.spot("bsdl", found.start(), f"{files.path('net')} has no such port")
        return


def of_library(files, fault, fields):
    if fault == "LibLine":
        place = line_faults.place_of_line(files.text("lib"), fields[0])
        yield from files.spot("lib", place, "the line is no `gate NAME OUT {IN} : STEP {STEP}` and no `flop NAME KIND Q D CK [R]`, or `cells 1` doesn't come first")
    elif fault == "TooMany":
        line = [it for it in line_faults.lines_of(files.text("lib")) if it.key() in ("gate", "flop")][int(fields[2])]
        yield from files.spot("lib", line.places[0], "with this there are too many: drop cells that the netlist doesn't have")
    else:
        yield from of_cell(files.path("lib"), files.text("lib"), fields[0])


def of_named(files, fault, fields):
    """Faults of the netlist, or of modules, that name things."""
    if fault == "TooMany":
        finder = lambda: netlist_faults.too_many(files.netlist, fields[0], int(fields[2])) if files.command != "flatten" else ()
    elif fault in module_faults.FINDERS:
        finder = lambda: module_faults.FINDERS[fault](module_faults.Modules(files.netlist, files.path("top")), *fields)
    else:
        finder = lambda: netlist_faults.FINDERS[fault](files.netlist, *fields)
    try:
        found = list(finder())
    except (AttributeError, IndexError, ValueError):
        # The reader here sees the text otherwise than the program.
        found = []
    if not found and fault != "TooMany":
        found = [(word.place, "") for word in files.netlist.words(files.netlist.bit(fields[0])[0])]
    for place, told in found[: 2 if fault in ("DerivedClock", "ModuleLink", "FlatName") else 1]:
        yield from files.spot("net", place, told)


def too_many_lines(files, limit):
    lines = list(line_faults.lines_of(files.text("events")))
    yield from files.spot("events", lines[limit + 1].places[0], f"with this line there are more than {limit}: split the events")


def shown(files, line):
    """The lines that show a fault; it is the one that the program printed. Of one without a place it is told what to
    mend, or nothing.
    """
    lines, fault = list(places(files, line)), line.split(" ")[0]
    return lines or [f"{fault}: {PLAIN[fault]}"] * (fault in PLAIN)


def places(files, line):
    fault, *fields = line.split(" ")
    if fault in ("BadWord", "BadSyntax"):
        text = files.text("net")
        return of_offset(files.path("net"), text, int(fields[0]), netlist_faults.at_word(text, int(fields[0]), fault))
    if fault in BSDL:
        if fields[0] == "Ports":
            return other_port(files)
        return of_offset(files.path("bsdl"), files.text("bsdl"), int(fields[fault == "BsdlMeaning"]), BSDL[fault])
    if fault.startswith("Lib") or fields[:1] == ["listed"]:
        return of_library(files, fault, fields)
    if fault == "Loop":
        return of_items(files.path("net"), files.text("net"), map(int, fields))
    if fault in line_faults.FINDERS:
        return (it for found in line_faults.FINDERS[fault](files, *fields) for it in files.spot(*found))
    if fields[:1] == ["lines"]:
        return too_many_lines(files, int(fields[2]))
    if fault == "TooMany" or fault in netlist_faults.FINDERS or fault in module_faults.FINDERS:
        return of_named(files, fault, fields)
    return ()
