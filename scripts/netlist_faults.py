"""Where in a netlist a fault is that names a thing: each function yields offsets, with what is to be mended there."""
import re

from netlist_uses import DIRECTIONS, words_between
from netlist_words import KEY_WORDS, plain

# What a word or a byte at which a text is refused often is, and what to do.
SYNTHESISE = "Verilog before synthesis: synthesise first, as by scripts/from_rtl"
MET = {
    SYNTHESISE: "reg always initial function task generate integer if case casex casez for @ < < ? ! ~ & | ^ + - * % >".split(),
    "have the synthesis tool resolve parameters": ["parameter", "localparam", "defparam"],
    "drop delays and strengths; have parameters resolved": "# strong0 strong1 pull0 pull1 weak0 weak1 supply0 supply1".split(),
    "drop `specify` blocks": ["specify"],
    "list the cell in LIB, in place of its table": ["primitive"],
    "a concatenation: have single bits written": ["{", "}"],
    "a part select: have single bits written": [":"],
    "`wire`, and constants for supplies": "tri tri0 tri1 wand wor triand trior trireg".split(),
    "several modules: `flatten` makes them one": ["module"],
    "take other gates": "notif0 notif1 nmos pmos cmos tran pullup pulldown".split(),
    "this is no netlist, or a string stands in it": ['"'],
    "a constant has one bit: `1'b0` or `1'b1`": ["'"],
    "preprocess the text, as by `iverilog -E`": ["`"],
}
REASONS = {word: reason for reason, words in MET.items() for word in words}


def at_word(text, offset, fault):
    """What is told of a place at which the words or the grammar end."""
    found = re.match(r"[A-Za-z_]\w*|[\s\S]?", text[offset : offset + 64], re.ASCII)[0]
    if re.search(r"\d'$|\d'[bodh]$", text[max(0, offset - 3) : offset], re.I):
        found = "'"
    if re.search(r"`\w*$", text[max(0, offset - 40) : offset]):
        found = "`"
    if found in REASONS:
        return REASONS[found]
    if offset >= len(text):
        return "a comment, an attribute or a word isn't ended" if fault == "BadWord" else "`endmodule`, or what stands before it, is missing"
    if fault == "BadSyntax" and is_placed(text, offset):
        return "link by name: `.PORT(NET)`"
    return "no word goes on with this byte" if fault == "BadWord" else "no module goes on with this word; see also what is missing before it"


def is_placed(text, offset):
    """Whether an instance's link stands there without its port."""
    words = [word.text for word in words_between(text, text.rfind(";", 0, offset) + 1, offset)]
    return words[-1:] == ["("] and len(words) > 1 and words[0] not in KEY_WORDS and text[offset] not in ".)"


def line_of(text, offset):
    return text.count("\n", 0, offset) + 1


def name_twice(netlist, name):
    """A wire with a port's name and range is the port's own net, and a header's list of names declares nothing."""
    found = list(netlist.definitions(name))
    port = next((it for _, it in found if it and it.kind in DIRECTIONS), None)
    own = [word.place for word, it in found if not it or (it.kind and not (port and it.kind == "wire" and it.bounds == port.bounds))]
    places = own if len(own) > 1 else [word.place for word, it in found if it and it.kind is None]
    if len(places) > 1:
        yield places[1], f"{name} stands before, in line {line_of(netlist.text, places[0])}: give one of the two another name"


def uses_of_name(netlist, name):
    """Each use of a name, with whatever index."""
    for part in netlist.parts(name):
        yield from (use for use in part.uses if use.word and plain(use.word.text) == name)


def name_unknown(netlist, name):
    yield from ((use.place(), f"no port and no wire is called {name}: declare it") for use in uses_of_name(netlist, name))


def bit_outside(netlist, name, index):
    declared = netlist.declaration(name)
    for use in uses_of_name(netlist, name):
        if use.index and int(use.index.text) == int(index):
            yield use.place(), f"{declared.shown() if declared else name}: another index, or another range"


def cell_unknown(netlist, name):
    for part in netlist.parts(name):
        if part.is_cell() and part.kind == name:
            yield part.kind_place, f"no cell {name} is known or listed: list it in LIB, the last word of the command"


def port_unknown(netlist, instance, port):
    part = netlist.named(instance)
    yield from ((use.port.place, f"{part.kind} has no port {port}") for use in part.uses if plain(use.port.text) == port)


def port_missing(netlist, instance, port):
    part = netlist.named(instance)
    empty = [use.port.place for use in part.uses if plain(use.port.text) == port]
    yield (empty or [part.name.place])[0], f"the input {port} of {part.kind} has no net: link it, to a constant if need be"


def port_twice(netlist, instance, port):
    part = netlist.named(instance)
    yield [use.port.place for use in part.uses if plain(use.port.text) == port][1], f"{port} is linked before: take one of the links out"


def wrong_width(netlist, name):
    declared = netlist.declaration(name)
    for use in uses_of_name(netlist, name) if declared else ():
        if bool(declared.bounds) != bool(use.index) and (use.index or declared.count() > 1):
            yield use.place(), f"{declared.shown()}: {'without an index' if use.index else 'name one bit of it'}"
    part = None if declared else netlist.named(name)
    for use in part.uses if part else ():
        if use.drives and use.word.text[:2] == "1'":
            yield use.place(), f"{plain(use.port.text)} of {name} is an output, and here is a constant: link a net, or nothing"


def drivers(netlist, bit):
    return [use.place() for _, use in netlist.uses(netlist.bit(bit)) if use.drives]


def two_drivers(netlist, bit):
    first, second = drivers(netlist, bit)[:2]
    yield second, f"{bit} is driven before, in line {line_of(netlist.text, first)}: keep one of the two"


def input_driven(netlist, bit):
    yield drivers(netlist, bit)[0], f"{bit} is an input: drive something else"


def not_driven(netlist, bit):
    name = netlist.bit(bit)
    declared = netlist.declaration(name[0])
    reads = [use.place() for _, use in netlist.uses(name)]
    yield (reads or [declared.word.place])[0], f"nothing drives {bit}{', which is read here' if reads else ''}: drive it"


def tristate_inside(netlist, bit):
    for part, use in netlist.uses(netlist.bit(bit)):
        if use.drives and part.kind.startswith("bufif"):
            yield use.place(), f"{bit} is a wire, and only ports have three states: make gates of it"


def tristate_read(netlist, bit):
    yield from ((use.place(), f"{bit} is an output that may be let go: read what stands before its driver") for _, use in netlist.uses(netlist.bit(bit)) if not use.drives)


def inout_not_tristate(netlist, bit):
    name, wanted = netlist.bit(bit), "drive it by a bufif1, with a constant as its enable if need be"
    places = drivers(netlist, bit)
    yield (places or [netlist.declaration(name[0]).word.place])[0], f"{bit} is an inout, and {'this is no bufif' if places else 'nothing drives it'}: {wanted}"


def derived_clock(netlist, flop, net):
    part, bit = netlist.named(flop), netlist.bit(net)
    links = [use.place() for use in part.uses if use.is_bit(bit) and not use.drives]
    yield (links or [part.name.place])[0], f"{net} stands before a clock, clear or preset of {flop}: make the part behind it the module, with a port for it"
    yield from ((use.place(), f"here {net} is driven") for _, use in netlist.uses(bit) if use.drives)


def too_many(netlist, what, limit):
    """Of operands the gate, of ports and nets the one with which the limit is passed."""
    if what == "operands":
        yield from ((part.first.place, f"it has more than {limit}") for part in netlist.wide_parts(limit))
    count = 0
    for it in netlist.declarations() if what in ("ports", "nets") else ():
        if what == "nets" or it.kind in DIRECTIONS:
            count += it.count()
        if count > limit:
            yield it.word.place, f"with this there are more than {limit}"
            return


FINDERS = {
    "NameTwice": name_twice,
    "NameUnknown": name_unknown,
    "BitOutside": bit_outside,
    "CellUnknown": cell_unknown,
    "PortUnknown": port_unknown,
    "PortMissing": port_missing,
    "PortTwice": port_twice,
    "WrongWidth": wrong_width,
    "TwoDrivers": two_drivers,
    "InputDriven": input_driven,
    "NotDriven": not_driven,
    "TristateInside": tristate_inside,
    "TristateRead": tristate_read,
    "InoutNotTristate": inout_not_tristate,
    "DerivedClock": derived_clock,
}
