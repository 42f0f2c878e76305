"""Where in a text of several modules a fault of `flatten` is: each function yields offsets, and what is to be mended."""
from listed_cells import KNOWN
from netlist_faults import line_of
from netlist_uses import DIRECTIONS, OUTPUTS
from netlist_words import plain


class Modules:
    """The modules of a text by name: of one that stands twice the first."""

    def __init__(self, netlist, top):
        self.netlist, self.top, self.statements, self.headers = netlist, top, {}, []
        for statement in netlist.statements():
            if statement.kind() == "module":
                self.headers.append(statement.words[1])
                here = self.statements.setdefault(plain(statement.words[1].text), [])
            here.append(statement)

    def parts(self, module):
        for statement in self.statements[module]:
            yield from statement.parts(self.netlist.outputs)

    def instances(self, module):
        """The instances of modules in a module."""
        return (part for part in self.parts(module) if part.is_cell() and part.kind in self.statements)

    def declarations(self, module):
        return (it for statement in self.statements[module] for it in statement.declarations() if it.kind)

    def below(self, module):
        """The modules that it leads to, and itself where it leads back."""
        found, wanted = set(), [module]
        while wanted:
            for part in self.instances(wanted.pop()):
                if part.kind not in found:
                    found.add(part.kind)
                    wanted.append(part.kind)
        return found

    def things(self, module, flat):
        """The words that give something this flat name, below a module in whose instance it stands."""
        for it in self.declarations(module):
            if plain(it.word.text) == flat:
                yield it.word
        for part in self.parts(module):
            name = plain(part.name.text) if part.name else None
            if name == flat:
                yield part.name
            if name and flat.startswith(name + "/") and part.is_cell() and part.kind in self.statements:
                yield from self.things(part.kind, flat[len(name) + 1 :])

    def instance(self, module, flat):
        for part in self.parts(module):
            name = plain(part.name.text) if part.name else None
            if name == flat:
                return part
            if name and flat.startswith(name + "/") and part.kind in self.statements:
                found = self.instance(part.kind, flat[len(name) + 1 :])
                if found:
                    return found
        return None


def module_twice(modules, name):
    places = [word.place for word in modules.headers if plain(word.text) == name]
    if name in KNOWN or name in modules.netlist.outputs.keys() - OUTPUTS.keys():
        yield places[0], f"{name} is a cell: another name"
    else:
        yield places[1], f"the module {name} stands before, in line {line_of(modules.netlist.text, places[0])}: one of the two, or another name"


def module_missing(modules, name):
    if name == modules.top and name not in modules.statements:
        yield modules.headers[0].place, f"no module is called {name}; the text has {', '.join(list(modules.statements)[:10])}"
        return
    for module in [modules.top, *modules.statements]:
        for part in modules.parts(module):
            if part.is_cell() and part.kind == name:
                yield part.kind_place, f"{name} is no module of the text, and no cell: add it, or list the cell in LIB"
                return


def module_recursive(modules, name):
    for module in (name, *sorted(modules.below(name))):
        for part in modules.instances(module):
            if part.kind == name:
                yield part.kind_place, f"the module {name} holds itself so: take the instance out"
                return


def module_link(modules, instance, port):
    part = modules.instance(modules.top, instance)
    links = [use for use in part.uses if plain(use.port.text) == port]
    declared = next((it for it in modules.declarations(part.kind) if plain(it.word.text) == port and it.kind in DIRECTIONS), None)
    if declared is None:
        told = f"the module {part.kind} has no port {port}"
    elif declared.kind == "inout":
        told = f"{port} is an inout, which stands in the top alone"
    else:
        told = f"{port} is an {declared.kind} of {declared.count()} bit{'s' * (declared.count() > 1)}: an input is linked, once, to a net as wide"
    yield (links[1 if len(links) > 1 else 0].port.place if links else part.name.place), told
    if declared:
        yield declared.word.place, "the port is declared here"


def flat_name(modules, name):
    found = list(modules.things(modules.top, name))
    told = "the flat name has more than 255 bytes" if len(name) > 255 else f"{name} is a flat name of two things: another name of an instance, or of what is in it"
    yield from ((word.place, told if number == 0 else "the other") for number, word in enumerate(found[-2:][::-1]))


FINDERS = {"ModuleTwice": module_twice, "ModuleMissing": module_missing, "ModuleRecursive": module_recursive, "ModuleLink": module_link, "FlatName": flat_name}
