"""What modules of the wide netlist language mean: their nets, the widths of expressions, and the faults that refuse
them, in their order."""
from typing import Dict, List, NamedTuple, Optional

from wide_modules import Assign, Gate, Instance, Net, Part, Supply
from wide_words import LONGEST_NAME, Constant, Refused

MOST_ITEMS = 1048576


class Interface(NamedTuple):
    """The ports of a module, by name and in the order of its header; a box of a library has no order."""

    ports: Dict[str, Net]
    order: Optional[List[Net]] = None


def width_of(bounds):
    return 1 if bounds is None else abs(bounds[0] - bounds[1]) + 1


def leaves_of(item):
    """The leaves of an item that declare a net where they name an unknown one; then those that don't."""
    if isinstance(item, Assign):
        return [item.left], [item.right]
    if isinstance(item, Gate):
        return [*item.outputs, *item.inputs], []
    if isinstance(item, Instance):
        return [link.given for link in item.links if link.given], []
    return [], []


class Scope:
    """The nets of a module: its ports, its wires, and then those that no declaration names, as scalars."""

    def __init__(self, module):
        self.module, self.bounds, self.implicit = module, {}, []
        for net in (*module.ports, *module.wires):
            self.bounds.setdefault(net.name, net.range)
        for item in module.items:
            for expression in leaves_of(item)[0]:
                for leaf in expression:
                    if isinstance(leaf, Part) and leaf.left is None and leaf.net not in self.bounds:
                        self.bounds[leaf.net] = None
                        self.implicit.append(Net(leaf.net, None))

    def width(self, expression):
        """The width of an expression, of which each leaf is a bit or some of a net."""
        return sum(leaf.width if isinstance(leaf, Constant) else self.part_width(leaf) for leaf in expression)

    def part_width(self, part):
        if part.net not in self.bounds:
            raise Refused(f"NetUnknown {self.module.name} {part.net}", part.place)
        bounds = self.bounds[part.net]
        if part.left is None:
            return 1 if bounds is None else abs(bounds[0] - bounds[1]) + 1
        right = part.left if part.right is None else part.right
        if bounds is None or not (is_within(part.left, bounds) and is_within(right, bounds)) or runs_against(part.left, right, bounds):
            raise Refused(f"SelectOutside {self.module.name} {part.net}", part.place)
        return abs(part.left - right) + 1


def is_within(index, bounds):
    return min(bounds) <= index <= max(bounds)


def runs_against(left, right, bounds):
    return left != right and (left > right) != (bounds[0] >= bounds[1])


def interfaces_of(modules, boxes):
    """The ports of each module and of each box of a library, by its name; a Refused says which module is the second of
    its name."""
    known = {}
    for module in modules:
        if module.name in known:
            raise Refused(f"ModuleTwice {module.name}", module.place)
        known[module.name] = Interface(first_of_name(module.ports), module.ports)
    for name, ports in boxes.items():
        known.setdefault(name, Interface(first_of_name(ports)))
    return known


def first_of_name(nets):
    found = {}
    for net in nets:
        found.setdefault(net.name, net)
    return found


def links_of(instance, interface):
    """The links of an instance, by name; of a module those by position have its ports' names."""
    if not instance.is_placed:
        return instance.links
    return [link._replace(port=port.name) for link, port in zip(instance.links, interface.order)]


def is_split(link, interface):
    """Whether a link, whose width is its port's, needs a wire of its own."""
    if link.given is None or (len(link.given) == 1 and isinstance(link.given[0], Part) and link.given[0].left is None):
        return False
    return width_of(interface.ports[link.port].range) > 1


class Checks:
    """The faults of modules: all of one's items, and then of the next; then new names, and then how many items."""

    def __init__(self, modules, interfaces):
        self.interfaces, self.scopes = interfaces, [Scope(module) for module in modules]
        for scope in self.scopes:
            for number, item in enumerate(scope.module.items):
                self.check_item(scope, number, item)
        count = 0
        for scope in self.scopes:
            check_new_names(scope.module, scope, interfaces)
        for scope in self.scopes:
            count += sum(self.count(scope, item) for item in scope.module.items)
        if count > MOST_ITEMS:
            raise Refused(f"TooMany items {MOST_ITEMS + 1} {MOST_ITEMS}")

    def check_item(self, scope, number, item):
        if isinstance(item, Instance):
            self.check_instance(scope, number, item)
        elif isinstance(item, Assign):
            if scope.width(item.left) != scope.width(item.right):
                raise differs(scope, number, item.left, item)
        elif isinstance(item, Gate):
            operands = [*item.outputs, *item.inputs]
            widths = list(map(scope.width, operands))
            if widths.count(1) != len(widths):
                raise differs(scope, number, next(operand for operand, width in zip(operands, widths) if width != 1), item)

    def check_instance(self, scope, number, item):
        interface = self.interfaces.get(item.cell)
        widths = [link.given and scope.width(link.given) for link in item.links]
        if item.is_placed and (interface is None or interface.order is None or len(interface.order) != len(item.links)):
            raise Refused(f"PlacedLinks {scope.module.name} {item.name}", item.place)
        linked = set()
        for link, width in zip(links_of(item, interface), widths):
            wanted = 1
            if interface is not None:
                self.check_link(scope, item, link, interface, linked)
                wanted = width_of(interface.ports[link.port].range)
            if width not in (None, wanted):
                raise differs(scope, number, link.given, link)

    @staticmethod
    def check_link(scope, item, link, interface, linked):
        port = interface.ports.get(link.port)
        is_wrong = port is None or link.port in linked
        if link.given and not is_wrong:
            has_constant = any(isinstance(leaf, Constant) for leaf in link.given)
            is_wrong = (has_constant and port.direction != "input") or (port.direction == "inout" and is_split(link, interface))
        if is_wrong:
            raise Refused(f"LinkPort {scope.module.name} {item.name} {link.port}", link.place)
        linked.add(link.port)

    def count(self, scope, item):
        """How many items come of an item."""
        if isinstance(item, Assign):
            return scope.width(item.left)
        if isinstance(item, Supply):
            return width_of(scope.bounds[item.net])
        if isinstance(item, Gate):
            return len(item.outputs)
        interface = self.interfaces.get(item.cell)
        if interface is None:
            return 1
        return 1 + sum(width_of(interface.ports[link.port].range) for link in links_of(item, interface) if is_split(link, interface))


def differs(scope, number, expression, item):
    place = next((leaf.place for leaf in expression if isinstance(leaf, Part)), item.place)
    return Refused(f"WidthDiffers {scope.module.name} {number}", place)


def check_new_names(module, scope, interfaces):
    taken = {*scope.bounds, *(item.name for item in module.items if isinstance(item, (Gate, Instance)) and item.name is not None)}
    for item in module.items:
        interface = interfaces.get(item.cell) if isinstance(item, Instance) else None
        for link in links_of(item, interface) if interface else ():
            if is_split(link, interface):
                name = new_name(item, link)
                if name in taken or len(name) > LONGEST_NAME:
                    raise Refused(f"NewName {module.name} {name}", link.place)
                taken.add(name)


def new_name(instance, link):
    """The name of the wire that a split link has."""
    return f"{instance.name}:{link.port}"
