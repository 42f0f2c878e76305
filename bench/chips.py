"""Large chips with their plans: as many cells as the limits leave room for."""
from measuring import DEMO_PINS, plan, random_netlist

LIMIT = 262_144
CHAINS = 32
INPUTS = 4_091


def room(boundary):
    """What is kept free of cells: 410, 64 for each bit of the instruction register, 24 for each boundary cell."""
    return 410 + 64 * 4 + 24 * boundary


def chains():
    """So many chains of buffers, from an input to an output each."""
    # Each pin has a boundary cell, and one more controls the outputs.
    depth = (LIMIT - room(2 * CHAINS + 1)) // CHAINS
    yield "module chains ("
    yield f"  input [{CHAINS - 1}:0] a,"
    yield f"  output [{CHAINS - 1}:0] y"
    yield ");"
    for k in range(CHAINS):
        yield f"  wire [{depth - 2}:0] w{k};"
    for k in range(CHAINS):
        yield f"  buf (w{k}[0], a[{k}]);"
        for i in range(1, depth - 1):
            yield f"  buf (w{k}[{i}], w{k}[{i - 1}]);"
        yield f"  buf (y[{k}], w{k}[{depth - 2}]);"
    yield "endmodule"


def fans(parts):
    """As many inputs as there can be, and a part of the buffers that find room, which the inputs feed in turn."""
    count = (LIMIT - room(INPUTS)) // parts
    yield f"module fans (input [{INPUTS - 1}:0] a);"
    yield f"  wire [{count - 1}:0] w;"
    for i in range(count):
        yield f"  buf (w[{i}], a[{i % INPUTS}]);"
    yield "endmodule"


def chips():
    """Each chip's name, the lines of its netlist, and those of its plan."""
    yield "demo_9999", random_netlist(9999), plan("demo_chip", DEMO_PINS)
    pins = [(f"{port}[{i}]", "BC_1") for port in "ay" for i in range(CHAINS)]
    yield "chains_64_pins", chains(), plan("chains_chip", pins)
    pins = [(f"a[{i}]", "BC_1") for i in range(INPUTS)]
    yield "fans_4091_pins", fans(1), plan("fans_chip", pins)
    yield "half_of_the_buffers", fans(2), plan("fans_chip", pins)
