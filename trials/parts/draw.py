"""The pictures of scripts/draw hold each pin, port and cell once, and no cell stands on another; the table has a line
for each."""
import os, re, sys
from xml.etree import ElementTree

from chips import keep, text_of
from script_trials import demo, most_rows, refusals, script, small_chips, two_hundred, with_own_register

NEEDS = ()
SVG = "{http://www.w3.org/2000/svg}"
# Up to so many cells it is looked at whether they stand on one another.
PAIRS = 300


def boxes(picture):
    """The cells' rectangles: left, top, right, bottom."""
    for box in picture.iter(f"{SVG}rect"):
        if box.get("class") == "cell":
            x, y, width, height = (float(box.get(name)) for name in ("x", "y", "width", "height"))
            yield x, y, x + width, y + height


def is_apart(one, other):
    return one[2] <= other[0] or other[2] <= one[0] or one[3] <= other[1] or other[3] <= one[1]


def drawn(name, bsdl, room):
    """What was found in the picture and the table of a chip."""
    svg = os.path.join(room, "chip.svg")
    table = script("draw", bsdl, svg).split("\n")
    picture = ElementTree.parse(svg).getroot()
    rows = re.findall(r'^    "(\d+) \((BC_\d), ([^,]+),', text_of(bsdl), re.M)
    cells = list(boxes(picture))
    words = ["".join(it.itertext()) for it in picture.iter(f"{SVG}text")]
    pins = re.findall(r"\w+:(?:\(([\w,]+)\)|(\w+))", "".join(re.findall(r'^    "(\w+:.*)"', text_of(bsdl), re.M)))
    physical = [pin for several, one in pins for pin in (several or one).split(",")]
    if len(cells) != len(rows):
        sys.exit(f"{name}: {len(cells)} cells are drawn of {len(rows)}")
    codes = re.findall(r'_REGISTER of \w+ : entity is\s+((?:"[01]+"(?: & )?)+);', text_of(bsdl))
    for code in codes:
        shown = f"0x{int(re.sub('[^01]', '', code), 2):08x}"
        if not any(re.match(f"(IDCODE|USERCODE) {shown}", line) for line in table):
            sys.exit(f"{name}: the code {shown} isn't told")
    for number, kind, _ in rows:
        if sum(word.startswith(f"{number} {kind} ") for word in words) != 1:
            sys.exit(f"{name}: cell {number} isn't drawn once")
        if not any(re.match(rf"{number} .* {kind} ", line) for line in table):
            sys.exit(f"{name}: cell {number} isn't in the table")
    led = sum(it.get("class") == "lead" for it in picture.iter(f"{SVG}line"))
    if led != len(physical):
        sys.exit(f"{name}: {led} pins are drawn of {len(physical)}")
    if len(cells) <= PAIRS and not all(is_apart(one, other) for place, one in enumerate(cells) for other in cells[:place]):
        sys.exit(f"{name}: cells are drawn on one another")
    return f"{name}: {led} pins and {len(cells)} cells are drawn, and stand in the table; codes: {len(codes)}"


def warned(room, chips):
    """Outputs that no row turns off are told, in the table and in the picture, and only these."""
    count, svg = 0, os.path.join(room, "chip.svg")
    for name, _, bsdl in chips:
        always = [int(number) for number in re.findall(r'^    "(\d+) \(BC_\d, [^,]+, output2,', text_of(bsdl), re.M)]
        told = re.findall(r"^WARNING: no row turns these outputs off, .*: cells? (.*)$", script("draw", bsdl, svg), re.M)
        numbers = [number for part in ", ".join(told).split(", ") if part for first, _, last in [part.partition("-")] for number in range(int(first), int(last or first) + 1)]
        if numbers != sorted(always) or ("no row turns these outputs off" in text_of(svg)) != bool(always):
            sys.exit(f"{name}: cells {always} are always on, and told are {told}")
        count += bool(always)
    return f"outputs that no row turns off: told of {count} of {len(chips)} chips, each of their cells"


def tried(program, room):
    chips = list(small_chips(program, room))
    for name, _, bsdl in chips:
        yield drawn(name, bsdl, room)
    yield warned(room, chips)
    yield drawn("200 pins", two_hundred(program, room)[1], room)
    yield drawn("demo 999", demo(program, room, 999)[1], room)
    yield drawn("4,091 rows", most_rows(room), room)
    svg, (_, netlist, bsdl) = os.path.join(room, "chip.svg"), chips[0]
    wrong = {"no file": [os.path.join(room, "missing"), svg], "a netlist": [netlist, svg], "a folder to write to": [bsdl, room], "no word": []}
    wrong["a port that isn't mapped"] = [keep(os.path.join(room, "less.bsd"), text_of(bsdl).replace('    "en:3," &\n', "")), svg]
    wrong["a register of the design's own"] = [with_own_register(room), svg]
    yield refusals("draw", wrong)
