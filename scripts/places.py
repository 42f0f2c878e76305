"""Places in texts, as lines: the file, the line and the column, the line, and a mark under the byte."""
from bsdl_entries import broken_at, is_bsdl
from command import Fault
from listed_cells import Broken, cell_of, lines_of
from netlist_words import items_of

# So many bytes of a line are shown at most.
WIDE = 110


def spot(path, text, offset, told=""):
    """The lines that show a byte, or the end of the text."""
    start = text.rfind("\n", 0, offset) + 1
    end = text.find("\n", offset)
    line = text[start : len(text) if end < 0 else end].rstrip("\r")
    column = offset - start
    left = max(0, min(column - WIDE // 2, len(line) - WIDE))
    shown = "".join(byte if " " <= byte <= "~" else " " if byte == "\t" else "?" for byte in line[left : left + WIDE])
    front, behind = "..." if left else "", "..." if left + WIDE < len(line) else ""
    number = text.count("\n", 0, start) + 1
    yield f"{path}:{number}:{column + 1}{': ' if told else ''}{told}"
    yield f"    {front}{shown}{behind}"
    yield f"    {' ' * (len(front) + column - left)}^"


def of_offset(path, text, offset, told=""):
    """A byte; and of a BSDL file the entry and the rule that are broken there."""
    if not 0 <= offset <= len(text):
        raise Fault(f"{path} has {len(text)} bytes, and no byte {offset}")
    broken = broken_at(text, offset) if is_bsdl(text) else None
    ends = "the text ends here" if offset == len(text) else ""
    yield from spot(path, text, offset, "; ".join(filter(None, (ends, "" if broken else told))))
    if broken:
        yield from spot(path, text, broken.place, broken.rule)


def of_items(path, text, numbers):
    try:
        items = list(items_of(text))
    except Fault as fault:
        raise Fault(f"{path}: {fault}") from None
    for number in numbers:
        if not 0 <= number < len(items):
            raise Fault(f"{path} has {len(items)} items, and no item {number}; they are counted from 0")
        yield from spot(path, text, items[number].words[0].place, f"item {number}: {items[number].shown()}")


def rule_of(number, words, first):
    """What the line of a cell breaks, in words."""
    cell = cell_of(number, words)
    if cell is None:
        return "the line has no form of a cell's"
    try:
        cell.check()
    except Broken as broken:
        return str(broken)
    return f"the name stands before, at line {first}" if number != first else "this line breaks no rule"


def of_cell(path, text, name):
    found = [(number, words) for number, words in lines_of(text) if words[0] in ("gate", "flop") and words[1:2] == [name]]
    if not found:
        raise Fault(f"{path} has no line of a cell {name}")
    lines = text.split("\n")
    for number, words in found:
        start = sum(len(line) + 1 for line in lines[: number - 1])
        yield from spot(path, text, start + lines[number - 1].index(words[0]), rule_of(number, words, found[0][0]))
