"""The words of a netlist in the wide language, with their places, and what refuses a text of it."""
import functools, re
from typing import List, NamedTuple

from netlist_words import DROPPED, KEY_WORDS

# The kinds of words, beside symbols and key words, which are their own.
NAME, NUMBER, CONSTANT, UNKNOWN, END = "name", "number", "constant", "unknown", ""
LONGEST_NAME, LONGEST_NUMBER, LONGEST_SIZE, LONGEST_DECIMAL = 255, 9, 4, 10
# A word, or what is dropped. A constant is taken up to where another word must begin, and looked at then.
PIECE = re.compile(rf"[A-Za-z_][\w$]*|[)\[\]{{}}:,;.=]|\((?!\*)|\d+(?:'[\w?$']*|(?![\w$]))|\\[!-~]+[ \t\n\r\f]|{DROPPED}", re.ASCII)
# Words that are their own kinds.
OWN_KINDS = {word: word for word in (*KEY_WORDS, *"()[]{}:,;.=")}
LETTERS, FIGURES = frozenset("ABCDEFGHIJKLMNOPQRSTUVWXYZabcdefghijklmnopqrstuvwxyz_"), frozenset("0123456789")
UNKNOWN_DIGITS = re.compile("[xz?]")
DIRECTIVES = ("timescale", "default_nettype", "celldefine", "endcelldefine")
# What is a digit of each base, and how many bits it takes.
DIGITS = {"b": ("01", 1), "o": ("01234567", 3), "h": ("0123456789abcdef", 4), "d": ("0123456789", 0)}


class Refused(Exception):
    """What a text is refused for: the fault with its fields, and the place of it in bytes, or None."""

    def __init__(self, line, place=None):
        super().__init__(line)
        self.line, self.place = line, place


class Constant(NamedTuple):
    width: int
    value: int

    def bits(self):
        """From the left."""
        return (Constant(1, self.value >> place & 1) for place in range(self.width - 1, -1, -1))


class Words(NamedTuple):
    """Of each word its kind, its value and its place; symbols and key words are their own kinds. The last one is the
    end of the text."""

    kinds: List[str]
    values: List[object]
    places: List[int]

    def add(self, kind, value, place):
        self.kinds.append(kind)
        self.values.append(value)
        self.places.append(place)


def bad_word(place):
    return Refused(f"BadWord {place}", place)


def digits_end(digits, base, size):
    """With how many of these bytes a constant can go on behind its base."""
    among, bits = DIGITS[base]
    if not bits:
        return decimals_end(digits, size)
    most = -(-size // bits)
    count = len(re.match(f"[{among}xz?]*", digits)[0])
    if count < most:
        return count
    front = digits[:most]
    return most - (not UNKNOWN_DIGITS.search(front) and int(front, 1 << bits) >> size > 0)


def decimals_end(digits, size):
    for count, digit in enumerate(digits):
        if count == LONGEST_DECIMAL or not "0" <= digit <= "9" or int(digits[: count + 1]) >> size:
            return count
    return len(digits)


@functools.lru_cache(maxsize=4096)
def constant_of(text):
    """The kind and the value of a constant; where it is none, how many bytes of it one can begin with."""
    size, _, rest = text.partition("'")
    base, digits = rest[:1].lower(), rest[1:].lower()
    if len(size) > LONGEST_NUMBER:
        return None, LONGEST_NUMBER
    if len(size) > LONGEST_SIZE or size[0] == "0":
        return None, len(size)
    if base not in DIGITS:
        return None, len(size) + 1
    count = digits_end(digits, base, int(size))
    if not digits or count < len(digits):
        return None, len(size) + 2 + count
    if UNKNOWN_DIGITS.search(digits):
        return UNKNOWN, text
    bits = DIGITS[base][1]
    return CONSTANT, Constant(int(size), int(digits, 1 << bits if bits else 10))


def bad_place(text, place):
    """Where no word begins at a place that isn't blank: the first byte with which none goes on."""
    rest = text[place : place + LONGEST_NAME + 2]
    if rest[0] == "`":
        return place + 1 + max(shared_front(rest[1:], name) for name in DIRECTIVES)
    if rest[0] == "\\":
        shown = re.match(r"\\[!-~]*", rest).end()
        return place + min(shown, LONGEST_NAME + 1)
    if "0" <= rest[0] <= "9":
        return place + min(re.match("[0-9]*", rest).end(), LONGEST_NUMBER)
    if rest[:2] in ("/*", "(*"):
        return len(text)
    return place + (rest[0] == "/")


def shared_front(one, other):
    return next((count for count, (a, b) in enumerate(zip(one, other)) if a != b), min(len(one), len(other)))


def cut(text):
    """The words of a text."""
    pieces = PIECE.findall(text)
    if sum(map(len, pieces)) != len(text):
        raise first_fault(text)
    words, place = Words([], [], []), 0
    add_kind, add_value, add_place = words.kinds.append, words.values.append, words.places.append
    for piece in pieces:
        kind, value = OWN_KINDS.get(piece), piece
        if kind is None:
            first = piece[0]
            if first in LETTERS:
                kind = NAME
                if len(piece) > LONGEST_NAME:
                    raise bad_word(place + LONGEST_NAME)
            elif first in FIGURES or first == "\\":
                kind, value = word_of(piece, place)
        if kind is not None:
            add_kind(kind)
            add_value(value)
            add_place(place)
        place += len(piece)
    words.add(END, None, len(text))
    return words


def first_fault(text):
    """What is wrong with a text of which not all bytes are of words, or dropped."""
    place = 0
    while True:
        found = PIECE.match(text, place)
        if not found:
            break
        place = found.end()
    try:
        cut(text[:place])
    except Refused as before:
        return before
    return bad_word(bad_place(text, place))


def word_of(piece, place):
    """The kind and the value of a number, a constant or an escaped name."""
    if piece[0] == "\\":
        if len(piece) - 2 > LONGEST_NAME:
            raise bad_word(place + 1 + LONGEST_NAME)
        return NAME, piece[1:-1]
    if "'" in piece:
        kind, found = constant_of(piece)
        if kind is None:
            raise bad_word(place + found)
        return kind, found
    if len(piece) > LONGEST_NUMBER:
        raise bad_word(place + LONGEST_NUMBER)
    return NUMBER, int(piece)
