"""The words of a netlist, with their places, and its items: gates, instances and assignments."""
import re
from dataclasses import dataclass
from typing import List

from command import Fault

# Runs that are dropped; (* and /* aren't closed by their own *.
DROPPED = r"[ \t\n\r\f]+|//[^\n]*|/\*[\s\S]*?\*/|\(\*[\s\S]*?\*\)|`(?:timescale|default_nettype)(?![\w$])[^\n]*|`(?:end)?celldefine(?![\w$])"
# Such a run, or a word.
WORD = re.compile(
    rf"(?P<dropped>{DROPPED})" r"|\\[!-~]+[ \t\n\r\f]|1'[bBoOdDhH][01]|[A-Za-z_][\w$]*|\d+|[()\[\],;:.=]",
    re.ASCII,
)
SIMPLE = re.compile(r"[A-Za-z_][\w$]*", re.ASCII)
# The key words of IEEE Std 1364-2001.
KEY_WORDS = frozenset(
    """
    always and assign automatic begin buf bufif0 bufif1 case casex casez cell cmos config deassign default defparam design
    disable edge else end endcase endconfig endfunction endgenerate endmodule endprimitive endspecify endtable endtask event for
    force forever fork function generate genvar highz0 highz1 if ifnone incdir include initial inout input instance integer join
    large liblist library localparam macromodule medium module nand negedge nmos nor noshowcancelled not notif0 notif1 or output
    parameter pmos posedge primitive pull0 pull1 pulldown pullup pulsestyle_ondetect pulsestyle_onevent rcmos real realtime reg
    release repeat rnmos rpmos rtran rtranif0 rtranif1 scalared showcancelled signed small specify specparam strong0 strong1
    supply0 supply1 table task time tran tranif0 tranif1 tri tri0 tri1 triand trior trireg unsigned use vectored wait wand weak0
    weak1 while wire wor xnor xor
    """.split()
)
DECLARATIONS = ("module", "input", "output", "inout", "wire")


@dataclass
class Word:
    text: str
    place: int

    def end(self):
        return self.place + len(self.text)


def words_of_netlist(text):
    place = 0
    while place < len(text):
        found = WORD.match(text, place)
        if not found:
            raise Fault(f"no word of the netlist language begins at byte {place}; `lavkhind canon` says what is wrong first")
        if found["dropped"] is None:
            yield Word(found[0], place)
        place = found.end()


def plain(word):
    """A name as its bytes."""
    return word[1:-1] if word.startswith("\\") else word


def is_simple(name):
    """A name that stands without an escape."""
    return SIMPLE.fullmatch(name) is not None and name not in KEY_WORDS


def spelled(name):
    """A name as a text has it, escaped where it must be."""
    return name if is_simple(name) else f"\\{name} "


@dataclass
class Item:
    """A gate or an instance behind its kind, or an assignment behind `assign`; from its first word to its last one."""

    kind: str
    words: List[Word]

    def shown(self):
        """The item in a line."""
        text = ""
        for word in self.words:
            text += (" " if word.text == "=" or text[-1:] in (",", "=") or (word.text == "(" and text) and not text.endswith(")") else "") + word.text
        return f"{plain(self.kind)} {text}"


def items_of(text):
    """The items of a module that has the grammar's form, in the order by which `Loop` counts them."""
    statement = []
    for word in words_of_netlist(text):
        if word.text != ";":
            statement.append(word)
            continue
        if statement and statement[0].text not in DECLARATIONS:
            yield from items_in(statement)
        statement = []
    if [word.text for word in statement] != ["endmodule"]:
        raise Fault("the text ends in the middle of a module; `lavkhind canon` says where")


def items_in(statement):
    """A statement's items, which commas outside of parentheses part."""
    words, depth = [], 0
    for word in statement[1:]:
        depth += (word.text == "(") - (word.text == ")")
        if word.text == "," and depth == 0:
            yield Item(statement[0].text, words)
            words = []
        else:
            words.append(word)
    if not words:
        raise Fault(f"an item is missing at byte {statement[0].place}; `lavkhind canon` says what is wrong first")
    yield Item(statement[0].text, words)
