"""The groups of a Liberty file: what their lines say, and the groups within."""
import re
from dataclasses import dataclass, field
from typing import Dict, List

from command import Fault

BLANKS = re.compile(r"(?:[\s;]|\\\r?\n)+")
# A string, which may hold what looks like a comment; or a comment.
COMMENTS = re.compile(r'"(?:[^"\\]|\\[\s\S])*"|/\*[\s\S]*?\*/|//[^\n]*')
HEAD = re.compile(r"([\w.$\[\]-]+)[ \t\r\n\\]*")
VALUE = re.compile(r':[ \t]*(?:"((?:[^"\\]|\\[\s\S])*)"|([^;"{}\n]*))')
WORDS = re.compile(r'\(((?:[^()"{}]|"(?:[^"\\]|\\[\s\S])*")*)\)(?:\s|\\\r?\n)*(\{?)')

# Groups of rates, which nothing here reads, and which are most of a file.
DROPPED = ("timing", "internal_power", "leakage_power", "lu_table_template", "power_lut_template")


@dataclass
class Group:
    kind: str
    words: List[str]
    values: Dict[str, str] = field(default_factory=dict)
    groups: List["Group"] = field(default_factory=list)
    # Where it stands in the text without comments: from its kind to its `}`.
    first: int = 0
    last: int = 0

    def of_kind(self, *kinds):
        return [group for group in self.groups if group.kind in kinds]

    def name(self):
        return self.words[0] if self.words else ""


def without_comments(text):
    """The text with its lines, and no comment."""
    return COMMENTS.sub(lambda found: found[0] if found[0][0] == '"' else " " + "\n" * found[0].count("\n"), text)


def words_in(text):
    return [word.strip().strip('"').strip() for word in text.split(",") if word.strip()]


class Reader:
    def __init__(self, path, text):
        self.path, self.text, self.at = path, without_comments(text), 0

    def line(self, place):
        return self.text.count("\n", 0, place) + 1

    def fault(self, place, what):
        return Fault(f"{self.path}: line {self.line(place)} {what}")

    def skip_blanks(self):
        found = BLANKS.match(self.text, self.at)
        self.at = found.end() if found else self.at

    def statement(self, group):
        """Takes a statement of the group; what it gives is the group that it opens, or None."""
        start = self.at
        head = HEAD.match(self.text, start)
        value = head and VALUE.match(self.text, head.end())
        if value:
            group.values[head[1]] = value[2].strip() if value[1] is None else value[1]
            self.at = value.end()
            return None
        words = head and WORDS.match(self.text, head.end())
        if not words:
            raise self.fault(start, "is no statement of Liberty")
        self.at = words.end()
        if not words[2]:
            return None
        opened = Group(head[1], words_in(words[1]), first=start)
        if opened.kind not in DROPPED:
            group.groups.append(opened)
        return opened

    def library(self):
        """The group `library` of the text."""
        top = Group("text", [])
        open_groups = [top]
        while True:
            self.skip_blanks()
            if self.at == len(self.text):
                break
            if self.text[self.at] == "}":
                if len(open_groups) == 1:
                    raise self.fault(self.at, "has a `}` too many")
                self.at += 1
                open_groups.pop().last = self.at
                continue
            opened = self.statement(open_groups[-1])
            if opened:
                open_groups.append(opened)
        if len(open_groups) > 1:
            last = open_groups[-1]
            raise Fault(f"{self.path}: the text ends in the group `{last.kind} ({', '.join(last.words)})` that begins at line {self.line(last.first)}")
        libraries = top.of_kind("library")
        if len(libraries) != 1:
            raise Fault(f"{self.path} has {len(libraries) or 'no'} group{'s' * (len(libraries) > 1)} `library (..) {{..}}`, and a Liberty file has one")
        return libraries[0]


def read_liberty(path, text):
    """The library of a Liberty file, and its text without comments."""
    if text.startswith("\x1f\x8b"):
        raise Fault(f"{path} is packed by gzip; unpack it")
    reader = Reader(path, text)
    return reader.library(), reader.text


def without_groups(text, groups):
    """The text without these groups, each of which stands in it behind the one before."""
    kept, at = [], 0
    for group in groups:
        kept.append(text[at : group.first])
        at = group.last
    return "".join([*kept, text[at:]])
