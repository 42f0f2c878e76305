"""The commands of docs/MANUAL.md, typed in an empty folder in a copy of the repository, print the lines that stand
under them there."""
import os, re, shutil, subprocess, sys
from dataclasses import dataclass, field
from typing import List

from chips import TOP, keep, text_of
from script_trials import clone_of

NEEDS = ("yosys", "iverilog", "vvp", "sta")
COPIED = ("docs", "examples", "models", "scripts")
# What isn't run: it wants a screen, a board, or many minutes.
SKIPPED = re.compile(r"gtkwave|broadwayd|picture|openocd -f|trials/")
# A library that the way on to layout takes.
OSU = "/usr/share/qflow/tech/osu035/osu035_stdcells.lib"
BLOCK = re.compile(r"(?m)(?:^ {4}.*\n|^\n(?= {4}))+")
# Texts that the manual refuses and doesn't show whole.
LOOP = "module m (input a, output y);\n  wire p, q;\n  and g (p, a, q);\n  buf b (y, p);\n  or h (q, p, a);\nendmodule\n"
EVENTS = "events 1\nstart a 0\n"
OTHER_ROW = ("3 (BC_1, oe, input, X)", "3 (BC_2, oe, input, X)")


@dataclass
class Command:
    """A command of the manual, its line there, and the lines under it."""

    line: int
    words: str
    shown: List[str] = field(default_factory=list)

    def goes_on(self):
        return self.words.endswith("\\") or any(self.words.count(mark) % 2 for mark in "'\"")

    def is_met(self, said):
        """Whether this is what the manual shows; `...` stands there for any lines, or for the rest of one."""
        return re.fullmatch("".join(map(self.pattern, self.shown)), said) is not None

    @staticmethod
    def pattern(line):
        if line == "...":
            return r"(?:.*\n)*?"
        return re.escape(line[:-3]) + r".*\n" if line.endswith("...") else re.escape(line.rstrip()) + r" *\n"


def blocks_of(text):
    """The commands of each block of lines that are set in."""
    for block in BLOCK.finditer(text):
        commands, inset = [], 0
        for number, line in enumerate(block[0].split("\n")[:-1], text.count("\n", 0, block.start()) + 1):
            if line.lstrip().startswith("$ "):
                inset = len(line) - len(line.lstrip())
                commands.append(Command(number, line[inset + 2 :]))
            elif commands and commands[-1].goes_on():
                commands[-1].words += "\n" + line[inset:]
            elif commands:
                commands[-1].shown.append(line[inset:])
        yield commands


def copied(program, room):
    """A copy of what the commands need, in which ./lavkhind is the program, and the texts with faults."""
    clone = os.path.join(room, "clone")
    for name in COPIED:
        shutil.copytree(os.path.join(TOP, name), os.path.join(clone, name))
    clone_of(program, clone)
    counter = text_of(os.path.join(TOP, "examples/counter8.bsd"))
    for name, text in (("loop.v", LOOP), ("e.events", EVENTS), ("wrong.bsd", counter.replace(*OTHER_ROW))):
        keep(os.path.join(clone, name), text)
    return clone


def typed(command, folder, room):
    """What the command prints. A text that `cat` shows or takes is made of the lines under it."""
    words = command.words.replace("/tmp/", room + "/")
    text = re.fullmatch(r"cat (> )?(\S+)", words)
    if text and (text[1] or not os.path.exists(os.path.join(folder, text[2]))):
        shown = "\n".join(command.shown) + "\n"
        keep(os.path.join(folder, text[2]), shown.replace("/tmp/", room + "/"))
        return shown
    done = subprocess.run(["sh", "-c", words], cwd=folder, stdin=subprocess.DEVNULL, capture_output=True, text=True, encoding="latin-1")
    if "Traceback" in done.stderr:
        sys.exit(f"line {command.line}: {command.words}\n{done.stderr}")
    return done.stdout


def tried(program, room):
    if not os.path.exists(OSU):
        sys.exit(f"there is no {OSU}, of Debian's package qflow-tech-osu035")
    clone = copied(program, room)
    counts = dict.fromkeys(("run", "skipped"), 0)
    for commands in blocks_of(text_of(os.path.join(TOP, "docs/MANUAL.md"))):
        folder = clone
        for command in commands:
            if SKIPPED.search(command.words):
                counts["skipped"] += 1
                kept = re.search(r"\| tee /tmp/(\S+)$", command.words)
                if kept:
                    keep(os.path.join(room, kept[1]), "\n".join(command.shown) + "\n")
                continue
            if command.words.startswith("cd "):
                folder = os.path.join(clone, command.words[3:])
                continue
            said = typed(command, folder, room)
            if not command.is_met(said):
                sys.exit(f"docs/MANUAL.md, line {command.line}: {command.words}\nprints\n{said}and there stands\n" + "\n".join(command.shown))
            counts["run"] += 1
    yield f"{counts['run']} commands print what stands under them; {counts['skipped']} weren't run, which want a screen, a board, or many minutes"
