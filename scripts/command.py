"""What the scripts share as commands: plain errors, files read and written, and the program `lavkhind`."""
import argparse, os, subprocess, sys

TOP = os.path.dirname(os.path.dirname(os.path.abspath(__file__)))
PROGRAM = os.path.join(TOP, "lavkhind")


class Fault(Exception):
    """What is wrong with the input, in a line."""


class Refusal(Fault):
    """The program refuses its input; `line` is the fault's line, or empty where it put none."""

    def __init__(self, command, line, status):
        super().__init__(f"lavkhind {command} refuses: {line or f'status {status}'} (see the faults in docs/MANUAL.md)")
        self.line, self.status = line, status


def text_of(path):
    try:
        with open(path, encoding="latin-1", newline="") as file:
            return file.read()
    except OSError as error:
        raise Fault(f"{path}: can't be read ({error.strerror})") from None


def keep(path, text):
    try:
        with open(path, "w", encoding="latin-1", newline="") as file:
            file.write(text)
    except OSError as error:
        raise Fault(f"{path}: can't be written ({error.strerror})") from None


class Once(argparse.Action):
    """An option that stands at most once."""

    def __call__(self, words, asked, value, option=None):
        given = asked.__dict__.setdefault("given_once", set())
        if option and self.dest in given:
            words.error(f"{option} stands twice")
        given.add(self.dest)
        setattr(asked, self.dest, value)


class Words(argparse.ArgumentParser):
    """A command line whose files and options stand in any order, each option once."""

    def __init__(self, **more):
        super().__init__(formatter_class=argparse.RawDescriptionHelpFormatter, **more)
        for action in (None, "store"):
            self.register("action", action, Once)

    def parse_args(self, *words):
        return self.parse_intermixed_args(*words)


def words_of(text, **more):
    """A reader of the command line, whose --help begins with this text."""
    return Words(description=text, **more)


def add_program(words):
    words.add_argument("--program", default=PROGRAM, help="the program lavkhind, where it is another than this folder's")


def said(program, *words):
    """What the program prints; where it refuses, a Refusal has its last line."""
    try:
        # (where a fault is in files that a script has written helps nobody)
        quiet = {**os.environ, "LAVKHIND_PLACES": "no"}
        done = subprocess.run([program, *words], stdin=subprocess.DEVNULL, stdout=subprocess.PIPE, text=True, encoding="latin-1", env=quiet)
    except OSError as error:
        raise Fault(f"{program}: can't be run ({error.strerror})") from None
    if done.returncode not in (0, 6):
        raise Refusal(words[0], done.stdout.strip().split("\n")[-1], done.returncode)
    return done.stdout


def end_with(main):
    """Runs a script's `main`, and says a Fault in a line, with the status 1."""
    try:
        sys.exit(main())
    except Fault as fault:
        print(f"{os.path.basename(sys.argv[0])}: {fault}", file=sys.stderr)
        sys.exit(1)
    except BrokenPipeError:
        os.dup2(os.open(os.devnull, os.O_WRONLY), sys.stdout.fileno())
        sys.exit(1)
