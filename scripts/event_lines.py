"""Texts of events, as `vectors` writes and `check` and `sim` play them."""
import re
from dataclasses import dataclass

from command import Fault, text_of


@dataclass
class Event:
    # The line's number, from 1; `start`, `set` or `expect`; a pin, and 0, 1, x or z.
    number: int
    act: str
    pin: str
    value: str


def read_events(path):
    """The events of the file, with zeros dropped before an index; a Fault names the first line that is none."""
    events, is_begun = [], False
    for number, line in enumerate(text_of(path).split("\n"), 1):
        words = line.split()
        if not words or words[0].startswith("#"):
            continue
        if not is_begun:
            if words != ["events", "1"]:
                raise Fault(f"{path}: line {number} isn't `events 1`, with which a text of events begins")
            is_begun = True
            continue
        if len(words) != 3 or words[0] not in ("start", "set", "expect") or words[2] not in "01xXzZ":
            raise Fault(f"{path}: line {number} is none of `start PIN VALUE`, `set PIN VALUE` and `expect PIN VALUE`")
        if words[0] == "start" and events and events[-1].act != "start":
            raise Fault(f"{path}: line {number}: a start behind a `set` or an `expect`")
        events.append(Event(number, words[0], re.sub(r"\[0+(?=\d)", "[", words[1]), words[2].lower()))
    if not is_begun:
        raise Fault(f"{path}: there is no line `events 1`")
    return events
