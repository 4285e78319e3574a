"""The text of a script, of both versions."""

import re
from typing import NamedTuple

from inputs import Refused

NUMBER = b"(0|[1-9][0-9]*)"
WORD = b"[!-~]+"
WORDS = b"((?: " + WORD + b")*)"

RAISES = re.compile(b"at " + NUMBER + b" line " + NUMBER)
LOWERS = re.compile(b"at " + NUMBER + b" release " + NUMBER)
ARGS = re.compile(b"args " + NUMBER + WORDS)
FOR = re.compile(b"for (" + WORD + b")" + WORDS)

FIRST_LINES = {b"script 1": 1, b"script 2": 2}
MOST_TICK = 2**63 - 1
MOST_WORDS = 15
MOST_LINE = 2048


class Event(NamedTuple):
    """A line that is raised at a tick, or else lowered."""
    tick: int
    line: int
    raises: bool


class Script:
    """The events in order, and the words of modules by their numbers and by their names."""

    def __init__(self, version=1):
        self.version, self.events, self.by_number, self.by_name = version, [], {}, {}

    def words(self, number, name):
        """The words that a module is handed behind its own."""
        return self.by_number.get(number, self.by_name.get(name, []))

    def take(self, line):
        """Adds what a line says, and tells whether it is good."""
        if line == b"" or line.startswith(b"#"):
            return True
        if found := RAISES.fullmatch(line):
            return self.add_event(found, True)
        if found := ARGS.fullmatch(line):
            number = decimal(found[1])
            return 1 <= number <= 64 and add_words(self.by_number, number, line, found[2])
        if self.version == 1:
            return False
        if found := LOWERS.fullmatch(line):
            return self.add_event(found, False)
        if found := FOR.fullmatch(line):
            return add_words(self.by_name, found[1], line, found[2])
        return False

    def add_event(self, found, raises):
        """Adds an event, if it is good, and tells whether it is."""
        event = Event(decimal(found[1]), decimal(found[2]), raises)
        last = self.events[-1].tick if self.events else 0
        is_good = last <= event.tick <= MOST_TICK and event.line < 64
        if is_good:
            self.events.append(event)
        return is_good


def read_script(text):
    """The script of a text."""
    first, *lines = text.split(b"\n")
    if first not in FIRST_LINES:
        raise Refused(21, "script line 1")
    script = Script(FIRST_LINES[first])
    for number, line in enumerate(lines, 2):
        if not script.take(line):
            raise Refused(21, f"script line {number}")
    return script


def decimal(digits):
    """The number of these digits; one that is greater than every bound where there are more of them than it needs."""
    return int(digits) if len(digits) <= len(str(MOST_TICK)) else MOST_TICK + 1


def add_words(lists, key, line, text):
    """Adds the words of a line, if they are few, the line is short, and the key has no others, and tells whether."""
    words = text.split()
    is_good = key not in lists and len(words) <= MOST_WORDS and len(line) <= MOST_LINE
    if is_good:
        lists[key] = words
    return is_good
