"""Reads a trace (docs/FORMATS.md, "The trace"), and tells what stands at the addresses in it."""

import re
from typing import NamedTuple

from moments.places import place_text, take_line
from moments.runs import fail

TICKS_OF_A_MILLISECOND = 36864

# What stands behind the tick and the first word of a line, by that word.
FORMS = {
    "load": r"(\d+) (?:ok [0-9a-f]{8} [0-9a-f]{8}|(-\d+))",
    "result": r"(\d+) -?\d+ (?:resident|removed|removable)",
    **dict.fromkeys(("run", "line", "alarm", "due"), r"(\d+)"),
    "stub": r"([0-9a-f]{8})",
    "service": r"\w+ \d+",
    "end": r"(?:quiet|budget|fault (?:address|overflow|reserved|break|slot|service) ([0-9a-f]{8}))",
}
DELIVERIES = ("line", "alarm", "due")

# The lines that tell an address.
WITH_ADDRESS = ("stub", "end")


class Line(NamedTuple):
    """A line of a trace: its tick, the first word and the numbers behind it, all words, and what stands at the address
    that it tells, if something is known to."""
    tick: int
    kind: str
    numbers: tuple
    words: str
    place: str = ""

    @property
    def text(self):
        return f"{self.tick:,} {self.words}"

    @property
    def title(self):
        return f"{self.text}\n{self.place}" if self.place else self.text


def read_line(row):
    """A line of the file as a line of a trace, if it is one."""
    found = re.fullmatch(r"([0-9]{1,20}) (([a-z]+) (.+))", row)
    numbers = found and re.fullmatch(FORMS.get(found[3], "(?!)"), found[4])
    return numbers and Line(int(found[1]), found[3], numbers.groups(), found[2])


def read_trace(text):
    """The lines of a trace."""
    lines = []
    for number, row in enumerate(text.splitlines(), 1):
        if lines and lines[-1].kind == "end":
            break
        if lines or not row.startswith("iop: "):
            line = read_line(row)
            if not line or lines and line.tick < lines[-1].tick:
                fail(f"line {number} is not of a trace")
            lines.append(line)
    return lines or fail("there is no line of a trace")


def with_places(lines, symbols):
    """The lines, with what stands at their addresses: in a module that is in memory then, by `symbols` with function
    and line, or in the kernel."""
    modules = {}
    for line in lines:
        take_line(modules, f"{line.tick} {line.words}")
        address = line.numbers[0] if line.kind in WITH_ADDRESS else None
        place = address and place_text(int(address, 16), modules.values(), symbols)
        yield line._replace(place=place or "")
