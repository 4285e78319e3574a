"""The questions that are asked of a run."""

import re
from typing import NamedTuple

from moments.places import SEGMENT, loaded_by
from moments.report import show_bytes, show_lines, show_moment
from moments.runs import fail, lines_before_end, tick_of


class Range(NamedTuple):
    """A range of memory, as it is written and by its start and length."""
    text: str
    start: int
    length: int


class Questions:
    """Finds what is asked of a run, and tells it."""

    def __init__(self, run, report, looks, end, since):
        self.run, self.report, self.looks, self.end, self.since = run, report, looks, end, since

    def begin(self):
        """How many instructions were executed at the moment of --from."""
        return self.run.number_at(self.since) if self.since else 0

    def find(self, low, holds, dump=None, narrow=None):
        """Finds an instruction after which it holds, and answers the moments before and behind it."""
        number = self.run.first(low, self.run.most, holds, dump, narrow)
        before, after = self.run.visit(number - 1, dump), self.run.visit(number, dump)
        show_moment(before, number)
        return before, after

    def ask_range(self, asked, value):
        """After which a range has other bytes than at the beginning, or these."""
        low = self.begin() if self.since is not None else self.behind_load(asked)
        old = self.run.visit(low, asked.text).dump
        if value == old:
            fail("the range has this value at the beginning")
        wanted = old if value is None else value
        holds = lambda moment: (moment.dump == wanted) == (value is not None)
        if not holds(self.run.visit(self.run.most, asked.text)):
            fail("at the end the range " + ("is as at the beginning" if value is None else "has not this value"))
        narrow = self.looks.at_range(asked.start, wanted, value is not None)
        before, after = self.find(low, holds, asked.text, narrow)
        show_bytes(asked.start, before.dump, after.dump)
        self.report.show(before)

    def behind_load(self, asked):
        """How many instructions were executed behind the last `load` line of a module whose image meets a range."""
        start, lines = asked.start % SEGMENT, self.end.lines
        for count in range(len(lines), 0, -1):
            module = loaded_by(lines[count - 1], self.run.command)
            if module and module.base < start + asked.length and start < module.end:
                return self.behind_line(count)
        return 0

    def behind_line(self, count):
        """How many instructions were executed when the trace first had so many lines."""
        holds = lambda moment: len(moment.lines) >= count
        narrow = self.run.by_tick(tick_of(self.end.lines[count - 1]))
        return 0 if holds(self.run.visit(0)) else self.run.first(0, self.run.most, holds, None, narrow)

    def ask_console(self, text):
        """After which a text stands on the console."""
        low = self.begin()
        passed = len(self.run.visit(low).console)
        holds = lambda moment: text in moment.console[passed:]
        if not holds(self.end):
            fail("this does not stand on the console")
        narrow = self.looks.at_console(text, passed, self.end.console)
        self.report.show(self.find(low, holds, None, narrow)[0])

    def ask_line(self, text):
        """Behind which the trace has a line that begins, its tick aside, with a text."""
        since, lines = self.since or 0, self.end.lines
        count = next((n for n, line in enumerate(lines, 1)
                      if line.split(" ", 1)[1].startswith(text) and tick_of(line) >= since), None)
        if count is None:
            fail("the trace has no such line")
        number = self.behind_line(count)
        if number == 0:
            fail("the line stands before the first instruction")
        show_lines(lines[:count])
        before = self.run.visit(number - 1)
        show_moment(before, number)
        self.report.show(before)

    def ask_end(self):
        """Which one faulted, or is the next one where the budget ends."""
        if self.end.ended == "quiet":
            fail("the run ended quietly: nothing faulted")
        # (the lines of a budget's end lack its own)
        show_lines([*lines_before_end(self.end), f"{self.end.tick} end {self.end.ended}"])
        show_moment(self.end)
        fault = re.fullmatch(r"fault \w+ ([0-9a-f]{8})", self.end.ended)
        if fault:
            self.report.show_fault(self.end, int(fault[1], 16))
        else:
            self.report.show(self.end)
