"""The words of ./iop, and its runs, which end at any moment."""

import os
import re
import subprocess
import sys
from concurrent.futures import ThreadPoolExecutor
from typing import NamedTuple

from memory import MIB

BUDGET = 10_000_000
PROCESSORS = len(os.sched_getaffinity(0))


class Moment(NamedTuple):
    """The moment behind so many instructions: its tick, what was written up to there, how a run ends there, and a dump.
    The lines have no `end budget`."""
    number: int | None
    tick: int
    lines: list
    console: bytes
    ended: str
    dump: bytes


def fail(text):
    sys.exit(f"{os.path.basename(sys.argv[0])}: {text}")


def made_by(program, words, stderr=None):
    """What comes of a program with these words."""
    try:
        return subprocess.run([program, *words], stdin=subprocess.DEVNULL, stdout=subprocess.PIPE, stderr=stderr,
                              check=False)
    except OSError as error:
        fail(f"cannot run {program}: {error.strerror}")


def output_of(program, *words):
    """What a program writes, which has to end well."""
    made = made_by(program, words)
    if made.returncode != 0:
        fail(f"{program} ended with {made.returncode}")
    return made.stdout.decode(errors="replace")


def tick_of(line):
    return int(line.split(" ", 1)[0])


def kind_of(line):
    return line.split(" ", 2)[1]


def lines_to(lines, tick):
    return [line for line in lines if tick_of(line) <= tick]


def lines_before_end(moment):
    return [line for line in moment.lines if kind_of(line) != "end"]


class Command:
    """The words of ./iop, without --budget, --dump and --save."""

    def __init__(self, words):
        self.given = dict.fromkeys(("--budget", "--script", "--dump", "--ram", "--generate", "--save", "--restore"))
        self.modules = []
        self.read(list(words))
        budget = self.given["--budget"] or str(BUDGET)
        if not budget.isdecimal():
            fail("the budget is no number")
        self.budget = int(budget)

    def read(self, words):
        while words:
            word = words.pop(0)
            name, is_joined, value = word.partition("=")
            if word == "--":
                self.modules += words
                return
            if name not in self.given:
                self.modules.append(word)
            elif not is_joined and not words:
                fail(f"{name} has no value")
            elif self.given[name] is not None:
                fail(f"{name} stands twice")
            else:
                self.given[name] = value if is_joined else words.pop(0)

    def name_of(self, number):
        """The name of a module, by its number; none where a snapshot has it."""
        if self.given["--restore"]:
            return ""
        return self.modules[number - 1] if self.modules else "generated"

    @property
    def began(self):
        """What runs where no thread was taken to run yet."""
        return "what ran in the snapshot" if self.given["--restore"] else "no thread"

    @property
    def ram(self):
        """The size of memory in bytes."""
        return int(self.given["--ram"] or 2) * MIB

    def words(self, budget, dump=None, script=None, watcher=None):
        """The words of a run of so many instructions, with a watcher before the modules if there is one."""
        options = {"--budget": str(budget), "--dump": dump, "--ram": self.given["--ram"],
                   "--script": script or self.given["--script"], "--generate": self.given["--generate"],
                   "--restore": self.given["--restore"]}
        modules = ([watcher] if watcher else []) + self.modules
        return [f"{name}={value}" for name, value in options.items() if value is not None] + ["--", *modules]


class Run:
    """A run of ./iop, whose moments are visited."""

    def __init__(self, command, program):
        self.command, self.program = command, program
        self.pool = ThreadPoolExecutor(PROCESSORS)
        self.most = command.budget  # at the end no more instructions were executed
        self.seen, self.with_any_dump = {}, {}

    def run_to_end(self, words, number=None):
        """The moment at the end of a run with these words."""
        made = made_by(self.program, words, subprocess.PIPE)
        written = made.stderr.decode(errors="replace").splitlines()
        # (where the program is built first it tells of its progress)
        lines = [line for line in written if not line.startswith("iop: ")]
        at = next((n for n, line in enumerate(lines) if re.match(r"\d+ end ", line)), None)
        if at is None:
            fail(written[-1] if written else f"{self.program} ended with {made.returncode}")
        tick, _, ended = lines[at].split(" ", 2)
        dump = bytes.fromhex("".join(line.split(": ")[1] for line in lines[at + 1:]))
        return Moment(number, int(tick), lines[:at] if ended == "budget" else lines[:at + 1], made.stdout, ended, dump)

    def keep(self, moment, dump):
        self.seen[moment.number, dump] = moment
        self.with_any_dump.setdefault(moment.number, moment)
        return moment

    def visit(self, number, dump=None):
        """The moment behind so many instructions."""
        seen = self.seen.get((number, dump))
        return seen or self.keep(self.run_to_end(self.command.words(number, dump), number), dump)

    def visit_end(self, dump=None):
        """The moment at the end. Where the budget is not what ends the run, its tick and one suffice as one: no more
        than one instruction is executed in a tick."""
        end = self.visit(self.command.budget, dump)
        if end.ended != "budget":
            self.most = min(self.most, end.tick + 1)
            end = self.keep(end._replace(number=self.most), dump)
        return end

    def visit_any(self, number):
        """The moment behind so many instructions, with whatever dump."""
        return self.with_any_dump.get(number) or self.visit(number)

    def visits(self, numbers, dump=None):
        """The moments behind so many instructions, side by side."""
        return self.pool.map(lambda number: self.visit(number, dump), numbers)

    def bytes_at(self, number, address, length):
        """The bytes that stand at an address behind so many instructions."""
        return self.visit(number, f"{address:x}:{length:x}").dump

    def first(self, low, high, holds, dump=None, narrow=None):
        """A number at which it holds, while it does not at the one below: it does not hold at `low`, and does at
        `high`. `narrow` may find two nearer ones by a run of its own."""
        while high - low > 1:
            nearer = narrow and narrow(low, high)
            is_nearer = nearer and low <= nearer[0] < nearer[1] <= high and nearer[1] - nearer[0] < high - low
            if is_nearer and [holds(moment) for moment in self.visits(nearer, dump)] == [False, True]:
                low, high = nearer
            else:
                low, high = self.part(low, high, holds, dump)
        return high

    def part(self, low, high, holds, dump):
        """The part of what lies between two numbers at whose end it holds first, of as many as there are processors
        and one."""
        parts = min(PROCESSORS + 1, high - low)
        points = [low + (high - low) * n // parts for n in range(1, parts)]
        for point, moment in zip(points, self.visits(points, dump)):
            if holds(moment):
                return low, point
            low = point
        return low, high

    def by_tick(self, tick):
        """Narrows what lies between two numbers of instructions, where a tick is looked for. That of a moment is the
        number of instructions and what was waited, which is no less later."""
        def narrow(low, high):
            first, last = self.visit_any(low), self.visit_any(high)
            waited = first.tick - low
            # (of a run that ended it is not known how many were executed: nothing more may have been waited)
            most = last.tick - high if last.ended == "budget" else waited
            return [max(low, tick - most - 1), min(high, tick - waited + 1)]
        return narrow

    def number_at(self, tick):
        """How many instructions were executed at the first moment that is not before a tick."""
        holds = lambda moment: moment.tick >= tick or moment.ended != "budget"
        return 0 if holds(self.visit(0)) else self.first(0, self.most, holds, None, self.by_tick(tick))
