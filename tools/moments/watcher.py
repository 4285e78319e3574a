"""Runs with a watcher in them, which tell what is next at a moment, and the registers."""

import os
import re
from typing import NamedTuple

from moments.handlers import REGISTERS, end_of_saver, filler, parts_of, saver, source_of
from moments.places import SEGMENT, SERVICES, SERVICES_END, SERVICE_BYTES, modules_in_memory
from moments.runs import kind_of, output_of, tick_of
from moments.scripts import MOST_MODULES, Script

# The watcher's own lines: its load, the run of the loader's thread, and its result.
OWN_LINES = 3
# How many ticks before the next delivery a watcher has to be ready.
MARGIN = 20
FOREVER = 2**63


class Start(NamedTuple):
    """Where a watcher's handler begins: the tick, what was written up to there, and a line that stands behind it: the
    delivery whose handler has the next instruction, or the `run` of the thread that has it."""
    tick: int
    lines: list
    console: bytes
    delivery: str | None = None

    @property
    def next_tick(self):
        """The tick at which the next instruction is executed."""
        return tick_of(self.delivery) if self.delivery else self.tick


class Watcher:
    """Finds which instruction is next, by runs with a watcher in them."""

    def __init__(self, run, irx, work, trace):
        self.run, self.irx, self.work, self.trace = run, irx, work, trace
        self.script = Script(run.command.given["--script"])
        self.irq = self.script.free_irq()
        self.is_possible = self.irq is not None and 0 < len(run.command.modules) < MOST_MODULES
        self.count = 0

    def write(self, name, text):
        path = os.path.join(self.work, name)
        with open(path, "w", encoding="utf-8", errors="surrogateescape") as file:
            file.write(text)
        return path

    def assemble(self, handler):
        """The file of a watcher with a handler, and how many ticks it takes."""
        self.count += 1
        source = self.write(f"watcher{self.count}.s", source_of(handler, self.irq))
        file = f"{source[:-2]}.irx"
        output_of(self.irx, "as", source, "-o", file)
        return file, self.run.run_to_end(["--", file]).tick

    def write_script(self, ticks, last, begins):
        """The script of a run with a watcher of so many ticks, whose handler begins at some ticks."""
        more = [(tick, f"line {self.irq}") for tick in begins]
        return self.write(f"script{self.count}", self.script.text_with(ticks, last, more))

    def run_with_watcher(self, handler, start, dump=None):
        """The run with a handler that begins at a start, and which is up to there the same: where it faults, and its
        dump. Nothing where it is another, or where nothing faults just behind the handler."""
        file, ticks = self.assemble(handler)
        begin = start.tick + ticks
        script = self.write_script(ticks, start.next_tick, [begin])
        made = self.run.run_to_end(self.run.command.words(begin + handler.ticks + 1, dump, script, file))
        first = next((n for n, line in enumerate(made.lines) if line == f"{begin} line {self.irq}"), None)
        if first is None or made.lines[OWN_LINES:first] != shifted_lines(start.lines, ticks):
            return None
        if made.console != start.console:
            return None
        line = first_behind(made.lines[first + 1:], start.delivery)
        found = re.fullmatch(rf"{begin + handler.ticks} end fault break ([0-9a-f]{{8}})", line)
        return (int(found[1], 16), made.dump) if found else None

    def next_delivery(self, tick):
        """The next moment at which an alarm or a delay comes."""
        ticks = (tick_of(line) for line in self.trace if kind_of(line) in ("alarm", "due"))
        return next((found for found in ticks if found > tick), FOREVER)

    def next_address(self, start):
        """The address of the instruction that is next at a start, if it can be told."""
        if not self.is_possible:
            return None
        # (of the words of a service only the first two can be next: the third is in a slot)
        ranges = [(SERVICES + word, SERVICES_END + word, SERVICE_BYTES) for word in (0, 4)]
        modules = modules_in_memory(start.lines, self.run.command)
        ranges += [(it.base, it.base + (it.length + 31) // 32 * 32, 4) for it in modules]
        ticks = self.next_delivery(start.next_tick) - start.tick - MARGIN
        for part in parts_of(ranges, ticks):
            found = self.run_with_watcher(filler(part), start)
            if found:
                return found[0]
        return None

    def registers(self, address, start):
        """The registers before the instruction at an address, which is next at a start, if they can be told."""
        handler = saver(address)
        found = self.run_with_watcher(handler, start, f"{REGISTERS:x}:80")
        if not found or found[0] % SEGMENT != end_of_saver(handler):
            return None
        return [int.from_bytes(found[1][4 * n:4 * n + 4], "little") for n in range(32)]


def first_behind(lines, delivery):
    """The first of these lines that is neither the one of a delivery nor of a stub that is stored into."""
    passed = delivery.split(" ", 1)[1] if delivery else None
    lines = (line for line in lines if line.split(" ", 1)[1] != passed and kind_of(line) != "stub")
    return next(lines, "")


def shifted_lines(lines, ticks):
    """The lines of a trace as they are behind those of a watcher of so many ticks. Modules have one number more. The
    first ones are loaded in the watcher's last instruction, and the loader's thread runs already."""
    runs = next((n for n, line in enumerate(lines) if line.endswith(" run 1")), len(lines))
    made = []
    for n, line in enumerate(lines):
        tick, kind, *rest = line.split(" ")
        if kind in ("load", "result"):
            rest[0] = str(int(rest[0]) + 1)
        if n != runs:
            made.append(" ".join([str(int(tick) + ticks - (n < runs)), kind, *rest]))
    return made
