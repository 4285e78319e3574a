"""Runs with a watcher that looks time and again, which make a search shorter."""

from moments.handlers import MARK, mark_printer, range_looker
from moments.runs import kind_of, tick_of

# A range of so many bytes is looked at, so many times in a part of the run of so many instructions.
MOST_BYTES, LOOKS, FAR = 16, 1000, 1_000_000


class Looks:
    """Narrows what lies between two numbers of instructions, where something is looked for."""

    def __init__(self, watcher):
        self.watcher, self.run = watcher, watcher.run

    def at_range(self, start, wanted, is_value):
        """Looks at a range, which fault where it has other bytes than these, or where it has them."""
        if len(wanted) > MOST_BYTES:
            return None
        faulted = lambda made, looks: looks - 1 if made.ended.startswith("fault break") else None
        return self.narrowing(range_looker(start, wanted, is_value), faulted)

    def at_console(self, text, passed_bytes, console):
        """Looks that print a mark, where the console has none, between which the text is printed."""
        def passed(made, looks):
            printed = made.console.split(MARK)
            behind = b"".join(printed)[passed_bytes:].find(text)
            end, count = passed_bytes + behind + len(text), 0
            while behind >= 0 and len(printed[count]) < end:
                end, count = end - len(printed[count]), count + 1
            return count if behind >= 0 and len(printed) == looks + 1 else None
        return None if MARK in console else self.narrowing(mark_printer(), passed)

    def narrowing(self, handler, passed):
        """Narrows by a run in which a handler looks. `passed` tells by what the run wrote behind how many looks it
        came, or nothing."""
        def narrow(low, high):
            first, last = self.run.visit_any(low), self.run.visit_any(high)
            between = -(-(high - low) // LOOKS)
            looks = (high - low) // between
            # What is waited for or delivered meanwhile would come at another moment, since looks take time.
            end = last.tick + looks * handler.ticks
            if last.tick - first.tick > high - low or high - low > FAR or self.delivers(first.tick, end):
                return None
            seen, made = self.look(handler, first.tick, between, looks, high)
            count = passed(made, len(seen))
            # (each look before took its ticks)
            numbers = [low, *(low + tick - handler.ticks * look for look, tick in enumerate(seen)), high]
            return numbers[count:count + 2] if count is not None and count + 2 <= len(numbers) else None
        return narrow if self.watcher.is_possible else None

    def look(self, handler, tick, between, looks, number):
        """A run up to a number of instructions in which a handler begins so many times from a tick on: how many ticks
        behind it, and what the run wrote."""
        watcher = self.watcher
        file, ticks = watcher.assemble(handler)
        begin = tick + ticks
        begins = [begin + look * (between + handler.ticks) for look in range(1, looks + 1)]
        script = watcher.write_script(ticks, tick, begins)
        words = self.run.command.words(ticks + number + looks * handler.ticks, None, script, file)
        made = self.run.run_to_end(words)
        return [tick_of(line) - begin for line in made.lines if line.endswith(f" line {watcher.irq}")], made

    def delivers(self, first, last):
        """Whether something is delivered, or the script has an event, between two moments."""
        ticks = [tick_of(line) for line in self.watcher.trace if kind_of(line) in ("line", "alarm", "due")]
        return any(first <= tick <= last for tick in ticks + self.watcher.script.ticks())
