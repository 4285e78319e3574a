"""Which instruction is next at a moment, by watchers and by steps."""

from typing import NamedTuple

from moments.runs import kind_of, lines_before_end, lines_to, tick_of
from moments.steps import Steps
from moments.watcher import Start
from processor import JUMPS, instruction

# So many instructions, and not more, are executed here.
MOST_STEPS = 16384


class Next(NamedTuple):
    """The instruction that is next: its address, the registers before it, and whether a thread ran; each is nothing
    where it is not known."""
    address: int | None = None
    registers: list | None = None
    is_thread: bool | None = None


class Searches:
    """Finds the instruction that is next at a moment."""

    def __init__(self, run, watcher):
        self.run, self.watcher = run, watcher

    def next_at(self, moment):
        """The instruction that is next, by a watcher, or else by what was next before."""
        start = start_of(moment)
        address = self.watcher.next_address(start)
        if address is not None:
            return Next(address, self.watcher.registers(address, start), True)
        return self.next_in_slot(moment) or self.next_behind_steps(moment)

    def next_known(self, moment, address):
        """The same where the address is known."""
        registers = self.watcher.registers(address, start_of(moment))
        return Next(address, registers, True if registers else None)

    def next_in_slot(self, moment):
        """The same in a slot, where nothing is delivered, by the jump before it."""
        address = self.watcher.next_address(start_before(moment, 1)) if moment.tick else None
        if address is None:
            return None
        word = int.from_bytes(self.run.bytes_at(moment.number, address, 4), "little")
        return Next(address + 4, None, True) if instruction(word).name in JUMPS else None

    def jump_before(self, moment):
        """The jump that led to an address where nothing can be executed. Its slot was executed in between."""
        start = start_before(moment, 2)
        address = self.watcher.next_address(start)
        return Next() if address is None else Next(address, self.watcher.registers(address, start), True)

    def next_behind_steps(self, moment):
        """The same by steps from a start before it where the registers can be told: from where the handler begins, if
        one may run, or else from further and further back."""
        lines = lines_before_end(moment)
        last = max((n for n, line in enumerate(lines) if kind_of(line) in ("run", "line", "alarm")), default=None)
        if last is None:
            return Next()
        began = tick_of(lines[last])
        if kind_of(lines[last]) != "run":
            # (a handler of a line comes before the watcher's, so that has to be called before; and not in a slot)
            starts = [(Start(tick, lines_to(lines[:last], tick), moment.console, lines[last]), moment.tick - began)
                      for tick in (began, began - 1, began - 2)]
            found = self.stepped(moment, starts)
            if found:
                return Next(*found, False)
        backs = powers_of_two(min(MOST_STEPS, moment.tick - began))
        found = self.stepped(moment, ((start_before(moment, back), back) for back in backs))
        return Next(*found, True) if found else Next()

    def stepped(self, moment, starts):
        """The address and the registers behind so many steps from the first of these starts where they can be told."""
        for start, count in starts:
            number = moment.number - count
            start = start._replace(console=self.run.visit_any(number).console)
            address = self.watcher.next_address(start)
            registers = None if address is None else self.watcher.registers(address, start)
            if registers:
                return Steps(self.run, number, address, registers).behind(count)
        return None


def powers_of_two(most):
    return [2**power for power in range(1, most.bit_length())]


def start_of(moment):
    """The start at a moment. An interrupt comes before a thread is taken to run, so that line comes behind it."""
    lines = lines_before_end(moment)
    if len(lines) > 2 and lines[-1].startswith(f"{moment.tick} run "):
        return Start(moment.tick, lines[:-1], moment.console, lines[-1])
    return Start(moment.tick, lines, moment.console)


def start_before(moment, ticks):
    """The start some ticks before a moment, where nothing was told since."""
    tick = moment.tick - ticks
    return Start(tick, lines_to(lines_before_end(moment), tick), moment.console)
