"""Instructions that are executed here, where no watcher comes, as the model of tests/reference does."""

from memory import Fault, place_of
from processor import Processor, Registers
from services import LIBRARIES

PAGE = 0x1000


class Unknown:
    """What a register has that is not known: to compute with it, or to compare it, ends the steps."""

    def __eq__(self, other):
        raise TypeError


class Memory:
    """The memory of a run behind so many instructions. What is stored into it here stays here."""

    def __init__(self, run, number):
        self.run, self.number, self.pages = run, number, {}

    def page(self, at, width):
        """The page of an address, and the place in it."""
        place = place_of(self.run.command.ram, at, width, width)
        if place is None:
            raise Fault("address")
        start = place - place % PAGE
        if start not in self.pages:
            self.pages[start] = bytearray(self.run.bytes_at(self.number, start, PAGE))
        return self.pages[start], place % PAGE

    def is_that_behind(self, number):
        """Whether the pages that were looked at are as in the run behind so many instructions."""
        return all(self.run.bytes_at(number, start, PAGE) == page for start, page in self.pages.items())

    def load(self, at, width):
        page, place = self.page(at, width)
        return int.from_bytes(page[place:place + width], "little")

    def store(self, at, width, value):
        page, place = self.page(at, width)
        page[place:place + width] = (value % 256**width).to_bytes(width, "little")


class Steps(Processor):
    """Executes instructions from a moment of a run on."""

    def __init__(self, run, number, address, registers):
        self.run, self.number = run, number
        self.memory, self.cpu = Memory(run, number), Registers(address)
        self.cpu.r, self.cpu.hi, self.cpu.lo = list(registers), Unknown(), Unknown()

    def behind(self, count):
        """The address of the next instruction and the registers behind so many, where they can be told."""
        try:
            for _ in range(count):
                self.step()
                self.number += 1
        except (Fault, TypeError):
            return None
        self.write_back()
        return (self.cpu.pc, self.cpu.r) if self.memory.is_that_behind(self.number) else None

    def syscall(self, code):
        """A service: what it stored is seen in the run, but what it answers is not known."""
        if code >= len(LIBRARIES) * 256:
            raise Fault("service")
        self.memory, self.cpu.r[2] = Memory(self.run, self.number + 1), Unknown()
