"""The machine: its state, and its run to the end."""

import struct

from deliveries import Deliveries, Line
from formatting import Formatting
from loading import Loading
from memory import Blocks, Fault, Memory
from objects import EventFlag, Mailbox, Objects, Semaphore
from pools import FixedPool, Pools, VariablePool
from processor import Processor, Registers
from services import LIBRARIES, Services
from sysclib import Sysclib
from threads import Thread, Threads


QUIET, BUDGET, FAULT = 0, 10, 11  # what a run answers


class Machine(Loading, Threads, Objects, Pools, Deliveries, Services, Formatting, Sysclib, Processor):
    """What the parts share, and the order in which they have their turn."""

    def __init__(self, files, script, size):
        self.clock = 0
        self.script, self.events = script, list(script.events)  # of the events those that are still to come
        self.lines, self.console = [], b""
        self.memory, self.blocks = Memory(self, size), Blocks(size)
        self.registry = []
        self.files, self.next_module = files, 1  # the modules that are not yet loaded, and the number of the first
        self.module = None
        self.cpu = Registers(0)
        self.threads = {1: Thread(1, 0x02000000, 0, 0, 0x4000, 8, 0xC000, 0)}
        self.next_id = 2
        self.objects = {kind: {} for kind in (Semaphore, EventFlag, Mailbox, VariablePool, FixedPool)}
        self.next_object = {kind: 1 for kind in self.objects}
        self.ready, self.running = [], None
        self.dispatching, self.interrupts = True, True
        self.irqs = [Line() for _ in range(64)]
        self.alarms, self.next_number = [], 1
        self.handler = None
        self.booted = False
        self.kernel_area()

    def trace(self, text):
        self.lines.append(f"{self.clock} {text}")

    def kernel_area(self):
        put = lambda at, word: self.memory.ram.__setitem__(slice(at, at + 4), struct.pack("<I", word))
        for n, name in enumerate(LIBRARIES):
            table = 0x1000 + n * 0x200 if n < 8 else 0x200 + (n - 8) * 0x200
            put(table, 0x41C00000)
            put(table + 8, 0x0101)
            self.memory.ram[table + 12:table + 20] = name.encode().ljust(8, b"\0")
            for k in range(64):
                at = 0x4000 + n * 0x400 + k * 16
                put(table + 20 + 4 * k, at)
                put(at, (n * 256 + k) << 6 | 0xC)
                put(at + 4, 0x03E00008)
            self.registry.append((name.encode().ljust(8, b"\0"), 1, table))
        for at, code in ((0x3000, 0xF00), (0x3010, 0xF01), (0x3020, 0xF02)):
            put(at, code << 6 | 0xC)

    def run(self, budget):
        """Runs for so many instructions at most, and answers the status."""
        if not self.booted:
            self.boot()
        executed = 0
        while True:
            untaken = self.untaken() if executed == budget else None
            self.take_events()
            if self.deliver() or self.dispatch():
                continue
            if self.handler or self.running is not None:
                if executed == budget:
                    self.put_back(*untaken)  # the step is not begun
                    return self.end("budget", BUDGET)
                try:
                    self.step()
                except Fault as fault:
                    return self.end(f"fault {fault} {self.cpu.pc:08x}", FAULT)
                self.clock += 1
                executed += 1
            else:
                moment = self.next_moment()
                if moment is None:
                    return self.end("quiet", QUIET)
                self.clock = moment

    def boot(self):
        self.booted = True
        begins = self.load_next()
        if begins:
            self.threads[1].cpu = begins
            self.make_ready(self.threads[1])

    def end(self, text, status):
        self.trace(f"end {text}")
        return status

    def dump(self, at, length):
        """The lines that tell the bytes of a range, 16 bytes a line."""
        part = self.memory.ram[self.memory.place(at, length):][:length]
        return [f"{at + n:08x}: {part[n:n + 16].hex()}" for n in range(0, length, 16)]
