"""Memory: RAM with its live stubs, and the blocks that are taken from it."""

from functools import partial
from typing import NamedTuple

MIB = 0x100000


class Fault(Exception):
    """A guest fault, by its word in the trace."""


def place_of(size, at, length, width=1):
    """The place of a range in RAM of a size, or None where it is not wholly there or `at` is not a multiple of the
    width."""
    if at % width or at >> 29 not in (0, 4, 5) or at % 0x20000000 >= size:
        return None
    place = at % 0x20000000
    return place if place + length <= size else None


class Stub(NamedTuple):
    """A live stub: the name and the major version of its library, its index, and where it goes."""
    library: tuple[bytes, int]
    index: int
    target: int


class Memory:
    """RAM, with the live stubs."""

    def __init__(self, machine, size):
        self.machine, self.size = machine, size
        self.place = partial(place_of, size)
        self.ram = bytearray(size)
        self.live = {}  # of stubs, by their places

    def load(self, at, width):
        place = self.place(at, width, width)
        if place is None:
            raise Fault("address")
        return int.from_bytes(self.ram[place:place + width], "little")

    def write(self, place, data):
        for stub in sorted(self.live):
            if data and stub < place + len(data) and place < stub + 8:
                self.machine.trace(f"stub {stub:08x}")
                del self.live[stub]
        self.ram[place:place + len(data)] = data

    def store(self, at, width, value):
        place = self.place(at, width, width)
        if place is None:
            raise Fault("address")
        self.write(place, (value % 256**width).to_bytes(width, "little"))

    def word(self, place):
        return int.from_bytes(self.ram[place:place + 4], "little")


class Blocks:
    """The blocks of RAM, which ends at a place."""

    def __init__(self, end):
        self.end, self.used = end, {0: 0x10000}

    def alloc(self, mode, size, at):
        size = (size + 255) // 256 * 256
        if mode > 2 or not 0 < size <= self.end:
            return 0
        starts = range(0, self.end - size + 1, 256)
        if mode == 2:
            place = place_of(self.end, at, size, 256)
            starts = [] if place is None else [place]
        for start in reversed(starts) if mode == 1 else starts:
            if all(start + size <= s or s + n <= start for s, n in self.used.items()):
                self.used[start] = size
                return start
        return 0

    def holder(self, at):
        """The start and the size of the block that holds an address; both are 2^32 - 1 where none does."""
        place = place_of(self.end, at, 1)
        held = ((s, n) for s, n in self.used.items() if place is not None and s <= place < s + n)
        return next(held, (2**32 - 1, 2**32 - 1))

    def all_free(self):
        return self.end - sum(self.used.values())

    def most_free(self):
        edges = sorted(self.used.items()) + [(self.end, 0)]
        return max(b[0] - (a[0] + a[1]) for a, b in zip(edges, edges[1:]))

    def free(self, at):
        place = at % 0x20000000
        if at >> 29 not in (0, 4, 5) or place == 0 or place not in self.used:
            return -1
        del self.used[place]
        return 0
