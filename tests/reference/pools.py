"""Pools of memory, variable and fixed, and their services."""

import struct

from objects import Object


class VariablePool(Object):
    """`units` has a byte for each 16 bytes of its memory, 1 where they are out; `out` the ranges that are out, by their
    starts, with their counts of units."""

    WAIT = 6

    def __init__(self, ident, attr, option, size, base):
        super().__init__(ident, attr, option, attr == 1)
        self.size, self.base = size, base
        self.units, self.out = bytearray(size // 16), {}

    def take(self, size):
        """Takes the least place where the size is free, and answers it, or None where there is none."""
        count = (size + 15) // 16
        first = self.units.find(bytes(count))
        if first < 0:
            return None
        self.units[first:first + count] = b"\1" * count
        self.out[self.base + 16 * first] = count
        return self.base + 16 * first

    def give(self, place):
        first, count = (place - self.base) // 16, self.out.pop(place)
        self.units[first:first + count] = bytes(count)

    def all_free(self):
        return 16 * self.units.count(0)

    def most_free(self):
        return 16 * max(map(len, self.units.split(b"\1")))


class FixedPool(Object):
    """`places` has all its blocks, `out` those that are out."""

    WAIT = 7

    def __init__(self, ident, attr, option, size, count, base):
        super().__init__(ident, attr, option, attr == 1)
        self.size, self.base = size, base
        self.places, self.out = range(base, base + size * count, size), set()

    def take(self):
        """Takes the least free block, and answers it, or None where there is none."""
        place = next((place for place in self.places if place not in self.out), None)
        if place is not None:
            self.out.add(place)
        return place


class Pools:
    """Of the machine: the services of its pools of memory."""

    def make_pool(self, kind, length, *words):
        """Makes a pool of so many bytes, which are a block; what make_object answers."""
        base = self.blocks.alloc(0, length, 0) if self.has_room(kind) else 0
        return self.make_object(kind, *words, base) if base else -400

    def delete_pool(self, pool):
        self.blocks.free(pool.base)
        return self.delete_object(type(pool), pool.id)

    def variable_pool_service(self, number):
        """A service of thvpool: its answer, or None where the caller does not go on."""
        a, b = self.cpu.r[4:6]
        if number == 4:
            attr, option, size = struct.unpack_from("<3I", self.memory.ram, self.words_at(a, 3))
            if attr > 1:
                return -401
            if not 16 <= size <= 65536:
                return -427
            size = (size + 15) // 16 * 16
            return self.make_pool(VariablePool, size, attr, option, size)
        place = self.words_at(b, 6) if number == 11 else None
        if number == 6 and not self.may_wait():
            return -417
        if a not in self.objects[VariablePool]:
            return -411
        pool = self.objects[VariablePool][a]
        if number == 5:
            return self.delete_pool(pool)
        if number == 8:
            if b not in pool.out:
                return -426
            pool.give(b)
            for thread in self.waiters_of(pool):
                taken = pool.take(thread.wants)
                if taken is not None:
                    self.wake_waiter(thread, taken)
            return 0
        if number == 11:
            self.put_words(place, pool.attr, pool.option, pool.size, pool.all_free(), pool.most_free(),
                           len(pool.waiters))
            return 0
        if not 0 < b <= pool.size:
            return -427
        taken = pool.take(b)
        if taken is not None:
            return taken
        return -400 if number == 7 else self.wait_for(pool, (b + 15) // 16 * 16)

    def fixed_pool_service(self, number):
        """A service of thfpool."""
        a, b = self.cpu.r[4:6]
        if number == 4:
            attr, option, size, count = struct.unpack_from("<4I", self.memory.ram, self.words_at(a, 4))
            if attr > 1:
                return -401
            if not 1 <= size <= 65536 or not 1 <= count <= 1024:
                return -427
            size = (size + 3) // 4 * 4
            return self.make_pool(FixedPool, size * count, attr, option, size, count)
        place = self.words_at(b, 6) if number == 11 else None
        if number == 6 and not self.may_wait():
            return -417
        if a not in self.objects[FixedPool]:
            return -412
        pool = self.objects[FixedPool][a]
        if number == 5:
            return self.delete_pool(pool)
        if number == 8:
            if b not in pool.out:
                return -426
            if pool.waiters:
                self.wake_waiter(self.waiters_of(pool)[0], b)
            else:
                pool.out.remove(b)
            return 0
        if number == 11:
            self.put_words(place, pool.attr, pool.option, pool.size, len(pool.places), len(pool.places) - len(pool.out),
                           len(pool.waiters))
            return 0
        taken = pool.take()
        if taken is not None:
            return taken
        return -400 if number == 7 else self.wait_for(pool)
