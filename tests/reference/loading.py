"""The way of a module: it is read, relocated, linked, run and removed."""

import struct
from itertools import takewhile

from irx import HI16, LO16, read_module
from memory import Stub
from processor import Registers

MOST_STUBS = 65536


def signed(word):
    return word - 2**32 if word >= 2**31 else word


class Loading:
    """Of the machine: how modules are loaded, and what becomes of one that returned."""

    def load(self, file):
        """Answers (base, length, entry, gp), or a code."""
        module = read_module(file)
        if module is None:
            return -201
        base = self.blocks.alloc(0, module.length, 0)
        if not base:
            return -400
        self.memory.write(base, module.image.ljust(module.length, b"\0"))
        for entries in module.entries:
            self.relocate(entries, base)
        code = self.link(base, module.text)
        if code:
            self.blocks.free(base)
            return code
        return base, module.length, base + module.entry, base + module.gp

    def relocate(self, entries, base):
        ram = self.memory.ram
        for k, (site, kind) in enumerate(entries):
            if kind == 0:
                continue
            at = base + site
            word = struct.unpack_from("<I", ram, at)[0]
            if kind == 2:
                word += base
            elif kind == 4:
                word = word & 0xFC000000 | (word + base // 4) & 0x03FFFFFF
            elif kind == HI16:
                low_site = next(s for s, later in entries[k + 1:] if later == LO16)
                low = struct.unpack_from("<h", ram, base + low_site)[0]
                whole = (word % 65536) * 65536 + low + base
                word = word & 0xFFFF0000 | (whole + 0x8000) // 65536 % 65536
            elif kind == LO16:
                word = word & 0xFFFF0000 | (word + base) & 0xFFFF
            struct.pack_into("<I", ram, at, word % 2**32)

    def import_tables(self, at, end):
        """The name, the major version and the stubs, places and indices, of each import table of a range; None where one
        is bad."""
        word, tables = self.memory.word, []
        while at + 8 <= end:
            if (word(at), word(at + 4)) != (0x41E00000, 0):
                at += 4
                continue
            library, stubs, at = (self.memory.ram[at + 12:at + 20], self.memory.ram[at + 9]), [], at + 20
            while at + 8 <= end and (word(at), word(at + 4)) != (0, 0):
                if word(at) != 0x03E00008 or word(at + 4) >> 16 != 0x2400:
                    return None
                stubs.append((at, word(at + 4) % 65536))
                at += 8
            if at + 8 > end:
                return None
            tables.append((bytes(library[0]), library[1], stubs))
            at += 8
        return tables

    def functions(self, table):
        """The functions of an export table."""
        places = range(table + 20, min(table + 20 + 4 * 1024, self.memory.size - 3), 4)
        return list(takewhile(lambda function: function, map(self.memory.word, places)))

    def link(self, base, text):
        """Binds the stubs of a module, and answers 0; or a code."""
        tables = self.import_tables(base, base + text)
        if tables is None:
            return -201
        bound = []
        for name, version, stubs in tables:
            table = next((t for n, major, t in self.registry if n == name and major == version), None)
            if table is None:
                return -200
            functions = self.functions(table)
            bound += [(at, Stub((name, version), index, functions[index] & 0x0FFFFFFC))
                      for at, index in stubs if index < len(functions)]
        if len(self.memory.live) + len(bound) > MOST_STUBS:
            return -400
        for at, stub in bound:
            struct.pack_into("<I", self.memory.ram, at, 0x08000000 | stub.target >> 2)
            self.memory.live[at] = stub
        return 0

    def load_next(self):
        """Loads the first module that loads, and answers the registers with which it begins."""
        while self.files:
            name, file = self.files.pop(0)
            number, self.next_module = self.next_module, self.next_module + 1
            result = self.load(file)
            if isinstance(result, int):
                self.trace(f"load {number} {result}")
                continue
            base, length, entry, gp = result
            self.trace(f"load {number} ok {base:08x} {length:08x}")
            words = [name.encode()] + self.script.words(number, name.encode())
            places, texts = b"", b""
            for word in words:
                places += struct.pack("<I", 0x2000 + 4 * len(words) + 4 + len(texts))
                texts += word + b"\0"
            self.memory.write(0x2000, bytes(0x1000))
            self.memory.write(0x2000, places + bytes(4) + texts)
            self.module = number, base, length
            return Registers(entry, a0=len(words), a1=0x2000, gp=gp, sp=0xFFF0, ra=0x3020)
        self.module = None
        return None

    def end_module(self, value):
        number, base, length = self.module
        kept = ["resident", "removed", "removable", "removed"][value % 4]
        self.trace(f"result {number} {signed(value)} {kept}")
        size = (length + 255) // 256 * 256
        if value % 2 and self.blocks.used.get(base) == size:
            self.memory.write(base, bytes(size))
            del self.blocks.used[base]
            self.registry = [e for e in self.registry if not base <= e[2] < base + size]
        self.dispatching = self.interrupts = True
        begins = self.load_next()
        if begins:
            self.cpu = begins
        else:
            self.end_running()
