"""The services of the kernel: which there are, from where each may be called, and who does it."""

import struct

from memory import Fault

LIBRARIES = ["loadcore", "sysmem", "intrman", "thbase", "thsemap", "thevent", "thmsgbx", "stdio", "thvpool", "thfpool",
             "sysclib"]

# The services that there are, and from where they may be called: by a thread alone, by a handler alone, or by both.
THREAD = {
    "loadcore": {6, 7},
    "intrman": {4, 5},
    "thbase": {4, 5, 6, 8, 9, 10, 12, 13, 14, 16, 18, 20, 22, 24, 25, 27, 29, 31, 33, 35, 37},
    "thsemap": {4, 5, 6, 8, 9, 11},
    "thevent": {4, 5, 6, 8, 10, 11, 13},
    "thmsgbx": {4, 5, 6, 8, 9, 11},
    "thvpool": {4, 5, 6, 8, 11},
    "thfpool": {4, 5, 6, 8, 11},
}
# The forms of services for handlers, and the services that they are.
HANDLER = {
    "thbase": {11: 10, 15: 14, 17: 16, 19: 18, 23: 22, 26: 25, 28: 27, 30: 29, 32: 31, 36: 35, 38: 37},
    "thsemap": {7: 6, 12: 11},
    "thevent": {7: 6, 9: 8, 14: 13},
    "thmsgbx": {7: 6, 12: 11},
    "thvpool": {9: 8, 12: 11},
    "thfpool": {9: 8, 12: 11},
}
BOTH = {
    "loadcore": {4, 5},
    "sysmem": {4, 5, 6, 7, 8, 9, 10, 14},
    "intrman": {6, 7, 8, 9, 17, 18, 23},
    "thbase": {34, 39, 40},
    "stdio": {4},
    "thvpool": {7},
    "thfpool": {7},
    "sysclib": {10, 11, 12, 13, 14, 17, 19, 20, 21, 22, 23, 27, 29, 30, 32, 36},
}


class Services:
    """Of the machine: what a `syscall` calls, and the services of loadcore and sysmem."""

    def syscall(self, code):
        """What a `syscall` answers, or None where there is no answer."""
        library, number = code // 256, code % 256
        if code == 0xF01 and self.handler:
            return self.return_handler()
        if code == 0xF00 and not self.handler:
            return self.exit(False)
        if code == 0xF02 and not self.handler and self.running == 1:
            self.end_module(self.cpu.r[2])
            return None
        if library >= len(LIBRARIES) or number >= 64:
            raise Fault("service")
        name = LIBRARIES[library]
        plain, forms = THREAD.get(name, set()), HANDLER.get(name, {})
        if number in (plain if self.handler else forms):
            return -100
        if number in forms:
            number = forms[number]
        elif number not in plain | BOTH.get(name, set()):
            self.trace(f"service {name} {number}")
            return -1
        services = {"loadcore": self.library_service, "sysmem": self.memory_service, "intrman": self.interrupt_service,
                    "thbase": self.service, "thsemap": self.semaphore_service, "thevent": self.event_flag_service,
                    "thmsgbx": self.mailbox_service, "stdio": lambda number: self.print_formatted(),
                    "thvpool": self.variable_pool_service, "thfpool": self.fixed_pool_service,
                    "sysclib": self.c_library_service}
        return services[name](number)

    def memory_service(self, number):
        """A service of sysmem."""
        a, b, c = self.cpu.r[4:7]
        if number == 4:
            return self.blocks.alloc(a, b, c)
        if number == 5:
            return self.blocks.free(a)
        if number in (9, 10):
            return self.blocks.holder(a)[number - 9]
        if number == 14:
            return self.print_formatted()
        return {6: self.memory.size, 7: self.blocks.most_free(), 8: self.blocks.all_free()}[number]

    def library_service(self, number):
        """A service of loadcore."""
        if number in (4, 5):
            return 0
        return (self.register_library if number == 6 else self.release_library)(self.cpu.r[4])

    def register_library(self, at):
        place = self.words_at(at, 5)
        library = bytes(self.memory.ram[place + 12:place + 20]), self.memory.ram[place + 9]
        if self.memory.word(place) != 0x41C00000:
            return -214
        if library in [(name, major) for name, major, _ in self.registry]:
            return -212
        if len(self.registry) >= 263:
            return -400
        self.registry.append((*library, place))
        return 0

    def release_library(self, at):
        place = self.memory.place(at, 0)
        entry = next((entry for entry in self.registry if entry[2] == place), None)
        if entry is None:
            return -213
        if entry[:2] in [stub.library for stub in self.memory.live.values()]:
            return -215
        self.registry.remove(entry)
        return 0

    def words_at(self, at, count):
        """The place of so many words, which must be in RAM."""
        place = self.memory.place(at, 4 * count, 4)
        if place is None:
            raise Fault("address")
        return place

    def put_words(self, place, *words):
        self.memory.write(place, struct.pack(f"<{len(words)}I", *words))
