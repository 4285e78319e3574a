"""The processor: its registers, and what an instruction does."""

from functools import cache
from typing import Callable, NamedTuple

from memory import Fault

FUNCTIONS = {0: "sll", 2: "srl", 3: "sra", 4: "sllv", 6: "srlv", 7: "srav", 8: "jr", 9: "jalr", 12: "syscall", 13: "break",
             16: "mfhi", 17: "mthi", 18: "mflo", 19: "mtlo", 24: "mult", 25: "multu", 26: "div", 27: "divu", 32: "add",
             33: "addu", 34: "sub", 35: "subu", 36: "and", 37: "or", 38: "xor", 39: "nor", 42: "slt", 43: "sltu"}
BRANCHES = {0: "bltz", 1: "bgez", 16: "bltzal", 17: "bgezal"}
OPERATIONS = {2: "j", 3: "jal", 4: "beq", 5: "bne", 6: "blez", 7: "bgtz", 8: "addi", 9: "addiu", 10: "slti", 11: "sltiu",
              12: "andi", 13: "ori", 14: "xori", 15: "lui", 32: "lb", 33: "lh", 34: "lwl", 35: "lw", 36: "lbu", 37: "lhu",
              38: "lwr", 40: "sb", 41: "sh", 42: "swl", 43: "sw", 46: "swr"}

WIDTHS = {"b": 1, "h": 2, "w": 4}


def signed(word, bits=32):
    return word - 2**bits if word >= 2**(bits - 1) else word


def fitting(number):
    """A signed result, which must fit into a word."""
    if signed(number % 2**32) != number:
        raise Fault("overflow")
    return number


# What goes into rd, of rs and rt; of rt and the amount; and into rt, of rs and the immediate's 16 bits.
OF_REGISTERS = {
    "sllv": lambda s, t: t << (s & 31),
    "srlv": lambda s, t: t >> (s & 31),
    "srav": lambda s, t: signed(t) >> (s & 31),
    "add": lambda s, t: fitting(signed(s) + signed(t)),
    "addu": lambda s, t: s + t,
    "sub": lambda s, t: fitting(signed(s) - signed(t)),
    "subu": lambda s, t: s - t,
    "and": lambda s, t: s & t,
    "or": lambda s, t: s | t,
    "xor": lambda s, t: s ^ t,
    "nor": lambda s, t: ~(s | t),
    "slt": lambda s, t: int(signed(s) < signed(t)),
    "sltu": lambda s, t: int(s < t),
}
OF_AMOUNT = {
    "sll": lambda t, by: t << by,
    "srl": lambda t, by: t >> by,
    "sra": lambda t, by: signed(t) >> by,
}
OF_IMMEDIATE = {
    "addi": lambda s, i: fitting(signed(s) + signed(i, 16)),
    "addiu": lambda s, i: s + signed(i, 16),
    "slti": lambda s, i: int(signed(s) < signed(i, 16)),
    "sltiu": lambda s, i: int(s < signed(i, 16) % 2**32),
    "andi": lambda s, i: s & i,
    "ori": lambda s, i: s | i,
    "xori": lambda s, i: s ^ i,
    "lui": lambda s, i: i << 16,
}
# Whether a branch is taken, by rs and rt.
TAKEN = {
    "beq": lambda s, t: s == t,
    "bne": lambda s, t: s != t,
    "blez": lambda s, t: signed(s) <= 0,
    "bgtz": lambda s, t: signed(s) > 0,
    "bltz": lambda s, t: signed(s) < 0,
    "bgez": lambda s, t: signed(s) >= 0,
    "bltzal": lambda s, t: signed(s) < 0,
    "bgezal": lambda s, t: signed(s) >= 0,
}
JUMPS = {"j", "jal", "jr", "jalr", *TAKEN}


def divided(s, t):
    """HI and LO after div."""
    if t == 0:
        return s, 1 if signed(s) < 0 else -1
    quotient = abs(signed(s)) // abs(signed(t)) * (1 if (signed(s) < 0) == (signed(t) < 0) else -1)
    return signed(s) - quotient * signed(t), quotient


# HI and LO, of rs and rt.
PAIRS = {
    "mult": lambda s, t: (signed(s) * signed(t) >> 32, signed(s) * signed(t)),
    "multu": lambda s, t: (s * t >> 32, s * t),
    "div": divided,
    "divu": lambda s, t: (s % t, s // t) if t else (s, -1),
}


class Instruction(NamedTuple):
    """Its name, None where there is none; what it computes of rs and rt, if it puts that into a register, and into which;
    and its fields."""
    name: str | None
    computes: Callable[[int, int], int] | None
    into: int
    rs: int
    rt: int
    immediate: int
    word: int


@cache
def instruction(word):
    """The instruction of a word."""
    operation, rs, rt, rd = word >> 26, word >> 21 & 31, word >> 16 & 31, word >> 11 & 31
    amount, immediate = word >> 6 & 31, word & 0xFFFF
    name = (FUNCTIONS.get(word & 63) if operation == 0 else BRANCHES.get(rt) if operation == 1
            else OPERATIONS.get(operation))
    computes, into = OF_REGISTERS.get(name), rd
    if name in OF_AMOUNT:
        computes = lambda s, t: OF_AMOUNT[name](t, amount)
    elif name in OF_IMMEDIATE:
        computes, into = lambda s, t: OF_IMMEDIATE[name](s, immediate), rt
    return Instruction(name, computes, into, rs, rt, immediate, word)


class Registers:
    def __init__(self, pc, **named):
        self.r = [0] * 32
        self.hi = self.lo = 0
        self.pc, self.next, self.slot = pc % 2**32, (pc + 4) % 2**32, False
        self.pending = None  # a register and what was loaded for it, which it has behind the next instruction
        for name, value in named.items():
            self.r[{"a0": 4, "a1": 5, "gp": 28, "sp": 29, "ra": 31}[name]] = value % 2**32


class Processor:
    """Of the machine: how it executes."""

    def step(self):
        """Executes an instruction."""
        cpu = self.cpu
        it = instruction(self.memory.load(cpu.pc, 4))
        name, s, t = it.name, cpu.r[it.rs], cpu.r[it.rt]
        if it.computes:
            value = it.computes(s, t)
            self.write_back()
            self.set_register(it.into, value)
            self.go_on(cpu.next + 4, False)
        elif name in JUMPS:
            self.jump(it, s, t)
        elif name == "syscall":
            self.call(it.word >> 6 & 0xFFFFF)
        elif name in (None, "break"):
            raise Fault("break" if name else "reserved")
        else:
            (self.access if name[0] in "ls" else self.move)(it, s, t)
            self.go_on(cpu.next + 4, False)

    def access(self, it, s, t):
        """A load, behind which what it loads is pending, or a store."""
        at = (s + signed(it.immediate, 16)) % 2**32
        loaded = None
        if it.name[0] == "l":
            value = self.loaded(it.name, at, self.latest(it.rt)) % 2**32
            loaded = (it.rt, value) if it.rt else None
        else:
            self.store(it.name, at, t)
        self.write_back()
        self.cpu.pending = loaded

    def move(self, it, s, t):
        """An instruction on HI and LO."""
        cpu, name = self.cpu, it.name
        self.write_back()
        if name in PAIRS:
            cpu.hi, cpu.lo = (half % 2**32 for half in PAIRS[name](s, t))
        elif name in ("mfhi", "mflo"):
            self.set_register(it.into, cpu.hi if name == "mfhi" else cpu.lo)
        elif name == "mthi":
            cpu.hi = s
        else:
            cpu.lo = s

    def go_on(self, following, slot):
        """The next instruction is executed, and then the one at an address."""
        self.cpu.pc, self.cpu.next, self.cpu.slot = self.cpu.next, following % 2**32, slot

    def write_back(self):
        """What was loaded goes into its register."""
        if self.cpu.pending:
            number, value = self.cpu.pending
            self.cpu.r[number], self.cpu.pending = value, None

    def latest(self, number):
        """A register as it is once what was loaded is in it."""
        pending = self.cpu.pending
        return pending[1] if pending and pending[0] == number else self.cpu.r[number]

    def set_register(self, number, value):
        if number:
            self.cpu.r[number] = value % 2**32

    def call(self, code):
        """A syscall. It moves on first, and the registers may then be those of another thread; a fault leaves it there."""
        cpu = self.cpu
        before = cpu.pc, cpu.next, cpu.slot, list(cpu.r), cpu.pending
        self.write_back()
        self.go_on(cpu.next + 4, False)
        try:
            answer = self.syscall(code)
        except Fault:
            cpu.pc, cpu.next, cpu.slot, cpu.r, cpu.pending = before
            raise
        if answer is not None:
            cpu.r[2] = answer % 2**32

    def jump(self, it, s, t):
        """A jump or a branch, which has a delay slot in each case."""
        cpu = self.cpu
        if cpu.slot:
            raise Fault("slot")
        link = cpu.pc + 8
        if it.name in ("j", "jal"):
            target = (cpu.pc + 4) & 0xF0000000 | (it.word & 0x03FFFFFF) << 2
        elif it.name in ("jr", "jalr"):
            target = s
        else:
            target = cpu.pc + 4 + 4 * signed(it.immediate, 16) if TAKEN[it.name](s, t) else cpu.next + 4
        self.write_back()
        if it.name == "jalr":
            self.set_register(it.into, link)
        elif it.name.endswith("al"):
            self.set_register(31, link)
        self.go_on(target, True)

    def loaded(self, name, at, old):
        """What a load puts into its register, which has an old value."""
        above = 24 - 8 * (at % 4)
        if name == "lwl":
            return self.memory.load(at - at % 4, 4) << above | old % 2**above
        if name == "lwr":
            upper = 2**32 - 2**(above + 8)
            return self.memory.load(at - at % 4, 4) >> 24 - above | old & upper
        width = WIDTHS[name[1]]
        number = self.memory.load(at, width)
        return number if name.endswith("u") else signed(number, 8 * width)

    def store(self, name, at, value):
        """A store. Those of parts of a word store the aligned word with its other bytes as they were."""
        if name not in ("swl", "swr"):
            self.memory.store(at, WIDTHS[name[1]], value)
            return
        place, above = at - at % 4, 24 - 8 * (at % 4)
        word = self.memory.load(place, 4)
        if name == "swl":
            changed = 2**(32 - above)
            self.memory.store(place, 4, word // changed * changed + (value >> above))
        else:
            kept = 2**(24 - above)
            self.memory.store(place, 4, value * kept % 2**32 + word % kept)
