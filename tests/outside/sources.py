#!/usr/bin/env python3
"""A source of every instruction with operands by chance, and what `irx as` and GNU as make of it.

    sources.py write OURS THEIRS               writes the source for both assemblers, always the same
    sources.py compare MODULE IMAGE ENTRIES    compares the file of `irx as` with what as and ld made

IMAGE has the bytes of the file that ld linked at 0 with the data right behind the text, as objcopy takes them out;
ENTRIES has the relocation entries that ld kept, as readelf prints them. In the file of as a word holds how far a label
stands from where its section begins; in that of ld it holds the label's place in the image, as ours does. So the words
of text and data are compared as they stand, and of each entry, in their order, the site and the type.

The last line of compare is 'N passed, M failed': an instruction or directive passes where all its words are equal, and
the entries pass as one.
"""

import random
import re
import struct
import sys
from typing import NamedTuple

from instructions import EACH, FORMS

# Registers by name, in the order of their numbers.
NAMES = "zero at v0 v1 a0 a1 a2 a3 t0 t1 t2 t3 t4 t5 t6 t7 s0 s1 s2 s3 s4 s5 s6 s7 t8 t9 k0 k1 gp sp fp ra".split()

# The numbers that an operand may have: from, and up to but without.
RANGES = {"sa": (0, 1 << 5), "code": (0, 1 << 20), "simm": (-1 << 15, 1 << 15), "uimm": (0, 1 << 16)}

# Every so many lines there is a label.
APART = 16

# How many words there are between the farthest branches and their labels.
BETWEEN = (1 << 15) - 2

# The letters and signs of strings, as they stand in a source.
SIGNS = ["a", "Z", "0", " ", ";", ",", ":", "$", "%", r"\n", r"\\", r"\""]

# What as is told before the lines: each one is a word as it stands.
FOR_AS = ".set noreorder\n.set noat\n.set nomacro\n"


class Line(NamedTuple):
    """A line of the source: its name, how it stands for both assemblers, and how many words it makes."""
    name: str
    ours: str
    theirs: str
    words: int


def alike(name, operands="", words=0):
    """A line that both assemblers read alike."""
    line = f"{name} {operands}".rstrip()
    return Line(name, line, line, words)


def label(name):
    return alike(name + ":")


class Writer:
    """Writes lines by chance, with the labels of both sections."""

    def __init__(self):
        self.chance = random.Random(3000)
        lines = len(FORMS) * EACH
        self.near = [f"text_{n}" for n in range(lines // APART)]
        self.labels = self.near + ["back", "ahead"] + [f"data_{n}" for n in range(2 * EACH)]

    def number(self, low, high):
        """A number, one time in four the least or the greatest; in decimal digits or behind 0x."""
        number = self.chance.choice([low, high - 1]) if self.one_in_four() else self.chance.randrange(low, high)
        return hex(number) if number >= 0 and self.chance.random() < 0.5 else str(number)

    def one_in_four(self):
        return self.chance.random() < 0.25

    def registers(self, name):
        """Numbers for rs, rt and rd. as refuses jalr by the register that it writes, and bltzal and bgezal by $31."""
        while True:
            numbers = {field: self.chance.randrange(32) for field in ("rs", "rt", "rd")}
            if not (name == "jalr" and numbers["rs"] == numbers["rd"] or name.endswith("zal") and numbers["rs"] == 31):
                return numbers

    def register(self, number):
        return "$" + self.chance.choice([str(number), NAMES[number]])

    def operand(self, field, registers):
        """An operand in the place of a field."""
        if field in registers:
            return self.register(registers[field])
        if field in RANGES:
            return self.number(*RANGES[field])
        return self.chance.choice(self.near if field == "branch" else self.labels)

    def instruction(self, name, immediate=None):
        """An instruction, with this immediate where one is given."""
        registers = self.registers(name)

        def operand(field):
            if immediate and field[0] in ("simm", "uimm"):
                return immediate
            return self.operand(field[0], registers)

        operands = re.sub(r"\w+", operand, FORMS[name])
        return Line(name, f"{name} {operands}", f"{name} {for_as(name, operands)}", 1)

    def halves(self, name):
        """Both halves of a label, one of them in the instruction. ld takes the lower half from the next line."""
        wanted = self.chance.choice(self.labels)
        if self.chance.random() < 0.5:
            return [self.instruction(name, f"%hi({wanted})"), self.instruction("addiu", f"%lo({wanted})")]
        return [self.instruction("lui", f"%hi({wanted})"), self.instruction(name, f"%lo({wanted})")]

    def lines_of(self, name):
        """An instruction with numbers or labels."""
        if "imm" in FORMS[name] and self.one_in_four():
            return self.halves(name)
        return [self.instruction(name)]

    def words(self, count):
        """Numbers and labels in one line."""
        values = [self.chance.choice(self.labels) if self.one_in_four() else self.number(-1 << 31, 1 << 32)
                  for _ in range(count)]
        return alike(".word", ", ".join(values), count)

    def string(self):
        """A string. The zeros that follow it up to a multiple of 4 are asked of as."""
        signs = self.chance.choices(SIGNS, k=self.chance.randrange(12))
        line = f'.asciz "{"".join(signs)}"'
        return Line(".asciz", line, line + "\n.balign 4", len(signs) // 4 + 1)

    def farthest(self):
        """Branches that go as far as they can, ahead and back."""
        yield label("back")
        yield alike("beq", "$0, $0, ahead", 1)
        for count in BETWEEN // 8 * [8] + [BETWEEN % 8]:
            yield self.words(count)
        yield alike("bne", "$0, $0, back", 1)
        yield label("ahead")

    def instructions(self):
        """Every instruction, with labels between."""
        for number, name in enumerate(name for name in FORMS for _ in range(EACH)):
            if number % APART == 0:
                yield label(f"text_{number // APART}")
            yield from self.lines_of(name)

    def data(self):
        """Words and strings, with labels between."""
        for number in range(2 * EACH):
            yield label(f"data_{number}")
            yield self.words(self.chance.randrange(1, 5)) if number % 2 == 0 else self.string()


def for_as(name, operands):
    """Operands as `as` reads them: div and divu have a first operand $0, and the code of break is two of ten bits."""
    if name in ("div", "divu"):
        return "$0," + operands
    if name == "break":
        return f"{int(operands, 0) >> 10},{int(operands, 0) & 0x3FF}"
    return operands


def source():
    """The lines of the source. The text has a multiple of 16 bytes, as `as` makes it."""
    writer = Writer()
    text = [alike(".text"), *writer.farthest(), *writer.instructions()]
    text += -sum(line.words for line in text) % 4 * [alike("nop", words=1)]
    return text + [alike(".data"), *writer.data()]


def write(ours, theirs):
    """Writes the source for both assemblers."""
    lines = source()
    with open(ours, "w") as file:
        file.writelines(line.ours + "\n" for line in lines)
    with open(theirs, "w") as file:
        file.writelines([FOR_AS] + [line.theirs + "\n" for line in lines])


def words_in(part):
    """The little-endian words of some bytes."""
    return [word for word, in struct.iter_unpack("<I", part[:len(part) // 4 * 4])]


def parts_of(irx):
    """The words of an IRX file's image, and its relocation entries as sites and types."""
    segments, sections = struct.unpack_from("<28xII", irx)
    segment_count, section_count = struct.unpack_from("<44xHxxH", irx)
    image, entries = [], []
    for number in range(segment_count):
        kind, place, size = struct.unpack_from("<II8xI", irx, segments + 32 * number)
        if kind == 1:
            image = words_in(irx[place:place + size])
    for number in range(section_count):
        kind, place, size = struct.unpack_from("<4xI8xII", irx, sections + 40 * number)
        if kind == 9:
            entries += struct.iter_unpack("<II", irx[place:place + size])
    return image, entries


def printed_entries(lines):
    """The sites and types of the relocation entries that readelf printed."""
    found = (re.match(r"([0-9a-f]{8})  [0-9a-f]{6}([0-9a-f]{2}) R_MIPS_", line) for line in lines)
    return [(int(entry[1], 16), int(entry[2], 16)) for entry in found if entry]


def compare_words(ours, theirs):
    """The names of the source's lines, and those of which a word is not the same in both images."""
    names = [line.name for line in source() for _ in range(line.words)]
    if not len(names) == len(ours) <= len(theirs):
        print(f"of {len(names)} words {len(ours)} are assembled here and {len(theirs)} by as")
        return set(names), set(names)
    failed = set()
    for number, (name, our, their) in enumerate(zip(names, ours, theirs)):
        if our != their:
            failed.add(name)
            print(f"{4 * number:08x}: {name} is {our:08x} here and {their:08x} by as")
    return set(names), failed


def compare_entries(ours, theirs):
    """Whether the relocation entries are equal, in the same order; tells which are not in both."""
    for site, kind in sorted(set(ours) ^ set(theirs)):
        print(f"{site:08x}: an entry of type {kind} is made {'here' if (site, kind) in ours else 'by as'} only")
    if ours != theirs:
        print(f"the {len(ours)} entries made here are not the {len(theirs)} made by as")
    return ours == theirs


def compare(module, image, entries):
    """Compares both files."""
    our_words, our_entries = parts_of(module)
    names, failed = compare_words(our_words, words_in(image))
    same = compare_entries(our_entries, printed_entries(entries))
    print(f"{len(names) - len(failed) + same} passed, {len(failed) + (not same)} failed")
    return same and not failed


def main(verb, *files):
    if verb == "write":
        write(*files)
        return 0
    with open(files[0], "rb") as module, open(files[1], "rb") as image, open(files[2]) as entries:
        return 0 if compare(module.read(), image.read(), entries) else 1


if __name__ == "__main__":
    if len(sys.argv) < 4:
        sys.exit(__doc__)
    sys.exit(main(*sys.argv[1:]))
