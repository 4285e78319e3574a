#!/usr/bin/env python3
"""Calls of sysclib by chance, and what they do here and in the host's C library.

    calls.py names                            writes the names of the functions
    calls.py write NAME COUNT SEED            writes the source of a module that makes so many calls of a function
    calls.py compare NAME COUNT SEED TRACE    compares what these calls did with what the host's C library does

The same words make the same calls. Each call has a field of bytes of its own, where all its ranges and strings lie, so
that both its answer and the whole field behind it are compared, addresses by how far they are from the field's first
byte. TRACE is the trace of a run of the module with `--dump 10000:10000`.

What C leaves undefined is not called, as strings that overlap what is written, nor what has another meaning there.
These are all the differences:

- memcpy is compared with memmove there, so that ranges may overlap.
- The sign of a comparison there stands for -1, 0 or 1. bzero answers 0 here, and nothing there.
- long has 64 bits there. That strtol holds its number at -2^31 and 2^31 - 1 is this project's rule, and so is that it
  writes `end` for a base that is no base; such bases are not called.
- sprintf has the letters d, i, u, o, x, X, c and s, `%%`, the flags `-` and `0`, a width, a precision, h and l. Not
  called is what docs/PROFILE.md, "Formatted text", says and C does not: p, precision 0 for the number 0, h for a number
  that does not fit it, `(null)`, flag 0 for c and s, a precision for c, h and l for both, anything between the two
  signs of `%%`, letters that are none, and texts that are cut.

The last line of compare is 'N passed, M failed', by calls.
"""

import ctypes
import locale
import os
import random
import re
import struct
import sys
from typing import NamedTuple

# The bytes of a field, and the most calls whose module fits into a dump.
SIZE, MOST = 128, 300

# How many calls that failed are shown.
SHOWN = 3

# What strings are made of: so few bytes that strings are alike often, and some from 0x80 on.
LETTERS = b"ab\x01\x7f\x80\xff"

# What strtol passes over, and the bytes beside that.
SPACES, NO_SPACES = b" \t\n\v\f\r", b"\x08\x0e\x1f!\x85\xa0"

# Numbers about the limits of 32 and 64 bits.
LIMITS = [power + beside for power in (1 << 31, 1 << 32, 1 << 63, 1 << 64) for beside in (-1, 0, 1)]

# What a function takes and answers, in the host's C library.
TYPES = {"place": ctypes.c_void_p, "byte": ctypes.c_int, "length": ctypes.c_size_t, "base": ctypes.c_int,
         "order": ctypes.c_int, "long": ctypes.c_long, "int": ctypes.c_int, "nothing": None}

# The most arguments behind the format.
ARGUMENTS = 6


class Function(NamedTuple):
    number: int
    takes: str
    answers: str


FUNCTIONS = {
    "memchr": Function(10, "place byte length", "place"),
    "memcmp": Function(11, "place place length", "order"),
    "memcpy": Function(12, "place place length", "place"),
    "memmove": Function(13, "place place length", "place"),
    "memset": Function(14, "place byte length", "place"),
    "bzero": Function(17, "place length", "nothing"),
    "sprintf": Function(19, "place place" + ARGUMENTS * " long", "int"),
    "strcat": Function(20, "place place", "place"),
    "strchr": Function(21, "place byte", "place"),
    "strcmp": Function(22, "place place", "order"),
    "strcpy": Function(23, "place place", "place"),
    "strlen": Function(27, "place", "length"),
    "strncmp": Function(29, "place place length", "order"),
    "strncpy": Function(30, "place place length", "place"),
    "strrchr": Function(32, "place byte", "place"),
    "strtol": Function(36, "place place base", "long"),
}


# A module's text: $s0 goes over the arguments, up to the fields in $s1, and $s2 over the answers.
TEXT = """\
    .name calls
    .entry main
    .import sysclib 1 1
    .fn {name} {number}
    .endi
main:
    addiu $sp, $sp, -64
    sw $ra, 60($sp)
    lui $s0, %hi(arguments)
    addiu $s0, $s0, %lo(arguments)
    lui $s1, %hi(fields)
    addiu $s1, $s1, %lo(fields)
    lui $s2, %hi(answers)
    addiu $s2, $s2, %lo(answers)
next:
{loads}
    jal {name}
    addiu $s0, $s0, {size}
    sw $v0, 0($s2)
    bne $s0, $s1, next
    addiu $s2, $s2, 4
    lw $ra, 60($sp)
    addiu $sp, $sp, 64
    jr $ra
    addu $v0, $0, $0
    .data"""


class Place(NamedTuple):
    """An argument that is an address: how far it is from the field's first byte."""
    at: int


class Call(NamedTuple):
    """The field before a call, and the arguments: places and numbers."""
    field: bytes
    arguments: list


class Calls:
    """Calls of a function by chance: each method makes one of its name."""

    def __init__(self, name, seed):
        self.name = name
        self.chance = random.Random(f"{name} {seed}")

    def make(self, count):
        maker = {"memmove": self.memcpy, "strrchr": self.strchr}.get(self.name) or getattr(self, self.name)
        return [maker() for _ in range(count)]

    def one_in(self, count):
        return self.chance.randrange(count) == 0

    def length(self, most):
        """A length, often one of the ends."""
        return self.chance.choice([0, min(1, most), most] + [self.chance.randint(0, most) for _ in range(3)])

    def noise(self, length):
        """Bytes with zeros among them."""
        return bytes(self.chance.choices(LETTERS + b"\0", k=length))

    def text(self):
        return bytes(self.chance.choices(LETTERS, k=self.length(20)))

    def alike(self, text):
        """Bytes like others: one time in two with another byte among them, else the same, a front of them, or more."""
        at = self.chance.randint(0, len(text))
        if self.one_in(2):
            return text[:at] + bytes([self.chance.choice(LETTERS)]) + text[at + 1:]
        return self.chance.choice([text, text[:at], text + self.text()])

    def byte(self):
        """A byte's number, one time in four of a word that has other bits, too."""
        byte = self.chance.choice(LETTERS + b"\0z")
        return byte | self.chance.choice([0x100, 0xFFFFFF00, 0x12345600]) if self.one_in(4) else byte

    def field_of(self, *pieces):
        """A field with these pieces in any order, one time in two right at each other's end, and their places."""
        field = bytearray(self.noise(SIZE))
        places = [None] * len(pieces)
        spare = SIZE - sum(map(len, pieces))
        close, at = self.one_in(2), 0
        for number in self.chance.sample(range(len(pieces)), len(pieces)):
            between = 0 if close and at else self.chance.randint(0, spare)
            spare -= between
            at += between
            places[number] = Place(at)
            field[at:at + len(pieces[number])] = pieces[number]
            at += len(pieces[number])
        return bytes(field), places

    def memchr(self):
        at = self.length(SIZE)
        return Call(self.noise(SIZE), [Place(at), self.byte(), self.length(SIZE - at)])

    def memcmp(self):
        first = self.noise(self.length(24))
        second = self.alike(first)
        equal, most = len(os.path.commonprefix([first, second])), min(len(first), len(second))
        field, places = self.field_of(first, second)
        return Call(field, places + [self.chance.choice([0, equal, min(equal + 1, most), most, most])])

    def memcpy(self):
        """The ranges are near each other, three times in four."""
        length = self.length(SIZE // 2)
        last = SIZE - length
        source = self.chance.randint(0, last)
        target = self.chance.randint(0, last)
        if not self.one_in(4):
            target = min(max(source + self.chance.randint(-8, 8), 0), last)
        return Call(self.noise(SIZE), [Place(target), Place(source), length])

    def memset(self):
        at = self.length(SIZE)
        return Call(self.noise(SIZE), [Place(at), self.byte(), self.length(SIZE - at)])

    def bzero(self):
        at = self.length(SIZE)
        return Call(self.noise(SIZE), [Place(at), self.length(SIZE - at)])

    def strlen(self):
        return Call(*self.field_of(self.text() + b"\0"))

    def strchr(self):
        field, places = self.field_of(self.text() + b"\0")
        return Call(field, places + [self.byte()])

    def strcmp(self):
        first = self.text()
        field, places = self.field_of(first + b"\0", self.alike(first) + b"\0")
        return Call(field, places)

    def strncmp(self):
        first = self.text()
        second = self.alike(first)
        equal = len(os.path.commonprefix([first, second]))
        field, places = self.field_of(first + b"\0", second + b"\0")
        most = self.chance.choice([0, equal, equal + 1, len(first), len(first) + 1, len(second) + 2, 0xFFFFFFFF])
        return Call(field, places + [most])

    def strcpy(self):
        text = self.text() + b"\0"
        field, places = self.field_of(self.noise(len(text)), text)
        return Call(field, places)

    def strcat(self):
        text = self.text()
        field, places = self.field_of(self.text() + b"\0" + self.noise(len(text)), text + b"\0")
        return Call(field, places)

    def strncpy(self):
        text = self.text()
        length = self.chance.choice([0, max(len(text) - 1, 0), len(text), len(text) + 1, self.length(40)])
        field, places = self.field_of(self.noise(length), text + b"\0")
        return Call(field, places + [length])

    def strtol(self):
        base = self.chance.choice([0, 0, 10, 16, 16, 8, 2, 36, self.chance.randint(2, 36)])
        text = self.numeral(base) + b"\0"
        at = self.chance.randint(0, 8)
        end = SIZE - 4 * self.chance.randint(1, 4)
        field = bytearray(self.noise(SIZE))
        field[at:at + len(text)] = text
        return Call(bytes(field), [Place(at), 0 if self.one_in(4) else Place(end), base])

    def numeral(self, base):
        """What strtol reads, and may stop in: white space, a sign, a prefix, digits and another byte."""
        choice = self.chance.choice
        white = bytes(self.chance.choices(SPACES, k=self.length(3)))
        if self.one_in(16):
            white += bytes([choice(NO_SPACES)])
        sign = choice([b"", b"", b"+", b"-", b"-"]) if not self.one_in(16) else choice([b"+-", b"--", b"- "])
        prefix = choice([b"", b"0x", b"0X", b"0"]) if base in (0, 16) or self.one_in(8) else b""
        told = base or {b"": 10, b"0": 8}.get(prefix, 16)
        number = choice(LIMITS) if self.one_in(3) else self.chance.randrange(told ** self.chance.randint(1, 7))
        digits = b"" if self.one_in(5) else self.digits(number, told)
        return white + sign + prefix + digits + bytes([choice(b"\0\0 zZgGfF89@/:[`{-\x80")])

    def digits(self, number, base):
        """The digits of a number, each letter large or small by chance."""
        number, digit = divmod(number, base)
        letter = "0123456789abcdefghijklmnopqrstuvwxyz"[digit].encode()
        return (self.digits(number, base) if number else b"") + (letter.upper() if self.one_in(2) else letter)

    def sprintf(self):
        """A call whose text fits into the field beside the format and the strings."""
        while True:
            parts = [self.conversion() for _ in range(self.length(ARGUMENTS))]
            form = self.text()[:4] + b"".join(part + self.text()[:3] for part, _ in parts) + b"\0"
            values = [value for _, value in parts if value is not None]
            strings = [value for value in values if isinstance(value, bytes)]
            text = LIBC.snprintf(None, 0, form, *map(variable, values))
            if text + 1 + len(form) + sum(map(len, strings)) <= SIZE:
                break
        field, places = self.field_of(self.noise(text + 1), form, *strings)
        rest = iter(places[2:])
        arguments = [next(rest) if isinstance(value, bytes) else value for value in values]
        return Call(field, places[:2] + arguments + [0] * (ARGUMENTS - len(arguments)))

    def conversion(self):
        """A conversion, and its argument: a number, a string's bytes, or none."""
        choice = self.chance.choice
        letter = choice("diuoxXdiuoxXcscs%")
        if letter == "%":
            return b"%%", None
        width = choice(["", "", "1", "5", "12"])
        precision = choice(["", "", ".", ".0", ".1", ".3", ".10"])
        left = choice(["", "-"])
        if letter == "c":
            return f"%{left}{width}c".encode(), self.byte()
        if letter == "s":
            return f"%{left}{width}{precision}s".encode(), self.text()[:8] + b"\0"
        flags = choice(["", "", "-", "0", "0", "-0", "0-", "00"])
        size = choice(["", "", "l", "ll", "h"])
        bits = 16 if size == "h" else 32
        number = choice([0, 1, 8, (1 << bits - 1) - 1, 1 << bits - 1, (1 << bits) - 1, self.chance.getrandbits(bits)])
        if letter in "di" and number >> bits - 1:
            number -= 1 << bits
        if precision in (".", ".0"):
            number = number or 1
        return f"%{flags}{width}{precision}{size}{letter}".encode(), number


def variable(value):
    """An argument behind a format for the host: an int is the lower half of a long."""
    return ctypes.c_char_p(value) if isinstance(value, bytes) else ctypes.c_long(value)


def loaded():
    """The host's C library in its locale "C", with what its functions take and answer, but for what sprintf takes."""
    locale.setlocale(locale.LC_ALL, "C")
    library = ctypes.CDLL("libc.so.6")
    for name, (_, takes, answers) in FUNCTIONS.items():
        function = getattr(library, name)
        function.restype = TYPES[answers]
        if name != "sprintf":
            function.argtypes = [TYPES[word] for word in takes.split()]
    return library


def there(name, call, address):
    """The word that a call answers and the field behind it, by the host, as they are with the field at an address."""
    buffer = ctypes.create_string_buffer(call.field, SIZE)
    start = ctypes.addressof(buffer)
    values = [start + value.at if isinstance(value, Place) else value for value in call.arguments]
    end = ctypes.c_void_p()
    if name == "strtol":
        values[1] = ctypes.addressof(end) if values[1] else None
    elif name == "sprintf":
        values = [ctypes.c_long(value) for value in values]
    answer = getattr(LIBC, "memmove" if name == "memcpy" else name)(*values)
    field = bytearray(buffer.raw)
    if end.value is not None:
        struct.pack_into("<I", field, call.arguments[1].at, address + end.value - start)
    answers = FUNCTIONS[name].answers
    if answers == "place":
        answer = 0 if answer is None else address + answer - start
    elif answers == "order":
        answer = (answer > 0) - (answer < 0)
    elif answers == "long":
        answer = min(max(answer, -1 << 31), (1 << 31) - 1)
    return (answer or 0) & 0xFFFFFFFF, bytes(field)


def words(values):
    """The statements of words, eight in a line."""
    for at in range(0, len(values), 8):
        yield "    .word " + ", ".join(map(str, values[at:at + 8]))


def load_arguments(count):
    """The instructions that load the arguments of a call, each of which is the sum of two words at $s0."""
    for number in range(count):
        yield f"    lw $t0, {8 * number}($s0)"
        yield f"    lw $t1, {8 * number + 4}($s0)"
        yield "    nop"
        if number < 4:
            yield f"    addu $a{number}, $t0, $t1"
        else:
            yield "    addu $t0, $t0, $t1"
            yield f"    sw $t0, {4 * number}($sp)"


def source(name, calls):
    """The parts of a module that makes the calls one after the other. An argument in a field is two words: where the
    fields begin, and how far behind that it is."""
    number, takes, _ = FUNCTIONS[name]
    count = len(takes.split())
    loads = "\n".join(load_arguments(count))
    yield TEXT.format(name=name, number=number, loads=loads, size=8 * count)
    yield "arguments:"
    for at, call in enumerate(calls):
        pairs = [("fields", at * SIZE + value.at) if isinstance(value, Place) else (0, value)
                 for value in call.arguments]
        yield from words([word for pair in pairs for word in pair])
    yield "fields:"
    yield from words([f"{word:#x}" for call in calls for word, in struct.iter_unpack("<I", call.field)])
    yield "answers:"
    yield from words([0] * len(calls))


def dumped(lines):
    """The address and the bytes of a dump."""
    found = [re.fullmatch("([0-9a-f]{8}): ([0-9a-f]+)", line) for line in lines]
    found = [line.groups() for line in found if line]
    return (int(found[0][0], 16), bytes.fromhex("".join(text for _, text in found))) if found else (0, b"")


def here(calls, lines):
    """The address of the fields, and what each call answered and left of its field; none where the run failed."""
    image = re.fullmatch("0 load 1 ok ([0-9a-f]{8}) ([0-9a-f]{8})", lines[0]) if lines else None
    first, memory = dumped(lines)
    if not image or not memory or not any(line.endswith(" end quiet") for line in lines):
        return 0, []
    base, length = (int(text, 16) for text in image.groups())
    answers = base + length - 4 * len(calls)
    fields = answers - SIZE * len(calls)
    return fields, [(struct.unpack_from("<I", memory, answers - first + 4 * at)[0],
                     memory[fields - first + SIZE * at:][:SIZE]) for at in range(len(calls))]


def spelled(name, call, address):
    """A call and the field before it."""
    values = [address + value.at if isinstance(value, Place) else value for value in call.arguments]
    arguments = ", ".join(f"{value & 0xFFFFFFFF:#x}" for value in values)
    return f"{name}({arguments}), {address:#x} has {call.field.hex()}"


def compare(name, calls, lines):
    """Compares what the calls did, and tells of some that did something else."""
    fields, outcomes = here(calls, lines)
    if not outcomes:
        print(f"{name}: the calls were not made to their end:", *[line for line in lines if ": " not in line], sep="\n")
        print(f"0 passed, {len(calls)} failed")
        return False
    failed = 0
    for at, (call, came) in enumerate(zip(calls, outcomes)):
        address = fields + SIZE * at
        wanted = there(name, call, address)
        if came != wanted:
            failed += 1
            if failed <= SHOWN:
                print(spelled(name, call, address))
                print(f"here:  {came[0]:#010x}, {came[1].hex()}\nthere: {wanted[0]:#010x}, {wanted[1].hex()}")
    print(f"{len(calls) - failed} passed, {failed} failed")
    return not failed


def main(verb, *rest):
    if verb == "names":
        print(*FUNCTIONS, sep="\n")
        return 0
    name, count, seed, *files = rest
    if not 1 <= int(count) <= MOST:
        sys.exit(f"there can be 1 to {MOST} calls, not {count}")
    calls = Calls(name, seed).make(int(count))
    if verb == "write":
        print(*source(name, calls), sep="\n")
        return 0
    with open(files[0], encoding="utf-8") as trace:
        return 0 if compare(name, calls, trace.read().splitlines()) else 1


LIBC = loaded()

if __name__ == "__main__":
    if len(sys.argv) < 2:
        sys.exit(__doc__)
    sys.exit(main(*sys.argv[1:]))
