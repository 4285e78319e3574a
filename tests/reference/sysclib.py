"""The C library: memory, strings and numbers."""

import re

from formatting import formatted
from memory import Fault

SPACES = b" \t\n\v\f\r"
DIGITS = b"0123456789abcdefghijklmnopqrstuvwxyz"
PREFIX = re.compile(b"0[xX](?=[0-9A-Fa-f])")


def compared(a, b):
    """-1, 0 or 1, by the first bytes that are not equal."""
    return (a > b) - (a < b)


def read_number(text, base):
    """The number that a text begins with, held in 32 bits, and how many bytes are read: none where there is none."""
    if base == 1 or base > len(DIGITS):
        return 0, 0
    rest = text.lstrip(SPACES)
    negative = rest.startswith(b"-")
    if rest[:1] in (b"+", b"-"):
        rest = rest[1:]
    if base in (0, 16) and PREFIX.match(rest):
        rest, base = rest[2:], 16
    elif base == 0:
        base = 8 if rest.startswith(b"0") else 10
    digits = rest[:len(rest) - len(rest.lstrip(DIGITS[:base] + DIGITS[:base].upper()))].lower()
    value = 0
    for digit in digits:
        value = min(value * base + DIGITS.index(digit), 2**31)
    read = len(text) - len(rest) + len(digits) if digits else 0
    return -value if negative else min(value, 2**31 - 1), read


class Sysclib:
    """Of the machine: the services of its C library."""

    def c_library_service(self, number):
        """A service of sysclib."""
        a, b, c = self.cpu.r[4:7]
        if number == 10:  # memchr
            return self.address_in(a, self.range_at(a, c).find(b % 256))
        if number == 11:  # memcmp
            return compared(self.range_at(a, c), self.range_at(b, c))
        if number in (12, 13):  # memcpy, memmove
            return self.put_bytes(a, self.range_at(b, c))
        if number == 14:  # memset
            return self.put_bytes(a, bytes([b % 256]), c)
        if number == 17:  # bzero
            self.put_bytes(a, b"\0", b)
            return 0
        if number == 19:  # sprintf
            text = formatted(self.bytes_at(b), self.format_arguments(6), self.string_at)
            self.put_bytes(a, text + b"\0")
            return len(text)
        if number == 20:  # strcat
            self.put_bytes(a + len(self.bytes_at(a)), self.bytes_at(b) + b"\0")
            return a
        if number == 21:  # strchr
            return self.address_in(a, (self.bytes_at(a) + b"\0").find(b % 256))
        if number == 22:  # strcmp
            return compared(self.bytes_at(a) + b"\0", self.bytes_at(b) + b"\0")
        if number == 23:  # strcpy
            return self.put_bytes(a, self.bytes_at(b) + b"\0")
        if number == 27:  # strlen
            return len(self.bytes_at(a))
        if number == 29:  # strncmp
            return compared((self.bytes_at(a) + b"\0")[:c], (self.bytes_at(b) + b"\0")[:c])
        if number == 30:  # strncpy
            self.open_range(a, c)  # before there are so many zeros
            return self.put_bytes(a, self.bytes_at(b)[:c].ljust(c, b"\0"))
        if number == 32:  # strrchr
            return self.address_in(a, (self.bytes_at(a) + b"\0").rfind(b % 256))
        return self.number_at(a, b, c)

    def number_at(self, at, end, base):
        """strtol; number 36."""
        place = self.words_at(end, 1) if end else None
        value, read = read_number(self.bytes_at(at), base)
        if end:
            self.put_words(place, (at + read) % 2**32)
        return value

    def address_in(self, at, index):
        """The address of a byte that stands so far behind another, or 0 where it was not found."""
        return 0 if index < 0 else at + index

    def open_range(self, at, length):
        """The place of a range, which must be in RAM where it has a byte."""
        place = self.memory.place(at, length) if length else 0
        if place is None:
            raise Fault("address")
        return place

    def range_at(self, at, length):
        """The bytes of a range."""
        place = self.open_range(at, length)
        return bytes(self.memory.ram[place:place + length])

    def put_bytes(self, at, data, times=1):
        """Writes bytes so many times, and answers their address."""
        place = self.open_range(at, len(data) * times)
        self.memory.write(place, data * times)
        return at
