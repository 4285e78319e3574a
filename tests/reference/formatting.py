"""printf and Kprintf: the text of a format and its arguments."""

import re

MOST = 4096  # bytes of a text, and what a greater width or precision counts as

# Flags, width, precision, and the letter, which is missing at the format's end.
CONVERSION = re.compile(rb"%([-0]*)([0-9]*)(?:\.([0-9]*))?[hl]*(.?)", re.DOTALL)

DIGITS = {b"d": b"%d", b"i": b"%d", b"u": b"%d", b"o": b"%o", b"x": b"%x", b"X": b"%X", b"p": b"%08x"}


def formatted(pattern, arguments, string_at):
    """The text. `arguments` gives words one after the other, `string_at` the string at an address."""
    def text_of(found):
        flags, width, precision, letter = found.groups()
        precision = None if precision is None else bounded(precision)
        if letter == b"%":
            return b"%"
        if letter == b"c":
            text = bytes([next(arguments) % 256])
        elif letter == b"s":
            text = string_at(next(arguments))[:precision]
        elif letter in DIGITS:
            fills = b"0" in flags and b"-" not in flags and precision is None
            text = number(letter, next(arguments), precision or 0, bounded(width) if fills else 0)
        else:
            return found[0]
        return text.ljust(bounded(width)) if b"-" in flags else text.rjust(bounded(width))

    return CONVERSION.sub(text_of, pattern)[:MOST]


def number(letter, word, least, width):
    """The text of a number with at least so many digits, and zeros behind its sign up to a width."""
    sign = b""
    if letter in (b"d", b"i") and word >= 2**31:
        sign, word = b"-", 2**32 - word
    return sign + (DIGITS[letter] % word).rjust(max(least, width - len(sign)), b"0")


def bounded(digits):
    """A width or a precision."""
    digits = digits.lstrip(b"0")
    return min(int(digits or b"0"), MOST) if len(digits) <= len(str(MOST)) else MOST


class Formatting:
    """Of the machine: what it prints for a guest, from its registers and memory."""

    def print_formatted(self):
        """Prints by the format at `$a0`, and answers how many bytes."""
        text = formatted(self.bytes_at(self.cpu.r[4]), self.format_arguments(5), self.string_at)
        self.console += text
        return len(text)

    def format_arguments(self, first):
        """The registers from that number to `$a3`, and the words of the stack; one that is misaligned or outside RAM
        reads 0."""
        yield from self.cpu.r[first:8]
        at = self.cpu.r[29] + 16
        while True:
            place = self.memory.place(at % 2**32, 4, 4)
            yield 0 if place is None else self.memory.word(place)
            at += 4

    def string_at(self, at):
        return self.bytes_at(at) if at else b"(null)"

    def bytes_at(self, at):
        """The bytes before the first zero byte or RAM's end."""
        place = self.memory.place(at, 0)
        return b"" if place is None else bytes(self.memory.ram[place:]).partition(b"\0")[0]
