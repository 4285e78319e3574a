"""The words of the command."""

import re
from typing import NamedTuple

from inputs import Refused
from memory import MIB, place_of

OPTIONS = ("--budget", "--script", "--dump", "--ram", "--generate", "--save", "--restore")
MOST_MODULES = 64
MOST_NAME = 255
MOST_DUMP = 0x10000
MOST_THREADS = 250
MOST_BUDGET = 1_000_000_000_000
SIZES = {"2": 2 * MIB, "8": 8 * MIB}


class Options(NamedTuple):
    """What good words ask for: instructions, bytes of RAM, a script's name, a place and its length, threads, the names of
    snapshots, names of modules."""
    budget: int
    size: int
    script: str | None
    dump: tuple[int, int] | None
    generate: int | None
    save: str | None
    restore: str | None
    modules: list[str]


class Bad(Exception):
    """The words are not those of a command."""


def need(holds):
    if not holds:
        raise Bad


def read_words(words):
    """What words of the command line ask for, which are bytes."""
    try:
        values, modules = sort_words([word.decode() for word in words])
        size = ram_size(values.get("--ram", "2"))
        options = Options(
            number(values.get("--budget", "10000000"), 0, MOST_BUDGET),
            size,
            values.get("--script"),
            dump_range(values["--dump"], size) if "--dump" in values else None,
            number(values["--generate"], 1, MOST_THREADS) if "--generate" in values else None,
            values.get("--save"),
            values.get("--restore"),
            modules)
        names = modules + [values[option] for option in ("--save", "--restore") if option in values]
        need(all(1 <= len(name.encode()) <= MOST_NAME for name in names))
        need(len(modules) <= MOST_MODULES)
        need([options.generate is not None, options.restore is not None, modules != []].count(True) == 1)
        need(not options.restore or "--script" not in values and "--ram" not in values)
    except (Bad, UnicodeDecodeError) as bad:
        raise Refused(20, "bad words") from bad
    return options


def sort_words(words):
    """The values of the options by their names, and the modules."""
    values, modules, left = {}, [], list(words)
    while left:
        word = left.pop(0)
        if word == "--":
            return values, modules + left
        if is_dashed(word):
            name, equals, value = word.partition("=")
            if not equals:
                need(left and not is_dashed(left[0]))
                value = left.pop(0)
            need(name in OPTIONS and name not in values and value)
            values[name] = value
        else:
            modules.append(word)
    return values, modules


def is_dashed(word):
    return word.startswith("-") and word != "-"


def number(text, least, most):
    """A number in decimal digits, with any zeros before it."""
    need(re.fullmatch("[0-9]+", text))
    digits = text.lstrip("0") or "0"
    need(len(digits) <= len(str(most)) and least <= int(digits) <= most)
    return int(digits)


def ram_size(text):
    """How many bytes RAM has, of the text of the mebibytes."""
    need(text in SIZES)
    return SIZES[text]


def dump_range(text, size):
    """A place and a length in hexadecimal digits, in RAM of a size."""
    found = re.fullmatch("([0-9A-Fa-f]{1,8}):([0-9A-Fa-f]{1,8})", text)
    need(found)
    at, length = int(found[1], 16), int(found[2], 16)
    need(1 <= length <= MOST_DUMP and place_of(size, at, length) is not None)
    return at, length
