"""The rules of an IRX file, by their numbers in docs/FORMATS.md."""

import struct
from typing import NamedTuple

KINDS = (0, 2, 4, 5, 6)  # of relocation entries
HI16, LO16 = 5, 6


class Module(NamedTuple):
    """The bytes of the image in the file, its length, places and a size in it, and the relocation entries of each section:
    a site and a type."""
    image: bytes
    length: int
    entry: int
    gp: int
    text: int
    entries: list[list[tuple[int, int]]]


class Bad(Exception):
    """A rule is not met."""


def need(rule, holds):
    if not holds:
        raise Bad(rule)


def words_at(file, at, count):
    return struct.unpack_from(f"<{count}I", file, at)


def half_at(file, at):
    return struct.unpack_from("<H", file, at)[0]


def read_module(file):
    """The module of a file, or None where a rule is not met."""
    try:
        segments = read_segments(file)
        image, length, entry, gp, text = read_parts(file, segments)
        return Module(image, length, entry, gp, text, read_entries(file, length))
    except Bad:
        return None


def read_segments(file):
    """The program headers."""
    need(1, len(file) >= 52)
    need(2, file[:6] == b"\x7fELF\1\1")
    need(3, half_at(file, 16) == 0xFF80)
    need(4, half_at(file, 18) == 8)
    start, count = words_at(file, 28, 1)[0], half_at(file, 44)
    need(5, half_at(file, 42) == 32 and start + 32 * count <= len(file))
    return [words_at(file, start + 32 * n, 8) for n in range(count)]


def read_parts(file, segments):
    """The module information and the image."""
    part = lambda segment: file[segment[1]:segment[1] + segment[4]]
    in_file = lambda segment: segment[1] + segment[4] <= len(file)
    infos = [segment for segment in segments if segment[0] == 0x70000080]
    images = [segment for segment in segments if segment[0] == 1]
    need(6, infos)
    need(7, images)
    need(8, in_file(infos[0]) and len(part(infos[0])) >= 27 and 0 in part(infos[0])[26:])
    need(9, in_file(images[0]))
    _, entry, gp, text, data, bss = words_at(part(infos[0]), 0, 6)
    size, length = images[0][4], max(images[0][5], text + data + bss)
    need(10, 4 <= text <= size <= length < 2**31)
    return part(images[0]), length, entry, gp, text


def read_entries(file, length):
    """The relocation entries of each section."""
    start, count = words_at(file, 32, 1)[0], half_at(file, 48)
    need(11, count == 0 or half_at(file, 46) == 40 and start + 40 * count <= len(file))
    headers = [words_at(file, start + 40 * n, 10) for n in range(count)]
    of_entries = [header for header in headers if header[1] == 9]
    for header in of_entries:
        need(12, header[4] + header[5] <= len(file) and header[5] % 8 == 0 and header[7] < count)
    applied = [header for header in of_entries if header[7] == 0 or headers[header[7]][2] & 2]
    lists = [[(site, info % 256) for site, info in struct.iter_unpack("<II", file[header[4]:header[4] + header[5]])]
             for header in applied]
    for entries in lists:
        check_entries(entries, length)
    return lists


def check_entries(entries, length):
    """The entries of one section."""
    for n, (site, kind) in enumerate(entries):
        need(13, kind == 0 or site % 4 == 0 and site + 4 <= length)
        need(14, kind in KINDS)
        need(15, kind != HI16 or any(later == LO16 for _, later in entries[n + 1:]))
