#!/usr/bin/env python3
"""Makes an IRX file of a module that was linked at 0 with its relocation entries kept (ld -q, irx.ld).

    mkirx.py ELF IRX NAME MAJOR MINOR

The words of a module that is linked at 0 hold places of the image. So an entry needs no symbol in the IRX file: the
loader adds the image's base, whatever the entry refers to.
"""

import struct
import sys

# ELF TIS 1.2 and the MIPS ABI
SHT_SYMTAB, SHT_NOBITS, SHT_REL = 2, 8, 9
SHF_ALLOC = 2
SHN_UNDEF, SHN_LORESERVE = 0, 0xFF00
R_MIPS_32, R_MIPS_26, R_MIPS_HI16, R_MIPS_LO16 = 2, 4, 5, 6

# ps2sdk's IRX files
ET_IRX = 0xFF80
PT_MODULE_INFORMATION = 0x70000080

FILE_HEADER, SEGMENT, SECTION = struct.Struct("<16sHHIIIIIHHHHHH"), struct.Struct("<8I"), struct.Struct("<10I")
SYMBOL, ENTRY, INFORMATION = struct.Struct("<IIIBBH"), struct.Struct("<II"), struct.Struct("<6IH")


class Section:
    """A section of the linked file."""

    def __init__(self, file, fields):
        _, self.kind, self.flags, self.start, offset, self.size, self.link, self.info, _, _ = fields
        self.bytes = b"" if self.kind == SHT_NOBITS else file[offset:offset + self.size]


def read_elf(file):
    """The entry and the sections of a linked file."""
    header = FILE_HEADER.unpack_from(file)
    if header[0][:6] != b"\x7fELF\x01\x01" or header[2] != 8:
        sys.exit("not a little-endian MIPS file of 32 bits")
    entry, sections, count = header[4], header[6], header[12]
    return entry, [Section(file, SECTION.unpack_from(file, sections + n * SECTION.size)) for n in range(count)]


def image_of(sections):
    """The image's bytes, the size of its text, and how many zero bytes follow: section .text is the first."""
    allocated = [section for section in sections if section.flags & SHF_ALLOC and section.size]
    image = bytearray()
    for section in allocated:
        if section.kind != SHT_NOBITS:
            image.extend(bytes(section.start - len(image)))
            image.extend(section.bytes)
    image.extend(bytes(-len(image) % 4))
    end = max(section.start + section.size for section in allocated)
    return bytes(image), allocated[0].size, max(end - len(image), 0)


def kept_entry(sections, rel, site, info):
    """An entry of the linked file as it stands in the IRX file."""
    number, kind = info >> 8, info & 0xFF
    place = SYMBOL.unpack_from(sections[rel.link].bytes, number * SYMBOL.size)[5]
    if kind not in (R_MIPS_32, R_MIPS_26, R_MIPS_HI16, R_MIPS_LO16):
        sys.exit(f"the entry at {site:#x} has type {kind}: only 2, 4, 5 and 6 are known")
    if place == SHN_UNDEF or place >= SHN_LORESERVE:
        sys.exit(f"the entry at {site:#x} refers to something outside the image")
    return ENTRY.pack(site, kind)


def relocations_of(sections):
    """A list of entries for each section of the image that has them."""
    for rel in sections:
        if rel.kind == SHT_REL and sections[rel.info].flags & SHF_ALLOC:
            yield b"".join(kept_entry(sections, rel, *entry) for entry in ENTRY.iter_unpack(rel.bytes))


def irx(entry, image, text, zeros, lists, name, version):
    """The bytes of an IRX file: headers, module information, image, entries, section headers."""
    information = INFORMATION.pack(0xFFFFFFFF, entry, 0, text, len(image) - text, zeros, version) + name + b"\0"
    at = FILE_HEADER.size + 2 * SEGMENT.size
    image_at = at + len(information) + -len(information) % 4
    entries_at = image_at + len(image)
    sections_at = entries_at + sum(map(len, lists))
    parts = [
        FILE_HEADER.pack(b"\x7fELF\x01\x01\x01", ET_IRX, 8, 1, entry, FILE_HEADER.size, sections_at, 0,
                         FILE_HEADER.size, SEGMENT.size, 2, SECTION.size, len(lists) + 1, 0),
        SEGMENT.pack(PT_MODULE_INFORMATION, at, 0, 0, len(information), len(information), 4, 4),
        SEGMENT.pack(1, image_at, 0, 0, len(image), len(image) + zeros, 7, 16),
        information.ljust(image_at - at, b"\0"), image, *lists, bytes(SECTION.size),
    ]
    for entries in lists:
        parts.append(SECTION.pack(0, SHT_REL, 0, 0, entries_at, len(entries), 0, 0, 4, ENTRY.size))
        entries_at += len(entries)
    return b"".join(parts)


def main(source, target, name, major, minor):
    with open(source, "rb") as elf:
        entry, sections = read_elf(elf.read())
    image, text, zeros = image_of(sections)
    lists = list(relocations_of(sections))
    with open(target, "wb") as file:
        file.write(irx(entry, image, text, zeros, lists, name.encode(), int(major) * 256 + int(minor)))


if __name__ == "__main__":
    if len(sys.argv) != 6:
        sys.exit(__doc__)
    main(*sys.argv[1:])
