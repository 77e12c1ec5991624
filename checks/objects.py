#!/usr/bin/env python3
"""Objects as the gABI and the Intel386 supplement have them, written down by hand, apart from the code of ccelf.

Usage: objects.py compare OBJECT   whether OBJECT, the object of a unit below, has exactly the bytes that are meant
       objects.py write OBJECT     stores that object of those below
       objects.py end IMAGE        stores an image that ends with 42, to see whether a host runs images by itself
"""

import os
import struct
import sys

SECTION_NAMES = [
    b"", b".text", b".rodata", b".data", b".bss", b".rel.text", b".rel.rodata", b".rel.data", b".symtab", b".strtab", b".shstrtab",
]
R_386_PC32 = 2
GLOBAL, GLOBAL_FUNC = 0x10, 0x12
UNDEFINED, TEXT = 0, 1

# For each object its text, its relocations (place and number of the symbol), and its symbols (name, value, size, info, section).
OBJECTS = {
    # int f(void); int main(void) { f(); putbyte(66); return 3; }
    "main.o": (
        "e8fcffffff b842000000 50 e8fcffffff 58 b803000000 c3",
        [(1, 1), (12, 3)],
        [(b"f", 0, 0, GLOBAL, UNDEFINED), (b"main", 0, 23, GLOBAL_FUNC, TEXT), (b"putbyte", 0, 0, GLOBAL, UNDEFINED)],
    ),
    # int f(void) { putbyte(65); return 0; }
    "f.o": (
        "b841000000 50 e8fcffffff 58 b800000000 c3",
        [(7, 2)],
        [(b"f", 0, 18, GLOBAL_FUNC, TEXT), (b"putbyte", 0, 0, GLOBAL, UNDEFINED)],
    ),
    # A main that asks for one byte by `int $0x80`, and returns how many came.
    "reads.o": (
        "53 50 89e1 bb00000000 ba01000000 b803000000 cd80 59 5b c3",
        [],
        [(b"main", 0, 24, GLOBAL_FUNC, TEXT)],
    ),
}


def padded(data, align):
    return data + bytes(-len(data) % align)


def object_of(text, relocations, symbols):
    """The file of these parts: header, contents in the order of the sections, section headers."""
    text = bytes.fromhex(text.replace(" ", ""))
    start = len(padded(bytes(64) + text, 4))
    relocation = b"".join(struct.pack("<II", place, number * 256 + R_386_PC32) for place, number in relocations)
    strings, table = b"\0", bytes(16)
    for name, value, size, info, section in symbols:
        table += struct.pack("<IIIBBH", len(strings), value, size, info, 0, section)
        strings += name + b"\0"
    section_names = b"".join(name + b"\0" for name in SECTION_NAMES)
    symbols_at = start + len(relocation)
    strings_at = symbols_at + len(table)
    names_at = strings_at + len(strings)
    headers_at = len(padded(bytes(names_at + len(section_names)), 4))
    places = [section_names.index(b"\0" + name + b"\0") + 1 if name else 0 for name in SECTION_NAMES]
    # type, flags, address, offset, size, link, info, alignment, size of an entry
    rows = [
        (0, 0, 0, 0, 0, 0, 0, 0, 0),
        (1, 6, 0, 64, len(text), 0, 0, 16, 0),
        (1, 2, 0, start, 0, 0, 0, 4, 0),
        (1, 3, 0, start, 0, 0, 0, 4, 0),
        (8, 3, 0, start, 0, 0, 0, 4, 0),
        (9, 0, 0, start, len(relocation), 8, 1, 4, 8),
        (9, 0, 0, symbols_at, 0, 8, 2, 4, 8),
        (9, 0, 0, symbols_at, 0, 8, 3, 4, 8),
        (2, 0, 0, symbols_at, len(table), 9, 1, 4, 16),
        (3, 0, 0, strings_at, len(strings), 0, 0, 1, 0),
        (3, 0, 0, names_at, len(section_names), 0, 0, 1, 0),
    ]
    header = b"\x7fELF\x01\x01\x01" + bytes(9)
    header += struct.pack("<HHIIIIIHHHHHH", 1, 3, 1, 0, 0, headers_at, 0, 52, 0, 0, 40, 11, 10)
    front = padded(padded(header, 64) + text, 4) + relocation + table + strings + section_names
    return padded(front, 4) + b"".join(struct.pack("<10I", place, *row) for place, row in zip(places, rows))


def ending_image():
    """An ELF32 program of 96 bytes that ends with the status 42."""
    code = bytes.fromhex("b801000000 bb2a000000 cd80".replace(" ", ""))
    start, size = 0x08048000, 84 + len(code)
    header = b"\x7fELF\x01\x01\x01" + bytes(9)
    header += struct.pack("<HHIIIIIHHHHHH", 2, 3, 1, start + 84, 52, 0, 0, 52, 32, 1, 0, 0, 0)
    return header + struct.pack("<8I", 1, 0, start, start, size, size, 5, 4096) + code


def main():
    what, path = sys.argv[1:]
    if what == "end":
        with open(path, "wb") as file:
            file.write(ending_image())
        return
    wanted = object_of(*OBJECTS[os.path.basename(path)])
    if what == "write":
        with open(path, "wb") as file:
            file.write(wanted)
        return
    with open(path, "rb") as file:
        got = file.read()
    if got != wanted:
        at = next((at for at, (a, b) in enumerate(zip(got, wanted)) if a != b), min(len(got), len(wanted)))
        sys.exit(f"{path} has {len(got)} bytes, {len(wanted)} are meant; the first that differs is byte {at}")


main()
