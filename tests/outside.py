#!/usr/bin/env python3
"""Prints the names that the objects of an archive for x86-64 ask for and none of them has, a line each.

usage: tests/outside.py ARCHIVE"""
import struct
import sys

SYMBOLS = 2


def objects(archive):
    at = len(b"!<arch>\n")
    while at < len(archive):
        size = int(archive[at + 48:at + 58])
        if archive[at + 60:at + 64] == b"\x7fELF":
            yield archive[at + 60:at + 60 + size]
        at += 60 + size + size % 2


def names(elf):
    """The names of an object, each with whether the object has it."""
    (table,) = struct.unpack_from("<Q", elf, 40)
    size, count = struct.unpack_from("<HH", elf, 58)
    sections = [struct.unpack_from("<IIQQQQIIQQ", elf, table + i * size) for i in range(count)]
    for section in sections:
        if section[1] == SYMBOLS:
            text = sections[section[6]][4]
            for at in range(section[4], section[4] + section[5], 24):
                name, _, _, where = struct.unpack_from("<IBBH", elf, at)
                if name:
                    yield elf[text + name:elf.index(b"\0", text + name)].decode(), where != 0


def main():
    if len(sys.argv) != 2:
        sys.exit(__doc__)
    with open(sys.argv[1], "rb") as f:
        found = [pair for elf in objects(f.read()) for pair in names(elf)]
    here = {name for name, has in found if has}
    for name in sorted({name for name, _ in found} - here):
        print(name)


main()
