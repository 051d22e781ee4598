#!/usr/bin/env python3
"""Writes an image of 65,536 blocks, or of as many as are asked for, with as many small files as fit, all named in the root
directory.

usage: tests/small-files.py PATH [--blocks N]

Each file has one log page and one block of data. The image has 16 CPUs, and 64 where it has more than 65,536 blocks, so that
its tables have room for the files. The format is told in docs/LAYOUT.md.
"""

import struct
import sys

BLOCK = 4096
BLOCKS = int(sys.argv[3]) if sys.argv[2:3] == ["--blocks"] and len(sys.argv) == 4 else 65536
CPUS = 16 if BLOCKS <= 65536 else 64
TABLE_BLOCKS = 64
FIRST_DATA = 1 + CPUS + CPUS * TABLE_BLOCKS
ENTRIES_END = 4064
NAME_ENTRY = 32
NAMES_A_PAGE = ENTRIES_END // NAME_ENTRY


def root_pages(files):
    """The log of the root has an attributes entry, as long as a name entry here, and a name for each file."""
    return -(-(files + 1) // NAMES_A_PAGE)


def files_that_fit():
    files = 32 * CPUS * TABLE_BLOCKS - 2
    while root_pages(files) + 2 * files > BLOCKS - FIRST_DATA:
        files -= 1
    return files


def attributes(mode, size):
    return struct.pack("<BBHIQQII", 2, 0, 32, mode, size, 0, 0, 0)


def name_entry(name, inode):
    text = name.encode()
    return struct.pack("<BBHIQQ", 3, 1, NAME_ENTRY, len(text), inode, 0) + text.ljust(8, b"\0")


def write_entry(block, size):
    return struct.pack("<BBHIQQQQ", 1, 0, 40, 1, 0, block, size, 0)


def put(image, at, data):
    image[at : at + len(data)] = data


def put_slot(image, inode, kind, head, tail):
    cpu, slot = inode % CPUS, inode // CPUS
    at = (1 + CPUS + cpu * TABLE_BLOCKS) * BLOCK + slot * 128
    put(image, at, struct.pack("<QQQQQ", 1, kind, head, tail, 0))


def put_root(image, files):
    """The root's log stands at the first data blocks, one page after the other."""
    entries = [attributes(493, 0)] + [name_entry(f"f{i:06}", i + 2) for i in range(files)]
    head = FIRST_DATA * BLOCK
    for page in range(root_pages(files)):
        start = head + page * BLOCK
        here = entries[page * NAMES_A_PAGE : (page + 1) * NAMES_A_PAGE]
        put(image, start, b"".join(here))
        tail = start + NAME_ENTRY * len(here)
        if (page + 1) * NAMES_A_PAGE < len(entries):
            put(image, start + ENTRIES_END, struct.pack("<Q", start + BLOCK))
    put_slot(image, 1, 2, head, tail)


def put_file(image, inode, block):
    """The log page at this block, the data behind it."""
    entries = attributes(420, 0) + write_entry(block + 1, 100)
    put(image, block * BLOCK, entries)
    put(image, (block + 1) * BLOCK, b"A" * 100)
    put_slot(image, inode, 1, block * BLOCK, block * BLOCK + len(entries))


def main():
    if len(sys.argv) not in (2, 4) or sys.argv[1].startswith("-") or sys.argv[2:3] not in ([], ["--blocks"]):
        sys.exit(__doc__)
    image = bytearray(BLOCK * BLOCKS)
    files = files_that_fit()
    put(image, 0, b"NOVAPM01" + struct.pack("<QQQQQ", 1, CPUS, BLOCKS, TABLE_BLOCKS, 0))
    put_root(image, files)
    for i in range(files):
        put_file(image, i + 2, FIRST_DATA + root_pages(files) + 2 * i)
    with open(sys.argv[1], "wb") as out:
        out.write(image)
    print(f"{files} files")


if __name__ == "__main__":
    main()
