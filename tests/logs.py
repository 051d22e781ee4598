#!/usr/bin/env python3
"""Compares what `nova log`, `nova block`, `nova ls --long`, `nova ls --recursive` and `nova du` print with texts that are written here
by hand.

usage: tests/logs.py [PROGRAM]

The images are written byte by byte, so that each entry stands at a known place: a file that is overwritten, cut and linked, a
directory whose names go and come back, logs of two and three pages, entries that don't count, and a log for each fault that ends
its reading. A log is asked for by path and by number, of a plain file and through a pipe, and all logs at once. Of such images
blocks are shown, the names of the root with their attributes, those of all directories below one, and counts of blocks. The last line counts the cases, and the status
is 1 where one was wrong. The format is told in docs/LAYOUT.md.
"""

import struct
import subprocess
import sys
import tempfile
from pathlib import Path

HERE = Path(__file__).resolve().parent.parent
PROGRAM = sys.argv[1] if len(sys.argv) > 1 else str(HERE / "crates/nova/out/nova")
BLOCK = 4096
BLOCKS = 32
# A superblock, a journal and one block of a table stand in front of the data blocks.
FIRST_DATA = 3
FILE, DIRECTORY = 1, 2
LINK = 4064


# ---- entries


def next_page():
    return struct.pack("<Q", 8 << 16)


def write(page, count, block, size, time):
    return struct.pack("<BBHIQQQQ", 1, 0, 40, count, page, block, size, time)


def attributes(mode, size, time, owner=0, group=0):
    return struct.pack("<BBHIQQII", 2, 0, 32, mode, size, time, owner, group)


def name(operation, of, inode, time):
    length = 24 + -(-len(of) // 8) * 8
    return struct.pack("<BBHIQQ", 3, operation, length, len(of), inode, time) + of.ljust(length - 24, b"\0")


def add(of, inode, time):
    return name(1, of, inode, time)


def remove(of, inode, time):
    return name(2, of, inode, time)


def links(count, time):
    return struct.pack("<BBHIQQ", 4, 0, 24, count, time, 0)


# ---- images


class Image:
    """A region of zeros with a superblock. Its root has a log in block 3, and names inode 2 as `a`."""

    def __init__(self):
        self.bytes = bytearray(BLOCK * BLOCKS)
        self.put(0, b"NOVAPM01" + struct.pack("<QQQQQ", 1, 1, BLOCKS, 1, 0))
        self.log(1, DIRECTORY, [(3, [attributes(493, 0, 0), add(b"a", 2, 0)])])

    def put(self, at, data):
        self.bytes[at : at + len(data)] = data

    def word(self, at, value):
        self.put(at, struct.pack("<Q", value))

    def slot(self, inode, kind, head, tail):
        self.put(2 * BLOCK + 128 * inode, struct.pack("<QQQQQ", 1, kind, head, tail, 0))

    def log(self, inode, kind, pages):
        """A log of these pages, each a block with its entries. A page that another one follows is linked to it."""
        for place, (block, entries) in enumerate(pages):
            self.put(block * BLOCK, b"".join(entries))
            if place + 1 < len(pages):
                self.word(block * BLOCK + LINK, pages[place + 1][0] * BLOCK)
        block, entries = pages[-1]
        self.slot(inode, kind, pages[0][0] * BLOCK, block * BLOCK + sum(map(len, entries)))
        return self


def file(*entries):
    """The file `a`, whose log has these entries in block 4."""
    return Image().log(2, FILE, [(4, list(entries))])


def overwritten():
    """Page 0 is written twice, and pages 1 and 2 once; page 2 is cut then."""
    return file(
        attributes(420, 0, 1),
        write(0, 3, 10, 12288, 2),
        write(0, 1, 13, 12288, 3),
        links(2, 4),
        attributes(384, 8192, 5, 7, 8),
        links(1, 6),
    )


OVERWRITTEN = """\
inode 2 file
  log 4 tail 16576
  block 4 offset 0 dead by block 4 offset 136 attributes mode 420 owner 0 group 0 size 0 time 1
  block 4 offset 32 stands 1 of 3 write page 0 count 3 block 10 size 12288 time 2
  block 4 offset 72 stands 1 of 1 write page 0 count 1 block 13 size 12288 time 3
  block 4 offset 112 dead by block 4 offset 168 links 2 time 4
  block 4 offset 136 stands attributes mode 384 owner 7 group 8 size 8192 time 5
  block 4 offset 168 stands links 1 time 6
  ends at its tail
"""


def removals():
    """The root has `a` and `b c`; `b c` goes, comes back as another inode, and `d` goes for good."""
    image = file(attributes(420, 0, 0))
    image.log(5, FILE, [(6, [attributes(420, 0, 0)])])
    return image.log(
        1,
        DIRECTORY,
        [
            (
                3,
                [
                    attributes(493, 0, 0),
                    add(b"a", 2, 0),
                    add(b"b c", 4, 1),
                    add(b"d", 3, 2),
                    remove(b"b c", 4, 3),
                    add(b"b c", 5, 4),
                    remove(b"d", 3, 5),
                ],
            )
        ],
    )


REMOVALS = """\
inode 1 dir
  log 3 tail 12512
  block 3 offset 0 stands attributes mode 493 owner 0 group 0 size 0 time 0
  block 3 offset 32 stands add time 0 name a 2
  block 3 offset 64 dead by block 3 offset 128 add time 1 name b\\x20c 4
  block 3 offset 96 dead by block 3 offset 192 add time 2 name d 3
  block 3 offset 128 dead by block 3 offset 160 remove time 3 name b\\x20c 4
  block 3 offset 160 stands add time 4 name b\\x20c 5
  block 3 offset 192 stands remove time 5 name d 3
  ends at its tail
"""


def two_pages():
    """The first page ends by a next-page entry at byte 72."""
    return Image().log(
        2,
        FILE,
        [
            (4, [attributes(420, 0, 1), write(0, 1, 10, 4096, 2), next_page()]),
            (8, [write(0, 1, 11, 4096, 3)]),
        ],
    )


TWO_PAGES = """\
inode 2 file
  log 4 8 tail 32808
  block 4 offset 0 stands attributes mode 420 owner 0 group 0 size 0 time 1
  block 4 offset 32 dead by block 8 offset 0 write page 0 count 1 block 10 size 4096 time 2
  block 4 offset 4064 next page block 8
  block 8 offset 0 stands 1 of 1 write page 0 count 1 block 11 size 4096 time 3
  ends at its tail
"""


def full_page():
    """127 entries fill the first page, so that no next-page entry stands in it. The second has none of another kind."""
    full = [attributes(420, 0, time) for time in range(127)]
    return Image().log(2, FILE, [(5, full), (4, [next_page()]), (9, [links(1, 127)])])


FULL_PAGE = (
    "inode 2 file\n  log 5 4 9 tail 36888\n"
    + "".join(
        f"  block 5 offset {32 * k} dead by block 5 offset {32 * k + 32} attributes mode 420 owner 0 group 0 size 0 time {k}\n"
        for k in range(126)
    )
    + """\
  block 5 offset 4032 dead by block 9 offset 0 attributes mode 420 owner 0 group 0 size 0 time 126
  block 5 offset 4064 next page block 4
  block 4 offset 4064 next page block 9
  block 9 offset 0 stands links 1 time 127
  ends at its tail
"""
)


def no_count():
    """No page, a mode of 13 bits, no links, a name in a file, and a write behind the region: none of them counts."""
    return file(
        attributes(420, 0, 1),
        write(0, 0, 10, 4096, 2),
        attributes(4096, 0, 3),
        links(0, 4),
        add(b"x", 2, 5),
        write(0, 2, 31, 8192, 6),
        write(0, 1, 31, 4096, 7),
    )


NO_COUNT = """\
inode 2 file
  log 4 tail 16624
  block 4 offset 0 stands attributes mode 420 owner 0 group 0 size 0 time 1
  block 4 offset 32 fault E1 write page 0 count 0 block 10 size 4096 time 2
  block 4 offset 72 fault E1 attributes mode 4096 owner 0 group 0 size 0 time 3
  block 4 offset 104 fault E1 links 0 time 4
  block 4 offset 128 fault E2 add time 5 name x 2
  block 4 offset 160 fault E1 write page 0 count 2 block 31 size 8192 time 6
  block 4 offset 200 stands 1 of 1 write page 0 count 1 block 31 size 4096 time 7
  ends at its tail
"""


def no_change():
    """Attributes that stand already, one link, pages that are unmapped and mapped again, and one that is written where it lies."""
    return file(
        attributes(420, 0, 0),
        attributes(420, 0, 0),
        links(1, 0),
        write(0, 3, 10, 12288, 1),
        attributes(420, 0, 1),
        write(0, 1, 13, 4096, 1),
        write(0, 1, 13, 4096, 1),
        write(2, 1, 14, 12288, 1),
    )


NO_CHANGE = """\
inode 2 file
  log 4 tail 16664
  block 4 offset 0 dead by block 4 offset 32 attributes mode 420 owner 0 group 0 size 0 time 0
  block 4 offset 32 changes nothing attributes mode 420 owner 0 group 0 size 0 time 0
  block 4 offset 64 changes nothing links 1 time 0
  block 4 offset 88 dead by block 4 offset 128 write page 0 count 3 block 10 size 12288 time 1
  block 4 offset 128 dead by block 4 offset 160 attributes mode 420 owner 0 group 0 size 0 time 1
  block 4 offset 160 dead by block 4 offset 200 write page 0 count 1 block 13 size 4096 time 1
  block 4 offset 200 changes nothing write page 0 count 1 block 13 size 4096 time 1
  block 4 offset 240 stands 1 of 1 write page 2 count 1 block 14 size 12288 time 1
  ends at its tail
"""


def damaged(at, value):
    """The log of two pages with another word at this byte."""
    image = two_pages()
    image.word(at, value)
    return image


TWO_PAGES_BEGIN = """\
inode 2 file
  log 4 tail 32808
  block 4 offset 0 stands attributes mode 420 owner 0 group 0 size 0 time 1
  block 4 offset 32 stands 1 of 1 write page 0 count 1 block 10 size 4096 time 2
"""

# The next-page entry stands at byte 72 of block 4, the link at byte 4064, the tail at byte 40 of block 8.
WRONG_LINK = TWO_PAGES_BEGIN + "  ends by L1 at block 4 offset 4064\n"
ROUND = TWO_PAGES_BEGIN + "  ends by L2 at block 4 offset 4064\n"
NO_ENTRY = TWO_PAGES_BEGIN + "  ends by L3 at block 4 offset 72\n"
PASSED = """\
inode 2 file
  log 4 8 tail 32776
  block 4 offset 0 stands attributes mode 420 owner 0 group 0 size 0 time 1
  block 4 offset 32 stands 1 of 1 write page 0 count 1 block 10 size 4096 time 2
  block 4 offset 4064 next page block 8
  ends by L4 at block 8 offset 0
"""
NO_LOG = """\
inode 2 file
  no log, by I3
"""
# The slot of inode 2 stands in block 2 from byte 256 on, its head at 272 and its tail at 280.
SLOT = 2 * BLOCK + 256

CASES = [
    ("a file that is overwritten", overwritten(), OVERWRITTEN),
    ("a log of two pages", two_pages(), TWO_PAGES),
    ("a full page, and one with no entry", full_page(), FULL_PAGE),
    ("entries that don't count", no_count(), NO_COUNT),
    ("entries that change nothing", no_change(), NO_CHANGE),
    ("a link that isn't the start of a data block", damaged(4 * BLOCK + LINK, 8), WRONG_LINK),
    ("a link back into the log", damaged(4 * BLOCK + LINK, 4 * BLOCK), ROUND),
    ("no entry where one could begin", damaged(4 * BLOCK + 72, 9), NO_ENTRY),
    ("an entry that passes the tail", damaged(SLOT + 24, 8 * BLOCK + 8), PASSED),
    ("a head in front of the data blocks", damaged(SLOT + 16, 2 * BLOCK), NO_LOG),
]


# The root of the images has these entries, unless it is written otherwise.
ROOT = """\
inode 1 dir
  log 3 tail 12352
  block 3 offset 0 stands attributes mode 493 owner 0 group 0 size 0 time 0
  block 3 offset 32 stands add time 0 name a 2
  ends at its tail
"""
SECOND = """\
inode 5 file
  log 6 tail 24608
  block 6 offset 0 stands attributes mode 420 owner 0 group 0 size 0 time 0
  ends at its tail
"""
FIRST = SECOND.replace("inode 5", "inode 2").replace("block 6", "block 4").replace("log 6 tail 24608", "log 4 tail 16416")


def shared():
    """Block 10 is page 0 and page 2 of the file, and block 4 is page 1 of it and its log."""
    return file(attributes(420, 0, 1), write(0, 1, 10, 4096, 2), write(1, 1, 4, 8192, 3), write(2, 1, 10, 12288, 4))


BLOCKS_OF = [
    (two_pages, 0, "superblock"),
    (two_pages, 1, "journal 0"),
    (two_pages, 2, "table 0 0"),
    (two_pages, 3, "log 1 0"),
    (two_pages, 4, "log 2 0"),
    (two_pages, 8, "log 2 1"),
    (two_pages, 10, "free"),
    (two_pages, 11, "data 2 0"),
    (two_pages, 31, "free"),
    (overwritten, 11, "data 2 1"),
    (overwritten, 12, "free"),
    (shared, 4, "log 2 0", "data 2 1"),
    (shared, 10, "data 2 0", "data 2 2"),
]


def rows_of(image, block):
    """The bytes of a block, 16 in a row."""
    starts = range(block * BLOCK, (block + 1) * BLOCK, 16)
    return "".join(f"{at:08x}  {image.bytes[at : at + 16].hex(' ')}\n" for at in starts)


def unused():
    """The root has `a` and a name whose inode isn't in use."""
    image = file(attributes(384, 0, 1, 7, 8), write(0, 1, 10, 9, 2), links(2, 3))
    return image.log(1, DIRECTORY, [(3, [attributes(493, 0, 0), add(b"b c", 9, 0), add(b"a", 2, 0)])])


UNUSED = """\
file 384 2 7 8 9 3 a 2
unused b\\x20c 9
"""


# Of the image `tree` the names below the root, below `d`, and below the same by its number. `up` is the root again.
BELOW_ROOT = """\
/:
a 2
d 3
gone 9

/d:
b 2
e 4
up 1

/d/e:
"""

BELOW_D = """\
{0}:
b 2
e 4
up 1

{0}/e:

{0}/up:
a 2
d 3
gone 9
"""

LONG_BELOW_ROOT = """\
/:
file 420 2 0 0 12288 3 a 2
dir 493 1 0 0 0 0 d 3
unused gone 9

/d:
file 420 2 0 0 12288 3 b 2
dir 493 1 0 0 0 0 e 4
dir 493 1 0 0 0 0 up 1

/d/e:
"""


# ---- what is tried


class Counts:
    passed = failed = 0

    def same(self, case, wanted, found):
        if wanted == found:
            self.passed += 1
            return
        self.failed += 1
        print(f"WRONG: {case}\n  wanted {wanted}\n  found  {found}")

    def refused(self, case, why, found):
        status, output, errors = found
        self.same(case, (2, "", f"refused {why}"), (status, output, errors.split("\n")[0]))


def run(*words, image=None, command="log"):
    ended = subprocess.run([PROGRAM, command, *map(str, words)], input=image, capture_output=True, check=False)
    return ended.returncode, ended.stdout.decode(), ended.stderr.decode()


def try_all_logs(counts, path):
    for case, image, text in (("two logs", two_pages(), ROOT + TWO_PAGES), ("three logs", removals(), REMOVALS + FIRST + SECOND)):
        path.write_bytes(image.bytes)
        counts.same(f"{case} at once", (0, text), run("--all", path)[:2])
        counts.same(f"{case} at once, through a pipe", (0, text), run("--all", "-", image=bytes(image.bytes))[:2])


def try_blocks(counts, path):
    for make, block, *told in BLOCKS_OF:
        image = make()
        path.write_bytes(image.bytes)
        lines = "".join(f"block {block} {it}\n" for it in told)
        case = f"block {block} of {make.__name__}"
        counts.same(case, (0, lines), run(path, block, command="block")[:2])
        counts.same(f"{case}, with its bytes", (0, lines + rows_of(image, block)), run("--hex", path, block, command="block")[:2])
    counts.refused("a block behind the last", "NotFound", run(path, BLOCKS, command="block"))
    counts.same("a word for a block", 2, run(path, "x", command="block")[0])


def try_names(counts, path):
    path.write_bytes(unused().bytes)
    for words in (("-l", path), ("--long", path, "/"), ("-l", path, "1"), ("-l", path, "<1>")):
        counts.same(f"names with attributes, {words[1:]}", (0, UNUSED), run(*words, command="ls")[:2])
    counts.same("the same through a pipe", (0, UNUSED), run("-l", "-", image=bytes(unused().bytes), command="ls")[:2])
    counts.refused("the names of a file", "NotDirectory", run("-l", path, "/a", command="ls"))
    counts.refused("the names of a name without an inode", "NotFound", run("-l", path, "9", command="ls"))


def tree():
    """The file `a` has a second name in the directory `d`, which leads back to the root, and inode 7 has no name."""
    image = file(attributes(420, 0, 1), write(0, 3, 10, 12288, 2), links(2, 3))
    image.log(3, DIRECTORY, [(5, [attributes(493, 0, 0), add(b"b", 2, 0), add(b"up", 1, 0), add(b"e", 4, 0)])])
    image.log(4, DIRECTORY, [(6, [attributes(493, 0, 0)])])
    image.log(7, FILE, [(8, [attributes(420, 0, 0), write(0, 2, 20, 8192, 1)])])
    return image.log(1, DIRECTORY, [(3, [attributes(493, 0, 0), add(b"a", 2, 0), add(b"d", 3, 0), add(b"gone", 9, 0)])])


def try_counts(counts, path):
    path.write_bytes(tree().bytes)
    # Logs of one block each, and three blocks of the file `a`.
    for which, blocks in (((), 7), (("/",), 7), (("/a",), 4), (("2",), 4), (("/d",), 7), (("/d/e",), 1), (("7",), 3)):
        counts.same(f"blocks of {which}", (0, f"blocks {blocks}\n"), run(path, *which, command="du")[:2])
    counts.same("blocks through a pipe", (0, "blocks 7\n"), run("-", image=bytes(tree().bytes), command="du")[:2])
    counts.refused("blocks of nothing", "NotFound", run(path, "/gone", command="du"))


def spaced():
    """The root has the directory `a b`, and that has `a-`, `a` and `A`, of which the first two are directories with one name each."""
    image = Image()
    image.log(1, DIRECTORY, [(3, [attributes(493, 0, 0), add(b"a b", 3, 0)])])
    image.log(2, FILE, [(4, [attributes(420, 0, 0)])])
    image.log(3, DIRECTORY, [(5, [attributes(493, 0, 0), add(b"a-", 4, 0), add(b"a", 5, 0), add(b"A", 2, 0)])])
    image.log(4, DIRECTORY, [(6, [attributes(493, 0, 0), add(b"x", 2, 0)])])
    return image.log(5, DIRECTORY, [(7, [attributes(493, 0, 0), add(b"y", 2, 0)])])


SPACED = """\
/:
a\\x20b 3

/a\\x20b:
A 2
a 5
a- 4

/a\\x20b/a:
y 2

/a\\x20b/a-:
x 2
"""


def try_folders(counts, path):
    path.write_bytes(tree().bytes)
    for words in (("-R", path), ("--recursive", path, "/"), (path, "1", "-R")):
        top = "#1" if "1" in words else ""
        text = BELOW_ROOT.replace("/:", f"{top or '/'}:", 1).replace("\n/d", f"\n{top}/d")
        counts.same(f"names below the root, {words[1:]}", (0, text), run(*words, command="ls")[:2])
    for which, shown in (("/d", "/d"), ("3", "#3"), ("<3>", "#3")):
        counts.same(f"names below {which}", (0, BELOW_D.format(shown)), run("-R", path, which, command="ls")[:2])
    counts.same("names below an empty directory", (0, "/d/e:\n"), run("-R", path, "/d/e", command="ls")[:2])
    counts.same("names below the root with attributes", (0, LONG_BELOW_ROOT), run("-R", "-l", path, command="ls")[:2])
    counts.same("names below the root through a pipe", (0, BELOW_ROOT), run("-R", "-", image=bytes(tree().bytes), command="ls")[:2])
    counts.refused("names below a file", "NotDirectory", run("-R", path, "/a", command="ls"))
    counts.refused("names below nothing", "NotFound", run("-R", path, "/gone", command="ls"))
    path.write_bytes(spaced().bytes)
    counts.same("names with spaces, and the order of directories", (0, SPACED), run("-R", path, command="ls")[:2])


def main():
    counts = Counts()
    with tempfile.TemporaryDirectory() as folder:
        path = Path(folder) / "image"
        for case, image, text in CASES:
            path.write_bytes(image.bytes)
            for which in ("/a", "2", "<2>"):
                counts.same(f"{case}, {which}", (0, text), run(path, which)[:2])
            counts.same(f"{case}, through a pipe", (0, text), run("-", "/a", image=bytes(image.bytes))[:2])
        path.write_bytes(removals().bytes)
        for which in ("/", "1"):
            counts.same(f"a directory whose names go, {which}", (0, REMOVALS), run(path, which)[:2])
        counts.refused("a path to nothing", "NotFound", run(path, "/none"))
        counts.refused("a number of no inode in use", "NotFound", run(path, "9"))
        counts.refused("a path through a file", "NotDirectory", run(path, "/a/b"))
        counts.refused("a word that is no path", "BadName", run(path, "a"))
        path.write_bytes(b"\0" * BLOCK * BLOCKS)
        counts.refused("no superblock", "S2", run(path, "1"))
        counts.refused("no superblock, and all logs", "S2", run("--all", path))
        counts.refused("no superblock, and a block", "S2", run(path, "3", command="block"))
        counts.refused("no superblock, and blocks", "S2", run(path, command="du"))
        counts.refused("no superblock, and names", "S2", run("-l", path, command="ls"))
        counts.refused("no superblock, and names below", "S2", run("-R", path, command="ls"))
        counts.same("no inode and not all", 2, run(path)[0])
        counts.same("an inode and all", 2, run("--all", path, "1")[0])
        try_all_logs(counts, path)
        try_blocks(counts, path)
        try_names(counts, path)
        try_folders(counts, path)
        try_counts(counts, path)
    print(f"{counts.passed} passed, {counts.failed} failed")
    return 1 if counts.failed else 0


if __name__ == "__main__":
    sys.exit(main())
