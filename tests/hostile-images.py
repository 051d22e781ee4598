#!/usr/bin/env python3
"""Writes images that a checker could be stalled with, checks each, and compares its time with what is allowed: a second
for a million entries, and never less than a second.

usage: tests/hostile-images.py PROGRAM [--blocks N] [--looks] [NAME..]

Each image has 65,536 blocks, or as many as are asked for, and is written to a temporary folder, one at a time. The format is
told in docs/LAYOUT.md. With names, only the images of those names are checked. The most memory that the checker took beside
the image is shown too. With `--looks` the commands that take files out of an image, or show one, have as long, and a second
more for each gigabyte that they write.
"""

import os
import random
import struct
import subprocess
import sys
import tempfile
import threading
import time

BLOCK = 4096
BLOCKS = int(sys.argv[3]) if sys.argv[2:3] == ["--blocks"] and len(sys.argv) > 3 else 65536
# The words of a command with those in front of the image's path, and those behind it.
LOOKS = ((["ls", "-R"], []), (["ls", "-l"], []), (["du"], []), (["map"], []), (["log", "--all"], []), (["tar"], ["--lost-found"]))
PIECE = 1 << 20
ENTRIES_END = 4064
SLOT = 128
FILE, DIRECTORY = 1, 2
ROOT = 1
# What the hash of a name is multiplied by: names that end in these bytes have one hash.
MULTIPLIER = struct.pack("<Q", 0x9E3779B97F4A7C15)


class Image:
    """A formatted region in which logs are written one behind the other, and data blocks are counted from the end."""

    def __init__(self, path, cpus=1, table_blocks=1, version=1):
        self.file = open(path, "w+b")
        self.file.truncate(BLOCK * BLOCKS)
        self.cpus, self.table_blocks = cpus, table_blocks
        self.first_data = 1 + cpus + cpus * table_blocks
        self.next = self.first_data
        self.entries = 0
        self.put(0, b"NOVAPM01" + struct.pack("<QQQQQ", version, cpus, BLOCKS, table_blocks, 0))

    def put(self, at, data):
        self.file.seek(at)
        self.file.write(data)

    def put_slot(self, inode, kind, head, tail):
        cpu, slot = inode % self.cpus, inode // self.cpus
        at = (1 + self.cpus + cpu * self.table_blocks) * BLOCK + slot * SLOT
        self.put(at, struct.pack("<QQQQQ", 1, kind, head, tail, 0))

    def put_log(self, entries):
        """Writes a log of these entries on the next pages, and returns its head and tail. A page is left where an entry doesn't fit."""
        head = self.next * BLOCK
        page = bytearray()
        for entry in entries:
            self.entries += 1
            if len(page) + len(entry) > ENTRIES_END:
                self.put_page(page, linked=True)
                page = bytearray()
            page += entry
        tail = self.next * BLOCK + len(page)
        self.put_page(page, linked=False)
        return head, tail

    def put_page(self, page, linked):
        start = self.next * BLOCK
        if linked:
            if len(page) < ENTRIES_END:
                page += struct.pack("<Q", 8 << 16)
            page = page.ljust(ENTRIES_END, b"\0") + struct.pack("<Q", start + BLOCK)
        self.put(start, page)
        self.next += 1

    def put_inode(self, inode, kind, entries):
        self.put_slot(inode, kind, *self.put_log(entries))

    def put_chain(self, cpus, count):
        """Lets the tables of these CPUs go on in the last blocks, all in the same ones, in no order that a reader foresees."""
        order = list(range(BLOCKS - count, BLOCKS))
        random.Random(count).shuffle(order)
        for cpu in cpus:
            self.put((1 + cpu) * BLOCK + 16, struct.pack("<Q", order[0] * BLOCK))
        for block, following in zip(order, order[1:]):
            self.put(block * BLOCK, struct.pack("<Q", following * BLOCK))
        self.entries += len(cpus) * count
        return order


def attributes(mode, size):
    return struct.pack("<BBHIQQII", 2, 0, 32, mode, size, 0, 0, 0)


def write(page, count, block, size):
    return struct.pack("<BBHIQQQQ", 1, 0, 40, count, page, block, size, 0)


def adds(name, inode):
    length = 24 + -(-len(name) // 8) * 8
    return struct.pack("<BBHIQQ", 3, 1, length, len(name), inode, 0) + name.ljust(length - 24, b"\0")


def put_root(image, names):
    image.put_inode(ROOT, DIRECTORY, [attributes(493, 0), *names])


def put_file(image, entries):
    """The root and one file of these entries."""
    put_root(image, [adds(b"a", 2)])
    image.put_inode(2, FILE, entries)


def backwards_and_cut(path):
    """A file is written backwards page by page and cut, again and again."""
    image, pages = Image(path), 20_000

    def entries():
        for _ in range(20):
            for page in reversed(range(pages)):
                yield write(page, 1, BLOCKS - pages + page, pages * BLOCK)
            yield attributes(420, 0)

    put_file(image, entries())
    return image


def backwards(path):
    """A file of 40,000 pages is written backwards, and each is then overwritten in another order."""
    image, pages = Image(path), 40_000
    order = list(range(pages))
    random.Random(1).shuffle(order)

    def entries():
        for page in [*reversed(range(pages)), *order, *reversed(order)]:
            yield write(page, 1, BLOCKS - pages + page, pages * BLOCK)

    put_file(image, entries())
    return image


def over_one_another(path):
    """Each entry writes 60,000 pages, over those of the entry before."""
    image, pages = Image(path), 60_000
    put_file(image, (write(k % 7, pages - 7, BLOCKS - pages + k % 7, pages * BLOCK) for k in range(200_000)))
    return image


def every_other_page(path):
    """A fragmented file is overwritten by entries of 40,000 pages, in turn with single pages."""
    image, pages = Image(path), 40_000

    def entries():
        for k in range(150_000):
            yield write(0, pages, BLOCKS - pages, pages * BLOCK)
            yield write(2 * k % pages, 1, BLOCKS - pages + 2 * k % pages, pages * BLOCK)

    put_file(image, entries())
    return image


def grown_and_cut(path):
    """A file of 40,000 pages grows to its whole size, is cut to nothing, and so on."""
    image, pages = Image(path), 40_000

    def entries():
        for _ in range(200_000):
            yield write(0, pages, BLOCKS - pages, pages * BLOCK)
            yield attributes(420, 0)

    put_file(image, entries())
    return image


def apart(path):
    """Single pages, each 64 pages behind the one before, over the whole of what a file can have."""
    image = Image(path, 16, 64)
    files, pages = 8, 4_096
    put_root(image, [adds(b"%d" % k, 2 + k) for k in range(files)])
    for k in range(files):
        first = BLOCKS - (k + 1) * pages
        image.put_inode(2 + k, FILE, (write(64 * p, 1, first + p, 1 << 30) for p in range(pages)))
    return image


def one_log(path):
    """8,000 files with one log of 125 entries."""
    image = Image(path, 16, 64)
    put_root(image, [adds(b"%d" % k, 2 + k) for k in range(8_000)])
    head, tail = image.put_log(write(k % 50, 1, BLOCKS - 50 + k % 50, 50 * BLOCK) for k in range(125))
    for k in range(8_000):
        image.put_slot(2 + k, FILE, head, tail)
    image.entries += 7_999 * 125
    return image


def log_of_shared_pages(path):
    """200 files whose logs begin apart, and go on by the same 100 pages of 101 entries."""
    image = Image(path, 16, 64)
    put_root(image, [adds(b"%d" % k, 2 + k) for k in range(200)])
    head, tail = image.put_log(write(k % 50, 1, BLOCKS - 50 + k % 50, 50 * BLOCK) for k in range(101 * 100))
    for k in range(200):
        start = image.next * BLOCK
        image.put_page(bytearray(), linked=True)
        image.put(start + ENTRIES_END, struct.pack("<Q", head))
        image.put_slot(2 + k, FILE, start, tail)
    image.entries += 199 * 101 * 100
    return image


def ring_of_pages(path):
    """200 files whose logs lead into one ring of 2,000 pages without an entry, in which their tails aren't."""
    image = Image(path, 16, 64)
    put_root(image, [adds(b"%d" % k, 2 + k) for k in range(200)])
    first = image.next
    for k in range(2_000):
        at = image.next * BLOCK
        image.put_page(bytearray(), linked=True)
        # Each seventh page away, so that the pages of the ring don't lie in a row.
        image.put(at + ENTRIES_END, struct.pack("<Q", (first + (k + 7) % 2_000) * BLOCK))
    tail = image.next * BLOCK + 64
    for k in range(200):
        image.put_slot(2 + k, FILE, (first + 10 * k) * BLOCK, tail)
    image.entries += 200 * 2_000
    return image


def links_into_data(path):
    """15,000 files whose logs lead into the pages of one file, the bytes of which are links to one another."""
    image = Image(path, 16, 64)
    put_root(image, [adds(b"%d" % k, 2 + k) for k in range(15_000)])
    first = BLOCKS - 4_000
    image.put_inode(2, FILE, [write(0, 4_000, first, 4_000 * BLOCK)])
    for k in range(4_000):
        image.put((first + k) * BLOCK + ENTRIES_END, struct.pack("<Q", (first + (k + 1) % 4_000) * BLOCK))
        image.put((first + k) * BLOCK, struct.pack("<Q", 8 << 16))
    for k in range(1, 15_000):
        image.put_slot(2 + k, FILE, (first + k % 4_000) * BLOCK, (first + (k + 20) % 4_000) * BLOCK + 8)
    image.entries += 15_000 * 21
    return image


def chain(path):
    """30,000 directories, each named by the one before."""
    image = Image(path, 16, 64)
    put_root(image, [adds(b"d", 2)])
    for inode in range(2, 30_002):
        image.put_inode(inode, DIRECTORY, [attributes(493, 0), adds(b"d", inode + 1)] if inode < 30_001 else [attributes(493, 0)])
    return image


def ring(path):
    """30,000 directories in a ring that the root doesn't reach."""
    image = Image(path, 16, 64)
    put_root(image, [])
    for inode in range(2, 30_002):
        image.put_inode(inode, DIRECTORY, [attributes(493, 0), adds(b"d", inode + 1 if inode < 30_001 else 2)])
    return image


def one_hash(path):
    """100,000 names whose hashes are the same, for files that aren't there."""
    image = Image(path, 16, 64)
    put_root(image, (adds(b"%08d" % k + MULTIPLIER, 2 + k % 30_000) for k in range(100_000)))
    return image


def long_names(path):
    """200,000 names of 255 bytes that begin alike."""
    image = Image(path, 16, 64)
    put_root(image, (adds(b"n" * 247 + b"%08d" % k, 2 + k % 30_000) for k in range(200_000)))
    return image


def added_and_removed(path):
    """One name is added and removed, half a million times."""
    image = Image(path)
    removes = bytearray(adds(b"a", 2))
    removes[1] = 2
    put_root(image, (adds(b"a", 2) if k % 2 == 0 else bytes(removes) for k in range(1_000_000)))
    return image


def chain_of_tables(path):
    """A table that goes on in nearly all blocks, none of which has a slot in use."""
    image = Image(path, version=2)
    put_root(image, [])
    image.put_chain([0], BLOCKS - 536)
    return image


def ring_of_tables(path):
    """The same, and its last block leads back to its first."""
    image = Image(path, version=2)
    put_root(image, [])
    order = image.put_chain([0], BLOCKS - 536)
    image.put(order[-1] * BLOCK, struct.pack("<Q", order[0] * BLOCK))
    return image


def shared_chain(path):
    """The tables of 64 CPUs go on in the same blocks, so that each of these has 64 owners."""
    image = Image(path, 64, 1, version=2)
    put_root(image, [])
    image.put_chain(range(64), BLOCKS // 4)
    return image


def slots_of_one_log(path):
    """Each slot of a long chain is used by a file, all with one log."""
    image, count = Image(path, version=2), BLOCKS // 8
    put_root(image, [])
    head, tail = image.put_log([attributes(420, 0)])
    slot = struct.pack("<QQQQQ", 1, FILE, head, tail, 0).ljust(SLOT, b"\0")
    for block in image.put_chain([0], count):
        image.put(block * BLOCK + SLOT, slot * (BLOCK // SLOT - 1))
    image.entries += (BLOCK // SLOT - 1) * count
    return image


IMAGES = [
    backwards_and_cut,
    backwards,
    over_one_another,
    every_other_page,
    grown_and_cut,
    apart,
    one_log,
    log_of_shared_pages,
    ring_of_pages,
    links_into_data,
    chain,
    ring,
    one_hash,
    long_names,
    added_and_removed,
    chain_of_tables,
    ring_of_tables,
    shared_chain,
    slots_of_one_log,
]


def ran(words, limit):
    """The seconds that a command takes, its most memory in bytes, how many bytes it writes, and how it ended: None where it was stopped."""
    began, written = time.monotonic(), 0
    done = subprocess.Popen(words, stdout=subprocess.PIPE, stderr=subprocess.DEVNULL)
    end = threading.Timer(limit, done.kill)
    end.start()
    while piece := done.stdout.read1(PIECE):
        written += len(piece)
    _, status, usage = os.wait4(done.pid, 0)
    end.cancel()
    done.returncode = os.waitstatus_to_exitcode(status)
    return time.monotonic() - began, usage.ru_maxrss * 1024, written, None if done.returncode < 0 else done.returncode


def try_one(name, words, entries):
    """Runs a command on an image with so many entries, and prints what it took. Answers whether that is allowed."""
    allowed = max(1.0, entries / 1e6)
    seconds, memory, written, status = ran(words, 60 * allowed)
    if words[1] != "check":
        allowed += written / 1e9
    verdict = "ok" if status in (0, 1) and seconds <= allowed else "SLOW" if status in (0, 1) else "STALLED" if status is None else f"ENDED WITH {status}"
    beside = max(0, memory - BLOCK * BLOCKS) / 1e6
    print(f"{name:24} {entries:9} entries {seconds:8.2f} s of {allowed:.2f} {beside:8.1f} MB  {verdict}", flush=True)
    return verdict == "ok"


def main():
    if len(sys.argv) < 2 or sys.argv[1].startswith("-"):
        sys.exit(__doc__)
    program, names = os.path.abspath(sys.argv[1]), sys.argv[4 if sys.argv[2:3] == ["--blocks"] else 2 :]
    looks = LOOKS if "--looks" in names else ()
    names = [name for name in names if name != "--looks"]
    slow = 0
    for make in IMAGES:
        if names and make.__name__ not in names:
            continue
        with tempfile.TemporaryDirectory() as folder:
            path = os.path.join(folder, "image")
            image = make(path)
            image.file.close()
            slow += not try_one(make.__name__, [program, "check", path], image.entries)
            for first, last in looks:
                slow += not try_one("  " + " ".join(first + last), [program, *first, path, *last], image.entries)
    print(f"{slow} slow")
    sys.exit(slow > 0)


if __name__ == "__main__":
    main()
