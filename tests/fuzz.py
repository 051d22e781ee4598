#!/usr/bin/env python3
"""Tries `nova check` on damaged images and `nova run` on scripts that are made at random, and says what went wrong.

usage: tests/fuzz.py PROGRAM MINUTES [--judge JUDGE] [--seed N] [--keep FOLDER]

An image has 8 to 64 blocks: logs of random entries, in version 2 also chains of table blocks, and then some words of it are
changed. A script formats, pokes, cuts and recovers regions, or makes calls on the files of one, with stops and now and then damage,
and in some so many files that tables grow; commands that PROGRAM doesn't have yet are left out. Images and calls are run by one
worker and by several, and an image is checked in a file, of which the metadata alone are read, and from a pipe, which is read
whole. It is wrong where a run ends by a signal or with a status other than 0, 1 and 2, where it takes over a second of processor
time, where the number of workers or the way of reading changes what is printed, and where JUDGE, a program that takes the same
words, prints another text or ends with another status. What was wrong is kept in FOLDER, and the last line counts the cases. The
exit status is 1 where one was wrong.

The cases of a seed are always the same ones.
"""

import argparse
import functools
import random
import re
import resource
import struct
import subprocess
import sys
import tempfile
import time
from collections import Counter
from pathlib import Path

from driver import Runner
from random_calls import WORKERS, Calls

BLOCK = 4096
LINK = 4064
SLOT = 128
SLOTS = BLOCK // SLOT
RECORDS = 16
MOST_SECONDS = 1.0


class Wrong(Exception):
    """What a case showed."""


class Image:
    """A region that is formatted, with logs of random entries."""

    def __init__(self, rng):
        self.rng = rng
        self.cpus, self.tables = rng.choice([1, 1, 2, 3]), rng.choice([1, 1, 2])
        self.first = 1 + self.cpus + self.cpus * self.tables
        self.blocks = rng.randint(max(8, self.first + 1), 64)
        self.bytes = bytearray(BLOCK * self.blocks)
        self.version = rng.choice([1, 2])
        self.bytes[:48] = b"NOVAPM01" + struct.pack("<QQQQQ", self.version, self.cpus, self.blocks, self.tables, rng.choice([0, 0, 1]))
        self.next = self.first
        self.chains = [self.put_chain(cpu) for cpu in range(self.cpus)]
        numbers = rng.sample([*self.fixed_numbers(), *self.chained_numbers()], rng.randint(0, 8))
        self.put_inode(1, 2, numbers)
        for inode in numbers:
            self.put_inode(inode, rng.choice([1, 1, 2]), numbers)
        self.put_records()

    def put_chain(self, cpu):
        """Links some blocks to the table of a CPU, which has them in version 2 alone."""
        link, blocks = BLOCK * (1 + cpu) + 16, []
        for _ in range(self.rng.choice([0, 0, 1, 1, 2, 3])):
            if self.next < self.blocks:
                struct.pack_into("<Q", self.bytes, link, BLOCK * self.next)
                link = BLOCK * self.next
                blocks.append(self.next)
                self.next += 1
        if self.rng.random() < 0.2:
            struct.pack_into("<Q", self.bytes, link, BLOCK * self.rng.randrange(self.blocks + 1) + self.rng.choice([0, 0, 8]))
        return blocks if self.version == 2 else []

    def fixed_numbers(self):
        return range(2, SLOTS * self.cpus * self.tables)

    def chained_numbers(self):
        """The numbers of slots in chains, those of the first and the last of a block more often."""
        for cpu, blocks in enumerate(self.chains):
            for place in range(len(blocks)):
                for slot in [*range(SLOTS - 1), 0, SLOTS - 2, 0, SLOTS - 2]:
                    yield (SLOTS * self.tables + (SLOTS - 1) * place + slot) * self.cpus + cpu

    def slot(self, inode):
        cpu, slot = inode % self.cpus, inode // self.cpus
        if slot < SLOTS * self.tables:
            return BLOCK * (1 + self.cpus + cpu * self.tables) + slot * SLOT
        place, slot = divmod(slot - SLOTS * self.tables, SLOTS - 1)
        return BLOCK * self.chains[cpu][place] + (1 + slot) * SLOT

    def put_records(self):
        """Records of words that were changed, pending or not."""
        for cpu in range(self.cpus):
            start = BLOCK * (1 + cpu)
            low, count = self.rng.choice([0, 0, 1, 250]), self.rng.choice([0, 0, 0, 1, 2])
            struct.pack_into("<QQ", self.bytes, start, low + count, low)
            for place in range(RECORDS):
                struct.pack_into("<QQ", self.bytes, start + 64 + 16 * place, self.an_address(), self.rng.randint(0, 3))

    def an_address(self):
        if self.rng.random() < 0.5:
            return 8 * self.rng.randrange(BLOCK * self.blocks // 8)
        # A word of a slot that is in a block of a table, or would be.
        return BLOCK * self.rng.randrange(1 + self.cpus, self.next + 1) + SLOT * self.rng.randrange(SLOTS) + self.rng.choice([0, 8, 16, 24])

    def put_inode(self, inode, kind, numbers):
        if self.next == self.blocks:
            return
        head = BLOCK * self.next
        tail = self.put_log([self.an_entry(kind, numbers) for _ in range(self.rng.choice([0, 1, 3, 10, 60]))])
        struct.pack_into("<QQQQQ", self.bytes, self.slot(inode), 1, kind, head, tail, self.rng.randint(0, 9))

    def put_log(self, entries):
        """Writes the entries on pages one behind the other, as far as there are blocks, and answers the tail."""
        at = BLOCK * self.next
        self.next += 1
        for entry in entries:
            if at % BLOCK + len(entry) > LINK:
                if self.next == self.blocks:
                    break
                if at % BLOCK < LINK:
                    struct.pack_into("<Q", self.bytes, at, 8 << 16)
                struct.pack_into("<Q", self.bytes, at // BLOCK * BLOCK + LINK, BLOCK * self.next)
                at = BLOCK * self.next
                self.next += 1
            self.bytes[at : at + len(entry)] = entry
            at += len(entry)
        return at

    def an_entry(self, kind, numbers):
        rng = self.rng
        what = rng.choice(["attr", "name", "name", "remove"] if kind == 2 else ["attr", "write", "write", "links"])
        if what == "attr":
            size = 0 if kind == 2 else rng.choice([0, 1, 5000, 20480])
            return struct.pack("<BBHIQQII", 2, 0, 32, rng.randrange(4096), size, rng.randint(0, 9), 0, 0)
        if what == "write":
            count = rng.randint(1, 4)
            block = rng.randint(self.first, self.blocks)
            return struct.pack("<BBHIQQQQ", 1, 0, 40, count, rng.randint(0, 6), block, rng.choice([1, 5000, 20480]), 0)
        if what == "links":
            return struct.pack("<BBHIQQ", 4, 0, 24, rng.randint(1, 3), 0, 0)[:24]
        name = rng.choice([b"a", b"b", b"eight by", b"nine byte", b"n" * 255, b"\xff"])
        length = 24 + -(-len(name) // 8) * 8
        inode = rng.choice([*numbers, 1, 5, SLOTS * self.cpus * self.tables, 31 * self.cpus * self.blocks])
        return struct.pack("<BBHIQQ", 3, 1 + (what == "remove"), length, len(name), inode, 0) + name.ljust(length - 24, b"\0")

    def change_words(self):
        """Changes some words, most of them among those that are read."""
        used = BLOCK * self.next // 8
        for _ in range(self.rng.choice([0, 1, 1, 2, 5, 40])):
            links = [512 * (1 + cpu) + 2 for cpu in range(self.cpus)] + [512 * block for block in sum(self.chains, [])]
            places = [self.rng.randrange(used), self.rng.randrange(len(self.bytes) // 8), self.rng.randrange(6), self.rng.choice(links)]
            at = 8 * self.rng.choice(places)
            old, = struct.unpack_from("<Q", self.bytes, at)
            struct.pack_into("<Q", self.bytes, at, self.another(old))
        if self.rng.random() < 0.03:
            del self.bytes[self.rng.randrange(len(self.bytes)) :]

    def another(self, word):
        rng = self.rng
        return rng.choice([
            0, 1, 2, 2**64 - 1, word ^ (1 << rng.randrange(64)), (word + 8) % 2**64, (word - 8) % 2**64, word ^ 0xFF,
            BLOCK * rng.randrange(self.blocks + 2), self.an_address(), rng.getrandbits(64),
        ])  # fmt: skip


def a_script(rng):
    """Lines that are commands, and now and then something else."""
    blocks = rng.choice([8, 12, 64])
    lines = [f"format {rng.choice([1, 1, 2, 3])} {blocks} {rng.choice([1, 1, 2])}"]
    for _ in range(rng.randint(1, 30)):
        at = 8 * rng.randrange(BLOCK * blocks // 8) if rng.random() < 0.3 else 8 * rng.randrange(BLOCK * 6 // 8)
        value = rng.choice([0, 1, 2, 8, 8 << 16, BLOCK * rng.randrange(blocks + 1), at, 2**64 - 1, rng.getrandbits(64)])
        lines.append(rng.choice([
            f"poke {at} {value}", f"poke {at} {value}", f"poke {at + rng.choice([0, 4])} {value}", f"peek {at}",
            f"recover {rng.choice([0, 1, 2, 8, 65])}", "recover 1", "report", "tree", "free", "faults", f"time {rng.randint(0, 9)}",
            f"poke 8 {rng.choice([0, 1, 2, 2, 3])}", f"poke {BLOCK * rng.choice([1, 1, 2, 3]) + 16} {BLOCK * rng.randrange(blocks + 1)}", f"replay 3 {' '.join(str(rng.randrange(4)) for _ in range(rng.randint(0, 9)))}".strip(),
            f"cut {rng.choice([at, BLOCK * blocks])}", f"format 1 {rng.choice([7, 8, 64])} {rng.choice([0, 1, 64])}", "upgrade", "# a comment", "",
        ]))  # fmt: skip
    if rng.random() < 0.1:
        lines.insert(rng.randrange(len(lines)), rng.choice(["peek", "recover x", "tree ", "poke 1", "no such command", "time 18446744073709551616"]))
    return "\n".join(lines).encode() + rng.choice([b"\n", b""])


def seconds_of_children():
    used = resource.getrusage(resource.RUSAGE_CHILDREN)
    return used.ru_utime + used.ru_stime


def run(words, given=b""):
    """What a run printed, its status, and its seconds of processor time, which a busy machine doesn't lengthen."""
    before = seconds_of_children()
    try:
        done = subprocess.run(words, input=given, capture_output=True, timeout=60 * MOST_SECONDS)
    except subprocess.TimeoutExpired:
        raise Wrong(f"{words} didn't end") from None
    return done.stdout, done.returncode, seconds_of_children() - before


def run_well(words, given=b""):
    """What a run printed and its status."""
    printed, status, seconds = run(words, given)
    if status not in (0, 1, 2):
        raise Wrong(f"{words} ended with the status {status}")
    if seconds > MOST_SECONDS:
        raise Wrong(f"{words} took {seconds:.2f} s")
    return printed, status


def compare(what, one, other):
    if one != other:
        raise Wrong(f"{what}: status {one[1]} and {other[1]}, {len(one[0])} and {len(other[0])} bytes are printed")


def try_image(program, judge, rng, path):
    image = Image(rng)
    image.change_words()
    path.write_bytes(image.bytes)
    by_one = run_well([program, "check", str(path)])
    workers = rng.choice(WORKERS)
    compare(f"{workers} workers", by_one, run_well([program, "check", str(path), "--workers", str(workers)]))
    compare("a pipe", by_one, run_well([program, "check", "/dev/stdin", "--workers", str(workers)], image.bytes))
    if judge:
        compare("the judge", by_one, run([judge, "check", str(path)])[:2])


def try_script(program, judge, rng, path):
    script = a_script(rng)
    path.write_bytes(script)
    ours = run_well([program, "run"], script)
    if judge:
        compare("the judge", ours, run([judge, "run"], script)[:2])


def try_calls(program, judge, rng, path):
    script = Calls(rng, missing_in(program)).script()
    path.write_bytes(script)
    ours = run_well([program, "run"], script)
    workers = rng.choice(WORKERS)
    others = re.sub(rb"(?m)^recover [0-9]+$", b"recover %d" % workers, script)
    compare(f"{workers} workers", ours, run_well([program, "run"], others))
    if judge:
        compare("the judge", ours, run([judge, "run"], script)[:2])


@functools.cache
def missing_in(program):
    return Runner(program, None).missing()


def main():
    words = argparse.ArgumentParser()
    words.add_argument("program")
    words.add_argument("minutes", type=float)
    words.add_argument("--judge")
    words.add_argument("--seed", type=int, default=1)
    words.add_argument("--keep", type=Path)
    told = words.parse_args()
    keep = told.keep or Path(tempfile.mkdtemp(prefix="fuzz-"))
    keep.mkdir(parents=True, exist_ok=True)
    end = time.monotonic() + 60 * told.minutes
    tried, wrong = Counter(), 0
    while time.monotonic() < end:
        number = told.seed * 10_000_000 + tried.total()
        rng = random.Random(number)
        way = rng.choice([try_image, try_script, try_calls, try_calls])
        path = keep / f"{way.__name__[4:]}_{number}"
        tried[path.name.split("_")[0]] += 1
        try:
            way(told.program, told.judge, rng, path)
        except Wrong as what:
            wrong += 1
            print(f"{path}: {what}", flush=True)
            continue
        path.unlink()
    kinds = ", ".join(f"{count} of {kind}" for kind, count in sorted(tried.items()))
    print(f"{tried.total()} cases ({kinds}), {wrong} wrong")
    sys.exit(1 if wrong else 0)


if __name__ == "__main__":
    main()
