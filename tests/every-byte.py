#!/usr/bin/env python3
"""Changes each byte of a small region's superblock, journal, table and logs, and compares what the recoveries make of it.

usage: tests/every-byte.py [PROGRAM] [--judge JUDGE]

One region has 8 blocks, a file and its root; of it the blocks 0 to 4 are changed. One that was upgraded has a second file, whose slot
stands in a block in which the table goes on; that block is changed too, and the file's log. Each byte is changed by exclusive
or with 1 and with 255. The recovery on one thread and that by a schedule of three workers print the same report and leave the same words, and so
do 2 and 8 workers where the byte is a word's first. `nova map` of the changed image, whose recovery has no worker at all,
shows the blocks of that report and counts its faults. JUDGE, a program that takes the same scripts, prints the same too. Then
come regions that were cut, and scripts whose output is known. JOBS=2 processes are run at a time; it takes minutes. The last
line counts the cases, and the status is 1 where one was wrong.
"""

import re
import subprocess
import sys
import tempfile
import time
from collections import Counter
from typing import NamedTuple

from driver import BLOCK, Case, Runner, Wrong, each, first_difference, lines, peeks, told, words_of

MASKS = [1, 255]


class Region(NamedTuple):
    """A region: what makes it, how many blocks it has, and which of them are changed."""

    build: bytes
    blocks: int
    changed: tuple

    def seen(self):
        """What is looked at behind a recovery."""
        return b"report\n" + peeks(0, self.blocks)


FIXED = Region(lines("format 1 8 1", "recover 1", "create 0 /a", "write 0 /a 0 5000 65"), 8, (0, 1, 2, 3, 4))
# The table goes on in block 6, where inode 32 has its slot. Its log is block 7, and the root names it b.
SECOND_FILE = {4112: 24576, 24704: 1, 24712: 1, 24720: 28672, 24728: 28704, 28672: 420 << 32 | 32 << 16 | 2}
SECOND_NAME = {12352: 1 << 32 | 32 << 16 | 1 << 8 | 3, 12360: 32, 12376: 98, 8344: 12384}
POKES = [f"poke {at} {word}" for at, word in {**SECOND_FILE, **SECOND_NAME}.items()]
CHAINED = Region(lines("format 1 9 1", "recover 1", "upgrade", "create 0 /a", "write 0 /a 0 100 65", *POKES), 9, (0, 1, 2, 3, 4, 6, 7))
WAYS = [b"recover 1\n", b"replay 3 2 1 0 2 1 0\n"]
# These are tried too where the byte is the first of its word.
WAYS_OF_WORDS = [*WAYS, b"recover 2\n", b"recover 8\n"]
# The bytes that one process is run for.
BATCH = 16

BASE2 = ["format 2 64 1", "recover 1"]
RING = ["format 1 16 1", "poke 12320 524288", "poke 16352 16384", "poke 16384 524288", "poke 20448 12288", "poke 8344 20488"]
RING_SAYS = """recovered inodes 1 free 11 faults 1
region version 1 cpus 1 blocks 16 tables 1 state 0
inode 1 dir mode 493 owner 0 group 0 size 0 links 1 time 0
  log 3 4 tail 20488
free 0 5-15
fault L2 inode 1 at 20448
"""
# Scripts, and how what they print ends.
KNOWN = [
    (["format 1 16 1", "cut 32768", "recover 1"], "refused S5\n"),
    (
        [*BASE2, "create 0 /a", "create 0 /b", "poke 12560 24576", "poke 12568 24608", "recover 8", "free", "faults"],
        """recovered inodes 3 free 57 faults 2
free 0 7-33
free 1 34-63
fault B1 block 6 log 2 0
fault B1 block 6 log 4 0
""",
    ),
    *(([*RING, way, "report"], RING_SAYS) for way in ["recover 1", "recover 2", "recover 8", "replay 2 1 1 0 0"]),
]


def kind_of(text):
    """In a word or some, what a recovery made of a region."""
    refused = re.search(rb"refused (S[0-9]|Workers|Schedule)", text)
    if refused:
        return refused[1].decode()
    classes = sorted({found.decode() for found in re.findall(rb"\nfault ([A-Z][0-9])", text)})
    return "+".join(classes) or "no faults"


def map_of(report):
    """What `nova map` prints for a region of one block in a cell, and its number of faults, by what a recovery reported."""
    lines = report.decode().splitlines()
    if lines[0].startswith("refused"):
        return lines[0] + "\n", 0
    region = next(line.split() for line in lines if line.startswith("region "))
    cpus, blocks, tables = (int(region[place]) for place in (4, 6, 8))
    # What isn't free, and nothing else here, is a block in which a table goes on.
    letters = ["S"] * (1 + cpus + cpus * tables) + ["T"] * (blocks - 1 - cpus - cpus * tables)
    # Of a block's uses the last of these is shown: free, data, log, doubled.
    uses = {".": [], "D": [], "L": [], "!": []}
    for line in lines:
        words = line.split()
        if line.startswith("free "):
            for run in words[2:]:
                uses["."] += range(int(run.split("-")[0]), int(run.split("-")[-1]) + 1)
        elif line.startswith("  page "):
            uses["D"] += range(int(words[3]), int(words[3]) + int(words[2]))
        elif line.startswith("  log "):
            uses["L"] += map(int, words[1 : words.index("tail")])
        elif line.startswith("fault B1 "):
            uses["!"].append(int(words[3]))
    for letter, used in uses.items():
        for block in used:
            letters[block] = letter
    table = "T table, " if "T" in letters else ""
    shown = "".join(letters) + f"\nblocks in a cell 1: . free, S system, {table}D data, L log, ! doubled\n"
    return shown, int(lines[0].split()[-1])


def mapped(program, image):
    """What `nova map` prints of an image, and the faults that it counts."""
    done = subprocess.run([program, "map", image], capture_output=True, text=True)
    if done.returncode == 2 and not done.stdout:
        # That it is refused stands on standard error, before what would help.
        return done.stderr.splitlines(keepends=True)[0], 0
    told = re.search(r"has faults, which nova check shows: (\d+)", done.stderr)
    return done.stdout, int(told[1]) if told else 0


class Bytes:
    """The cases of a batch of bytes: each with its recoveries, all of which print one text, and its map."""

    def __init__(self, runner, region, words):
        self.runner, self.region, self.words = runner, region, words

    def __call__(self, start):
        kinds, wrong, ran, maps = Counter(), [], 0, 0
        for at in range(start, start + BATCH, 8):
            try:
                texts = self.texts_of(at)
            except Wrong as found:
                wrong.append(str(found))
                continue
            for case, image, ways in texts:
                ran += len(ways)
                maps += 1
                if self.mapped(image) != map_of(ways[0]):
                    wrong.append(str(Wrong(case, "the image's map isn't that of the report")))
                kinds[kind_of(ways[0])] += 1
                wrong += [str(Wrong(case, f"another recovery prints another text: {first_difference(ways[0], text)}")) for text in ways if text != ways[0]]
        return kinds, wrong, ran, maps

    def mapped(self, image):
        with tempfile.NamedTemporaryFile(suffix=".img") as file:
            file.write(image)
            file.flush()
            return mapped(self.runner.program, file.name)

    def image(self, at, word):
        words = [*self.words[: at // 8], word, *self.words[at // 8 + 1 :]]
        return b"".join(word.to_bytes(8, "little") for word in words)

    def texts_of(self, at):
        """For each change of a word's bytes its first case, its image, and what each recovery prints that is tried of it."""
        groups, images = [], []
        for byte in range(at, at + 8):
            for mask in MASKS:
                word = self.words[at // 8] ^ mask << 8 * (byte - at)
                build = self.region.build + b"poke %d %d\n" % (at, word)
                images.append(self.image(at, word))
                groups.append([Case(build, way + self.region.seen()) for way in (WAYS_OF_WORDS if byte == at else WAYS)])
        texts = iter(self.runner.answers([case for cases in groups for case in cases]))
        return [(cases[0], image, [next(texts) for _ in cases]) for cases, image in zip(groups, images)]


def cut(runner, region, words):
    """The findings on regions that were cut: each is refused, and has the words that it had."""
    for length in range(0, 8 * BLOCK, 512):
        seen = b"".join(b"peek %d\n" % at for at in range(0, length, 8))
        wanted = b"refused S1\n" + b"".join(b"word %d\n" % word for word in words[: length // 8])
        cases = [Case(region.build + b"cut %d\n" % length, way + seen) for way in WAYS_OF_WORDS]
        for case, text in zip(cases, runner.answers(cases)):
            if text != wanted:
                yield str(Wrong(case, f"a region of {length} bytes isn't refused S1, or was changed"))


def known(runner):
    for commands, ending in KNOWN:
        case = Case(lines(*commands[:1]), lines(*commands[1:]))
        text = runner.answer(*case)
        if not text.endswith(ending.encode()):
            yield str(Wrong(case, f"it prints {text.decode()}"))


def main():
    words = told(__doc__)
    runner = Runner(words.program, words.judge)
    began = time.monotonic()
    kinds, wrong, ran, maps = Counter(), [], 0, 0
    for region in (FIXED, CHAINED):
        base = words_of(runner.answer(region.build, peeks(0, region.blocks)))
        starts = [start for block in region.changed for start in range(block * BLOCK, (block + 1) * BLOCK, BATCH)]
        for counted, found, number, shown in each(Bytes(runner, region, base), starts):
            kinds += counted
            ran += number
            maps += shown
            wrong += found
            print("\n".join(found), end="\n" if found else "", flush=True)
    base = words_of(runner.answer(FIXED.build, peeks(0, FIXED.blocks)))
    for found in [*cut(runner, FIXED, base), *known(runner)]:
        print(found, flush=True)
        wrong.append(found)
    for kind, count in sorted(kinds.items()):
        print(f"{count:6} {kind}")
    minutes = (time.monotonic() - began) / 60
    print(f"{kinds.total()} bytes changed, {ran} recoveries of them, {maps} maps, 64 cuts, {len(KNOWN)} known scripts, {len(wrong)} wrong; {minutes:.1f} min")
    sys.exit(1 if wrong else 0)


if __name__ == "__main__":
    main()
