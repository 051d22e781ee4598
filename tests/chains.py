#!/usr/bin/env python3
"""Writes images of version 2, whose tables go on in chains of blocks, and compares what the program says of them with what has to be said.

usage: tests/chains.py [PROGRAM] [--judge JUDGE] [CASE..]     closes with 'N passed, M failed'

The images are written byte by byte, and their reports are reckoned here, by the rules of docs/LAYOUT.md (images.py): chains of
one block, of two and of 65,000, used blocks among them, chains that lead nowhere, back into themselves, into one another, into a log
and into a file, and journals that name words of them. `nova check` prints each report by 1, 2, 8 and 64 workers, of a file and of a
pipe, and so does a script that recovers the image by as many, and by schedules; the words that it leaves are known too. The commands
that look into an image are tried on a tree with slots in chains, and those that change one on a full table that goes on in a chain,
as are scripts. JUDGE, a program that takes the same words, prints the same.
"""

import argparse
import io
import itertools
import os
import random
import struct
import subprocess
import sys
import tarfile
import tempfile
from pathlib import Path

import rescue
from images import BLOCK, CASES, CHAINED_SLOTS, DIRECTORY, FILE, FIRST, FOLDER, FOURTH, INNER, LAST, NAMES, ODD, OTHER, ROOT, SECOND
from images import SLOT, SLOTS, THIRD, Region, add, attributes, chains_that_meet, put_tree, records_of_slots, spelled, tree

PROGRAM = Path(__file__).resolve().parent.parent / "crates/nova/out/nova"
WORKERS = (1, 2, 8, 64)
WAYS = (*(f"recover {workers}" for workers in WORKERS), "replay 3 2 1 0 2 1 0 2 1 0", "replay 2 1 1 1 0 0 0")
# The blocks of a long chain.
MANY = 65_000

same = rescue.same


# ---- what is tried of each


def ran(program, *words, given=None):
    done = subprocess.run([program, *map(str, words)], input=given, capture_output=True, timeout=120)
    return done.returncode, done.stdout.decode("latin-1")


def told(report):
    """What a recovery says in a line, and the report behind it."""
    lines = report.splitlines()
    inodes = sum(line.startswith("inode ") for line in lines)
    runs_of = [word for line in lines if line.startswith("free ") for word in line.split()[2:]]
    free = sum(int(run.split("-")[-1]) - int(run.split("-")[0]) + 1 for run in runs_of)
    return f"recovered inodes {inodes} free {free} faults {sum(line.startswith('fault ') for line in lines)}\n{report}"


def with_words(image, words):
    left = bytearray(image)
    for at, word in words.items():
        struct.pack_into("<Q", left, at, word)
    return bytes(left)


def try_case(program, judge, folder, name, case):
    path, other, script = folder / "image", folder / "other", folder / "script"
    path.write_bytes(case.image)
    wanted = int("\nfault " in case.report), case.report
    left = with_words(case.image, case.rolled_back)
    for workers in WORKERS:
        same(f"{name}: check by {workers}", wanted, ran(program, "check", path, "--workers", workers))
    same(f"{name}: check of a pipe", wanted, ran(program, "check", "-", given=case.image))
    if judge:
        same(f"{name}: the judge", wanted, ran(judge, "check", path))
    for way in WAYS:
        script.write_text(f"{way}\nreport\n")
        same(f"{name}: {way}", (wanted[0], told(case.report)), ran(program, "run", script, "--image", path, "--save", other, "--force"))
        same(f"{name}: what is left by {way}", True, other.read_bytes() == left)


# ---- looking into an image


def try_looks(program, folder):
    path = folder / "image"
    region = tree()
    path.write_bytes(region.bytes)
    states = region.states({})
    paths = {b"/d/e": INNER, **{b"/" + name: inode for name, inode in NAMES.items()}}

    def looks(name, text, *words):
        same(f"look: {name}", (0, text), ran(program, *words))
        same(f"look: {name} through a pipe", (0, text), ran(program, *("-" if word == path else word for word in words), given=bytes(region.bytes)))

    rescue.by_number(program, str(path), states, "look")
    rescue.archived(program, str(path), states, "look")
    rescue.told_of(program, str(path), set(), states, "look")
    looks("ls", "".join(f"{name.decode()} {inode}\n" for name, inode in sorted(NAMES.items())), "ls", path)
    looks("ls of a folder", f"e {INNER}\n", "ls", path, "/d")
    for named, inode in paths.items():
        looks(f"stat {named}", "stat " + states[inode].line(inode), "stat", path, named.decode())
        if states[inode].kind == FILE:
            looks(f"cat {named}", states[inode].content.decode("latin-1"), "cat", path, named.decode())
    page, = region.pages[FOLDER]
    log = f"inode {FOLDER} dir\n  log {page} tail {page * BLOCK + 64}\n"
    log += f"  block {page} offset 0 stands attributes mode 448 owner 1000 group 100 size 0 time 1\n"
    log += f"  block {page} offset 32 stands add time 3 name e {INNER}\n  ends at its tail\n"
    looks("log", log, "log", path, "/d")
    looks("log by number", log, "log", path, FOLDER)
    taken = [block for inode in states for block in (*region.pages[inode], *states[inode].pages.values())]
    looks("du", f"blocks {len(taken)}\n", "du", path)
    owners = {FIRST: "table 0 0", SECOND: "table 0 1", OTHER: "table 1 0", 3: "table 0 0", page: f"log {FOLDER} 0", 50: "free"}
    owners |= {block: f"data {LAST} {page}" for page, block in states[LAST].pages.items()}
    for block, owner in owners.items():
        same(f"look: block {block}", (0, f"block {block} {owner}\n"), ran(program, "block", path, block))
    letters = ["S"] * region.first + ["."] * (region.blocks - region.first)
    for inode, state in states.items():
        for block in state.pages.values():
            letters[block] = "D"
        for block in region.pages[inode]:
            letters[block] = "L"
    for block in (FIRST, SECOND, OTHER):
        letters[block] = "T"
    looks("map", "".join(letters) + "\nblocks in a cell 1: . free, S system, T table, D data, L log, ! doubled\n", "map", path)
    try_differences(program, folder, region)


def try_differences(program, folder, region):
    """The same tree in a region of version 1, whose table has room for these numbers, and one with a byte changed."""
    path, other = folder / "image", folder / "other"
    fixed = put_tree(Region(tables=4, version=1))
    other.write_bytes(fixed.bytes)
    same("diff of one tree in both versions", (0, ""), ran(program, "diff", path, other))
    fixed.bytes[fixed.entries[LAST][2][3] * BLOCK + 2] ^= 1
    other.write_bytes(fixed.bytes)
    same("diff of a byte", (1, f"bytes /f: differ from byte {3 * BLOCK + 2}\n"), ran(program, "diff", path, other))
    case = chains_that_meet()
    path.write_bytes(case.image)
    for block in (SECOND, region.pages[THIRD][0]):
        owners = [line[len("fault B1 ") :] for line in case.report.splitlines() if line.startswith(f"fault B1 block {block} ")]
        same(f"owners of block {block}", (0, "\n".join([*owners, ""])), ran(program, "block", path, block))


def try_records(program, folder):
    """The records of slots in chains are told, and rolled back."""
    path = folder / "image"
    region, case = tree(), records_of_slots()
    path.write_bytes(case.image)
    first, second, third = region.slot(INNER), region.slot(ODD) + 16, region.slot(FOURTH) + 24
    pending = (
        f"pending 0 251: address {third}, tail of inode {FOURTH}, is 5, was {case.rolled_back[third]}\n"
        f"pending 0 0: address {second}, head of inode {ODD}, is 5, was {case.rolled_back[second]}\n"
        f"pending 0 1: address {third}, tail of inode {FOURTH}, is 5, was 8\n"
        f"pending 1 0: address {first}, valid word of inode {INNER}, is 5, was 1\n"
        "pending records 4\n"
    )
    same("records of slots", (0, pending), ran(program, "recover", path, "--dry-run"))
    same("records and report", (0, pending + case.report), ran(program, "check", path, "--journal"))
    same("records are rolled back", (0, pending), ran(program, "recover", path))
    same("what they leave", True, path.read_bytes() == with_words(case.image, case.rolled_back))


# ---- long chains


def put_many(path, count, is_ring):
    """A chain of so many blocks of zeros, in no order that a reader foresees, and whether its last link leads to the first of them.
    A file has the last slot. Answers the image's report."""
    blocks = MANY + 536
    region = Region(cpus=1, blocks=64)
    order = list(range(16, 16 + count))
    random.Random(count).shuffle(order)
    inode = SLOTS + CHAINED_SLOTS * count - 1
    with open(path, "wb") as image:
        image.truncate(blocks * BLOCK)

        def put(at, *words):
            image.seek(at)
            image.write(struct.pack(f"<{len(words)}Q", *words))

        region.blocks, region.chains = blocks, [[]]
        region.put_inode(ROOT, DIRECTORY, [attributes(493), add(b"last", inode)])
        region.kinds[inode], region.entries[inode], region.pages[inode] = FILE, [attributes(420)], [region.next]
        region.bytes[region.next * BLOCK : region.next * BLOCK + 32] = spelled(attributes(420))
        struct.pack_into("<QQ", region.bytes, 16, 1, blocks)
        image.seek(0)
        image.write(region.bytes)
        for link, block in zip([BLOCK + 16, *(block * BLOCK for block in order)], order):
            put(link, block * BLOCK)
        put(order[-1] * BLOCK, order[0] * BLOCK if is_ring else 0)
        put(order[-1] * BLOCK + CHAINED_SLOTS * SLOT, 1, FILE, region.next * BLOCK, region.next * BLOCK + 32, 0)
    tails = {ROOT: struct.unpack_from("<Q", region.bytes, region.slot(ROOT) + 24)[0], inode: region.next * BLOCK + 32}
    lines = [f"region version 2 cpus 1 blocks {blocks} tables 1 state 0"]
    for number, state in sorted(region.states({}).items()):
        lines += [state.line(number).rstrip("\n"), f"  log {region.pages[number][0]} tail {tails[number]}"]
        lines += [f"  name {name.decode()} {to}" for name, to in state.names.items()]
    lines.append(f"free 0 {region.next + 1}-15 {16 + count}-{blocks - 1}")
    return "\n".join([*lines, f"fault H2 cpu 0 at {order[-1] * BLOCK}" if is_ring else "no faults", ""])


def try_many(program, judge, folder):
    path = folder / "image"
    for count, is_ring in ((1, False), (1, True), (2, True), (300, False), (MANY, False), (MANY, True)):
        name, wanted = f"a {'ring' if is_ring else 'chain'} of {count} blocks", (int(is_ring), put_many(path, count, is_ring))
        for workers in (1, 8):
            same(f"{name} by {workers}", wanted, ran(program, "check", path, "--workers", workers))
        if judge:
            same(f"{name}, the judge", wanted, ran(judge, "check", path))


# ---- scripts


CREATES = [f"create 0 /n{k}" for k in range(2, 32)]
# Block 34 is of the table's chain, which was poked before its 30 inodes and the blocks of their logs were taken.
FULL = ["format 1 64 1", "poke 8 2", "poke 4112 139264", "recover 1", *CREATES]
MADE = ["ok", "ok", "ok", "recovered inodes 1 free 59 faults 0", *["ok"] * len(CREATES)]
# The same files of a region of version 1, as a report shows them: block k + 2 is the log of inode k.
FILES = [
    "inode 1 dir mode 493 owner 0 group 0 size 0 links 1 time 0", "  log 3 tail 13280",
    *sorted(f"  name n{k} {k}" for k in range(2, 32)),
    *(f"inode {k} file mode 420 owner 0 group 0 size 0 links 1 time 0\n  log {k + 2} tail {(k + 2) * BLOCK + 32}" for k in range(2, 32)),
    "free 0 34-63", "no faults",
]  # fmt: skip
# The table is full, and `/x` lets it grow by block 34, whose first slot is inode 32. The log of that is block 35.
GROWN = ["format 1 64 1", "recover 1", "upgrade", *CREATES, "create 0 /x"]
GREW = ["ok", "recovered inodes 1 free 60 faults 0", *["ok"] * (len(CREATES) + 2)]
GROWN_TREE = [
    "inode 1 dir mode 493 owner 0 group 0 size 0 links 1 time 0", "  log 3 tail 13312",
    *sorted(f"  name n{k} {k}" for k in range(2, 32)), "  name x 32", *FILES[32:-2],
    "inode 32 file mode 420 owner 0 group 0 size 0 links 1 time 0", "  log 35 tail 143392",
]  # fmt: skip
# All blocks but those in use hold bytes 255, and the words where links come aren't 0.
USED = ["create 0 /fill", "write 0 /fill 0 241664 255", "unlink 0 /fill"]
SCRIPTS = {
    "a table that grows": (
        [*GROWN, "peek 4112", "peek 139392", "recover 2", "free"],
        [*GREW, "word 139264", "word 1", "recovered inodes 32 free 28 faults 0", "free 0 36-63"],
    ),
    "the tree behind a growth": ([*GROWN, "tree"], [*GREW, *GROWN_TREE]),
    "a wrong link of a grown table": (
        [*GROWN, "peek 4112", "peek 139392", "recover 2", "free", "poke 4112 139265", "recover 2", "faults"],
        [*GREW, "word 139264", "word 1", "recovered inodes 32 free 28 faults 0", "free 0 36-63", "ok"]
        + ["recovered inodes 31 free 30 faults 2", "fault H1 cpu 0 at 4112", "fault C1 inode 1 at 13280"],
    ),
    "a ring of a grown table": (
        [*GROWN, "peek 4112", "peek 139392", "recover 2", "free", "poke 139264 139264", "recover 2", "faults"],
        [*GREW, "word 139264", "word 1", "recovered inodes 32 free 28 faults 0", "free 0 36-63", "ok"]
        + ["recovered inodes 32 free 28 faults 1", "fault H2 cpu 0 at 139264"],
    ),
    # Of 2 free blocks one lets the table grow, and the other is the new log. Of 1 nothing is taken.
    "the last blocks of a growth": (
        ["format 1 36 1", *GROWN[1:], "free", "recover 1", "faults"],
        ["ok", "recovered inodes 1 free 32 faults 0", *GREW[2:], "free 0", "recovered inodes 32 free 0 faults 0", "no faults"],
    ),
    "a block too few for a growth": (
        ["format 1 35 1", *GROWN[1:], "peek 4112", "mkdir 0 /x", "free", "unlink 0 /n2", "create 0 /x", "peek 4112", "recover 1", "list /"],
        ["ok", "recovered inodes 1 free 31 faults 0", *GREW[2:-1], "refused NoSpace", "word 0", "refused NoSpace", "free 0 34", "ok", "ok", "word 0"]
        + ["recovered inodes 31 free 1 faults 0", *sorted(f"n{k} {k}" for k in range(3, 32)), "x 2"],
    ),
    # A growth takes the last block of its own pool, and the log one of the other. The block stays with the table.
    "a growth by the last block of a pool": (
        ["format 2 72 1", "recover 1", "upgrade", *(f"create 0 /n{k}" for k in range(31)), "free", "mkdir 0 /x", "free", "peek 4112", "rmdir 0 /x", "free"]
        + ["peek 8208", "create 0 /y", "stat /y", "create 1 /z", "stat /z", "recover 64", "faults"],
        ["ok", "recovered inodes 1 free 66 faults 0", "ok", *["ok"] * 31, "free 0 37", "free 1 38-71", "ok", "free 0", "free 1 39-71", "word 151552", "ok"]
        + ["free 0", "free 1 38-71", "word 0", "ok", "stat inode 64 file mode 420 owner 0 group 0 size 0 links 1 time 0", "ok"]
        + ["stat inode 3 file mode 420 owner 0 group 0 size 0 links 1 time 0", "recovered inodes 34 free 32 faults 0", "no faults"],
    ),
    # Another block comes where the first is full too, and the lowest slot that is free is taken before.
    "a second growth": (
        ["format 1 128 1", *GROWN[1:], *(f"create 0 /m{k}" for k in range(30)), "unlink 0 /n9", "mkdir 0 /y", "mkdir 0 /z", "stat /y", "stat /z"]
        + ["peek 4112", "peek 139264", "recover 8", "free"],
        ["ok", "recovered inodes 1 free 124 faults 0", *GREW[2:], *["ok"] * 33, "stat inode 9 dir mode 493 owner 0 group 0 size 0 links 1 time 0"]
        + ["stat inode 63 dir mode 493 owner 0 group 0 size 0 links 1 time 0", "word 139264", "word 270336", "recovered inodes 63 free 60 faults 0"]
        + ["free 0 68-127"],
    ),
    # The link and the valid words are stored, and the rest of a block stays as it was.
    "a growth into used blocks": (
        ["format 1 64 1", "poke 4112 12288", "recover 1", *USED, "upgrade", "peek 4112", *CREATES, "create 0 /x", "peek 139264", "peek 139272"]
        + ["peek 139520", "peek 139528", "peek 143232", "peek 143240", "recover 3", "faults"],
        ["ok", "ok", "recovered inodes 1 free 60 faults 0", *["ok"] * 4, "word 0", *["ok"] * 31, "word 0", "word 18446744073709551615"]
        + ["word 0", "word 18446744073709551615", "word 0", "word 18446744073709551615", "recovered inodes 32 free 28 faults 0", "no faults"],
    ),
    "a full table of version 1": (
        ["format 1 64 1", "recover 1", *CREATES, "create 0 /x", "mkdir 0 /x"],
        ["ok", "recovered inodes 1 free 60 faults 0", *["ok"] * len(CREATES), "refused NoInodes", "refused NoInodes"],
    ),
    "upgraded twice": (
        ["format 1 64 1", "recover 1", "upgrade", *CREATES, "upgrade", "report"],
        ["ok", "recovered inodes 1 free 60 faults 0", "ok", *["ok"] * len(CREATES), "refused IsVersion2"]
        + ["region version 2 cpus 1 blocks 64 tables 1 state 0", *FILES],
    ),
    "upgraded late": (
        ["upgrade", "format 1 64 1", "upgrade", "poke 4112 139264", "recover 1", *CREATES, "report", "upgrade", "report", "peek 8", "peek 4112"]
        + ["recover 8", "report"],
        ["refused NotMounted", "ok", "refused NotMounted", "ok", "recovered inodes 1 free 60 faults 0", *["ok"] * len(CREATES)]
        + ["region version 1 cpus 1 blocks 64 tables 1 state 0", *FILES, "ok", "region version 2 cpus 1 blocks 64 tables 1 state 0", *FILES]
        + ["word 2", "word 0", "recovered inodes 31 free 30 faults 0", "region version 2 cpus 1 blocks 64 tables 1 state 0", *FILES],
    ),
    "a stop before the version": (
        ["format 1 64 1", "poke 4112 139264", "recover 1", "stop after 2 none", "upgrade", "peek 8", "peek 4112", "recover 1", "upgrade", "peek 8"],
        ["ok", "ok", "recovered inodes 1 free 60 faults 0", "ok", "stopped", "word 1", "word 0", "recovered inodes 1 free 60 faults 0", "ok", "word 2"],
    ),
    # Inode 32 has the first slot of the block, and its log in the block behind.
    "an inode in a chain": (
        [*FULL, "create 0 /x", "peek 4112", "peek 139392", "recover 2", "free", "list /x", "stat /x"],
        [*MADE, "ok", "word 139264", "word 1", "recovered inodes 32 free 28 faults 0", "free 0 36-63", "refused NotDirectory"]
        + ["stat inode 32 file mode 420 owner 0 group 0 size 0 links 1 time 0"],
    ),
    "a wrong link": (
        [*FULL, "create 0 /x", "poke 4112 139265", "recover 2", "faults"],
        [*MADE, "ok", "ok", "recovered inodes 31 free 30 faults 2", "fault H1 cpu 0 at 4112", "fault C1 inode 1 at 13280"],
    ),
    "a ring": (
        [*FULL, "create 0 /x", "poke 139264 139264", "recover 2", "faults"],
        [*MADE, "ok", "ok", "recovered inodes 32 free 28 faults 1", "fault H2 cpu 0 at 139264"],
    ),
    # Its block comes back, and that of the chain doesn't. The lowest unused slot is the next one's.
    "an inode that goes": (
        [*FULL, "mkdir 0 /x", "create 0 /y", "rmdir 0 /x", "peek 139392", "peek 139520", "free", "unlink 0 /n5", "create 0 /z", "stat /z"]
        + ["mkdir 0 /x", "stat /x", "recover 8", "faults"],
        [*MADE, "ok", "ok", "ok", "word 0", "word 1", "free 0 35 37-63", "ok", "ok"]
        + ["stat inode 5 file mode 420 owner 0 group 0 size 0 links 1 time 0", "ok"]
        + ["stat inode 32 dir mode 493 owner 0 group 0 size 0 links 1 time 0", "recovered inodes 33 free 27 faults 0", "no faults"],
    ),
    "calls on inodes in a chain": (
        [*FULL, "mkdir 0 /d", "create 0 /d/f", "write 0 /d/f 4090 10 65", "link 0 /d/f /g", "rename 0 /d/f /n4", "rename 0 /d/f /h"]
        + ["size 0 /g 4092", "attr 0 /h 384 1 2", "recover 64", "list /d", "read /g 4088 10", "stat /h", "unlink 0 /g", "stat /h", "faults"],
        [*MADE, "ok", "ok", "ok", "ok", "refused Exists", "ok", "ok", "ok", "recovered inodes 33 free 26 faults 0"]
        + ["data 00004141", "stat inode 33 file mode 384 owner 1 group 2 size 4092 links 2 time 0", "ok"]
        + ["stat inode 33 file mode 384 owner 1 group 2 size 4092 links 1 time 0", "no faults"],
    ),
    # The journal's record names the valid word of a slot in the chain: it is rolled back.
    "a stop between two words": (
        [*FULL, "stop at 139392 all", "create 0 /x", "peek 4096", "peek 4104", "peek 5120", "replay 3 2 1 0 2 1 0", "list /x", "faults"],
        [*MADE, "ok", "stopped", "word 60", "word 62", "word 139392", "recovered inodes 31 free 29 faults 0", "refused NotFound"]
        + ["no faults"],
    ),
    # The first page of its log is unlinked by the head in the chain's slot.
    "a clean": (
        [*FULL, "create 0 /x", *["attr 0 /x 420 0 0"] * 127, "clean /x", "peek 139408", "free", "clean /x", "recover 2"],
        [*MADE, *["ok"] * 128, "cleaned 35", "word 147456", "free 0 35 37-63", "nothing", "recovered inodes 32 free 28 faults 0"],
    ),
    "the version of a report": (
        ["format 1 64 1", "poke 8 2", "recover 1", "report"],
        ["ok", "ok", "recovered inodes 1 free 60 faults 0", "region version 2 cpus 1 blocks 64 tables 1 state 0"]
        + ["inode 1 dir mode 493 owner 0 group 0 size 0 links 1 time 0", "  log 3 tail 12320", "free 0 4-63", "no faults"],
    ),
    "other versions": (
        ["format 1 64 1", "poke 8 3", "recover 1", "poke 8 0", "recover 1", "poke 8 1", "recover 1"],
        ["ok", "ok", "refused S3", "ok", "refused S3", "ok", "recovered inodes 1 free 60 faults 0"],
    ),
}


def try_scripts(program, judge):
    for name, (script, lines) in SCRIPTS.items():
        given = "".join(line + "\n" for line in script).encode()
        # The last recovery decides the status.
        last = [line for line in lines if line.startswith("recovered ")][-1]
        wanted = (0 if last.endswith(" faults 0") else 1, "".join(line + "\n" for line in lines))
        for other in [program, *([judge] if judge else [])]:
            same(f"script: {name}, {other}", wanted, ran(other, "run", given=given))


def try_changes(program, folder):
    """The commands that make a call on an image, where the new inodes get slots in a chain."""
    path, script, host = folder / "full", folder / "script", folder / "host"
    script.write_text("".join(line + "\n" for line in FULL))
    same("a full table", 0, ran(program, "run", script, "--save", path)[0])
    host.write_bytes(b"of the host" * 1000)
    for change in (
        ["mkdir", path, "/x"], ["put", path, host, "/x/y"], ["ln", path, "/x/y", "/z"], ["mv", path, "/n4", "/x/n4"],
        ["truncate", path, "5000", "/z"], ["rm", path, "/x/y"], ["chmod", path, "700", "/x"], ["rm", path, "/n9"], ["mkdir", path, "/w"],
    ):  # fmt: skip
        same(f"change: {' '.join(map(str, change))}", (0, ""), ran(program, *change, "--time", 7))
    for name, line in {
        "/x": "stat inode 32 dir mode 448 owner 0 group 0 size 0 links 1 time 7\n",
        "/z": "stat inode 33 file mode 420 owner 0 group 0 size 5000 links 1 time 7\n",
        "/w": "stat inode 9 dir mode 493 owner 0 group 0 size 0 links 1 time 7\n",
    }.items():
        same(f"what changed: {name}", (0, line), ran(program, "stat", path, name))
    same("what changed: bytes", (0, host.read_text()[:5000]), ran(program, "cat", path, "/z"))
    same("what changed: names", (0, "n4 4\n"), ran(program, "ls", path, "/x"))
    same("what changed: block 34", (0, "block 34 table 0 0\n"), ran(program, "block", path, 34))
    same("what changed: faults", (0, "no faults\n"), ran(program, "check", path, "--only-faults"))


def try_trees(program, folder):
    """More files than the fixed tables have slots, of an archive and of a folder. The CPUs take turns, so the tables of both grow; that
    of CPU 1 goes on in block 200 before, or no table has a chain."""
    path, script, host = folder / "two", folder / "script", folder / "tree"
    script.write_text("format 2 256 1\npoke 8 2\npoke 8208 819200\n")
    makes = (["run", script, "--save", path], ["mkfs", path, "--blocks", 256, "--cpus", 2, "--tables", 1, "--layout", 2])
    files = {f"file{k}": b"%d bytes" % k * k for k in range(80)}
    archive = io.BytesIO()
    host.mkdir()
    with tarfile.open(fileobj=archive, mode="w") as members:
        for name, content in files.items():
            (host / name).write_bytes(content)
            members.add(host / name, name)
    ways = (("untar", ["untar", path], archive.getvalue()), ("put -r", ["put", "-r", path, host, "/"], None))
    for make, (what, words, given) in itertools.product(makes, ways):
        same(f"{what}: a region", 0, ran(program, *make, "--force")[0])
        same(what, (0, ""), ran(program, *words, given=given))
        status, report = ran(program, "check", path)
        numbers = [int(line.split()[1]) for line in report.splitlines() if line.startswith("inode ")]
        same(f"{what}: status of the report", 0, status)
        same(f"{what}: how many inodes", len(files) + 1, len(numbers))
        same(f"{what}: numbers in the chains are of both CPUs", {0, 1}, {number % 2 for number in numbers if number >= 64})
        for name, content in files.items():
            same(f"{what}: {name}", (0, content.decode()), ran(program, "cat", path, f"/{name}"))


def main():
    words = argparse.ArgumentParser(usage="\n" + __doc__)
    words.add_argument("program", nargs="?", default=str(PROGRAM))
    words.add_argument("--judge")
    words.add_argument("cases", nargs="*")
    told_words = words.parse_args()
    program, judge = os.path.abspath(told_words.program), told_words.judge
    if not os.access(program, os.X_OK):
        sys.exit(__doc__)
    with tempfile.TemporaryDirectory() as name:
        folder = Path(name)
        for case in told_words.cases or CASES:
            try_case(program, judge, folder, case, CASES[case]())
        if not told_words.cases:
            try_looks(program, folder)
            try_records(program, folder)
            try_many(program, judge, folder)
            try_scripts(program, judge)
            try_changes(program, folder)
            try_trees(program, folder)
    print(f"{rescue.passed} passed, {rescue.failed} failed")
    return 1 if rescue.failed else 0


if __name__ == "__main__":
    sys.exit(main())
