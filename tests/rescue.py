#!/usr/bin/env python3
"""Damages a sound tree by each class of faults on purpose, and compares what the program gives back with what has to be left.

usage: tests/rescue.py [PROGRAM] [--judge JUDGE] [CASE..]     closes with 'N passed, M failed'

The tree has files with holes, with two names and with many overwrites, directories below one another, and one whose log has
three pages. It stands in a region of version 1, and in one of version 2, where the slots of many of its inodes are in the two
blocks in which the table goes on. Each image is written byte by byte, and what is left of it after each damage is reckoned
here, by the rules of docs/LAYOUT.md. Of each `nova check` has to find the class and to list the inodes that are left, with their
numbers and names. By its number each has to come back from `nova stat`, `ls` and `cat`. `nova tar --lost-found` has to hold each of
them, what it holds once and each of its names once, and `tar` has to make files of it on the disk. An image whose superblock is
damaged is refused by each of these commands, which write nothing. JUDGE, a program that takes `check`, reports the same of each image.
"""

import argparse
import json
import os
import subprocess
import sys
import tempfile
from pathlib import Path

import tar
from images import BLOCK, DIRECTORY, FILE, ROOT, Region, add, attributes, links, remove, write

PROGRAM = Path(__file__).resolve().parent.parent / "crates/nova/out/nova"
BLOCKS = 256
# By version: how many blocks the one CPU's table has before it goes on in its chain. Its journal is block 1.
TABLES = {1: 4, 2: 1}
CHAIN = (150, 140)
JOURNAL = BLOCK
# In version 2 the slots from 32 on are in the first block of the chain, and those from 63 on in the second.
FOLDER, MANY, INNER, DEEP = 2, 4, 63, 93
TWINS, LARGE, SMALL, LONG = 10, 11, 12, 14
IN_SECOND = (INNER, DEEP)
# The inodes of the directory with many names.
FIRST_OF_MANY, NAMES = 20, 40
UNUSED = 90
OVERWRITES = 250

passed = failed = 0


def same(what, wanted, found):
    global passed, failed
    if wanted == found:
        passed += 1
    else:
        failed += 1
        print(f"FAILED {what}: {str(found)[:300]} in place of {str(wanted)[:300]}")


# ---- the tree


def name_of(k):
    return b"name" * 50 + b"%02d" % k


def sound(version=1):
    region = Region(cpus=1, tables=TABLES[version], blocks=BLOCKS, version=version)
    if version == 2:
        region.put_chain(0, *CHAIN)
    region.put_file(TWINS, (0, b"twins" * 700), (3, b"behind a hole"), more=[links(2)])
    region.put_file(LARGE, (0, bytes(range(256)) * 30))
    region.put_file(SMALL, (0, b"small"))
    region.put_file(DEEP, (0, b"deep" * 1024))
    blocks = [region.put_blocks(b"%03d" % k * 1300) for k in range(10)]
    region.put_inode(LONG, FILE, [attributes(384), *(write(k % 3, 1, blocks[k % 10], 3 * BLOCK) for k in range(OVERWRITES))])
    for k in range(NAMES):
        region.put_file(FIRST_OF_MANY + k, (0, b"%02d" % k * 50))
    region.put_inode(INNER, DIRECTORY, [attributes(493), add(b"deep", DEEP)])
    region.put_inode(FOLDER, DIRECTORY, [attributes(448), add(b"inner", INNER), add(b"other", TWINS), add(b"small", SMALL)])
    region.put_inode(MANY, DIRECTORY, [attributes(493), *(add(name_of(k), FIRST_OF_MANY + k) for k in range(NAMES))])
    names = {b"folder": FOLDER, b"large": LARGE, b"long": LONG, b"many": MANY, b"twins": TWINS}
    region.put_inode(ROOT, DIRECTORY, [attributes(493), *(add(*one) for one in names.items())])
    return region


# ---- the damages: each changes the bytes, and tells the entries that are left of what it changes


def j1_pointer(r):
    r.poke(JOURNAL, 252)
    return {}


def j2_record(r):
    # A record is pending, and names a word that isn't a slot's.
    r.poke(JOURNAL + 8, 1)
    r.poke(JOURNAL + 64, BLOCK)
    return {}


def i1_file(r):
    r.poke(r.slot(LARGE), 2)
    return {LARGE: None}


def i1_directory(r):
    r.poke(r.slot(FOLDER), 77)
    return {FOLDER: None}


def i2_file(r):
    r.poke(r.slot(SMALL) + 8, 3)
    return {SMALL: None}


def i3_tail(r):
    r.poke(r.slot(MANY) + 24, r.pages[MANY][0] * BLOCK)
    return {MANY: []}


def i3_head(r):
    r.poke(r.slot(LARGE) + 16, 0)
    return {LARGE: []}


def i3_root(r):
    r.poke(r.slot(ROOT) + 24, 0)
    return {ROOT: []}


def l1_directory(r):
    r.poke(r.link(MANY, 0), 1)
    return {MANY: r.on_pages(MANY, 1)}


def l1_file(r):
    r.poke(r.link(LONG, 1), BLOCKS * BLOCK)
    return {LONG: r.on_pages(LONG, 2)}


def l2_directory(r):
    r.poke(r.link(MANY, 1), r.pages[MANY][0] * BLOCK)
    return {MANY: r.on_pages(MANY, 2)}


def l3_directory(r):
    r.bytes[r.places[FOLDER][2]] = 9
    return {FOLDER: r.entries[FOLDER][:2]}


def l3_root(r):
    r.bytes[r.places[ROOT][1]] = 9
    return {ROOT: r.entries[ROOT][:1]}


def l3_file(r):
    # The length of an entry in the midst of the log's second page.
    r.bytes[r.places[LONG][150] + 2] = 48
    return {LONG: r.entries[LONG][:150]}


def l4_tail(r):
    r.poke(r.slot(FOLDER) + 24, r.places[FOLDER][3] + 8)
    return {FOLDER: r.entries[FOLDER][:3]}


def e1_write(r):
    # Its first part lies in the superblock.
    r.poke(r.places[TWINS][1] + 16, 0)
    return {TWINS: [r.entries[TWINS][0], *r.entries[TWINS][2:]]}


def e1_name(r):
    # No inode has this number.
    r.poke(r.places[FOLDER][1] + 8, 1 << 40)
    return {FOLDER: [r.entries[FOLDER][0], *r.entries[FOLDER][2:]]}


def e2_links_of_a_directory(r):
    r.append(INNER, links(2))
    return {}


def e2_name_of_a_file(r):
    r.append(SMALL, add(b"name", DEEP))
    return {}


def e3_name(r):
    return r.append(FOLDER, add(b"small", DEEP))


def e4_name(r):
    return r.append(FOLDER, remove(b"nobody", SMALL))


def c1_name(r):
    return r.append(ROOT, add(b"nothing", UNUSED))


def c2_directory(r):
    return r.append(ROOT, add(b"again", INNER))


def c2_ring(r):
    return r.append(INNER, add(b"back", FOLDER))


def c3_links(r):
    return r.append(LARGE, links(7))


def c4_file(r):
    return r.append(ROOT, remove(b"large", LARGE))


def c4_directory(r):
    return r.append(ROOT, remove(b"folder", FOLDER))


def c4_ring(r):
    # Nothing but itself leads to the folder.
    return {**r.append(ROOT, remove(b"folder", FOLDER)), **r.append(INNER, add(b"back", FOLDER))}


def c5_root(r):
    r.poke(r.slot(ROOT), 0)
    return {ROOT: None}


def b1_data(r):
    # The small file's page lies in the large one's first block.
    block = r.entries[LARGE][1][3]
    r.poke(r.places[SMALL][1] + 16, block)
    return {SMALL: [r.entries[SMALL][0], write(0, 1, block, 5)]}


def b1_log(r):
    # The small file's page lies in the log of the folder.
    block = r.pages[FOLDER][0]
    r.poke(r.places[SMALL][1] + 16, block)
    return {SMALL: [r.entries[SMALL][0], write(0, 1, block, 5)]}


def h1_link(r):
    # The second block of the chain is lost, with its slots. Their names stay.
    r.poke(r.link_at(0, 1), CHAIN[1] * BLOCK + 8)
    return dict.fromkeys(IN_SECOND)


def h1_first_link(r):
    r.poke(r.link_at(0, 0), BLOCKS * BLOCK)
    return {inode: None for inode in r.kinds if inode >= r.in_chain(0, 0, 0)}


def h2_ring(r):
    # All slots were read before it leads back.
    r.poke(CHAIN[1] * BLOCK, CHAIN[0] * BLOCK)
    return {}


def b1_table(r):
    # The small file's page lies in the block of the chain whose first word is its link, and where no slot is in use.
    r.poke(r.places[SMALL][1] + 16, CHAIN[0])
    return {SMALL: [r.entries[SMALL][0], write(0, 1, CHAIN[0], 5)]}


def i1_chained(r):
    r.poke(r.slot(DEEP), 2)
    return {DEEP: None}


def i3_chained(r):
    r.poke(r.slot(INNER) + 16, JOURNAL)
    return {INNER: []}


DAMAGES = [
    j1_pointer, j2_record, i1_file, i1_directory, i2_file, i3_tail, i3_head, i3_root, l1_directory, l1_file, l2_directory, l3_directory,
    l3_root, l3_file, l4_tail, e1_write, e1_name, e2_links_of_a_directory, e2_name_of_a_file, e3_name, e4_name, c1_name, c2_directory,
    c2_ring, c3_links, c4_file, c4_directory, c4_ring, c5_root, b1_data, b1_log,
]

# Damages of the tree in version 2.
CHAINED = [h1_link, h1_first_link, h2_ring, b1_table, i1_chained, i3_chained, j1_pointer, l2_directory, c2_ring, c4_directory, c5_root]

# Damages that don't touch one another, in one image.
SEVERAL = [j1_pointer, i1_file, i3_tail, l3_file, e1_name, e2_links_of_a_directory, c4_directory]
SEVERAL_CHAINED = [j1_pointer, h1_link, i1_file, i3_tail, l3_file, b1_table, c4_directory]

# By the class by which it is refused: a word of the superblock, and its value.
REFUSED = {"S2": (0, 7), "S3": (8, 3), "S4": (16, 65), "S5": (24, BLOCKS + 1), "S6": (32, 0), "S7": (40, 2)}


# ---- what is given back


def told_of(program, image, classes, states, name):
    """The report has the classes, and of each inode that is left its numbers and names."""
    status, text = tar.output_of(program, "check", image, "--json")
    same(f"{name}: status of the report", 1 if classes else 0, status)
    report = json.loads(text)
    found = {fault["class"] for fault in report["faults"]}
    same(f"{name}: classes", set(), classes - found)
    listed = {one["inode"]: one for one in report["inodes"]}
    same(f"{name}: inodes", sorted(states), sorted(listed))
    for inode, state in states.items():
        if inode in listed:
            numbers = {number: getattr(state, number) for number in listed[inode]["attributes"]}
            same(f"{name}: attributes of {inode}", numbers, listed[inode]["attributes"])
            names = {one["name"].encode(): one["inode"] for one in listed[inode].get("names", [])}
            same(f"{name}: names of {inode}", state.names, names)


def by_number(program, image, states, name):
    """By its number each inode is given back."""
    for inode, state in states.items():
        same(f"{name}: stat {inode}", (0, b"stat " + state.line(inode).encode()), tar.output_of(program, "stat", image, str(inode)))
        if state.kind == DIRECTORY:
            listed = b"".join(b"%s %d\n" % one for one in sorted(state.names.items()))
            same(f"{name}: ls {inode}", (0, listed), tar.output_of(program, "ls", image, f"<{inode}>"))
        else:
            same(f"{name}: cat {inode}", (0, state.content), tar.output_of(program, "cat", image, str(inode)))


def reached(states, root):
    found, left = set(), [root]
    while left:
        inode = left.pop()
        if inode in states and inode not in found:
            found.add(inode)
            left += states[inode].names.values()
    return found


def followed(states, root, path):
    """The inode that a path of an archive is of, with the directory and the name by which it is named, if it is by one."""
    first, *names = path.split(b"/")
    inode, by = root, None
    if first == b"lost+found":
        inode, names = int(names[0][1:]), names[1:]
    for name in names:
        inode, by = states[inode].names[name], (inode, name)
    return inode, by


def archived(program, image, states, name):
    """All that is left stands in an archive: what an inode holds once, and each name of it once. Else it is known by its number."""
    root, words = ROOT, ["tar", image]
    if ROOT not in states:
        same(f"{name}: no root", (2, b""), tar.output_of(program, "tar", image, "--lost-found"))
        root = min(states)
        words.append(str(root))
    status, archive = tar.output_of(program, *words, "--lost-found")
    same(f"{name}: status of the archive", 0, status)
    members, whole, names, known = dict(tar.members(archive)), {}, {}, set()
    for path, (kind, content, numbers) in members.items():
        inode, by = followed(states, root, path)
        state = states[inode]
        if by is not None:
            names[by] = names.get(by, 0) + 1
        elif inode != root:
            known.add(inode)
        if kind == "link":
            same(f"{name}: {path!r} is a link to itself", inode, whole.get(content))
            continue
        whole[path] = inode
        same(f"{name}: numbers of {path!r}", (state.mode, state.time, state.owner, state.group), numbers)
        same(f"{name}: {path!r}", ("directory", None) if state.kind == DIRECTORY else ("file", state.content), (kind, content))
    files = sorted(inode for inode in whole.values() if states[inode].kind == FILE)
    same(f"{name}: files", sorted(inode for inode, state in states.items() if state.kind == FILE), files)
    same(f"{name}: directories", {inode for inode in states if states[inode].kind == DIRECTORY}, set(whole.values()) - set(files))
    due = {(inode, one): 1 for inode, state in states.items() for one, to in state.names.items() if to in states}
    same(f"{name}: names", due, names)
    same(f"{name}: known by their numbers, and reached", set(), known & reached(states, root))
    tar.extracted(name, "tar", archive, members)


def judged(program, judge, image, name):
    """The judge prints the same report."""
    wanted = tar.output_of(judge, "check", image)
    same(f"{name}: the judge", wanted, tar.output_of(program, "check", image))


def rescued(program, judge, image, version, damages, name):
    region, changed = sound(version), {}
    for damage in damages:
        changed.update(damage(region))
    Path(image).write_bytes(region.bytes)
    states, classes = region.states(changed), {damage.__name__[:2].upper() for damage in damages}
    told_of(program, image, classes, states, name)
    by_number(program, image, states, name)
    archived(program, image, states, name)
    if judge:
        judged(program, judge, image, name)
    for one in classes & {"L1", "L2", "L3", "L4"}:
        logs = tar.output_of(program, "log", "--all", image)[1]
        same(f"{name}: where a log ends", 1, logs.count(b"  ends by %s at block " % one.encode()))
    owners = {b1_data: (region.entries[LARGE][1][3], f"data {LARGE} 0"), b1_table: (CHAIN[0], "table 0 0")}
    for block, owner in (owners[damage] for damage in damages if damage in owners):
        both = f"block {block} {owner}\nblock {block} data {SMALL} 0\n"
        same(f"{name}: owners", (0, both.encode()), tar.output_of(program, "block", image, str(block)))


def refused(program, judge, image):
    """Of an image that is refused nothing is given back."""
    for one, change in {"S1": None, **REFUSED}.items():
        region = sound(2)
        if change:
            region.poke(*change)
        Path(image).write_bytes(region.bytes[:-8] if one == "S1" else region.bytes)
        for words in (["tar", image, "--lost-found"], ["ls", image], ["cat", image, str(LARGE)], ["log", image, str(LARGE)]):
            done = subprocess.run([program, *words], capture_output=True)
            same(f"{one}: {words[0]}", (2, b"", f"refused {one}"), (done.returncode, done.stdout, done.stderr.decode().split("\n")[0]))
        if judge:
            judged(program, judge, image, one)


def cases_of():
    """By name: the version, and the damages."""
    cases = {"sound": (1, []), **{damage.__name__: (1, [damage]) for damage in DAMAGES}, "several": (1, SEVERAL)}
    cases |= {"chained": (2, []), **{f"chained {damage.__name__}": (2, [damage]) for damage in CHAINED}}
    return cases | {"chained several": (2, SEVERAL_CHAINED)}


def main():
    words = argparse.ArgumentParser(usage="\n" + __doc__)
    words.add_argument("program", nargs="?", default=str(PROGRAM))
    words.add_argument("--judge")
    words.add_argument("cases", nargs="*")
    told = words.parse_args()
    program = os.path.abspath(told.program)
    if not os.access(program, os.X_OK):
        sys.exit(__doc__)
    with tempfile.TemporaryDirectory() as folder:
        image = os.path.join(folder, "image")
        for name, (version, damages) in cases_of().items():
            if not told.cases or name in told.cases:
                rescued(program, told.judge, image, version, damages, name)
        if not told.cases:
            refused(program, told.judge, image)
    print(f"{passed} passed, {failed} failed")
    return 1 if failed else 0


if __name__ == "__main__":
    sys.exit(main())
