#!/usr/bin/env python3
"""Changes copies of an image by calls at random, and compares what `nova diff` tells of names, kinds, sizes and bytes with what
`diff -rq` tells of the trees on the disk. An image that is refused is named. It closes with 'N passed, M failed'.

usage: tests/differences.py PROGRAM [--cases N] [--seed N]          PROGRAM is nova
"""

import argparse
import random
import re
import shutil
import subprocess
import tempfile
from pathlib import Path

NAMES = ["a", "b", "name with spaces", "d", "e\\x", "f"]
CHANGES = 6


def run(*words, status=0, **more):
    done = subprocess.run([str(word) for word in words], capture_output=True, **more)
    if done.returncode != status:
        raise SystemExit(f"{words}: status {done.returncode} for {status}: {done.stderr.decode(errors='replace')}")
    return done.stdout


class Image:
    """An image that is changed by calls of the program, which may be refused."""

    def __init__(self, program, path, room, dice):
        self.program, self.path, self.room, self.dice = program, path, room, dice

    def call(self, command, *words):
        options = ["--time", str(self.dice.randrange(3))]
        subprocess.run([self.program, command, str(self.path), *map(str, words), *options], capture_output=True)

    def a_path(self):
        return "".join("/" + self.dice.choice(NAMES).replace("\\", "\\\\") for _ in range(self.dice.randrange(1, 4)))

    def put(self, path):
        host, content = self.room / "host", bytearray(self.dice.randrange(3) * 4096 + self.dice.randrange(100))
        for _ in range(self.dice.randrange(4)):
            if content:
                content[self.dice.randrange(len(content))] = self.dice.randrange(256)
        host.write_bytes(content)
        self.call("put", host, path)

    def change(self):
        path, kind = self.a_path(), self.dice.randrange(9)
        if kind < 2:
            self.put(path)
        elif kind == 2:
            self.call("mkdir", path)
        elif kind == 3:
            self.call("rm", path)
        elif kind == 4:
            self.call("rmdir", path)
        elif kind == 5:
            self.call("mv", path, self.a_path())
        elif kind == 6:
            self.call("ln", path, self.a_path())
        elif kind == 7:
            self.call("truncate", self.dice.choice([0, 1, 4096, 9000]), path)
        else:
            self.call("chmod", self.dice.choice(["644", "755"]), path)

    def tree(self, folder):
        folder.mkdir()
        archive = run(self.program, "tar", self.path)
        run("tar", "-x", "--no-same-permissions", "-C", folder, input=archive)
        run("chmod", "-R", "u+rwX", folder)
        return folder


def plain(path):
    """A path without its escapes."""
    return re.sub(rb"\\x([0-9a-f]{2})", lambda found: bytes([int(found[1], 16)]), path)


def told(text):
    """What the program tells, as what `diff -rq` can tell of it: sets of paths."""
    found = {"A": set(), "B": set(), "kind": set(), "differ": set()}
    for line in text.splitlines():
        if only := re.fullmatch(rb"only in ([AB]): (.+)", line):
            found[only[1].decode()].add(plain(only[2]))
        elif named := re.fullmatch(rb"(kind|mode|owner|group|size|links|time|bytes) (\S+): .+", line):
            word = named[1].decode()
            if word == "kind":
                found["kind"].add(plain(named[2]))
            elif word in ("size", "bytes"):
                found["differ"].add(plain(named[2]))
        else:
            raise SystemExit(f"no line of a difference: {line!r}")
    return found


def wanted(first, second):
    """What `diff -rq` tells of two trees."""
    done = subprocess.run(["diff", "-rq", "--no-dereference", first, second], capture_output=True, env={"LC_ALL": "C"})
    found = {"A": set(), "B": set(), "kind": set(), "differ": set()}
    top = {"A": str(first).encode(), "B": str(second).encode()}
    for line in done.stdout.splitlines():
        if line.startswith(b"Only in "):
            folder, name = line[8:].split(b": ", 1)
            which = "A" if folder == top["A"] or folder.startswith(top["A"] + b"/") else "B"
            found[which].add(folder[len(top[which]):] + b"/" + name)
        elif found_kind := re.fullmatch(rb"File (.+) is a .+ while file .+ is a .+", line):
            found["kind"].add(found_kind[1][len(top["A"]):])
        elif differ := re.fullmatch(rb"Files (.+) and .+ differ", line):
            found["differ"].add(differ[1][len(top["A"]):])
        else:
            raise SystemExit(f"diff tells {line!r}")
    return found


def case(program, room, dice):
    first = Image(program, room / "first", room, dice)
    run(program, "mkfs", first.path, "--size", "4M", "--force")
    for _ in range(5 * CHANGES):
        first.change()
    second = Image(program, room / "second", room, dice)
    shutil.copy(first.path, second.path)
    for _ in range(dice.randrange(2 * CHANGES)):
        second.change()
    trees = first.tree(room / "A"), second.tree(room / "B")
    done = subprocess.run([program, "diff", first.path, second.path], capture_output=True)
    if done.returncode != (1 if done.stdout else 0):
        raise SystemExit(f"status {done.returncode} with {len(done.stdout)} bytes: {done.stderr!r}")
    mine, peer = told(done.stdout), wanted(*trees)
    # A directory has no size, so only files can differ by it.
    if mine != peer:
        raise SystemExit(f"differs from diff -rq: {mine} for {peer}\n{done.stdout.decode(errors='replace')}")
    run(program, "diff", first.path, first.path)
    for tree in trees:
        shutil.rmtree(tree)
    return bool(done.stdout)


def refusals(program, room):
    """A file without a byte is refused by its length, A's before B's."""
    image, empty = room / "image", room / "empty"
    run(program, "mkfs", image, "--size", "4M", "--force")
    empty.write_bytes(b"")
    for first, second, letter in ((empty, image, "A"), (image, empty, "B"), (empty, empty, "A")):
        done = subprocess.run([program, "diff", first, second], capture_output=True)
        if (done.returncode, done.stdout) != (2, b"") or not done.stderr.startswith(f"{letter}: refused S1\n".encode()):
            raise SystemExit(f"refused as {done.returncode}, {done.stdout!r}, {done.stderr!r}, and not as {letter}")


def main():
    parser = argparse.ArgumentParser(description=__doc__, formatter_class=argparse.RawDescriptionHelpFormatter)
    parser.add_argument("program", type=lambda path: Path(path).resolve())
    parser.add_argument("--cases", type=int, default=30)
    parser.add_argument("--seed", type=int, default=1)
    given = parser.parse_args()
    differ = 0
    for number in range(given.cases):
        with tempfile.TemporaryDirectory() as room:
            differ += case(given.program, Path(room), random.Random(given.seed * 1_000_003 + number))
    with tempfile.TemporaryDirectory() as room:
        refusals(given.program, Path(room))
    print(f"of {given.cases} pairs {differ} differ")
    print(f"{given.cases + 3} passed, 0 failed")


if __name__ == "__main__":
    main()
