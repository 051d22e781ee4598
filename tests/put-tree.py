#!/usr/bin/env python3
"""Puts trees of the host into images with `nova put -r`, and compares what `nova tar` gives back with them. The trees have hard
links, holes, directories without names, long names, modes and times. What is refused leaves the image's bytes as they were.

    tests/put-tree.py [PROGRAM] [COUNT]     closes with 'N passed, M failed', and tells how long COUNT files of 4 KiB take,
                                            10,000 if left out, on 8 CPUs, which have 16,384 inodes
"""
import os
import re
import socket
import subprocess
import sys
import tempfile
from pathlib import Path

import trees
from trees import BLOCK, archive_of, given_back, is_refused, made_image, nova, same, says_nothing, shown, sum_of


def put(program, image, host, path, *words):
    """Puts a tree, which says nothing; the image has no fault behind it."""
    done = nova(program, "put", "-r", image, host, path, *words)
    says_nothing(f"put -r {host} {path}", done)
    same(f"put -r {host} {path}: check", 0, nova(program, "check", image).returncode)


def alike(name, tree, other):
    """Two folders hold the same."""
    done = subprocess.run(["diff", "-r", tree, other], capture_output=True)
    same(f"{name}: diff -r", (0, b""), (done.returncode, done.stdout))
    same(f"{name}: tree", shown(tree), shown(other))


def whole_tree(program, room):
    """Into the root of an image, and once more over what is there; and as an archive of the tree would be put there."""
    tree, image, other = room / "tree", made_image(program, room / "whole.img"), made_image(program, room / "archive.img")
    put(program, image, tree, "/")
    alike("whole", tree, given_back(program, image, room / "whole"))
    same("untar: status", 0, nova(program, "untar", other, given=archive_of(tree)).returncode)
    says_nothing("whole: nova diff", nova(program, "diff", image, other))
    put(program, image, tree, "/")
    alike("again", tree, given_back(program, image, room / "again"))
    same("links", [b"3"], numbers_of(program, image, "/file", b"links"))


def below_a_path(program, room):
    """To a path that isn't there, whose directories are made; to one that is, whose names stay; and by a slash and a link."""
    tree, image = room / "tree", made_image(program, room / "below.img", 512)
    put(program, image, tree, "/new/place")
    same("old: mkdir", 0, nova(program, "mkdir", image, "/old", "--time", 7).returncode)
    same("old: put", 0, nova(program, "put", image, room / "outside", "/old/stays", "--time", 7).returncode)
    put(program, image, f"{tree}/", "/old")
    (room / "link").symlink_to("tree")
    put(program, image, room / "link", "/linked")
    back = given_back(program, image, room / "below")
    alike("below", tree, back / "new" / "place")
    alike("by a link", tree, back / "linked")
    same("old: stays", b"one name of two", (back / "old" / "stays").read_bytes())
    (back / "old" / "stays").unlink()
    os.utime(back / "old", (4000000, 4000000))
    alike("old", tree, back / "old")


def one_file(program, room):
    image = made_image(program, room / "one.img")
    put(program, image, room / "tree" / "none", "/f")
    same("a file: mode and time", [b"2541", b"0"], numbers_of(program, image, "/f", b"mode", b"time"))
    put(program, image, room / "tree" / "file", "/f")
    same("a file again: bytes", b"words\n", nova(program, "cat", image, "/f").stdout)


def numbers_of(program, image, path, *names):
    words = nova(program, "stat", image, path).stdout.split()
    return [words[words.index(name) + 1] for name in names]


def in_any_order(program, room):
    """The order in which the host lists names makes no difference."""
    names, sums = [f"{k * 7919 % 1000:03}" for k in range(300)], []
    for folder, order in (("rising", sorted(names)), ("mixed", names), ("falling", sorted(names, reverse=True))):
        (room / folder).mkdir()
        for name in order:
            (room / folder / name).write_bytes(name.encode())
        image = made_image(program, room / f"{folder}.img", 1024, tables=16)
        put(program, image, room / folder, "/d", "--time", 9)
        sums.append(sum_of(image))
    same("order", 1, len(set(sums)))
    same("time", [b"9"], numbers_of(program, image, "/d/000", b"time"))


def inodes(program, image):
    """The numbers of the inodes in use."""
    rows = re.findall(rb"^inode (\d+)", nova(program, "check", image).stdout, re.M)
    return {int(row) for row in rows}


def by_cpu(program, room):
    """The CPU that is named has all of it; without one each CPU has inodes of it."""
    image = made_image(program, room / "cpus.img", 256, cpus=2)
    put(program, image, room / "tree", "/d", "--cpu", 1)
    alike("by a CPU", room / "tree", given_back(program, image, room / "by-cpu") / "d")
    same("by a CPU: inodes", {1}, {inode % 2 for inode in inodes(program, image)})
    image = made_image(program, room / "any.img", 256, cpus=2)
    put(program, image, room / "tree", "/d")
    alike("by any CPU", room / "tree", given_back(program, image, room / "by-any") / "d")
    same("by any CPU: inodes", list(range(1, len(inodes(program, image)) + 1)), sorted(inodes(program, image)))
    is_refused("no such CPU", "refused BadCpu\nmember .\n", nova(program, "put", "-r", image, room / "tree", "/e", "--cpu", 2))


def by_streams(program, room):
    """An image on standard input is written to standard output."""
    image = made_image(program, room / "streams.img")
    done = nova(program, "put", "-r", "-", room / "tree", "/d", given=image.read_bytes())
    same("streams: status", (0, b""), (done.returncode, done.stderr))
    put(program, image, room / "tree", "/d")
    same("streams: image", True, image.read_bytes() == done.stdout)


def misfits(program, room):
    """What an image can't hold is named, and nothing is put."""
    image = made_image(program, room / "misfits.img")
    before = sum_of(image)
    cases = []
    for name in ("links", "pipe", "socket", "bytes", "large", "closed"):
        (room / name / "d").mkdir(parents=True)
    (room / "links" / "d" / "l").symlink_to("nothing")
    cases.append((room / "links", f"cannot read {room}/links/d/l\nit is a symbolic link, which an image can't hold\n"))
    os.mkfifo(room / "pipe" / "d" / "p")
    cases.append((room / "pipe", f"cannot read {room}/pipe/d/p\nit is neither a file nor a directory\n"))
    with socket.socket(socket.AF_UNIX) as end:
        end.bind(str(room / "socket" / "d" / "s"))
    cases.append((room / "socket", f"cannot read {room}/socket/d/s\nit is neither a file nor a directory\n"))
    (Path(os.fsdecode(os.fsencode(room / "bytes" / "d") + b"/\xff\n"))).write_bytes(b"")
    cases.append((room / "bytes", f"cannot read {room}/bytes/d/\\xff\\x0a\nits name isn't UTF-8\n"))
    with open(room / "large" / "d" / "l", "wb") as file:
        file.truncate((1 << 30) + 1)
    cases.append((room / "large", "refused TooLarge\n"))
    cases.append((room / "none", f"cannot read {room}/none\nno such file\n"))
    cases.append((Path("/dev/null"), "cannot read /dev/null\nit is neither a file nor a directory\n"))
    if os.getuid() != 0:
        os.chmod(room / "closed" / "d", 0o300)
        cases.append((room / "closed", f"cannot read {room}/closed/d\nno permission to read it\n"))
    for host, told in cases:
        done = nova(program, "put", "-r", image, host, "/new")
        is_refused(host.name, told, done)
        same(f"{host.name}: image", before, sum_of(image))
    os.chmod(room / "closed" / "d", 0o700)


def refusals(program, room):
    """What a call refuses is told with its path in the tree, and nothing is put."""
    image = made_image(program, room / "refused.img", 64)
    same("mkdir", 0, nova(program, "mkdir", image, "/file", "--time", 7).returncode)
    same("put", 0, nova(program, "put", image, room / "outside", "/name", "--time", 7).returncode)
    before = sum_of(image)
    (room / "much").mkdir()
    (room / "much" / "bytes").write_bytes(bytes(64 * BLOCK))
    for host, path, told in (
        (room / "tree" / "file", "/file", "refused IsDirectory\nmember .\n"),
        (room / "tree", "/name", "refused Exists\nmember .\n"),
        (room / "tree", "/name/below", "refused NotDirectory\nmember .\n"),
        (room / "tree", "/a/..", "refused BadName\nmember .\n"),
        (room / "tree", "/" + 256 * "x", "refused BadName\nmember .\n"),
        (room / "tree", "/", "refused IsDirectory\nmember ./file\n"),
        (room / "much", "/new", "refused NoSpace\nmember ./bytes\n"),
    ):
        done = nova(program, "put", "-r", image, host, path)
        is_refused(f"{host.name} {path}", told, done)
        same(f"{host.name} {path}: image", before, sum_of(image))
    done = nova(program, "put", image, room / "tree", "/d")
    hint = f"cannot read {room}/tree\nit is a directory\nnova put -r puts a directory into an image\n"
    is_refused("without -r", hint, done)
    same("without -r: image", before, sum_of(image))


def many_files(program, room, count):
    tree, image = trees.many_files(room / "many", count), room / "many.img"
    trees.timed(program, image, count, "put", "-r", image, tree, "/")
    alike("many files", tree, given_back(program, image, room / "many-back"))


def main():
    program, count = trees.asked()
    with tempfile.TemporaryDirectory() as folder:
        room = Path(folder)
        trees.hard_tree(room / "tree")
        whole_tree(program, room)
        below_a_path(program, room)
        one_file(program, room)
        in_any_order(program, room)
        by_cpu(program, room)
        by_streams(program, room)
        misfits(program, room)
        refusals(program, room)
        many_files(program, room, count)
    return trees.close()


if __name__ == "__main__":
    sys.exit(main())
