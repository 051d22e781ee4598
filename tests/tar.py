#!/usr/bin/env python3
"""Writes images with trees that are hard to put into an archive, lets the program make archives of them, and compares what
Python's tarfile, tar and, where it is there, bsdtar read with what stands in the images.

usage: tests/tar.py PROGRAM          PROGRAM is nova: it is run as `PROGRAM tar IMAGE [--lost-found]`
       tests/tar.py --images FOLDER  writes the images alone
       tests/tar.py --archives FOLDER  compares archives that stand there beside the images, as NAME.tar
"""

import importlib.util
import io
import json
import os
import random
import re
import shutil
import struct
import subprocess
import sys
import tarfile
import tempfile

HERE = os.path.dirname(os.path.abspath(__file__))
LONG = b"n" * 255
NOT_UTF8 = b"\xff\xfe \\ name"
MANY = 60_000
DAMAGED = 60
LARGE = 1 << 26
MOST_MEMORY = 16 << 20
# More than eleven octal digits can say.
LATE = 1 << 33


def load_images():
    spec = importlib.util.spec_from_file_location("hostile_images", os.path.join(HERE, "hostile-images.py"))
    module = importlib.util.module_from_spec(spec)
    spec.loader.exec_module(module)
    module.BLOCKS = 4096
    return module


images = load_images()


# The time, the owner and the group of what is made, where nothing else is said.
USUAL = {"time": 7, "owner": 1000, "group": 100}


def attributes(mode, size, time=7, owner=1000, group=100):
    return struct.pack("<BBHIQQII", 2, 0, 32, mode, size, time, owner, group)


class Tree:
    """An image, with what its archive has to hold: by its path the kind, and of a file its bytes, with its numbers."""

    def __init__(self, path):
        self.image = images.Image(path, 2, 64)
        self.block = images.BLOCKS
        self.inode = 2

    def number(self):
        self.inode += 1
        return self.inode - 1

    def put_block(self, bytes_):
        self.block -= 1
        self.image.put(self.block * 4096, bytes_)
        return self.block

    def put_file(self, pages, size, **numbers):
        """A file of pages by their numbers. Answers its inode and its member."""
        return self.put_blocks({page: (self.put_block(bytes_), bytes_) for page, bytes_ in pages.items()}, size, **numbers)

    def put_blocks(self, pages, size, **numbers):
        """The same of blocks that are written already."""
        inode, content, entries = self.number(), bytearray(size), []
        for page, (block, bytes_) in pages.items():
            entries.append(images.write(page, 1, block, max(size, page * 4096 + 1)))
            end = min(size, (page + 1) * 4096)
            content[page * 4096:end] = bytes_.ljust(4096, b"\0")[:end - page * 4096]
        entries.append(attributes(420, size, **numbers))
        self.image.put_inode(inode, images.FILE, entries)
        return inode, ("file", bytes(content), (420, *(numbers.get(name, usual) for name, usual in USUAL.items())))

    def put_directory(self, names, inode=None):
        inode = inode or self.number()
        self.image.put_inode(inode, images.DIRECTORY, [attributes(493, 0), *(images.adds(name, to) for name, to in names)])
        return inode

    def close(self):
        self.image.file.close()


# A member that is a directory: each of its names was put in at time 0.
FOLDER = ("directory", None, (493, 0, USUAL["owner"], USUAL["group"]))


def link_to(path):
    return ("link", path, None)


def hard(path):
    """Holes, two names of a file, names of 255 bytes and of no text, eight levels, many names, and numbers past their fields."""
    tree = Tree(path)
    held, first = tree.put_file({0: b"begins" * 600, 2: b"ends" * 900}, 9_000)
    empty, nothing = tree.put_file({}, 0)
    whole, second = tree.put_file({0: b"x" * 4096}, 4096, time=LATE, owner=1 << 21, group=4_000_000_000)
    below, at = [(b"leaf", empty), (b"same", held)], b"."
    levels = [b"level%d" % k + b"-" * 20 for k in range(8)]
    for name in reversed(levels):
        below = [(name, tree.put_directory(below))]
    many = tree.put_directory((b"%05d" % k, empty) for k in range(MANY))
    tree.put_directory([(b"held", held), (LONG, whole), (NOT_UTF8, whole), (b"many", many), *below], images.ROOT)
    tree.close()

    # Names rise by bytes: the first one of an inode holds what it holds.
    wanted = {b".": FOLDER, b"./held": first}
    for name in levels:
        at += b"/" + name
        wanted[at] = FOLDER
    wanted[at + b"/leaf"] = nothing
    wanted[at + b"/same"] = link_to(b"./held")
    wanted[b"./many"] = FOLDER
    for k in range(MANY):
        wanted[b"./many/%05d" % k] = link_to(at + b"/leaf")
    wanted[b"./" + LONG] = second
    wanted[b"./" + NOT_UTF8] = link_to(b"./" + LONG)
    return wanted


def lost(path):
    """A directory that no path reaches, with a file and a way back into itself, a ring, and a file alone."""
    tree = Tree(path)
    kept, first = tree.put_file({0: b"kept"}, 4)
    inside, second = tree.put_file({0: b"inside"}, 6)
    alone, third = tree.put_file({0: b"alone"}, 5)
    top, under, ring_a, ring_b = (tree.number() for _ in range(4))
    tree.put_directory([(b"back", top), (b"file", inside)], under)
    tree.put_directory([(b"under", under)], top)
    tree.put_directory([(b"b", ring_b)], ring_a)
    tree.put_directory([(b"a", ring_a)], ring_b)
    tree.put_directory([(b"kept", kept), (b"nowhere", 2_000)], images.ROOT)
    tree.close()
    # Both rings lead back to what a name leads to, so their lowest number comes last.
    return {
        b".": FOLDER, b"./kept": first,
        b"lost+found/#%d" % alone: third,
        b"lost+found/#%d" % top: FOLDER,
        b"lost+found/#%d/under" % top: FOLDER,
        b"lost+found/#%d/under/back" % top: FOLDER,
        b"lost+found/#%d/under/file" % top: second,
        b"lost+found/#%d" % ring_a: FOLDER,
        b"lost+found/#%d/b" % ring_a: FOLDER,
        b"lost+found/#%d/b/a" % ring_a: FOLDER,
    }


def doubled(path):
    """A block of two files: both have its bytes."""
    tree = Tree(path)
    bytes_ = b"twice" * 800
    block = tree.put_block(bytes_)
    left, first = tree.put_blocks({0: (block, bytes_)}, 4000)
    right, second = tree.put_blocks({1: (block, bytes_)}, 8000)
    tree.put_directory([(b"left", left), (b"right", right)], images.ROOT)
    tree.close()
    return {b".": FOLDER, b"./left": first, b"./right": second}


CASES = {"hard": (hard, []), "lost": (lost, ["--lost-found"]), "doubled": (doubled, [])}


# ---- what is read of an archive


def raw(text):
    return text.encode("utf-8", "surrogateescape")


def members(archive):
    """What Python's tarfile reads, in order."""
    with tarfile.open(fileobj=io.BytesIO(archive), errors="surrogateescape") as opened:
        for member in opened:
            numbers = (member.mode, int(member.mtime), member.uid, member.gid)
            if member.isdir():
                yield raw(member.name), ("directory", None, numbers)
            elif member.islnk():
                yield raw(member.name), ("link", raw(member.linkname), None)
            else:
                content = opened.extractfile(member).read()
                if len(content) != member.size:
                    fail(f"{member.name!r} has {len(content)} bytes for {member.size}")
                yield raw(member.name), ("file", content, numbers)


def read(archive):
    """The members by their paths."""
    found = {}
    for path, member in members(archive):
        if path in found:
            fail(f"{path!r} stands twice")
        found[path] = member
    return found


def fail(text):
    sys.exit(f"tar.py: {text}")


def same(name, wanted, found):
    for path in wanted:
        if path not in found:
            fail(f"{name}: {path!r} is left out")
        if found[path] != wanted[path]:
            fail(f"{name}: {path!r} is {str(found[path])[:80]}, and not {str(wanted[path])[:80]}")
    for path in found:
        if path not in wanted:
            fail(f"{name}: {path!r} isn't in the image")


def make_tree(folder, wanted):
    """Makes what an archive has to give, in a folder."""
    for path, (kind, content, _) in wanted.items():
        at = os.path.join(os.fsencode(folder), path)
        os.makedirs(os.path.dirname(at), exist_ok=True)
        if kind == "directory":
            os.makedirs(at, exist_ok=True)
        elif kind == "link":
            os.link(os.path.join(os.fsencode(folder), content), at)
        else:
            with open(at, "wb") as file:
                file.write(content)


def extracted(name, program, archive, wanted):
    """What a program for archives makes of it in a folder is what is wanted, and links are links."""
    with tempfile.TemporaryDirectory() as folder:
        made, due = os.path.join(folder, "made"), os.path.join(folder, "due")
        os.mkdir(made)
        make_tree(due, wanted)
        subprocess.run([program, "-tvf", "-"], input=archive, stdout=subprocess.DEVNULL, check=True)
        subprocess.run([program, "-x", "--no-same-owner", "-f", "-"], input=archive, cwd=made, check=True)
        compared = subprocess.run(["diff", "-r", due, made], stdout=subprocess.PIPE)
        if compared.returncode != 0:
            fail(f"{name}: what {program} makes differs: {compared.stdout[:400]}")
        for path, (kind, content, _) in wanted.items():
            ends = (os.path.join(os.fsencode(made), end) for end in (path, content or path))
            if kind == "link" and not os.path.samefile(*ends):
                fail(f"{name}: {program} made no link of {path!r}")


def compare(name, archive, wanted):
    if len(archive) % 512 != 0 or archive[-1024:] != bytes(1024):
        fail(f"{name}: the archive doesn't end with two blocks of zeros")
    found = read(archive)
    same(name, wanted, found)
    programs = [program for program in ("tar", "bsdtar") if shutil.which(program)]
    for program in programs:
        extracted(name, program, archive, wanted)
    print(f"{name}: {len(found)} members, as tarfile, {' and '.join(programs)} read them")


# ---- a large file


def peak_of(*words):
    """How many bytes a program writes, and the most memory that it takes."""
    child = subprocess.Popen(words, stdout=subprocess.PIPE, stderr=subprocess.DEVNULL)
    written = sum(iter(lambda: len(child.stdout.read(1 << 20)), 0))
    _, status, used = os.wait4(child.pid, 0)
    child.returncode = os.waitstatus_to_exitcode(status)
    if child.returncode != 0:
        fail(f"{' '.join(words)} ended with status {child.returncode}")
    return written, used.ru_maxrss * 1024


def large(program, folder):
    """A file of two pages and a hole between them is written in no more memory than a listing takes, but for some."""
    image = os.path.join(folder, "large.img")
    tree = Tree(image)
    inode, _ = tree.put_file({0: b"begins", LARGE // 4096 - 1: b"ends"}, LARGE)
    tree.put_directory([(b"large", inode)], images.ROOT)
    tree.close()
    _, listing = peak_of(program, "ls", image)
    written, archive = peak_of(program, "tar", image)
    if not LARGE < written < LARGE + 4096:
        fail(f"large: {written} bytes for {LARGE}")
    if archive > listing + MOST_MEMORY:
        fail(f"large: {archive - listing} bytes of memory beside the metadata")
    print(f"large: {written} bytes, with {(archive - listing) // 1024} KiB beside the metadata")


# ---- damaged images


def output_of(*words):
    """What the program writes, whatever it says of faults."""
    done = subprocess.run(words, stdout=subprocess.PIPE, stderr=subprocess.DEVNULL)
    return done.returncode, done.stdout


def rescue(program, image, name):
    """All that a report lists stands in the archive, with `--lost-found`: each file once, and what no path reaches by its number."""
    status, told = output_of(program, "check", image, "--json")
    if status == 2:
        return 0
    inodes = json.loads(told)["inodes"]
    status, archive = output_of(program, "tar", image, "--lost-found")
    if status != 0:
        # Without a root there is nothing that `/` leads to.
        if any(one["inode"] == images.ROOT for one in inodes):
            fail(f"{name}: no archive")
        return 0
    found = list(members(archive))
    due = sorted((one["attributes"]["size"], one["attributes"]["mode"]) for one in inodes if one["kind"] == "file")
    rescued = sorted((len(content), numbers[0]) for _, (kind, content, numbers) in found if kind == "file")
    if due != rescued:
        fail(f"{name}: {len(rescued)} files of {len(due)}")
    if sum(one["kind"] == "dir" for one in inodes) > sum(kind == "directory" for _, (kind, _, _) in found):
        fail(f"{name}: a directory is left out")
    for path, (kind, content, _) in found:
        alone = re.fullmatch(rb"lost\+found/#(\d+)", path)
        if alone and kind == "file" and output_of(program, "cat", image, alone[1].decode())[1] != content:
            fail(f"{name}: {path!r} has other bytes than the file")
    return len(rescued)


def small(path):
    """A tree of three levels, whose logs lie close together."""
    tree = Tree(path)
    files = [tree.put_file({0: b"%03d" % k * 100}, 300 + k)[0] for k in range(40)]
    inner = tree.put_directory((b"f%d" % k, one) for k, one in enumerate(files[:20]))
    middle = tree.put_directory([(b"inner", inner), *((b"g%d" % k, one) for k, one in enumerate(files[20:30]))])
    tree.put_directory([(b"middle", middle), *((b"h%d" % k, one) for k, one in enumerate(files[30:]))], images.ROOT)
    tree.close()
    return tree.image.next


def damaged(program, folder):
    """Bytes of slots and logs are turned, a few in each image."""
    image, chance = os.path.join(folder, "small.img"), random.Random(7)
    pages = small(image)
    with open(image, "rb") as file:
        whole = file.read()
    rescued = 0
    for turn in range(DAMAGED):
        bytes_ = bytearray(whole)
        for _ in range(chance.randint(1, 6)):
            block = chance.choice([3, 67, chance.randrange(131, pages)])
            bytes_[block * 4096 + chance.randrange(3072 if block < 131 else 512)] ^= 1 << chance.randrange(8)
        with open(image, "wb") as file:
            file.write(bytes_)
        rescued += rescue(program, image, f"damaged {turn}")
    print(f"{DAMAGED} damaged images: {rescued} files, each of which its report lists")


def main():
    if len(sys.argv) == 3 and sys.argv[1] == "--images":
        for name, (make, _) in CASES.items():
            make(os.path.join(sys.argv[2], f"{name}.img"))
        return
    if len(sys.argv) == 3 and sys.argv[1] == "--archives":
        for name, (make, _) in CASES.items():
            wanted = make(os.path.join(sys.argv[2], f"{name}.img"))
            with open(os.path.join(sys.argv[2], f"{name}.tar"), "rb") as file:
                compare(name, file.read(), wanted)
        return
    if len(sys.argv) != 2:
        sys.exit(__doc__)
    with tempfile.TemporaryDirectory() as folder:
        for name, (make, words) in CASES.items():
            image = os.path.join(folder, f"{name}.img")
            wanted = make(image)
            status, archive = output_of(sys.argv[1], "tar", image, *words)
            if status != 0:
                fail(f"{name}: {sys.argv[1]} ended with status {status}")
            compare(name, archive, wanted)
        large(sys.argv[1], folder)
        damaged(sys.argv[1], folder)


if __name__ == "__main__":
    main()
