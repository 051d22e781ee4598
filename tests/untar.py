#!/usr/bin/env python3
"""Puts archives of trees into images with `nova untar`, and compares what `nova tar` gives back with the trees: with links,
holes, directories without names, long names, modes and times. What is refused leaves the image's bytes as they were.

    tests/untar.py [PROGRAM] [COUNT]     closes with 'N passed, M failed', and tells how long COUNT files of 4 KiB take,
                                         10,000 if left out, on 8 CPUs, which have 16,384 inodes
"""
import io
import shutil
import subprocess
import sys
import tarfile
import tempfile
from pathlib import Path

import trees
from trees import BLOCK, archive_of, given_back, is_refused, made_image, nova, same, says_nothing, shown, sum_of


def whole_tree(program, room, form):
    tree, image = room / "tree", made_image(program, room / f"{form}.img")
    archive = archive_of(tree, f"--format={form}")
    done = nova(program, "untar", image, given=archive)
    says_nothing(f"{form}", done)
    same(f"{form}: check", 0, nova(program, "check", image).returncode)
    same(f"{form}: tree", shown(tree), shown(given_back(program, image, room / form)))
    # Once more, over what is there.
    done = nova(program, "untar", image, given=archive)
    says_nothing(f"{form} again", done)
    same(f"{form} again: tree", shown(tree), shown(given_back(program, image, room / f"{form}-again")))


def below_a_path(program, room):
    image = made_image(program, room / "below.img")
    same("mkdir", 0, nova(program, "mkdir", image, "/d", "--time", 7).returncode)
    done = nova(program, "untar", image, "/d/e", given=archive_of(room / "tree"))
    says_nothing("below", done)
    there = shown(given_back(program, image, room / "below"))
    same("below: tree", sorted(shown(room / "tree")), sorted(n[4:] if n != "d/e" else "." for n in there if n.startswith("d/e")))


def archive_with(*members):
    out = io.BytesIO()
    with tarfile.open(fileobj=out, mode="w") as archive:
        for name, kind, content in members:
            member = tarfile.TarInfo(name)
            member.type, member.mtime = kind, 5
            if kind == tarfile.LNKTYPE:
                member.linkname = content
                archive.addfile(member)
            else:
                member.size = len(content)
                archive.addfile(member, io.BytesIO(content))
    return out.getvalue()


def refusals(program, room):
    image = made_image(program, room / "refused.img", 64)
    nova(program, "mkdir", image, "/d", "--time", 7)
    nova(program, "mkdir", image, "/d/e", "--time", 7)
    before = sum_of(image)
    file = ("first", tarfile.REGTYPE, b"bytes")
    for name, members, told in (
        ("a part ..", [file, ("a/../b", tarfile.REGTYPE, b"")], "refused BadName\nmember a/../b\n"),
        ("a file over a directory", [file, ("d", tarfile.REGTYPE, b"x")], "refused IsDirectory\nmember d\n"),
        ("a directory over a file", [file, ("first", tarfile.DIRTYPE, b"")], "refused Exists\nmember first/\n"),
        ("a file on the way", [file, ("first/x", tarfile.REGTYPE, b"")], "refused NotDirectory\nmember first/x\n"),
        ("a link to nothing", [file, ("l", tarfile.LNKTYPE, "nothing")], "refused NotFound\nmember l\n"),
        ("too many bytes", [file, ("large", tarfile.REGTYPE, bytes(64 * BLOCK))], "refused NoSpace\nmember large\n"),
    ):
        done = nova(program, "untar", image, given=archive_with(*members))
        is_refused(f"{name}", told, done)
        same(f"{name}: image", before, sum_of(image))
    done = nova(program, "untar", image, given=archive_with(file)[:700])
    same("cut off: status", 2, done.returncode)
    same("cut off: errors", "cannot read -\nthe archive is cut off\n", done.stderr.decode())
    same("cut off: image", before, sum_of(image))


def numbers(program, image, count):
    """The inodes of the files f0, f1 and so on."""
    words = [nova(program, "stat", image, f"/f{k}").stdout.split() for k in range(count)]
    return [int(line[line.index(b"inode") + 1]) for line in words]


def by_cpus(program, room):
    """Two CPUs have 62 unused inodes. Without a CPU all of them are made, and by a named one its own."""
    image = made_image(program, room / "cpus.img", 512, cpus=2, tables=1)
    before = image.read_bytes()
    files = [(f"f{k}", tarfile.REGTYPE, b"bytes") for k in range(63)]
    for words, most, whose in (((), 62, range(2, 64)), (("--cpu", 0), 31, range(2, 64, 2)), (("--cpu", 1), 31, range(3, 64, 2))):
        done = nova(program, "untar", image, *words, given=archive_with(*files[: most + 1]))
        is_refused(f"by {words}: too many", f"refused NoInodes\nmember f{most}\n", done)
        same(f"by {words}: image", True, image.read_bytes() == before)
        done = nova(program, "untar", image, *words, given=archive_with(*files[:most]))
        says_nothing(f"by {words}", done)
        same(f"by {words}: check", 0, nova(program, "check", image).returncode)
        same(f"by {words}: inodes", list(whose), sorted(numbers(program, image, most)))
        image.write_bytes(before)
    done = nova(program, "untar", image, "--cpu", 2, given=archive_with(files[0]))
    is_refused("no such CPU", "refused BadCpu\nmember f0\n", done)
    # The directories on the way come from the other table too.
    deep = "/".join(f"d{k}" for k in range(60))
    done = nova(program, "untar", image, given=archive_with((f"{deep}/file", tarfile.REGTYPE, b"")))
    says_nothing("a long way", done)
    same("a long way: check", 0, nova(program, "check", image).returncode)
    # What is there is written anew where no inode is left.
    done = nova(program, "untar", image, given=archive_with(("last", tarfile.REGTYPE, b"1")))
    says_nothing("the last inode", done)
    done = nova(program, "untar", image, given=archive_with(("last", tarfile.REGTYPE, b"22"), ("link", tarfile.LNKTYPE, "last")))
    says_nothing("no inode is left", done)
    same("no inode is left: bytes", b"22", nova(program, "cat", image, "/link").stdout)


def one_save(program, room):
    """All members are made before the image is saved, once. It is left out where strace can't be had."""
    image, trace = made_image(program, room / "saved.img", 512, cpus=2, tables=1), room / "trace"
    words = ["strace", "-o", str(trace), "-e", "trace=rename,renameat,renameat2", program, "untar", str(image)]
    given = archive_with(*[(f"f{k}", tarfile.REGTYPE, b"bytes") for k in range(62)])
    if shutil.which("strace") is None or subprocess.run(words, input=given, capture_output=True).returncode != 0:
        print("one save: left out without strace")
        return
    same("one save", 1, trace.read_text().count("saved.img.new-"))
    same("one save: inodes", 62, len(set(numbers(program, image, 62))))


def many_files(program, room, count):
    tree, image, other = trees.many_files(room / "many", count), room / "many.img", room / "other.img"
    trees.timed(program, image, count, "untar", image, given=archive_of(tree))
    same("many files: tree", shown(tree), shown(given_back(program, image, room / "many-back")))
    made_image(program, other, 65536, cpus=8, tables=64)
    same("many files: put -r", 0, nova(program, "put", "-r", other, tree, "/").returncode)
    says_nothing("many files: diff", nova(program, "diff", image, other))


def main():
    program, count = trees.asked()
    with tempfile.TemporaryDirectory() as folder:
        room = Path(folder)
        trees.hard_tree(room / "tree")
        for form in ("gnu", "pax"):
            whole_tree(program, room, form)
        below_a_path(program, room)
        refusals(program, room)
        by_cpus(program, room)
        one_save(program, room)
        many_files(program, room, count)
    return trees.close()


if __name__ == "__main__":
    sys.exit(main())
