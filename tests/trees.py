"""What those scripts of this folder share that put trees of files into images and compare what comes back. It is no script itself.

It counts what was compared: `same` compares, and `close` says how many passed.
"""

import hashlib
import os
import subprocess
import sys
import time
from pathlib import Path

PROGRAM = Path(__file__).resolve().parent.parent / "crates/nova/out/nova"
BLOCK = 4096

# What 10,000 files of 4 KiB may take on a busy machine, in seconds, of several tries the shortest. On a quiet one it is 1.
MOST_SECONDS = 10.0
TRIES = 3

passed = failed = 0


def same(name, wanted, found):
    global passed, failed
    if wanted == found:
        passed += 1
    else:
        failed += 1
        print(f"FAILED {name}: {found!r} in place of {wanted!r}")


def close():
    """Prints the counts, and answers the exit status."""
    print(f"{passed} passed, {failed} failed")
    return 1 if failed else 0


def asked():
    """The program and the number of files that the script's words name."""
    program = str(Path(sys.argv[1]).resolve()) if len(sys.argv) > 1 else str(PROGRAM)
    return program, int(sys.argv[2]) if len(sys.argv) > 2 else 10000


def nova(program, *words, given=b""):
    return subprocess.run([program, *map(str, words)], input=given, capture_output=True)


def says_nothing(name, done):
    same(f"{name}: answer", (0, b"", b""), (done.returncode, done.stdout, done.stderr))


def is_refused(name, told, done):
    same(f"{name}: answer", (2, b"", told), (done.returncode, done.stdout, done.stderr.decode()))


def made_image(program, place, blocks=256, cpus=1, tables=4):
    done = nova(program, "mkfs", place, "--blocks", blocks, "--cpus", cpus, "--tables", tables, "--force")
    assert done.returncode == 0, done.stderr
    return place


def sum_of(image):
    return hashlib.sha256(image.read_bytes()).digest()


def archive_of(folder, *words):
    return subprocess.run(["tar", "-C", folder, *words, "-cf", "-", "."], check=True, capture_output=True).stdout


def shown(folder):
    """Each path below a folder with what stands there: kind, mode, owner, time in seconds, bytes, and which paths are one file."""
    first, found = {}, {}
    for path in sorted(Path(folder).rglob("*")) + [Path(folder)]:
        name, stat = str(path.relative_to(folder)), path.lstat()
        bytes_there = path.read_bytes() if path.is_file() else None
        one = first.setdefault(stat.st_ino, name)
        found[name] = (path.is_dir(), oct(stat.st_mode & 0o7777), stat.st_uid, int(stat.st_mtime), bytes_there, one)
    return found


def given_back(program, image, folder):
    """What `nova tar` writes of an image, as tar puts it on the disk."""
    written = nova(program, "tar", image)
    same(f"tar of {image.name}: status", 0, written.returncode)
    folder.mkdir()
    subprocess.run(["tar", "-C", folder, "-xpf", "-"], input=written.stdout, check=True)
    return folder


def hard_tree(folder):
    """A tree with links, one of them to a file beside it, holes, directories without names, long and odd names, modes and times."""
    folder.mkdir()
    (folder / "empty").mkdir(mode=0o700)
    (folder / "deep" / "er").mkdir(parents=True)
    (folder / "file").write_bytes(b"words\n")
    (folder / "none").write_bytes(b"")
    os.link(folder / "file", folder / "deep" / "same")
    os.link(folder / "file", folder / "another")
    with open(folder / "hole", "wb") as file:
        file.seek(3 * BLOCK)
        file.write(b"behind")
    (folder / "deep" / "er" / ("n" * 255)).write_bytes(bytes(range(256)) * 40)
    for name in (".hidden", "..two", "-r", "a b", "back\\slash", "line\nend", "grün", "Z", "*"):
        (folder / "deep" / name).write_bytes(name.encode())
    long = folder
    for part in ("a" * 90, "b" * 90):
        long = long / part
        long.mkdir()
    (long / ("c" * 90)).write_bytes(b"long")
    outside = folder.parent / "outside"
    outside.write_bytes(b"one name of two")
    os.link(outside, folder / "inside")
    os.chmod(folder / "file", 0o640)
    os.chmod(folder / "none", 0o4755)
    for place, when in (("file", 1000000), ("empty", 2000000), ("deep", 3000000), ("none", 0), (".", 4000000)):
        os.utime(folder / place, (when, when))
    return folder


def many_files(tree, count):
    """So many files of 4 KiB in 100 directories."""
    for k in range(count):
        folder = tree / f"d{k % 100}"
        folder.mkdir(parents=True, exist_ok=True)
        (folder / f"f{k}").write_bytes(k.to_bytes(4, "little") * (BLOCK // 4))
    return tree


def timed(program, image, count, *words, given=b""):
    """Runs a command that fills an empty image of 256 MiB with so many files, and tells how long it took."""
    taken = []
    while not taken or min(taken) > MOST_SECONDS and len(taken) < TRIES:
        made_image(program, image, 65536, cpus=8, tables=64)
        began = time.monotonic()
        done = nova(program, *words, given=given)
        taken.append(time.monotonic() - began)
        says_nothing("many files", done)
    same("many files: check", 0, nova(program, "check", image).returncode)
    print(f"{count} files of 4 KiB: {min(taken):.2f} s")
    same(f"many files: {min(taken):.2f} s", True, count > 10000 or min(taken) <= MOST_SECONDS)
