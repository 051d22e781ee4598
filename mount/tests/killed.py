#!/usr/bin/env python3
"""Kills novafuse in the middle of calls, and compares what is found then with a model of the calls that were answered.

    killed.py NOVAFUSE NOVA KILLS SEED FOLDER [--mapped]

It mounts an image of FOLDER and makes calls at random until the program is killed. Then `nova check` may find no fault.

With --mapped the mount shows the tree behind the last call that was answered, or behind the one that was under way. The kernel may
hand a write over in parts, which end at pages: then some of the first parts may be there. Without, it shows the tree of the last
fsync that was answered, or of the one that was under way.

It closes with 'N passed, M failed', and ends with 1 on a failure.
"""

import copy
import os
import random
import signal
import subprocess
import sys
import threading
import time
from pathlib import Path

BLOCKS = 16384
PAGE = 4096
MANY_NAMES, MOST_NAMES, MOST_DEPTH = 600, 1000, 4
SIZES = (1, 100, 4096, 5000, 20000, 110000)
# One of so many calls is an fsync.
SYNCS = 1 / 12


class Tree:
    """What has to be there: for each path the content of a file, which its hard links share, or None for a directory."""

    def __init__(self):
        self.at = {}

    def directories(self):
        return ["", *(path for path, content in self.at.items() if content is None)]

    def files(self):
        return [path for path, content in self.at.items() if content is not None]

    def below(self, path):
        return [it for it in self.at if it.startswith(path + "/")]

    def after(self, call):
        other = copy.deepcopy(self)
        other.apply(call)
        return other

    def apply(self, call):
        kind, path, *words = call
        if kind == "create":
            self.at[path] = [b""]
        elif kind == "mkdir":
            self.at[path] = None
        elif kind == "write":
            offset, data = words
            content = self.at[path]
            old = content[0].ljust(offset, b"\0")
            content[0] = old[:offset] + data + old[offset + len(data) :]
        elif kind == "cut":
            content = self.at[path]
            content[0] = content[0][: words[0]].ljust(words[0], b"\0")
        elif kind == "link":
            self.at[words[0]] = self.at[path]
        elif kind in ("unlink", "rmdir"):
            del self.at[path]
        elif kind in ("rename", "replace"):
            self.at.pop(words[0], None)
            for one in [path, *self.below(path)]:
                self.at[words[0] + one[len(path) :]] = self.at.pop(one)

    def may_become(self, call):
        """The trees that a call may leave of this one where it is cut short."""
        yield self
        if call[0] == "write":
            kind, path, offset, data = call
            for end in range(PAGE - offset % PAGE, len(data), PAGE):
                yield self.after((kind, path, offset, data[:end]))
        yield self.after(call)

    def seen(self):
        """What a walk sees of it: contents, and how many names each has."""
        counts = {}
        for content in self.at.values():
            counts[id(content)] = counts.get(id(content), 0) + 1
        return {path: None if it is None else (it[0], counts[id(it)]) for path, it in self.at.items()}


def choose(tree, number, chance):
    """A call that the tree allows, with new names of this number, or now and then an fsync."""
    if chance.random() < SYNCS:
        return ("sync", "")
    kind = chance.choice("create create mkdir write write write cut link unlink rmdir rename rename replace".split())
    if len(tree.at) > MANY_NAMES:
        kind = "unlink" if len(tree.at) > MOST_NAMES else chance.choice(["unlink", "unlink", "rmdir", "write", "rename", "replace"])
    directory = chance.choice(tree.directories())
    files, new = tree.files(), f"{directory}/n{number}"
    if kind == "mkdir" and directory.count("/") < MOST_DEPTH:
        return "mkdir", new
    if kind == "write" and files:
        data = bytes([chance.randrange(256)]) * chance.choice(SIZES)
        return "write", chance.choice(files), chance.randrange(9000), data
    if kind == "cut" and files:
        return "cut", chance.choice(files), chance.randrange(15000)
    if kind == "link" and files:
        return "link", chance.choice(files), new
    if kind == "unlink" and len(files) > 3:
        return "unlink", chance.choice(files)
    if kind == "rmdir":
        empty = [it for it in tree.directories()[1:] if not tree.below(it)]
        if empty:
            return "rmdir", chance.choice(empty)
    if kind == "rename" and tree.at:
        path = chance.choice(list(tree.at))
        to = chance.choice([it for it in tree.directories() if not (it + "/").startswith(path + "/")])
        return "rename", path, f"{to}/r{number}"
    if kind == "replace" and len(files) > 3:
        path, other = chance.sample(files, 2)
        if tree.at[path] is not tree.at[other]:
            return "replace", path, other
    return "create", new


def make(folder, call):
    """Makes a call by the system."""
    kind, path, *words = call
    path = folder + path
    if kind == "create":
        os.close(os.open(path, os.O_CREAT | os.O_EXCL | os.O_WRONLY, 0o644))
    elif kind == "mkdir":
        os.mkdir(path)
    elif kind == "write":
        file = os.open(path, os.O_WRONLY)
        try:
            if os.pwrite(file, words[1], words[0]) != len(words[1]):
                raise OSError("a short write")
        finally:
            os.close(file)
    elif kind == "cut":
        os.truncate(path, words[0])
    elif kind == "link":
        os.link(path, folder + words[0])
    elif kind == "unlink":
        os.unlink(path)
    elif kind == "rmdir":
        os.rmdir(path)
    elif kind in ("rename", "replace"):
        os.rename(path, folder + words[0])
    elif kind == "sync":
        at = os.open(path, os.O_RDONLY | os.O_DIRECTORY)
        try:
            os.fsync(at)
        finally:
            os.close(at)


def walk(folder):
    found = {}
    for at, directories, files in os.walk(folder):
        below = at[len(folder) :]
        found.update({f"{below}/{name}": None for name in directories})
        for name in files:
            path = f"{at}/{name}"
            found[f"{below}/{name}"] = Path(path).read_bytes(), os.stat(path).st_nlink
    return found


class Mount:
    """A mount that can be killed."""

    def __init__(self, program, image, folder, options):
        self.folder = folder
        words = [program, image, folder, "-f", *options]
        self.process = subprocess.Popen(words, stdout=subprocess.DEVNULL, stderr=subprocess.PIPE)
        while not os.path.ismount(folder):
            if self.process.poll() is not None:
                sys.exit(self.process.stderr.read().decode())
            time.sleep(0.005)

    def kill_after(self, seconds):
        threading.Timer(seconds, self.process.send_signal, [signal.SIGKILL]).start()

    def is_over(self):
        """Whether it was killed, as a call that failed would have it."""
        try:
            self.process.wait(5)
            return True
        except subprocess.TimeoutExpired:
            return False

    def end(self):
        subprocess.run(["fusermount3", "-u", "-z", self.folder], stderr=subprocess.DEVNULL)
        self.process.wait()


def calls_until_killed(mount, tree, number, chance):
    """Makes calls, and applies those that are answered: how many, the one that was under way, and the tree of the last fsync."""
    made, saved = 0, copy.deepcopy(tree)
    while True:
        call = choose(tree, f"{number}_{made}", chance)
        try:
            make(mount.folder, call)
        except OSError as error:
            if mount.is_over():
                return made, call, saved
            mount.process.kill()
            raise SystemExit(f"refused: {call[:2]}: {error}")
        tree.apply(call)
        if call[0] == "sync":
            saved = copy.deepcopy(tree)
        made += 1


def difference(found, wanted):
    """What of two walks is not the same, in short."""
    short = lambda it: it and (len(it[0]), it[1])
    paths = sorted(path for path in {*found, *wanted} if found.get(path) != wanted.get(path))
    return [(path, short(found.get(path)), short(wanted.get(path))) for path in paths[:5]]


def main():
    program, nova, kills, seed, room, *options = sys.argv[1:]
    chance = random.Random(int(seed))
    image, folder = f"{room}/killed.img", f"{room}/killed"
    os.makedirs(folder, exist_ok=True)
    subprocess.run([nova, "mkfs", image, "--blocks", str(BLOCKS), "--cpus", "4", "--tables", "16", "--force"], check=True)
    tree, calls, under_way, failed = Tree(), 0, 0, 0
    for number in range(int(kills)):
        mount = Mount(program, image, folder, options)
        mount.kill_after(chance.uniform(0.02, 0.4))
        made, call, saved = calls_until_killed(mount, tree, number, chance)
        calls += made
        mount.end()
        checked = subprocess.run([nova, "check", image, "--summary"], capture_output=True, text=True)
        mount = Mount(program, image, folder, options)
        found = walk(folder)
        mount.end()
        may_be = tree.may_become(call) if options else [saved, tree] if call[0] == "sync" else [saved]
        left = next((it for it in may_be if found == it.seen()), None)
        if checked.returncode or left is None:
            failed += 1
            print(f"WRONG: kill {number}, within {call[:2]}: {checked.stdout.strip()}")
            print(f"found, and wanted: {difference(found, tree.seen())}; or {difference(found, tree.after(call).seen())}")
            break
        under_way += left is not (tree if options else saved)
        tree = left
    print(f"{calls} calls were answered; {under_way} times the one under way was done too, or a part of it")
    print(f"{int(kills) - failed} passed, {failed} failed")
    sys.exit(failed > 0)


if __name__ == "__main__":
    main()
