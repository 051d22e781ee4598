#!/usr/bin/env python3
"""Measures `nova clean` on images of 2,000 files that were overwritten 200 times each, and what it does for recovery.

usage: tests/clean-times.py [PROGRAM] [--bench BENCH] [--rounds N]

An image is made by a script: each file has a page of bytes, and then come 200 rounds over all files. A round writes the page
anew, sets the attributes anew, or cuts the file to nothing and writes it again. The best of N runs (5) counts. `alone` is a run
of an empty script that reads the image and saves it; `beyond` is what `clean` takes more than that. BENCH, the program of
crates/bench, measures a recovery on one thread before and after; without it those columns are empty. Nothing else should run
meanwhile.
"""

import argparse
import os
import re
import shutil
import subprocess
import sys
import tempfile
import time
from pathlib import Path

HERE = Path(__file__).resolve().parent.parent
FILES, ROUNDS, CPUS, TABLES, BLOCKS = 2000, 200, 4, 64, 65536
SHAPES = {
    "a page written": ["write {cpu} {path} 0 4096 {byte}"],
    "attributes set": ["attr {cpu} {path} 420 {byte} 0"],
    "cut and written": ["size {cpu} {path} 0", "write {cpu} {path} 0 4096 {byte}"],
}


def script(calls):
    """The script that makes an image: its files, and the rounds over them."""
    files = [(inode % CPUS, f"/f{inode}") for inode in range(FILES)]
    yield f"format {CPUS} {BLOCKS} {TABLES}"
    yield "recover 1"
    for cpu, path in files:
        yield f"create {cpu} {path}"
        yield f"write {cpu} {path} 0 4096 1"
    for number in range(ROUNDS):
        for cpu, path in files:
            for call in calls:
                yield call.format(cpu=cpu, path=path, byte=number % 256)


def run(*words, given=None):
    """What a run prints, and the seconds that it takes."""
    before = time.perf_counter()
    done = subprocess.run([*map(str, words)], input=given, capture_output=True, text=True)
    seconds = time.perf_counter() - before
    if done.returncode != 0:
        sys.exit(f"{words} ended with the status {done.returncode}: {done.stdout[-300:]}{done.stderr[-300:]}")
    return done.stdout, done.stderr, seconds


def milliseconds(seconds):
    return f"{1000 * seconds:.0f}"


def recovery(bench, image):
    """The milliseconds of a recovery on one thread."""
    if not bench:
        return None
    _, told, _ = run(bench, "recovery", "9", image)
    return float(re.search(r"one thread ([0-9.]+) ms", told)[1])


def row(program, bench, rounds, folder, name):
    image, copy = folder / "image", folder / "copy"
    printed, _, _ = run(program, "run", "--save", image, given="\n".join(script(SHAPES[name])) + "\n")
    if "refused" in printed:
        sys.exit(f"{name}: a call was refused")
    before = recovery(bench, image)
    alone, cleaning = [], []
    for _ in range(rounds):
        shutil.copyfile(image, copy)
        alone.append(run(program, "run", os.devnull, "--image", copy, "--save", copy)[2])
        shutil.copyfile(image, copy)
        said, _, seconds = run(program, "clean", copy)
        cleaning.append(seconds)
    after = recovery(bench, copy)
    shown = [f"{ms:.1f}" if ms else "" for ms in (before, after)]
    beyond = milliseconds(min(cleaning) - min(alone))
    return [name, said.strip(), milliseconds(min(cleaning)), milliseconds(min(alone)), beyond, *shown]


def main():
    words = argparse.ArgumentParser(usage="\n" + __doc__, add_help=False)
    words.add_argument("program", nargs="?", default=HERE / "crates/nova/out/nova")
    words.add_argument("--bench")
    words.add_argument("--rounds", type=int, default=5)
    told = words.parse_args()
    os.environ.setdefault("GLIBC_TUNABLES", "glibc.malloc.hugetlb=1")
    print("milliseconds; 2,000 files, 200 rounds\n")
    print("| round | answer | clean | alone | beyond | recovery before | after |")
    print("|---|---|---|---|---|---|---|")
    for name in SHAPES:
        with tempfile.TemporaryDirectory() as folder:
            print("| " + " | ".join(row(told.program, told.bench, told.rounds, Path(folder), name)) + " |", flush=True)


if __name__ == "__main__":
    main()
