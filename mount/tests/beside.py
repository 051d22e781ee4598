#!/usr/bin/env python3
"""Lets programs make calls beside each other in one folder, on the same names.

    beside.py FOLDER PROGRAMS CALLS SEED

Each call is done, or refused because of what the others have made of the names meanwhile: never by an I/O error. It closes with
'N passed, M failed', and ends with 1 on a failure.
"""

import contextlib
import errno
import multiprocessing
import os
import random
import sys
from pathlib import Path

DIRECTORIES, FILES, MOST_BYTES = 6, 6, 9000
REFUSED = {errno.ENOENT, errno.EEXIST, errno.ENOTEMPTY, errno.ENOTDIR, errno.EISDIR, errno.EINVAL, errno.EPERM, errno.EMLINK}


class Program:
    """Calls at random, and the files that are open."""

    def __init__(self, folder, seed):
        self.folder = folder
        self.chance = random.Random(seed)
        self.files = []

    def directory(self):
        return f"{self.folder}/{self.chance.randrange(DIRECTORIES)}"

    def file(self):
        return f"{self.directory()}/{self.chance.randrange(FILES)}"

    def write(self):
        Path(self.file()).write_bytes(bytes(self.chance.randrange(MOST_BYTES)))

    def open(self):
        self.files.append(os.open(self.file(), os.O_RDWR))

    def use(self):
        """Whatever became of its names, a file that is open can be read and written."""
        if self.files:
            with os.fdopen(self.files.pop(self.chance.randrange(len(self.files))), "r+b", buffering=0) as file:
                try:
                    file.write(b"used")
                    file.seek(0)
                    file.read(4)
                    os.fstat(file.fileno())
                except OSError as error:
                    raise AssertionError(f"an open file: {error}") from error

    def call(self):
        calls = [
            lambda: os.mkdir(self.directory()),
            lambda: os.rmdir(self.directory()),
            self.write,
            lambda: Path(self.file()).read_bytes(),
            lambda: os.unlink(self.file()),
            lambda: os.rename(self.file(), self.file()),
            lambda: os.rename(self.directory(), self.directory()),
            lambda: os.rename(self.directory(), self.file()),
            lambda: os.link(self.file(), self.file()),
            lambda: [it.stat() for it in os.scandir(self.directory())],
            lambda: os.truncate(self.file(), self.chance.randrange(MOST_BYTES)),
            self.open,
            self.use,
        ]
        self.chance.choice(calls)()


def wrong_calls(folder, seed, calls):
    """What went wrong in so many calls of a program."""
    program, wrong = Program(folder, seed), []
    for _ in range(calls):
        try:
            program.call()
        except OSError as error:
            if error.errno not in REFUSED:
                wrong.append(str(error))
        except AssertionError as error:
            wrong.append(str(error))
    for file in program.files:
        os.close(file)
    return wrong


def main():
    folder, programs, calls, seed = sys.argv[1], *map(int, sys.argv[2:])
    with contextlib.suppress(FileExistsError):
        os.mkdir(folder)
    with multiprocessing.Pool(programs) as pool:
        work = [(folder, seed * programs + number, calls) for number in range(programs)]
        wrong = [it for one in pool.starmap(wrong_calls, work) for it in one]
    for it in wrong[:5]:
        print(f"WRONG: {it}")
    print(f"{programs * calls - len(wrong)} passed, {len(wrong)} failed")
    sys.exit(len(wrong) > 0)


if __name__ == "__main__":
    main()
