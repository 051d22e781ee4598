"""What those scripts of this folder share that drive the built program by scripts of its own. It is no script itself.

A program is run on many cases in one process, each of which makes its region anew. A judge, where one is given, is another
program that takes the same scripts; each text that it prints otherwise is a finding.
"""

import argparse
import os
import subprocess
from multiprocessing import Pool
from pathlib import Path
from typing import NamedTuple

PROGRAM = Path(__file__).resolve().parent.parent / "crates/nova/out/nova"
BLOCK = 4096
MOST_SECONDS = 300
# A script is told with so many peeks in a row.
MOST_PEEKS = 4
# Behind each part stands a peek at no word, whose answer no other command gives, so that what is printed can be parted.
MARK = b"peek 1\n"
MARKED = b"refused Address\n"
# A line of each command that a program may not have yet.
LINES = {
    "link": b"link 0 /a /b",
    "unlink": b"unlink 0 /a",
    "rmdir": b"rmdir 0 /a",
    "rename": b"rename 0 /a /b",
    "clean": b"clean /a",
    "upgrade": b"upgrade",
}


class Wrong(Exception):
    """A finding: a case, and what is wrong with what is printed for it."""

    def __init__(self, case, what):
        super().__init__(case, what)
        self.case, self.what = case, what

    def __str__(self):
        shown, peeked = [], 0
        for line in b"".join(self.case).decode("latin-1").splitlines():
            peeked = peeked + 1 if line.startswith("peek ") else 0
            if peeked <= MOST_PEEKS:
                shown.append(line)
            elif peeked == MOST_PEEKS + 1:
                shown.append("# and so on, word by word")
        return "\n".join(["WRONG: " + self.what, *("    " + line for line in shown)])


def lines(*commands):
    """A script of these commands."""
    return b"".join(command.encode() + b"\n" for command in commands)


def peeks(first, end):
    """Peeks at each word from a block on up to another."""
    return b"".join(b"peek %d\n" % at for at in range(first * BLOCK, end * BLOCK, 8))


def words_of(text):
    """The values that peeks printed."""
    return [int(line[5:]) for line in text.splitlines()]


def first_difference(ours, other):
    """The first line in which two texts differ, of each."""
    one, two = ours.split(b"\n"), other.split(b"\n")
    for place in range(max(len(one), len(two))):
        left, right = one[place : place + 1], two[place : place + 1]
        if left != right:
            return f"line {place + 1} is {left} and {right}"
    return "no line"


class Case(NamedTuple):
    """A script in two parts: what makes a region, and what is asked of it."""

    build: bytes
    asked: bytes


def printed(program, cases):
    """What a program prints for the two parts of each case."""
    given = b"".join(part + MARK for case in cases for part in case)
    try:
        done = subprocess.run([program, "run"], input=given, capture_output=True, timeout=MOST_SECONDS)
    except subprocess.TimeoutExpired:
        raise Wrong(cases[0], f"{program} didn't end in {MOST_SECONDS} s, here or in one of {len(cases)} cases") from None
    texts = done.stdout.split(MARKED)
    if done.returncode not in (0, 1, 2) or len(texts) != 2 * len(cases) + 1:
        at = min((len(texts) - 1) // 2, len(cases) - 1)
        raise Wrong(cases[at], f"{program} ended with the status {done.returncode}: {done.stderr[-300:]} {texts[-1][-300:]}")
    return list(zip(texts[::2], texts[1::2]))


class Runner:
    """A program, and a judge or None."""

    def __init__(self, program, judge):
        self.program, self.judge = program, judge

    def answers(self, cases):
        """What is printed for the second part of each case. The judge prints the same, and the same for the first part."""
        texts = printed(self.program, cases)
        if self.judge:
            for case, ours, other in zip(cases, texts, printed(self.judge, cases)):
                if ours != other:
                    raise Wrong(case, f"the judge prints another text: {first_difference(b''.join(ours), b''.join(other))}")
        return [asked for _, asked in texts]

    def answer(self, build, asked):
        return self.answers([Case(build, asked)])[0]

    def missing(self):
        """The commands that the program doesn't have yet."""
        return {name for name, line in LINES.items() if b"bad line" in subprocess.run([self.program, "run"], input=line, capture_output=True).stdout}


def told(text):
    """The program and the judge that the command line names, and the other words; `text` is shown where they are wrong."""
    words = argparse.ArgumentParser(usage="\n" + text, add_help=False)
    words.add_argument("program", nargs="?", default=str(PROGRAM))
    words.add_argument("--judge")
    words.add_argument("--only", default="")
    return words.parse_args()


def each(task, cases):
    """The answers of a task to each case, as they come, of as many at a time as JOBS says (2)."""
    with Pool(int(os.environ.get("JOBS", "2"))) as pool:
        yield from pool.imap_unordered(task, cases)
