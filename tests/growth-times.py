#!/usr/bin/env python3
"""Measures what it costs that tables grow, and fails where that is too much. Closes with 'N passed, M failed'.

usage: tests/growth-times.py [PROGRAM] [--rounds N]

Stores and fences, which the fuse tells: a call that lets a table grow takes 35 more than one that doesn't, namely 32 zeros, a fence,
the link and a fence. Processor time, the best of N rounds (5): 1,000,000 creates and as many unlinks by turns in one directory, beside
20,000 files in a table that has grown, don't slow down; and 60,000 creates on tables of one block take at most 1.3 times as long as on
tables that are large enough. Nothing else should run meanwhile.
"""

import argparse
import resource
import subprocess
import sys
import tempfile
from pathlib import Path

PROGRAM = Path(__file__).resolve().parent.parent / "crates/nova/out/nova"
GROWTH = 32 + 1 + 1 + 1
TURNS, BESIDE = 1_000_000, 20_000
# How much longer the second half of the turns may take than the first, and all creates where the tables grow.
MOST_SLOWER, MOST_OF_GROWTH = 1.2, 1.3
CREATES, CPUS, BLOCKS, LARGE = 60_000, 32, 65_536, 64

failed = 0


def holds(what, is_so):
    global failed
    print(f"{'' if is_so else 'WRONG: '}{what}", flush=True)
    failed += not is_so
    return is_so


# ---- stores and fences


def printed(program, lines):
    script = "".join(line + "\n" for line in lines).encode()
    return subprocess.run([program, "run"], input=script, capture_output=True).stdout.decode().splitlines()


def steps(program, build, command):
    """The stores and fences of a command: with so many before it is stopped it isn't."""
    def is_stopped(after):
        answer = printed(program, [*build, f"stop after {after} all", command])[-1]
        if answer not in ("ok", "stopped"):
            sys.exit(f"{command}: {answer}")
        return answer == "stopped"

    low, high = 0, 1
    while is_stopped(high):
        low, high = high, 2 * high
    while low + 1 < high:
        middle = (low + high) // 2
        low, high = (middle, high) if is_stopped(middle) else (low, middle)
    return high


def try_steps(program):
    full = ["format 1 64 1", "recover 1", "upgrade", *(f"create 0 /n{k}" for k in range(30))]
    for command in ("create 0 /x", "mkdir 0 /x"):
        plain, grown = (steps(program, build, command) for build in ([*full, "unlink 0 /n0"], full))
        holds(f"{command}: {plain} stores and fences, and {grown} where the table grows", grown - plain == GROWTH)


# ---- times


def seconds(program, script):
    """The processor time of a run whose every command is done."""
    def used():
        times = resource.getrusage(resource.RUSAGE_CHILDREN)
        return times.ru_utime + times.ru_stime

    before = used()
    with open(script, "rb") as lines, tempfile.TemporaryFile() as answers:
        status = subprocess.run([program, "run", "--strict"] if is_ours(program) else [program, "run"], stdin=lines, stdout=answers).returncode
        answers.seek(0)
        refused = any(line.startswith((b"refused", b"bad line")) for line in answers)
    if status != 0 or refused:
        sys.exit(f"{script.name}: status {status}, or a command was refused")
    return used() - before


def is_ours(program):
    """Whether the program knows `--strict`, which another that takes the same scripts needn't."""
    return subprocess.run([program, "run", "--strict"], input=b"", capture_output=True).returncode == 0


def best(program, rounds, scripts):
    """The least time of each script. The rounds go over all of them, so that a busy machine slows none of them alone."""
    times = {name: [] for name in scripts}
    for _ in range(rounds):
        for name, script in scripts.items():
            times[name].append(seconds(program, script))
    return {name: min(found) for name, found in times.items()}


def write(path, *parts):
    with open(path, "w") as script:
        for part in parts:
            script.writelines(line + "\n" for line in part)
    return path


def try_turns(program, rounds, folder):
    """Scripts with none of the turns, a half, and all."""
    build = [f"format 1 {BLOCKS} 1", "recover 1", "upgrade", "mkdir 0 /d", *(f"create 0 /n{k}" for k in range(BESIDE))]
    half = ["create 0 /d/x", "unlink 0 /d/x"] * (TURNS // 2)
    scripts = {count: write(folder / f"turns{count}", build, *[half] * count) for count in range(3)}
    times = best(program, rounds, scripts)
    first, second = times[1] - times[0], times[2] - times[1]
    holds(f"of {TURNS:,} turns the first half takes {first:.2f} s, the second {second:.2f} s", second <= MOST_SLOWER * first)


def try_creates(program, rounds, folder):
    scripts = {}
    for tables in (1, LARGE):
        build = [f"format {CPUS} {BLOCKS} {tables}", "recover 1", "upgrade"]
        creates = [f"create {k % CPUS} /n{k}" for k in range(CREATES)]
        scripts[tables, "bare"] = write(folder / f"bare{tables}", build)
        scripts[tables, "all"] = write(folder / f"creates{tables}", build, creates)
    times = best(program, rounds, scripts)
    grown, large = (times[tables, "all"] - times[tables, "bare"] for tables in (1, LARGE))
    told = f"{CREATES:,} creates take {grown:.2f} s on tables of one block, {large:.2f} s on large ones: {grown / large:.2f} times"
    holds(told, grown <= MOST_OF_GROWTH * large)


def main():
    words = argparse.ArgumentParser(usage="\n" + __doc__, add_help=False)
    words.add_argument("program", nargs="?", default=str(PROGRAM))
    words.add_argument("--rounds", type=int, default=5)
    told = words.parse_args()
    try_steps(told.program)
    with tempfile.TemporaryDirectory() as folder:
        try_turns(told.program, told.rounds, Path(folder))
        try_creates(told.program, told.rounds, Path(folder))
    print(f"{4 - failed} passed, {failed} failed")
    sys.exit(1 if failed else 0)


if __name__ == "__main__":
    main()
