#!/usr/bin/env python3
"""Proves and builds a program of this repository: `nova`, or `nova_check`, its checker alone, or one of the others; or
`nova_c`, the static library for C.

usage: ./prove.py PROGRAM

The crates that the program is made of are proved from nothing, several side by side, in the order in which they stand on
each other: the more waits for a crate, the less it yields to others. What is proved stays in `out/proved/` of the crate
`nova`. So an interrupted run goes on where it was, and a later run proves what changed since and the crates above. What the
prover said of each crate stays in `out/proved/logs/` there: its last line says what is trusted.

It ends with 0 if the program is built, which is then at `crates/PROGRAM/out/PROGRAM`, the library at
`crates/nova_c/out/libnova_c.a`. If all is built already, the kit isn't needed. What it says of its work goes to standard error.
"""

import contextlib
import fcntl
import hashlib
import os
import re
import shutil
import signal
import subprocess
import sys
import time
from collections import namedtuple
from pathlib import Path

HERE = Path(__file__).resolve().parent
OUT = HERE / "crates/nova/out"
PROVED = OUT / "proved"
LOGS = PROVED / "logs"
PARTS = ("src", "specs", "proofs")
TARGET = "x86_64-unknown-linux-gnu"

# A crate that the whole build waits for shares its work among so many processes, which together take a third longer.
PROCESSES = min(os.cpu_count() or 1, 4)
# So many crates are proved at a time at most, and fewer where none of those that are ready is waited for so. Those that less
# waits for yield the processors to the others.
MOST_CRATES = 2 * PROCESSES
# What a proof takes, in seconds: some for the crate by itself and for each of its clauses, and as much again for so many
# crates below it, which are loaded. This decides nothing but the order.
CRATE_SECONDS = 20
CLAUSE_SECONDS = 0.5
CRATES_TO_DOUBLE = 20
# The lines of a log that are shown of a crate that isn't proved, and how many at most.
FAILURE = re.compile(r"^fn \S+: (?:not proved|no proof)|^error|^ *--> ")
MOST_LINES = 30
CLAUSE = re.compile(rb"^\s*(?:ensures|requires)", re.MULTILINE)


def say(text):
    print(f"nova: {text}", file=sys.stderr, flush=True)


class Kit:
    """Where the Rattle kit has its prover and its libraries. If it isn't there, only its identity is known, by the last
    run, which is enough to see that nothing is to be done."""

    KEPT = PROVED / "KIT-ID"

    def __init__(self):
        command = shutil.which("rt")
        if command:
            self.at = Path(command).resolve().parent.parent
            self.identity = (self.at / "KIT-ID").read_bytes()
            self.KEPT.write_bytes(self.identity)
        elif self.KEPT.exists():
            self.at = None
            self.identity = self.KEPT.read_bytes()
        else:
            self.miss()

    @staticmethod
    def miss():
        sys.exit("nova: the command rt of the Rattle kit isn't on the path; the kit proves and builds the program")

    def library(self, name):
        return self.at / f"rlibs/{name}.rlib"


class Crate:
    """A crate of the repository, with those of the repository and the kit's libraries that it names."""

    def __init__(self, name, line, below, of_kit):
        self.name, self.line, self.below, self.of_kit = name, line, below, of_kit
        self.folder = HERE / "crates" / name
        self.is_program = (self.folder / "src/main.rt").is_file()
        self.is_for_c = is_for_c(line)
        # the seconds that its proof and those of the longest row of crates that wait for it are likely to take
        self.waiting = 0

    def root(self):
        return "src/main.rt" if self.is_program else "src/lib.rt"

    def all_below(self):
        return {*self.below, *(it for lower in self.below for it in lower.all_below())}

    def seconds(self):
        clauses = sum(len(CLAUSE.findall(file.read_bytes())) for file in self.folder.glob("src/**/*.rt"))
        return (CRATE_SECONDS + CLAUSE_SECONDS * clauses) * (1 + len(self.all_below()) / CRATES_TO_DOUBLE)

    def library(self):
        return PROVED / f"{self.name}.rlib"

    def program(self):
        return self.folder / "out" / self.name

    def archive(self):
        return self.folder / f"out/lib{self.name}.a"

    def made(self):
        return self.program() if self.is_program else self.archive() if self.is_for_c else self.library()

    def sum_file(self):
        return PROVED / f"{self.name}.sum"

    def sum(self, kit):
        """The sum of all that the crate's proof reads."""
        total = hashlib.sha256(kit.identity + self.line.encode())
        for lower in self.below:
            total.update(lower.sum_file().read_bytes())
        for file in sorted(file for part in PARTS for file in self.folder.glob(f"{part}/**/*") if file.is_file()):
            text = file.read_bytes()
            total.update(f"{file.relative_to(self.folder)} {len(text)}\n".encode() + text)
        return total.hexdigest()

    def is_proved(self, kit):
        kept = self.sum_file()
        return self.made().exists() and kept.exists() and kept.read_text() == self.sum(kit)

    def words(self, kit, processes):
        """The words by which `rattle` proves the crate."""
        words = ["build", "--crate-name", self.name, self.root()]
        for name in ["std", *self.of_kit]:
            words += ["--extern", f"{name}={kit.library(name)}"]
        for lower in self.below:
            words += ["--extern", f"{lower.name}={lower.library()}"]
        words += ["-L", f"dependency={kit.at}/rlibs", "-L", f"dependency={PROVED}"]
        words += ["--antt-project", f"{kit.at}/rattle/logic/antt-project.json"]
        words += ["--logic-built", f"{kit.at}/logic_built", "--links", f"{self.name}="]
        words += ["--jobs", str(processes)]
        machine = ["--backend", "llvm", "--toolchain", f"{kit.at}/toolchain"]
        if self.is_program:
            return [*words, *machine, "-o", f"{self.program()}.o"]
        if self.is_for_c:
            return [*words, "--crate-type", "staticlib", *machine, "-o", str(self.archive())]
        # The crates above read what it states, and not its proofs.
        return [*words, "--statements", "-o", str(self.library())]

    def link_words(self, kit):
        words = [f"{kit.at}/bin/rattle-link", "--target", TARGET, "--toolchain", f"{kit.at}/toolchain"]
        words += ["-o", f"{self.program()}.new", f"{self.program()}.o"]
        return [*words, f"{kit.at}/c/libos_c.a", f"{kit.at}/c/liblibc_c.a"]


def is_for_c(line):
    """Whether a line of crates.txt is that of a static library."""
    return "staticlib" in line.partition(":")[0].split()[1:]


def lines_of_crates():
    """The line of each crate, with the names of those that it stands on."""
    lines = {}
    for line in (HERE / "crates.txt").read_text().splitlines():
        names, colon, lower = line.partition(":")
        if colon and not line.startswith("#"):
            lines[names.split()[0]] = line, lower.split()
    return lines


def crates_of(program):
    """The crates that a program is made of, each behind those that it stands on, and itself as the last."""
    lines = lines_of_crates()
    found = {}

    def find(name):
        if name not in found:
            line, lower = lines[name]
            below = [find(it) for it in lower if it in lines]
            found[name] = Crate(name, line, below, [it for it in lower if it not in lines])
        return found[name]

    find(program)
    crates = list(found.values())
    for crate in reversed(crates):
        crate.waiting += crate.seconds()
        for lower in crate.below:
            lower.waiting = max(lower.waiting, crate.waiting)
    return crates


# A proof that is under way: the crate, the sum of what it began with, when that was, and the prover.
Proof = namedtuple("Proof", "crate sum begun prover")


class Build:
    """The proofs that are under way, and what is told of them."""

    def __init__(self, kit, crates):
        self.kit, self.crates = kit, crates
        self.todo = [crate for crate in crates if not self.is_kept(crate)]
        self.count = len(self.todo)
        # by the numbers of their processes
        self.running = {}
        self.begun = 0
        self.started = time.monotonic()
        self.latest = None

    def is_kept(self, crate):
        """Whether the crate and all below are proved already."""
        crate.is_kept = all(lower.is_kept for lower in crate.below) and crate.is_proved(self.kit)
        return crate.is_kept

    def next(self):
        """The crate that the most waits for, of those whose lower crates are all proved."""
        waiting = {*self.todo, *(proof.crate for proof in self.running.values())}
        ready = [crate for crate in self.todo if waiting.isdisjoint(crate.below)]
        return max(ready, key=lambda crate: crate.waiting, default=None)

    def processes_for(self, crate):
        """More than one for a crate that the whole build waits for, or nearly so."""
        now = time.monotonic()
        most = max((it.crate.waiting - (now - it.begun) for it in self.running.values()), default=0)
        return PROCESSES if crate.waiting > most else 2 if crate.waiting > 0.9 * most else 1

    def begin(self, crate, processes):
        self.todo.remove(crate)
        self.begun += 1
        self.latest = crate
        self.tell()
        crate.sum_file().unlink(missing_ok=True)
        (crate.folder / "out").mkdir(exist_ok=True)
        most = max(it.waiting for it in self.crates)
        yields = round(19 - 19 * crate.waiting / most)
        total = crate.sum(self.kit)
        with open(LOGS / crate.name, "wb") as log:
            prover = subprocess.Popen(
                ["nice", "-n", str(yields), f"{self.kit.at}/bin/rattle", *crate.words(self.kit, processes)],
                cwd=crate.folder,
                stdin=subprocess.DEVNULL,
                stdout=log,
                stderr=subprocess.STDOUT,
                preexec_fn=os.setpgrp,
            )
        self.running[prover.pid] = Proof(crate, total, time.monotonic(), prover)

    def tell(self):
        passed = int(time.monotonic() - self.started)
        text = f"proving {self.latest.name} ({self.begun} of {self.count}, {passed // 60} min {passed % 60} s so far)"
        if sys.stderr.isatty():
            print(f"\r\033[Knova: {text}", end="", file=sys.stderr, flush=True)
        else:
            say(text)

    def wait(self):
        """Waits for the next proof that ends, and keeps it with the sum of what it began with."""
        pid = os.waitid(os.P_ALL, 0, os.WEXITED | os.WNOWAIT).si_pid
        crate, total, _, prover = self.running.pop(pid)
        if prover.wait() or (crate.is_program and self.link(crate)):
            self.fail(crate)
        crate.sum_file().write_text(total)

    def link(self, crate):
        with open(LOGS / crate.name, "ab") as log:
            status = subprocess.call(crate.link_words(self.kit), stdout=log, stderr=subprocess.STDOUT)
        if not status:
            os.replace(f"{crate.program()}.new", crate.program())
            os.unlink(f"{crate.program()}.o")
        return status

    def fail(self, crate):
        log = LOGS / crate.name
        print(*failures(log.read_text(errors="replace")), sep="\n", file=sys.stderr)
        say(f"the crate {crate.name} was not built; all that was said is in {log}")
        sys.exit(1)

    def end(self):
        for pid in self.running:
            with contextlib.suppress(ProcessLookupError):
                os.killpg(pid, signal.SIGKILL)

    def run(self):
        if sys.stderr.isatty():
            # The time goes on while the provers work.
            signal.signal(signal.SIGALRM, lambda *_: self.tell())
            signal.setitimer(signal.ITIMER_REAL, 5, 5)
        try:
            while self.todo or self.running:
                while crate := self.next():
                    processes = self.processes_for(crate)
                    if len(self.running) >= (MOST_CRATES if processes > 1 else PROCESSES):
                        break
                    self.begin(crate, processes)
                self.wait()
        finally:
            signal.setitimer(signal.ITIMER_REAL, 0)
            self.end()
        if self.count:
            if sys.stderr.isatty():
                print(file=sys.stderr)
            passed = int(time.monotonic() - self.started)
            say(f"built in {passed // 60} min {passed % 60} s")


def failures(said):
    """The lines of a log that say which clause of which function isn't proved, or what else is wrong; else its last ones."""
    lines = said.splitlines()
    told = [line for line in lines if FAILURE.search(line)]
    return told[:MOST_LINES] or lines[-MOST_LINES:]


def stop(*_):
    sys.exit(1)


def program_asked_for(words):
    """The program that the words name. Words that name none end the run by a sentence."""
    if words in (["--help"], ["-h"]):
        print(__doc__.strip())
        sys.exit(0)
    lines = lines_of_crates()
    programs = [name for name in lines if (HERE / "crates" / name / "src/main.rt").is_file() or is_for_c(lines[name][0])]
    if len(words) != 1:
        sys.exit(f"nova: name one program, as in ./prove.py nova; there are {', '.join(programs)}")
    if words[0] not in programs:
        sys.exit(f"nova: no program is named {words[0]}; there are {', '.join(programs)}")
    return words[0]


def main():
    program = program_asked_for(sys.argv[1:])
    LOGS.mkdir(parents=True, exist_ok=True)
    kit = Kit()
    with open(OUT / "nova.lock", "w") as lock:
        try:
            fcntl.flock(lock, fcntl.LOCK_EX | fcntl.LOCK_NB)
        except BlockingIOError:
            say("another run is building; this one waits for it")
            fcntl.flock(lock, fcntl.LOCK_EX)
        crates = crates_of(program)
        stamp = crates[-1].folder / f"out/{program}.started"
        stamp.parent.mkdir(exist_ok=True)
        began = stamp.with_suffix(".next")
        began.touch()
        build = Build(kit, crates)
        if build.todo:
            if not kit.at:
                kit.miss()
            say("proving and building the program. Each crate's contracts are proved from nothing, which takes many")
            say(f"minutes; later runs start at once. What the prover says is kept in {LOGS}")
        for ends in (signal.SIGINT, signal.SIGTERM):
            signal.signal(ends, stop)
        build.run()
        os.replace(began, stamp)


main()
