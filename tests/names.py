#!/usr/bin/env python3
"""Tries the calls on names (create, mkdir, link, unlink, rmdir, rename) where they are likely to go wrong.

usage: tests/names.py [PROGRAM] [--judge JUDGE] [--only WORD]

Directories in directories; entries that fill a page of a log, or leave each rest of it; 1,000 links and one more; a region
with too few free blocks for a call, by one, by two, and just enough; tables of version 2 that grow, at each place and in scripts
made at random; and each two reasons for a refusal at once, by all pairs of some paths in regions that can't be written, have no
free block, no free inode, or no link to give. What each call answers and leaves is compared with a model (names_model.py), and
what is mounted behind it with what a recovery finds. JUDGE, a
program that takes the same scripts, prints the same. WORD leaves out the shapes whose names don't have it. Calls that the
program doesn't have yet are left out, and counted. JOBS=2 processes are run at a time. The last line counts the cases, and
the status is 1 where one was wrong.
"""

import copy
import itertools
import random
import sys
import time
from collections import Counter

from driver import Case, Runner, Wrong, each, lines, told
from names_model import DIRECTORY, ENTRIES_END, Model

SHOW = lines("tree", "free", "faults")
SEEN = SHOW + lines("recover 1") + SHOW
BATCH = 200
LONG = "n" * 255
CALLS = ["create", "mkdir", "link", "unlink", "rmdir", "rename"]


class Build:
    """Commands that make a region, and the model of it."""

    def __init__(self, cpus, blocks, tables, *commands):
        self.model = Model(cpus, blocks, tables)
        self.commands = [f"format {cpus} {blocks} {tables}", "recover 1"]
        self.also(*commands)

    def also(self, *commands):
        for command in commands:
            self.commands.append(command)
            answer = self.model.answer(command)
            assert answer == "ok", (command, answer)
        return self

    def copy(self):
        return copy.deepcopy(self)

    def filled(self, left):
        """With so many free blocks left: a file has the others."""
        path = "/fill"
        self.also(f"create 0 {path}")
        return self.also(f"write 0 {path} 0 {4096 * (self.model.free - left)} 1") if self.model.free > left else self

    def ending(self, path, rest):
        """With so many bytes left in the last page of a path's log: a name of some length and attributes fill it."""
        inode = self.model.inodes[self.model.found(path[1:].split("/")) if path != "/" else 1]
        if (ENTRIES_END - rest - inode.end) % 32:
            odd = (ENTRIES_END - rest - inode.end) % 32
            if inode.kind == DIRECTORY:
                self.also(f"create 0 {path.rstrip('/')}/{'m' * (8 + odd)}")
            else:
                # An entry of links has 24 bytes.
                self.also(*(f"link 0 {path} /m{k}" for k in range(odd // 8 * 3 % 4)))
        self.also(*[f"attr 0 {path} 420 0 0"] * ((ENTRIES_END - rest - inode.end) // 32))
        assert inode.end == ENTRIES_END - rest, (path, rest, inode.end)
        return self


def steps(build, *commands):
    """Each command behind those before it."""
    for command in commands:
        yield build.copy(), command
        build.commands.append(command)
        build.model.answer(command)


def nested():
    """Directories in directories, moved, and removed from the deepest on."""
    deep = ["/d" * depth for depth in range(1, 31)]
    yield from steps(Build(2, 64, 1), *(f"mkdir {depth % 2} {path}" for depth, path in enumerate(deep)))
    whole = Build(2, 64, 1, *(f"mkdir 0 {path}" for path in deep[:30]))
    moves = [f"rename 1 {deep[9]} /e", f"rename 0 /e/d/d {deep[8]}/x", f"rename 0 {deep[8]} /e/y", "create 1 /e/y/x/d/f"]
    itself = [f"rename 0 /e /e/{'/'.join(['y', 'x', *'dd'][:count])}/z" for count in range(1, 5)]
    yield from steps(whole, *moves, *itself, "rename 0 /e /e", "rename 0 /e/y /y", "rename 0 /y /y/x", "rmdir 0 /y", "rmdir 0 /e")
    emptied = Build(2, 64, 1, *(f"mkdir 0 {path}" for path in deep[:12]))
    yield from steps(emptied, *(f"rmdir {depth % 2} {path}" for depth, path in enumerate([deep[3], *reversed(deep[:12])])))


def filled_by_names():
    """Entries of names that fill a page exactly, and one name more."""
    creates = Build(1, 300, 8, *(f"create 0 /n{k}" for k in range(125)))
    yield from steps(creates, "mkdir 0 /full", "create 0 /m1", "unlink 0 /m1", "rename 0 /n7 /m2", "link 0 /n8 /m3")
    for name in ("x", "x" * 8, "x" * 9, LONG):
        links = Build(1, 64, 1, f"create 0 /{name}", *(f"link 0 /{name} /n{k}" for k in range(124)))
        yield from steps(links, "link 0 /n0 /m1", "link 0 /n0 /m2", "link 0 /n0 /m3", f"unlink 0 /{name}", "unlink 0 /n0")


BASE = ["mkdir 0 /d", "mkdir 0 /e", "mkdir 0 /d/s", "create 0 /d/f", "link 0 /d/f /d/l", "create 0 /d/g"]
# Each call, and the logs that it appends to.
APPENDING = [
    ("create 0 /d/x", ["/d"]),
    (f"mkdir 0 /d/{LONG}", ["/d"]),
    ("link 0 /d/f /d/x", ["/d", "/d/f"]),
    ("unlink 0 /d/l", ["/d", "/d/f"]),
    ("unlink 0 /d/g", ["/d"]),
    ("rmdir 0 /d/s", ["/d"]),
    ("rename 0 /d/g /d/x", ["/d"]),
    (f"rename 0 /d/g /d/{LONG}", ["/d"]),
    ("rename 0 /d/g /e/x", ["/d", "/e"]),
    ("rename 0 /d/s /e/nine_byte", ["/d", "/e"]),
]


def every_rest():
    """Each rest of the last page, of each log of a call."""
    for command, logs in APPENDING:
        for log in logs:
            for rest in [*range(0, 80, 8), 272, 280, 288, 304, 312, 320]:
                yield Build(1, 64, 4, *BASE).ending(log, rest), command


def full():
    """Too few free blocks, and just enough, where each log of a call has no rest or one that is too short."""
    for command, logs in APPENDING:
        for rests in itertools.product([0, 8, 32], repeat=len(logs)):
            for left in range(4):
                build = Build(1, 48, 4, *BASE)
                for log, rest in zip(logs, rests):
                    build.ending(log, rest)
                yield build.filled(left), command


def used(cpus, blocks):
    """A region whose free blocks hold bytes 255, and in which words stand where links come."""
    root_log = 1 + 2 * cpus
    build = Build(cpus, blocks, 1, *(f"poke {4096 * (1 + cpu) + 16} {4096 * root_log}" for cpu in range(cpus)), "recover 1", "create 0 /fill")
    return build.also(f"write 0 /fill 0 {4096 * build.model.free} 255", "unlink 0 /fill")


def growing():
    """The table of each CPU has one block, and grows twice by blocks that were used. Lower slots that are free are taken first."""
    for cpus in (1, 3):
        creates = [f"{call} {cpu} /n{cpu}_{k}" for k, call in enumerate(["create", "create", "mkdir"] * 31) for cpu in range(cpus)]
        gone = [f"unlink 0 /n{cpu}_{k}" for cpu in range(cpus) for k in (0, 31, 70)]
        yield from steps(used(cpus, 32 + 110 * cpus).also("upgrade"), *creates, *gone, *(f"mkdir {cpus - 1} /m{k}" for k in range(4)))


def short_of_blocks():
    """A table has no free slot, and so many blocks are free: one for its growth, one for the new log, one for the directory's log."""
    for rest, left in itertools.product([0, 8, 24, 32, 64], range(5)):
        full_table = Build(1, 128, 1, "upgrade", "mkdir 0 /d", "create 0 /fill").ending("/", rest)
        slots = 31 - len(full_table.model.inodes)
        full_table.also(*(f"create 0 /d/n{k}" for k in range(slots)))
        full_table.also(f"write 0 /fill 0 {4096 * (full_table.model.free - left)} 1")
        yield from ((full_table.copy(), command) for command in ("create 0 /x", f"mkdir 0 /{LONG}", "create 0 /d/x"))


def at_random():
    """Scripts with more names than the fixed tables have slots, which are upgraded within: each call that is refused, and the end."""
    for seed in range(40):
        rng = random.Random(seed)
        cpus = rng.choice([1, 1, 2, 3])
        build = used(cpus, rng.choice([70, 150, 32 + 110 * cpus])) if rng.random() < 0.7 else Build(cpus, 32 + 110 * cpus, 1)
        commands = ["mkdir 0 /n0", "mkdir 0 /n1", *(some_call(rng, cpus) for _ in range(120 * cpus))]
        commands.insert(rng.randrange(len(commands)), "upgrade")
        for command in commands:
            answer = copy.deepcopy(build.model).answer(command)
            if answer == "ok":
                build.also(command)
            elif answer == "refused NoSpace" or rng.random() < 0.2:
                yield build.copy(), command
        yield build, "upgrade"


def some_call(rng, cpus):
    """Mostly a name that is made."""
    call = rng.choice([*["create"] * 12, *["mkdir"] * 3, *["unlink"] * 3, "rmdir", "link", "rename"])
    paths = [rng.choice(["", "", "", "/n0", "/n1"]) + f"/n{rng.randrange(150 * cpus)}" for _ in range(2 if call in ("link", "rename") else 1)]
    return f"{call} {rng.randrange(cpus)} {' '.join(paths)}"


def many_links():
    """The most links that a file can have, and one more."""
    names = Build(1, 200, 1, "create 0 /a", "mkdir 0 /d", *(f"link 0 /a /d/n{k}" for k in range(997)))
    late = ["link 0 /a /d/m1", "link 0 /a /d/m2", "link 0 /d/m2 /m3", "link 0 /a /d/m1", "unlink 0 /a", "link 0 /d/m1 /m3", "rename 0 /m3 /d/m4", "link 0 /d/m4 /m5"]
    yield from steps(names, *late)
    yield from steps(names, "unlink 0 /d/m1", *(f"unlink 0 /d/n{k}" for k in (0, 500, 996)))


TREE = ["mkdir 0 /d", "mkdir 0 /d/s", "mkdir 0 /e", "create 0 /f", "create 0 /d/g", "link 0 /f /e/h"]
PATHS = [
    *["/new", "/d/new", "/d/s/new", f"/{LONG}", "/f", "/d/g", "/e/h", "/d", "/d/s", "/e", "/none/x", "/d/none/x", "/f/x", "/d/g/x/y"],
    *["/", "f", "//", "/f/", "/.", "/d/..", f"/n{LONG}"],
]


def states():
    """Regions with the same names, of which some can't be written, or not all calls."""
    fine = Build(2, 64, 1, *TREE)
    made = [f"create 0 /e/i{k}" for k in range(26)]
    yield "fine", fine, CALLS
    yield "read only", fine.copy().also("poke 20352 2", "recover 1"), CALLS
    yield "no block", fine.copy().filled(0), CALLS
    for left in (0, 1):
        yield f"logs at their ends, {left} free", fine.copy().ending("/", 0).ending("/d", 8).ending("/f", 0).ending("/e", 0).filled(left), CALLS
    yield "no inode", fine.copy().also(*made), ["create", "mkdir"]
    yield "no inode and no block", fine.copy().also(*made[1:]).filled(0), ["create", "mkdir"]
    for left in range(3):
        yield f"a table that grows, {left} free", fine.copy().also(*made[1:]).filled(left).also("upgrade"), ["create", "mkdir"]
    linked = Build(2, 200, 1, *TREE, *(f"link 0 /f /e/l{k}" for k in range(998)))
    yield "most links", linked, ["link"]
    yield "most links and no block", linked.copy().filled(0), ["link"]


def refusals():
    """All pairs of paths on each CPU, and on one that isn't there."""
    for name, build, named in states():
        for call in named:
            count = 2 if call in ("link", "rename") else 1
            for cpu, paths in itertools.product((0, 1, 2), itertools.product(PATHS, repeat=count)):
                if len(build.commands) < 200 or (cpu != 1 and paths[0] in ("/f", "/e/h", "/d", "/d/g")):
                    yield build, f"{call} {cpu} {' '.join(paths)}"


SHAPES = [nested, filled_by_names, every_rest, full, growing, short_of_blocks, at_random, many_links, refusals]


class Names:
    """Sees that a batch of calls answers and leaves what the model says."""

    def __init__(self, runner):
        self.runner = runner

    def __call__(self, batch):
        cases = [Case(lines(*build.commands), lines(command) + SEEN) for build, command in batch]
        answers, wrong = Counter(), []
        try:
            texts = self.runner.answers(cases)
        except Wrong as found:
            return answers, [str(found)]
        for (build, command), case, text in zip(batch, cases, texts):
            model = copy.deepcopy(build.model)
            wanted = model.answer(command)
            answers[f"{command.split(' ')[0]} {wanted}"] += 1
            found = self.finding(model, wanted, text.decode("latin-1"))
            if found:
                wrong.append(str(Wrong(case, found)))
        return answers, wrong

    def finding(self, model, wanted, text):
        """What is wrong with the text that is printed for a case, or None."""
        answer, rest = text.split("\n", 1)
        mounted, _, recovered = rest.partition("recovered ")
        found, _, shown = recovered.partition("\n")
        if answer != wanted:
            return f"it answers {answer}, wanted {wanted}"
        faults = 1 if model.read_only else 0
        if found != (line := f"inodes {len(model.inodes)} free {model.free} faults {faults}"):
            return f"it is recovered as {found}, wanted {line}"
        if shown != mounted:
            return "what is mounted isn't what a recovery finds"
        return model.differs(mounted)


def batches(shapes, missing, left_out):
    batch = []
    for build, command in itertools.chain.from_iterable(shape() for shape in shapes):
        absent = [word for word in sorted(missing) if any(line.startswith(word + " ") for line in [*build.commands, command])]
        left_out.update(absent[:1])
        if not absent:
            batch.append((build, command))
        if sum(len(build.commands) for build, _ in batch) > 20 * BATCH:
            yield batch
            batch = []
    yield batch


def main():
    words = told(__doc__)
    runner = Runner(words.program, words.judge)
    began = time.monotonic()
    answers, wrong, left_out = Counter(), 0, Counter()
    shapes = [shape for shape in SHAPES if words.only in shape.__name__]
    for counted, found in each(Names(runner), batches(shapes, runner.missing(), left_out)):
        answers += counted
        wrong += len(found)
        print("\n".join(found), end="\n" if found else "", flush=True)
    for answer, count in sorted(answers.items()):
        print(f"{count:6} {answer}")
    for name, count in sorted(left_out.items()):
        print(f"left out: {count} cases, since the program has no {name} yet")
    print(f"{sum(answers.values())} cases, {wrong} wrong; {(time.monotonic() - began) / 60:.1f} min")
    sys.exit(1 if wrong or not answers else 0)


if __name__ == "__main__":
    main()
