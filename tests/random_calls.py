"""Scripts of calls on files that are made at random, for fuzz.py. It is no script itself."""

BLOCK = 4096
WORKERS = [2, 3, 8, 64]


class Calls:
    """A script of calls on the files of a region, most of which can be done."""

    NAMES = ["a", "b", "c", "eight_by", "nine_byte", "n" * 255, "\x01", "~\\"]
    BAD_PATHS = ["/", "//", "/a/", "/.", "/..", "a", "/" + "n" * 256, "/a" * 1900]
    OFFSETS = [0, 0, 0, 1, 4095, 4096, 5000, 8191, 12288, 1 << 30]

    def __init__(self, rng, missing):
        self.rng, self.missing = rng, missing
        self.folders, self.files = ["", ""], []
        self.cpus, self.blocks = rng.choice([1, 1, 2, 3]), rng.choice([8, 12, 16, 40, 64])
        self.lines = [f"format {self.cpus} {max(self.blocks, 8)} 1", "recover 1"]
        what = rng.random()
        if what < 0.2:
            self.full_table()
        elif what < 0.4:
            self.growing_tables()
        # In some scripts logs grow by many entries, and are cleaned between all calls.
        self.cleans = rng.random() < 0.3

    def full_table(self):
        """The table of the one CPU is full, and goes on in two blocks, which have more slots than a script takes."""
        self.cpus, self.blocks = 1, self.rng.choice([64, 100, 200])
        first, second = self.rng.sample(range(40, self.blocks), 2)
        self.lines = [f"format 1 {self.blocks} 1", "poke 8 2", f"poke {BLOCK + 16} {BLOCK * first}", f"poke {BLOCK * first} {BLOCK * second}"]
        self.lines += ["recover 1", *(f"create 0 /full{k}" for k in range(30))]
        self.files += [f"/full{k}" for k in range(0, 30, 6)]

    def growing_tables(self):
        """The tables have one block, and 60 files of each CPU come, some of which go. In the midst the region is upgraded, so that tables
        grow where there are free blocks. Most of these were used, and words stand where links come."""
        rng = self.rng
        self.blocks = rng.choice([40, 80, 64 * self.cpus + 16, 300])
        first = 1 + 2 * self.cpus
        links = [f"poke {BLOCK * (1 + cpu) + 16} {BLOCK * rng.randrange(first + 2)}" for cpu in range(self.cpus)]
        fill = ["create 0 /fill", f"write 0 /fill 0 {BLOCK * (self.blocks - first - 2)} 255", "unlink 0 /fill"]
        self.lines = [f"format {self.cpus} {self.blocks} 1", *links, "recover 1", *(fill if rng.random() < 0.8 else [])]
        calls = [f"{rng.choice(['create', 'create', 'mkdir'])} {cpu} /g{cpu}_{k}" for k in range(60) for cpu in range(self.cpus)]
        for place, call in enumerate(calls):
            self.lines += [call, f"unlink {call.split(' ', 1)[1]}"] if rng.random() < 0.15 else [call]
            if place == len(calls) // 3:
                self.lines += ["upgrade", "free"]
        paths = [call.split(" ")[2] for call in calls]
        self.files += rng.sample(paths, 8)
        self.lines += [f"rmdir {rng.randrange(self.cpus)} {path}" for path in rng.sample(paths, 8)] + ["free"]

    def script(self):
        rng = self.rng
        for _ in range(rng.choice([3, 10, 30, 80])):
            self.lines += self.many_entries() if self.cleans and rng.random() < 0.15 else self.some_lines()
            if self.cleans:
                self.lines.append(self.cleaning())
        self.lines += ["report", "recover 2", "report"]
        return "\n".join(line for line in self.lines if line.split(" ")[0] not in self.missing).encode("latin-1") + b"\n"

    def some_lines(self):
        rng = self.rng
        what = rng.random()
        if what < 0.7:
            return [self.writes()]
        if what < 0.8:
            at = rng.choice([f"after {rng.randrange(30)}", f"after {rng.randrange(1200)}", f"at {8 * rng.randrange(BLOCK * 6 // 8)}"])
            stops = [f"stop {at} {self.keep()}", self.writes()]
            again = [f"stop after {rng.randrange(6)} {self.keep()}", "recover 1"] if rng.random() < 0.5 else []
            return [*stops, *again, f"recover {rng.choice([1, *WORKERS])}", "tree", "free", "faults"]
        if what < 0.97:
            return [rng.choice([
                f"read {self.a_file()} {rng.choice(self.OFFSETS)} {rng.choice([0, 1, 9000])}", f"list {self.a_folder() or '/'}",
                f"stat {self.a_file()}", f"list {self.a_file()}", f"time {rng.randint(0, 9)}", "tree", "free", "report",
                f"recover {rng.choice([1, *WORKERS])}",
            ])]  # fmt: skip
        return [f"poke {8 * rng.randrange(1024, BLOCK * 8 // 8)} {rng.choice([0, 1, 2, 8 << 16, rng.getrandbits(64)])}", f"recover {rng.choice(WORKERS)}", "report"]

    def many_entries(self):
        """Calls that fill one or two pages of a log: with attributes, bytes, or a long name that comes and goes."""
        rng = self.rng
        path, cpu = self.a_file(), rng.randrange(self.cpus)
        what = rng.random()
        if what < 0.4:
            return [f"attr {cpu} {path} {rng.choice([420, 384])} 0 0" for _ in range(rng.choice([62, 126, 127, 128, 200]))]
        if what < 0.7:
            return [f"write {cpu} {path} {rng.choice(self.OFFSETS[:5])} 1 {rng.randrange(256)}" for _ in range(rng.choice([60, 101, 102, 130]))]
        name = f"{self.a_folder()}/{'n' * 255}"
        return [line for _ in range(rng.choice([7, 8, 15])) for line in (f"create {cpu} {name}", f"unlink {cpu} {name}")]

    def cleaning(self):
        return f"clean {self.rng.choice([self.a_file(), self.a_folder() or '/'])}"

    def writes(self):
        rng = self.rng
        if self.cleans and rng.random() < 0.2:
            return self.cleaning()
        if rng.random() < 0.02:
            return "upgrade"
        cpu = rng.randrange(4) if rng.random() < 0.05 else rng.randrange(self.cpus)
        what = rng.choice(["create", "create", "create", "mkdir", "write", "write", "write", "size", "attr", "link", "unlink", "rmdir", "rename", "rename"])
        if what in ("create", "mkdir"):
            path = self.a_new_path()
            (self.files if what == "create" else self.folders).append(path)
            return f"{what} {cpu} {path}"
        if what == "write":
            return f"write {cpu} {self.a_file()} {rng.choice(self.OFFSETS)} {rng.choice([0, 1, 100, 4096, 5000, 13000])} {rng.randrange(256)}"
        if what == "size":
            return f"size {cpu} {self.a_file()} {rng.choice([*self.OFFSETS, (1 << 30) + 1])}"
        if what == "attr":
            return f"attr {cpu} {rng.choice([self.a_file(), self.a_folder() or '/'])} {rng.choice([420, 2**32 - 1])} {rng.randrange(3)} 5"
        if what in ("unlink", "rmdir"):
            path = self.a_file() if rng.random() < (0.9 if what == "unlink" else 0.2) else self.a_folder() or "/"
            self.forget(path)
            return f"{what} {cpu} {path}"
        old = self.a_file() if rng.random() < 0.7 else self.a_folder() or "/a"
        new = self.a_new_path()
        (self.folders if old in self.folders else self.files).append(new)
        if what == "rename":
            self.forget(old)
        return f"{what} {cpu} {old} {new}"

    def forget(self, path):
        """Mostly a path that is gone isn't used again."""
        if self.rng.random() < 0.8:
            self.files = [file for file in self.files if file != path]
            self.folders = [folder for folder in self.folders if folder != path or not folder]

    def keep(self):
        return self.rng.choice(["none", "all", "alternate"])

    def a_folder(self):
        return self.rng.choice(self.folders)

    def a_file(self):
        if self.files and self.rng.random() < 0.9:
            return self.rng.choice(self.files)
        return self.a_new_path()

    def a_new_path(self):
        if self.rng.random() < 0.04:
            return self.rng.choice(self.BAD_PATHS)
        return f"{self.a_folder()}/{self.rng.choice(self.NAMES)}"
