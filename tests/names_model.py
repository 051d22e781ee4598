"""What the calls on names have to answer and to leave, said a second time: a model of a mounted region's directories, links and
log pages, for names.py. It is no script itself.

Of blocks it knows how many are free and not which, of files their links and not their bytes.
"""

import re

ENTRIES_END = 4064
# The slots of a block of the fixed tables, and those of a block by which a table grows.
SLOTS, CHAINED_SLOTS = 32, 31
NEXT_PAGE = 8
MOST_LINKS = 1000
FILE, DIRECTORY = "file", "dir"
NEW = None


class Refused(Exception):
    """The name of a refusal."""


class Inode:
    """An inode whose log has so many pages, and ends at an offset in the last one, None where that isn't known."""

    def __init__(self, kind):
        self.kind, self.links, self.names, self.pages, self.end, self.data = kind, 1, {}, 1, 32, 0

    def seen(self):
        return self.kind, self.links, self.names, self.pages, self.end


def entry_of_name(name):
    return 24 + 8 * -(-len(name) // 8)


ENTRY_OF_LINKS, ENTRY_OF_ATTRIBUTES = 24, 32


def appended(end, lengths):
    """The pages that entries need behind an offset of a log, and the offset behind them."""
    pages = 0
    for length in lengths:
        if end + length > ENTRIES_END:
            pages, end = pages + 1, 0
        end += length
    return pages, end


def names_of(path):
    """The names of a path from the root on."""
    if path == "/":
        return []
    names = path[1:].split("/")
    if not path.startswith("/") or any(name in ("", ".", "..") or len(name) > 255 for name in names):
        raise Refused("BadName")
    return names


class Model:
    def __init__(self, cpus, blocks, tables):
        self.cpus, self.version = cpus, 1
        # By CPU: how many slots its table has.
        self.slots = [SLOTS * tables] * cpus
        self.inodes = {1: Inode(DIRECTORY)}
        self.free = blocks - (1 + cpus + cpus * tables) - 1
        self.read_only = False

    def answer(self, command):
        """What a command prints."""
        call, *words = command.split(" ")
        try:
            getattr(self, call)(*words)
        except Refused as refused:
            return f"refused {refused}"
        return "ok"

    def enter(self, cpu):
        if int(cpu) >= self.cpus:
            raise Refused("BadCpu")
        if self.read_only:
            raise Refused("ReadOnly")

    def parent_of(self, names):
        """The directory that a path's last name is looked up in."""
        at = 1
        for name in names[:-1]:
            if self.inodes[at].kind == FILE:
                raise Refused("NotDirectory")
            at = self.inodes[at].names.get(name)
            if at is None:
                raise Refused("NotFound")
        if self.inodes[at].kind == FILE:
            raise Refused("NotDirectory")
        return at

    def found(self, names):
        """The inode of a path."""
        at = self.inodes[self.parent_of(names)].names.get(names[-1]) if names else 1
        if at is None:
            raise Refused("NotFound")
        return at

    def take(self, blocks, logs):
        """Appends to logs, by inode and lengths, where there are enough blocks for that and for so many others."""
        ends = [appended(self.inodes[inode].end, lengths) for inode, lengths in logs]
        needed = blocks + sum(pages for pages, _ in ends)
        if needed > self.free:
            raise Refused("NoSpace")
        self.free -= needed
        for (inode, _), (pages, end) in zip(logs, ends):
            self.inodes[inode].pages += pages
            self.inodes[inode].end = end

    def make(self, kind, cpu, path):
        self.enter(cpu)
        names = names_of(path)
        if not names:
            raise Refused("BadName")
        parent = self.parent_of(names)
        if names[-1] in self.inodes[parent].names:
            raise Refused("Exists")
        slots = self.slots[int(cpu)]
        inode = next((i for s in range(slots) if (i := s * self.cpus + int(cpu)) and i not in self.inodes), None)
        grows = inode is None
        if grows and self.version == 1:
            raise Refused("NoInodes")
        # The block by which the table grows, and the new log.
        self.take(1 + grows, [(parent, [entry_of_name(names[-1])])])
        if grows:
            inode = slots * self.cpus + int(cpu)
            self.slots[int(cpu)] += CHAINED_SLOTS
        self.inodes[inode] = Inode(kind)
        self.inodes[parent].names[names[-1]] = inode

    def create(self, cpu, path):
        self.make(FILE, cpu, path)

    def mkdir(self, cpu, path):
        self.make(DIRECTORY, cpu, path)

    def link(self, cpu, old, new):
        self.enter(cpu)
        old, new = names_of(old), names_of(new)
        if not new:
            raise Refused("BadName")
        if old:
            self.parent_of(old)
        parent = self.parent_of(new)
        inode = self.found(old)
        if self.inodes[inode].kind == DIRECTORY:
            raise Refused("IsDirectory")
        if new[-1] in self.inodes[parent].names:
            raise Refused("Exists")
        if self.inodes[inode].links >= MOST_LINKS:
            raise Refused("LinkLimit")
        self.take(0, [(inode, [ENTRY_OF_LINKS]), (parent, [entry_of_name(new[-1])])])
        self.inodes[inode].links += 1
        self.inodes[parent].names[new[-1]] = inode

    def unlink(self, cpu, path):
        parent, name, inode = self.to_remove(cpu, path)
        if self.inodes[inode].kind == DIRECTORY:
            raise Refused("IsDirectory")
        more = [(inode, [ENTRY_OF_LINKS])] if self.inodes[inode].links > 1 else []
        self.take(0, [(parent, [entry_of_name(name)]), *more])
        self.inodes[inode].links -= 1
        self.remove(parent, name, gone=not more)

    def rmdir(self, cpu, path):
        parent, name, inode = self.to_remove(cpu, path)
        if self.inodes[inode].kind == FILE:
            raise Refused("NotDirectory")
        if self.inodes[inode].names:
            raise Refused("NotEmpty")
        self.take(0, [(parent, [entry_of_name(name)])])
        self.remove(parent, name, gone=True)

    def to_remove(self, cpu, path):
        self.enter(cpu)
        names = names_of(path)
        if not names:
            raise Refused("BadName")
        return self.parent_of(names), names[-1], self.found(names)

    def remove(self, parent, name, gone):
        inode = self.inodes[parent].names.pop(name)
        if gone:
            self.free += self.inodes[inode].pages + self.inodes[inode].data
            del self.inodes[inode]

    def rename(self, cpu, old, new):
        self.enter(cpu)
        old, new = names_of(old), names_of(new)
        if not old or not new:
            raise Refused("BadName")
        source, target = self.parent_of(old), self.parent_of(new)
        inode = self.found(old)
        on_the_way = [self.found(new[:count]) for count in range(len(new))]
        if self.inodes[inode].kind == DIRECTORY and inode in on_the_way:
            raise Refused("IntoItself")
        if new[-1] in self.inodes[target].names:
            raise Refused("Exists")
        removed, added = entry_of_name(old[-1]), entry_of_name(new[-1])
        self.take(0, [(source, [removed, added])] if source == target else [(source, [removed]), (target, [added])])
        self.inodes[target].names[new[-1]] = self.inodes[source].names.pop(old[-1])

    def upgrade(self):
        if self.read_only:
            raise Refused("ReadOnly")
        if self.version == 2:
            raise Refused("IsVersion2")
        self.version = 2

    def attr(self, cpu, path, *_):
        self.enter(cpu)
        self.take(0, [(self.found(names_of(path)), [ENTRY_OF_ATTRIBUTES])])

    def write(self, cpu, path, offset, count, _byte):
        """Of whole pages that weren't there. How many entries they take goes by the free runs, so the log's end isn't known then."""
        self.enter(cpu)
        inode = self.inodes[self.found(names_of(path))]
        pages = int(count) // 4096
        if pages > self.free:
            raise Refused("NoSpace")
        self.free -= pages
        inode.data, inode.end = inode.data + pages, None

    def poke(self, at, _):
        """Only words where links come, and damage that leaves all inodes, and a fault, behind the next recovery."""
        if self.version == 2 or int(at) not in [4096 * (1 + cpu) + 16 for cpu in range(self.cpus)]:
            self.read_only = True

    def recover(self, *_):
        """Nothing is changed."""

    def differs(self, tree):
        """What a `tree` shows in another way than the model, or None."""
        shown = {}
        for line in tree.splitlines():
            words = line.split(" ")
            if line.startswith("inode "):
                inode = shown[int(words[1])] = Inode(words[2])
                inode.links = int(re.search(r" links (\d+)", line)[1])
            elif line.startswith("  log "):
                inode.pages, inode.end = len(words) - 5, int(words[-1]) % 4096
            elif line.startswith("  name "):
                inode.names[words[3]] = int(words[4])
        for number in sorted(shown.keys() | self.inodes.keys()):
            ours, other = (found.get(number) for found in (self.inodes, shown))
            if ours and ours.end is None and other:
                other.end = None
            if not ours or not other or ours.seen() != other.seen():
                return f"inode {number} is {other and other.seen()}, wanted {ours and ours.seen()}"
        return None
