"""Images of both versions, written byte by byte, and their reports; for rescue.py and chains.py. It is no script itself."""

import struct
from typing import NamedTuple

BLOCK, ENTRIES_END, SLOT = 4096, 4064, 128
FILE, DIRECTORY = 1, 2
ROOT = 1
# The slots of a block of the fixed tables, and those of a block of a chain, whose first 128 bytes hold the link.
SLOTS, CHAINED_SLOTS = BLOCK // SLOT, BLOCK // SLOT - 1
WORD = 2**64
# How many records a journal has.
RECORDS = 252


# ---- entries, and what they make of an inode


def attributes(mode, size=0, time=1):
    return ("attributes", mode, size, time)


def write(page, count, block, size, time=2):
    return ("write", page, count, block, size, time)


def add(name, inode, time=3):
    return ("add", name, inode, time)


def remove(name, inode, time=4):
    return ("remove", name, inode, time)


def links(count, time=5):
    return ("links", count, time)


def spelled(entry):
    kind, *fields = entry
    if kind == "attributes":
        mode, size, time = fields
        return struct.pack("<BBHIQQII", 2, 0, 32, mode, size, time, 1000, 100)
    if kind == "write":
        page, count, block, size, time = fields
        return struct.pack("<BBHIQQQQ", 1, 0, 40, count, page, block, size, time)
    if kind == "links":
        count, time = fields
        return struct.pack("<BBHIQQ", 4, 0, 24, count, time, 0)
    name, inode, time = fields
    length = 24 + -(-len(name) // 8) * 8
    return struct.pack("<BBHIQQ", 3, 1 if kind == "add" else 2, length, len(name), inode, time) + name.ljust(length - 24, b"\0")


class State:
    """What an inode is by its entries."""

    def __init__(self, kind, entries, bytes_):
        self.kind, self.names, pages = kind, {}, {}
        self.mode = self.size = self.time = self.owner = self.group = 0
        self.links = 1
        for what, *fields in entries:
            self.time = fields[-1]
            if what == "attributes":
                self.mode, self.size, self.owner, self.group = fields[0], fields[1], 1000, 100
                pages = {page: block for page, block in pages.items() if page * BLOCK < self.size}
            elif what == "write":
                page, count, block, self.size, _ = fields
                pages.update({page + k: block + k for k in range(count)})
            elif what == "links":
                self.links = fields[0]
            elif what == "add":
                self.names[fields[0]] = fields[1]
            else:
                self.names.pop(fields[0], None)
        whole = bytearray(-(-self.size // BLOCK) * BLOCK)
        for page, block in pages.items():
            whole[page * BLOCK:(page + 1) * BLOCK] = bytes_[block * BLOCK:(block + 1) * BLOCK]
        self.content, self.pages = bytes(whole[:self.size]), pages

    def line(self, inode):
        kind = "dir" if self.kind == DIRECTORY else "file"
        numbers = ("mode", "owner", "group", "size", "links", "time")
        return f"inode {inode} {kind} " + " ".join(f"{name} {getattr(self, name)}" for name in numbers) + "\n"


# ---- regions


class Region:
    """A region in which each slot, entry and link stands at a known place. The bytes of data blocks are `fill` at first."""

    def __init__(self, cpus=2, tables=1, blocks=64, version=2, fill=0):
        self.cpus, self.tables, self.blocks, self.version = cpus, tables, blocks, version
        self.first = 1 + cpus + cpus * tables
        self.bytes = bytearray(self.first * BLOCK) + bytes([fill]) * ((blocks - self.first) * BLOCK)
        self.bytes[:48] = b"NOVAPM01" + struct.pack("<QQQQQ", version, cpus, blocks, tables, 0)
        self.next, self.last = self.first, blocks
        # By CPU: the blocks of the chain in which its table goes on.
        self.chains = [[] for _ in range(cpus)]
        # By inode: its kind, its entries, their places, and the pages of its log.
        self.kinds, self.entries, self.places, self.pages = {}, {}, {}, {}

    def poke(self, at, value):
        struct.pack_into("<Q", self.bytes, at, value)

    def link_at(self, cpu, place):
        """Where the link stands that leads to a block of a chain."""
        return self.chains[cpu][place - 1] * BLOCK if place else (1 + cpu) * BLOCK + 16

    def put_chain(self, cpu, *blocks):
        """Lets a table go on in these blocks. As where it grows, nothing but the link and the valid words of a block is stored."""
        for block in blocks:
            for at in range(block * BLOCK, (block + 1) * BLOCK, SLOT):
                self.poke(at, 0)
            self.poke(self.link_at(cpu, len(self.chains[cpu])), block * BLOCK)
            self.chains[cpu].append(block)

    def slot(self, inode):
        cpu, slot = inode % self.cpus, inode // self.cpus
        if slot < SLOTS * self.tables:
            return (1 + self.cpus + cpu * self.tables) * BLOCK + slot * SLOT
        place, slot = divmod(slot - SLOTS * self.tables, CHAINED_SLOTS)
        return self.chains[cpu][place] * BLOCK + (1 + slot) * SLOT

    def in_chain(self, cpu, place, slot):
        """The number of the inode of a slot of a chain."""
        return (SLOTS * self.tables + CHAINED_SLOTS * place + slot) * self.cpus + cpu

    def link(self, inode, page):
        """Where the link of a page of a log stands."""
        return self.pages[inode][page] * BLOCK + ENTRIES_END

    def put_blocks(self, content):
        """Puts bytes into blocks, the last ones that are left. Answers the first of them."""
        self.last -= -(-len(content) // BLOCK)
        self.bytes[self.last * BLOCK:self.last * BLOCK + len(content)] = content
        return self.last

    def put_entry(self, inode, entry, at):
        """Puts an entry at a place or, where it doesn't fit, at the start of a new page. Answers the place behind it."""
        text = spelled(entry)
        if at % BLOCK + len(text) > ENTRIES_END:
            if at % BLOCK < ENTRIES_END:
                self.poke(at, 8 << 16)
            page = self.put_page(inode)
            self.poke(at // BLOCK * BLOCK + ENTRIES_END, page)
            at = page
        self.places[inode].append(at)
        self.bytes[at:at + len(text)] = text
        return at + len(text)

    def put_page(self, inode):
        while any(self.next in chain for chain in self.chains):
            self.next += 1
        self.pages[inode].append(self.next)
        self.next += 1
        return (self.next - 1) * BLOCK

    def put_inode(self, inode, kind, entries):
        self.kinds[inode], self.entries[inode], self.places[inode], self.pages[inode] = kind, entries, [], []
        head = at = self.put_page(inode)
        for entry in entries:
            at = self.put_entry(inode, entry, at)
        self.bytes[self.slot(inode):self.slot(inode) + 40] = struct.pack("<QQQQQ", 1, kind, head, at, 0)

    def put_file(self, inode, *parts, more=()):
        """A file of parts, each a page and its bytes."""
        entries, size = [attributes(420)], 0
        for page, content in parts:
            size = max(size, page * BLOCK + len(content))
            entries.append(write(page, -(-len(content) // BLOCK), self.put_blocks(content), size))
        self.put_inode(inode, FILE, [*entries, *more])

    def append(self, inode, entry):
        """Puts one more entry at the end of a log. Answers all entries."""
        tail = self.slot(inode) + 24
        self.poke(tail, self.put_entry(inode, entry, struct.unpack_from("<Q", self.bytes, tail)[0]))
        return {inode: [*self.entries[inode], entry]}

    def on_pages(self, inode, count):
        """The entries on the first so many pages of a log."""
        pages = self.pages[inode][:count]
        return [entry for entry, at in zip(self.entries[inode], self.places[inode]) if at // BLOCK in pages]

    def states(self, changed):
        """What all inodes are, where the entries of these are others, or none where the inode isn't in use any more."""
        entries = {**self.entries, **changed}
        return {inode: State(self.kinds[inode], es, self.bytes) for inode, es in entries.items() if es is not None}

    def alias(self, inode, other):
        """Two numbers have one slot."""
        for of in (self.kinds, self.entries, self.places, self.pages):
            of[other] = of[inode]

    def report(self, faults=(), gone=(), owned=None, changed=()):
        """The report, with these faults; where these inodes aren't in use, and where the chains have the blocks `owned`."""
        states = self.states({**dict(changed), **dict.fromkeys(gone)})
        lines = [f"region version {self.version} cpus {self.cpus} blocks {self.blocks} tables {self.tables} state 0"]
        used = set(sum(self.chains, [])) if owned is None else set(owned)
        for inode, state in sorted(states.items()):
            tail, = struct.unpack_from("<Q", self.bytes, self.slot(inode) + 24)
            lines.append(state.line(inode).rstrip("\n"))
            lines.append(f"  log {' '.join(map(str, self.pages[inode]))} tail {tail}")
            lines += [f"  name {name.decode()} {to}" for name, to in sorted(state.names.items())]
            lines += [f"  page {page} {count} {block}" for page, count, block in pieces(state.pages)]
            used.update(self.pages[inode], state.pages.values())
        for cpu in range(self.cpus):
            data = self.blocks - self.first
            pool = range(self.first + cpu * data // self.cpus, self.first + (cpu + 1) * data // self.cpus)
            free = runs([block for block in pool if block not in used])
            lines.append(f"free {cpu}" + "".join(f" {start}-{start + count - 1}" if count > 1 else f" {start}" for start, count in free))
        return "\n".join([*lines, *(f"fault {fault}" for fault in faults)] if faults else [*lines, "no faults"]) + "\n"


def runs(blocks):
    found = []
    for block in blocks:
        if found and sum(found[-1]) == block:
            found[-1][1] += 1
        else:
            found.append([block, 1])
    return found


def pieces(pages):
    """The longest pieces whose pages and blocks both follow on."""
    found = []
    for page, block in sorted(pages.items()):
        if found and (found[-1][0] + found[-1][1], found[-1][2] + found[-1][1]) == (page, block):
            found[-1][1] += 1
        else:
            found.append([page, 1, block])
    return found


# ---- a tree with inodes in chains

# The chain of CPU 0 has two blocks, that of CPU 1 one.
FIRST, SECOND, OTHER = 40, 20, 30
# Of each block the first slot and the last are used, and the second of CPU 0's first. Inode 2 has its slot in the fixed table.
FOLDER, INNER, LAST, THIRD, FOURTH, ODD, LAST_ODD, FIXED = 64, 66, 124, 126, 186, 65, 125, 2
NAMES = {b"d": FOLDER, b"f": LAST, b"g": THIRD, b"h": FIXED, b"o": ODD, b"p": LAST_ODD, b"q": FOURTH}


def put_tree(region):
    region.put_inode(ROOT, DIRECTORY, [attributes(493), *(add(*name) for name in NAMES.items())])
    region.put_inode(FOLDER, DIRECTORY, [attributes(448), add(b"e", INNER)])
    region.put_file(INNER, (0, b"inner"))
    region.put_file(LAST, (0, b"last" * 1500), (3, b"behind a hole"))
    region.put_file(THIRD, (0, b"third"))
    region.put_file(FOURTH, (1, b"fourth" * 700))
    region.put_file(ODD, (0, b"odd"))
    region.put_file(LAST_ODD)
    region.put_file(FIXED, (0, b"fixed"))
    return region


def tree(**numbers):
    region = Region(**numbers)
    region.put_chain(0, FIRST, SECOND)
    region.put_chain(1, OTHER)
    return put_tree(region)


def lost(region, *inodes):
    """The faults of the root's names whose inodes aren't in use."""
    places = {name[2]: at for name, at in zip(region.entries[ROOT], region.places[ROOT]) if name[0] == "add"}
    return [f"C1 inode {ROOT} at {place}" for inode, place in sorted(places.items(), key=lambda it: it[1]) if inode in inodes]


# ---- the cases


class Case(NamedTuple):
    """An image, its report, and where the rolled-back image has another word than this one."""

    image: bytes
    report: str
    rolled_back: dict = {}


def case_of(region, faults=(), rolled_back=(), **others):
    return Case(bytes(region.bytes), region.report(faults, **others), dict(rolled_back))


def a_tree():
    return case_of(tree())


def no_chain():
    region = Region(cpus=1, blocks=16)
    region.put_inode(ROOT, DIRECTORY, [attributes(493)])
    return case_of(region)


def blocks_without_inodes():
    """Each block of a chain is owned, whatever its slots hold."""
    region = Region(cpus=3, tables=2, blocks=100)
    region.put_chain(2, 50, 99, 10)
    region.put_inode(ROOT, DIRECTORY, [attributes(493)])
    return case_of(region)


def one_chain_for_each_of_64():
    """The last slot of each chain is used."""
    region = Region(cpus=64, blocks=640)
    for cpu in range(64):
        region.put_chain(cpu, 600 - cpu)
    numbers = [region.in_chain(cpu, 0, CHAINED_SLOTS - 1) for cpu in range(64)]
    region.put_inode(ROOT, DIRECTORY, [attributes(493), *(add(b"%d" % inode, inode) for inode in numbers)])
    for inode in numbers:
        region.put_inode(inode, FILE, [attributes(420)])
    return case_of(region)


def without_the_first_chain(word):
    """The journal's word of CPU 0 leads to no data block, so its table has the fixed block alone."""
    region = tree()
    region.poke(region.link_at(0, 0), word)
    gone = [FOLDER, INNER, LAST, THIRD, FOURTH]
    return case_of(region, [f"H1 cpu 0 at {BLOCK + 16}", *lost(region, *gone)], gone=gone, owned=[OTHER])


def a_link_of_0():
    case = without_the_first_chain(0)
    faults = [line for line in case.report.splitlines(keepends=True) if not line.startswith("fault H1")]
    return Case(case.image, "".join(faults))


def a_second_link_to_nowhere():
    region = tree()
    region.poke(region.link_at(0, 1), SECOND * BLOCK + 8)
    gone = [THIRD, FOURTH]
    return case_of(region, [f"H1 cpu 0 at {FIRST * BLOCK}", *lost(region, *gone)], gone=gone, owned=[FIRST, OTHER])


def last_links_to_nowhere():
    """Nothing is lost. Each CPU's chain ends by a fault."""
    region = tree()
    region.poke(SECOND * BLOCK, WORD - 1)
    region.poke(OTHER * BLOCK, region.blocks * BLOCK)
    return case_of(region, [f"H1 cpu 0 at {SECOND * BLOCK}", f"H1 cpu 1 at {OTHER * BLOCK}"])


def ring(block):
    """The last block leads back to this one, which was read before."""
    region = tree()
    region.poke(SECOND * BLOCK, block * BLOCK)
    return case_of(region, [f"H2 cpu 0 at {SECOND * BLOCK}"])


def ring_of_one():
    region = tree()
    region.poke(OTHER * BLOCK, OTHER * BLOCK)
    return case_of(region, [f"H2 cpu 1 at {OTHER * BLOCK}"])


def chains_that_meet():
    """The chain of CPU 1 goes on in the last block of CPU 0's: that is owned twice, and so is all that its two inodes own."""
    region = tree()
    region.poke(OTHER * BLOCK, SECOND * BLOCK)
    region.chains[1].append(SECOND)
    third, fourth = region.in_chain(1, 1, 0), region.in_chain(1, 1, CHAINED_SLOTS - 1)
    region.alias(THIRD, third)
    region.alias(FOURTH, fourth)
    owners = {(SECOND, 0): ("table 0 1", "table 1 1")}
    for one, other in ((THIRD, third), (FOURTH, fourth)):
        page, = region.pages[one]
        owners[page, 0] = (f"log {one} 0", f"log {other} 0")
        for _, page, count, block, *_ in region.entries[one][1:]:
            owners.update({(block + k, 0): (f"data {one} {page + k}", f"data {other} {page + k}") for k in range(count)})
    faults = [f"{fault} inode {inode}" for fault in ("C3", "C4") for inode in (third, fourth)]
    faults += [f"B1 block {block} {owner}" for (block, _), both in sorted(owners.items()) for owner in both]
    return case_of(region, faults)


def meeting_ring():
    """The two chains meet, and go on round the same ring. Each comes to another block first."""
    region = Region()
    region.put_chain(0, FIRST, SECOND)
    region.poke(SECOND * BLOCK, FIRST * BLOCK)
    region.poke(region.link_at(1, 0), SECOND * BLOCK)
    region.put_inode(ROOT, DIRECTORY, [attributes(493)])
    faults = [f"H2 cpu 0 at {SECOND * BLOCK}", f"H2 cpu 1 at {FIRST * BLOCK}"]
    return case_of(region, [*faults, *(f"B1 block {block} table {owner}" for block, owner in ((20, "0 1"), (20, "1 0"), (40, "0 0"), (40, "1 1")))])


def words_as_slots(region, cpu, place, block):
    """The faults of the slots of a block, as numbers of a chain, where what stands there are other words."""
    for slot in range(CHAINED_SLOTS):
        valid, = struct.unpack_from("<Q", region.bytes, block * BLOCK + (1 + slot) * SLOT)
        if valid > 1:
            yield f"I1 inode {region.in_chain(cpu, place, slot)}"


def page_of_a_log():
    """The chain of CPU 1 goes on in the page of the root's log, whose entries are read as slots."""
    region = tree()
    for k in range(60):
        region.append(ROOT, attributes(493))
    block, = region.pages[ROOT]
    region.poke(OTHER * BLOCK, block * BLOCK)
    faults = [f"H1 cpu 1 at {block * BLOCK}", *words_as_slots(region, 1, 1, block)]
    assert len(faults) > 10
    region.entries[ROOT] += [attributes(493)] * 60
    return case_of(region, [*faults, f"B1 block {block} table 1 1", f"B1 block {block} log {ROOT} 0"])


def page_of_a_file():
    """The same in a page of a file, whose bytes are read as a link and slots."""
    region = tree()
    block = region.entries[LAST][1][3]
    region.poke(OTHER * BLOCK, block * BLOCK)
    faults = [f"H1 cpu 1 at {block * BLOCK}", *words_as_slots(region, 1, 1, block)]
    assert len(faults) == 32
    return case_of(region, [*faults, f"B1 block {block} table 1 1", f"B1 block {block} data {LAST} 0"])


def used_blocks():
    """All data blocks were full of bytes 255. A block that the table grew by has zeros where they are read, and nowhere else."""
    return case_of(tree(fill=255))


def a_block_of_bytes_255():
    """No slot in it is in a state that it can be in."""
    region = tree()
    block = 50
    region.bytes[block * BLOCK : (block + 1) * BLOCK] = b"\xff" * BLOCK
    region.poke(OTHER * BLOCK, block * BLOCK)
    faults = [f"H1 cpu 1 at {block * BLOCK}", *words_as_slots(region, 1, 1, block)]
    assert len(faults) == 32
    return case_of(region, faults, owned=[FIRST, SECOND, OTHER, block])


def put_records(region, cpu, records, dequeue=0):
    """Lets these records of a journal be pending. Answers the word by which recovery ends that."""
    start, enqueue = (1 + cpu) * BLOCK, (dequeue + len(records)) % RECORDS
    region.poke(start, dequeue)
    region.poke(start + 8, enqueue)
    for k, (at, old) in enumerate(records):
        place = start + 64 + 16 * ((dequeue + k) % RECORDS)
        region.poke(place, at)
        region.poke(place + 8, old)
    return {start: enqueue}


def records_of_slots():
    """The journal of each CPU names words of slots in chains of both. Of two records of a word the older one counts."""
    region = tree()
    report = region.report()
    tail, = struct.unpack_from("<Q", region.bytes, region.slot(FOURTH) + 24)
    olds = {region.slot(INNER): 1, region.slot(ODD) + 16: region.pages[ODD][0] * BLOCK, region.slot(FOURTH) + 24: tail}
    first, second, third = olds.items()
    left = {**put_records(region, 0, [third, second, (third[0], 8)], RECORDS - 1), **put_records(region, 1, [first]), **olds}
    for at in olds:
        region.poke(at, 5)
    return Case(bytes(region.bytes), report, left)


def records_of_other_words():
    """Links, a kind, and a slot of a block that is in no chain: none of them is rolled back."""
    region = tree()
    words = [region.link_at(0, 0), region.link_at(0, 1), region.link_at(1, 0), region.slot(INNER) + 8, 50 * BLOCK + SLOT]
    left = put_records(region, 1, [(at, 0) for at in words], RECORDS - 2)
    return case_of(region, [f"J2 cpu 1 record {record}" for record in (0, 1, 2, RECORDS - 2, RECORDS - 1)], left)


def record_of_a_slot_that_is_cut_off():
    """The block of the slot is in no chain any more."""
    region = tree()
    region.poke(region.link_at(0, 1), 1)
    left = put_records(region, 0, [(region.slot(THIRD), 0), (region.slot(INNER), 1)])
    gone = [THIRD, FOURTH]
    faults = ["J2 cpu 0 record 0", f"H1 cpu 0 at {FIRST * BLOCK}", *lost(region, *gone)]
    return case_of(region, faults, left, gone=gone, owned=[FIRST, OTHER])


def version_1():
    """The same words in version 1: no chain is read, no number of a chain may be said, and no slot there be named by a record."""
    region = tree()
    region.version = 1
    region.poke(8, 1)
    left = put_records(region, 0, [(region.slot(INNER), 0)])
    gone = [inode for inode in region.kinds if inode >= 64]
    faults = [fault.replace("C1", "E1") for fault in lost(region, *gone)]
    return case_of(region, ["J2 cpu 0 record 0", *faults], left, gone=gone, owned=[], changed={ROOT: [attributes(493), add(b"h", FIXED)]})


def numbers_of_names():
    """A name may say each number that could have a slot. Those that have none aren't in use."""
    region = Region(blocks=100)
    region.put_chain(1, 50)
    limit = 2 * (SLOTS + CHAINED_SLOTS * (100 - region.first))
    names = {b"a": limit - 1, b"b": limit, b"c": WORD - 1, b"d": region.in_chain(1, 0, 30), b"e": region.in_chain(1, 1, 0), b"f": 64}
    region.put_inode(ROOT, DIRECTORY, [attributes(493), *(add(*name) for name in names.items())])
    region.put_inode(names[b"d"], FILE, [attributes(420)])
    _, a, b, c, _, e, f = region.places[ROOT]
    good = [entry for entry in region.entries[ROOT] if entry[1] not in (b"b", b"c")]
    faults = [*(f"E1 inode {ROOT} at {at}" for at in (b, c)), *(f"C1 inode {ROOT} at {at}" for at in (a, e, f))]
    return case_of(region, faults, changed={ROOT: good})


CASES = {
    case.__name__: case
    for case in (
        a_tree, no_chain, blocks_without_inodes, one_chain_for_each_of_64, a_link_of_0, a_second_link_to_nowhere, last_links_to_nowhere,
        ring_of_one, chains_that_meet, meeting_ring, page_of_a_log, page_of_a_file, used_blocks, a_block_of_bytes_255, records_of_slots,
        records_of_other_words, record_of_a_slot_that_is_cut_off, version_1, numbers_of_names,
    )
}  # fmt: skip
CASES |= {
    f"a_first_link_of_{word}": lambda word=word: without_the_first_chain(word)
    for word in (1, BLOCK, 2 * BLOCK, 3 * BLOCK, 64 * BLOCK, FIRST * BLOCK + 8, WORD - 1)
}
CASES |= {f"a_ring_to_block_{block}": lambda block=block: ring(block) for block in (FIRST, SECOND)}
