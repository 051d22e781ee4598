"""What README.md and docs/ say in numbers and lists, compared with the sources. `reference.py --check` calls it."""

import re

from documents import documents
from sources import CRATES, ROOT, crate_lines
from unfolding import Library, count_of, unfold_beyond

# The crates that hold tests, or measure.
TESTING = ("test_store", "test_system", "refusals", "bench")


def text_of(name):
    """The text of a file of the repository."""
    return (ROOT / name).read_text()


# ---- how many there are


def count_edits(folder):
    """The number of wrong bodies in the folders of this name."""
    return len(list(ROOT.glob(f"crates/*/{folder}/*.edit")))


def all_below(lines, name):
    """The crates that a crate stands on, and itself."""
    found = {name}
    for lower in lines[name]:
        if lower in lines:
            found |= all_below(lines, lower)
    return found


def row_numbers(crates):
    """The numbers of README.md that can be counted, by the first cells of their rows."""
    product = [one for name, crate in crates.items() if name not in TESTING for one in crate.functions()]
    return {
        "functions in the sources of the product": len(product),
        "clauses of their contracts": sum(len(one.clauses) for one in product),
        "wrong bodies that the gate tries": count_edits("must-fail"),
        "further ones": count_edits("wrong-bodies"),
    }


def check_rows(crates, report):
    """The rows of README.md with numbers that can be counted."""
    rows = dict(re.findall(r"^\| ([^|]+?) \| ([\d,]+) \|", text_of("README.md"), re.M))
    for title, number in row_numbers(crates).items():
        report(rows.get(title) == f"{number:,}", f"README.md: the row '{title}' says {rows.get(title)}, and there are {number:,}")


def check_crates(report):
    """How many crates README.md says that the programs stand on."""
    lines = crate_lines()
    checker = all_below(lines, "nova_check")
    further = all_below(lines, "nova") - checker
    text = text_of("README.md")
    for words, number in ((r"proves the (\d+) crates of the checker", len(checker)), (r"stand on (\d+) crates more", len(further))):
        found = re.search(words, text)
        report(found and int(found[1]) == number, f"README.md: '{words}' is {found and found[1]}, and there are {number}")


# ---- how many definitions

COUNT = re.compile(r"[\d,]+ definitions in [\d,]+ lines")
COMMAND = re.compile(r"`tests/trusted-definitions ([^`]+)`")
HEADLINE = ["nv_recover", "recover", "ok"]


def unfolded(library, words):
    """What `trusted-definitions` says at its end of the clauses that these words name."""
    words = [word for word in words if word != "--names"]
    place = words.index("--beyond") if "--beyond" in words else len(words)
    return count_of(unfold_beyond(library, words[:place], words[place + 1 :]).definitions.values())


def check_counts(report):
    """A line with `tests/trusted-definitions ..` and 'N definitions in M lines' says what that prints."""
    library = Library()
    for document in documents():
        for line in document.read_text().splitlines():
            commands, counts = COMMAND.findall(line), COUNT.findall(line)
            if len(commands) == len(counts) == 1:
                wanted = unfolded(library, commands[0].split())
                report(wanted.startswith(counts[0].replace(",", "")), f"{document.relative_to(ROOT)}: {commands[0]} has {wanted}, not {counts[0]}")
    found = re.search(r"That definition has (\d+) lines", text_of("README.md"))
    wanted = unfolded(library, HEADLINE)
    report(found and f"in {found[1]} lines" in wanted, f"README.md: that definition has {found and found[1]} lines, not {wanted}")


# ---- limits


def size_in_words(size):
    """A size in bytes as README.md writes it: in GiB if these are whole, else in MiB."""
    return f"{size // 2**30} GiB" if size % 2**30 == 0 else f"{size // 2**20} MiB"


def limit(name):
    """A number that a definition of a region's layout stands for."""
    return int(re.search(rf"^{name} = (\d+)$", (CRATES / "nv_super/specs/Layout.antt").read_text(), re.M)[1])


def limits():
    """The limits that the definitions name: blocks of a region and its bytes, pages of a file and its bytes."""
    blocks, pages, size = (limit(name) for name in ("most_blocks", "most_pages", "most_size"))
    return {"blocks": blocks, "bytes": 4096 * blocks, "pages": pages, "size": size}


def check_limits(report):
    """The limits of README.md are those of the definitions."""
    most = limits()
    wanted = (
        f"| blocks of 4096 bytes | 8 | {most['blocks']:,} ({size_in_words(most['bytes'])}) |",
        f"| pages of a file; its size in bytes | 0 | {most['pages']:,}; {most['size']:,} |",
    )
    for row in wanted:
        report(row in text_of("README.md"), f"README.md lacks the row {row}")
    for number in (most["blocks"], most["pages"], most["size"]):
        report(f"{number:,}" in text_of("docs/LAYOUT.md"), f"docs/LAYOUT.md doesn't name the limit {number:,}")


# Where a number is a limit, by what stands around it, and which limit it is. Most of these are texts, attributes or constants of
# crates that stand below the limits' own, which can't be made from them.
LIMIT_PHRASES = (
    (r"MOST_BLOCKS(?:: u64)? = ([\d_]+)", "blocks"),
    (r"(?:MAX|MOST)_FILE_PAGES: u64 = ([\d_]+)", "pages"),
    (r"`most_blocks` is ([\d,]+)", "blocks"),
    (r"\b[18] to ([\d,]+\d) blocks", "blocks"),
    (r"from 8 to ([\d,]+\d)", "blocks"),
    (r"(?:or|No block,) more than ([\d,]+\d)(?: blocks|; )", "blocks"),
    (r"\((\d+) < blocks\)", "blocks"),
    (r"from 32768 to ([\d,]+\d)", "bytes"),
    (r"(?:up to|or more than) ([\d,]+\d{3}) bytes", "bytes"),
    (r"the ([\d,]+\d) (?:of a file|that a file can have)", "pages"),
    (r"^/// ([\d,]{7,}) pages\.$", "pages"),
    (r"would have more than ([\d,]+\d) bytes", "size"),
    (r"size above ([\d,]+\d)|size is above ([\d,]+\d)", "size"),
    (r"requires size \{ e\.now\.size ≤ (\d+) \}", "size"),
)
# Files that name a limit at least.
LIMIT_FILES = (
    "crates/nv_region/src/memory.rt",
    "crates/nv_lent/src/words.rt",
    "crates/nv_super/src/superblock.rt",
    "crates/nv_format/src/formatting.rt",
    "crates/nv_format/specs/Sentences.antt",
    "crates/nv_tree/src/refusal.rt",
    "crates/nv_tree/specs/Sentences.antt",
    "crates/nv_radix/src/lib.rt",
    "crates/nv_radix/src/row.rt",
    "crates/nv_scan/src/in_a_row.rt",
    "crates/nv_args/src/command_line.rt",
    "crates/nv_script/src/formatting.rt",
    "crates/nv_script/specs/Formatting.antt",
    "crates/nv_report/src/lengths.rt",
    "crates/nv_report/specs/Lengths.antt",
    "crates/nova_c/src/opening.rt",
    "bindings/c/nova.h",
    "bindings/python/nova.py",
    "docs/LAYOUT.md",
    "docs/SCRIPT.md",
    "docs/TRUST.md",
    "tests/rows-on-workers.py",
    "tests/check-files.sh",
    "tests/save-files.sh",
)


def check_limit_texts(report):
    """Each number that stands as a limit in sources, texts and documents is that of the definitions."""
    most = limits()
    for name in LIMIT_FILES:
        lines, found = text_of(name).splitlines(), 0
        for phrase, which in LIMIT_PHRASES:
            for line in lines:
                for match in re.finditer(phrase, line):
                    number = next(group for group in match.groups() if group)
                    found += 1
                    report(int(re.sub("[_,]", "", number)) == most[which], f"{name}: {match[0]} isn't the limit {most[which]}")
        report(found, f"{name} names no limit")


# Numbers of these values, or of what was a limit before, stand in code, contracts and definitions where LIMIT_PHRASES say which
# limit they are, or in a line that has one of these words.
OTHER_MEANINGS = (
    # How the definitions and the lowest crate name them, once each.
    r"^most_\w+ = \d+$",
    r"\bMOST_BYTES: usize = 1 << 30;$",
    # The lowest crates tell the length in bytes, for which the definitions have no name.
    r"\(2 \^ 30 < length \w+(?:\.\w+)?\)",
    r"^  pub small : length m\.bytes\.now ≤ 2 \^ 30$",
    r"with more than 1,073,741,824 bytes|^/// (?:bytes would end behind )?1,073,741,824(?: bytes)?, 7 where|would end behind 1,073,741,824|Errors: `Length` for more than 1,073,741,824 bytes",
    # The bytes from which on one read is shared by threads.
    r"^const LONG: usize = 262_144;$",
    # A field of 16 bits in a word.
    r"65_?536 \*|/ 65_?536 |\* 65_?536\b|\+ 65_536 \*",
    # Letters behind a size, rows of names, bytes of a page in digits, lengths of texts.
    r"\bM\b.*\bG\b|blocks_of\(digits, 1 << 30\)|^const ROW: u64 = 65_536;$|/ 65536 % buckets|digits_room|2 \^ 31 \+ 2 \^ 30",
)
LIMIT_NUMBER = re.compile(r"(?<![\d,_])(?:65,?_?536|262,?_?144|1,?_?073,?_?741,?_?824|268,?_?435,?_?456)(?![\d,_]*\d)|1 << 30\b|2 \^ 30\b|256 MiB|256 MB")


def check_limit_numbers(report):
    """No source of the product has the number of a limit, but where it is known which, or that it means something else."""
    meanings = [re.compile(words) for words in (*(phrase for phrase, _ in LIMIT_PHRASES), *OTHER_MEANINGS)]
    for crate in sorted(CRATES.iterdir()):
        if crate.name in TESTING or crate.name in ("each_call", "first_program"):
            continue
        for file in sorted([*crate.glob("src/**/*.rt"), *crate.glob("specs/**/*.antt")]):
            for number, line in enumerate(file.read_text().splitlines(), 1):
                if LIMIT_NUMBER.search(line):
                    report(any(words.search(line) for words in meanings), f"{file.relative_to(ROOT)}:{number}: which limit is that? {line.strip()}")


# ---- commands and refusals


def program_commands():
    """The commands of the program."""
    tables = text_of("crates/nv_args/src/command_line.rt") + text_of("crates/nv_args/src/change_forms.rt")
    return re.findall(r'CommandForm \{\s+name: "(\w+)"', tables)


def script_commands():
    """The commands of a script."""
    return set(re.findall(r'^ +\w+ b"(\w+)" "', text_of("crates/nv_line/src/table.rt"), re.M))


def check_commands(report):
    """The commands are those of the sources: in the manual, in README.md, in the script `nova`, and in docs/SCRIPT.md."""
    commands = program_commands()
    named = re.findall(r"^\.SS nova (\w+)$", text_of("docs/nova.1"), re.M)
    report(sorted(named) == sorted(commands), f"docs/nova.1 has the commands {named}, the sources {commands}")
    launched = re.search(r"^ +((?:\w+ \| )+\w+)\) ;;$", text_of("nova"), re.M)[1].split(" | ")
    report(sorted(launched) == sorted(commands), f"nova names the commands {launched}, the sources {commands}")
    rows = "\n".join(line for line in text_of("README.md").splitlines() if line.startswith("| `./nova "))
    for command in commands:
        report(re.search(rf"`(?:\./nova )?{command}\b", rows), f"README.md: no row has the command {command}")
    table = set(re.findall(r"^\| `(\w+)|^\|.*, `(stop) at", text_of("docs/SCRIPT.md").partition("## Refusals")[0], re.M))
    found = {one or other for one, other in table}
    report(found == script_commands(), f"docs/SCRIPT.md has the commands {sorted(found)}, the sources {sorted(script_commands())}")


def check_refusals(report):
    """docs/SCRIPT.md has each refusal that a command prints, and no other."""
    wanted = set()
    for file in ("crates/nv_text/src/refusals.rt", "crates/nv_format/src/formatting.rt", "crates/nv_tree/src/refusal.rt"):
        body = re.search(r"pub enum \w*Refusal[^{]*\{(.*?)^\}", text_of(file), re.M | re.S)
        wanted |= set(re.findall(r"^    ([A-Z]\w+),?$", body[1], re.M))
    wanted -= {"Memory", "Stopped"}
    section = text_of("docs/SCRIPT.md").partition("## Refusals")[2].partition("\n## ")[0]
    cells = re.findall(r"^\| ([^|]+) \|", section, re.M)
    found = {name for cell in cells for name in re.findall(r"`([A-Z][a-z]\w*)`", cell)}
    report(found == wanted, f"docs/SCRIPT.md has the refusals {sorted(found ^ wanted)} more or less than the sources")


# ---- entries


def check_spellings(report):
    """The entries that docs/LAYOUT.md spells begin with words that scripts of docs/FAULTS.md store as such entries."""
    stored = {int(word) % 2**32 for word in re.findall(r"^poke \d+ (\d+)$", text_of("docs/FAULTS.md"), re.M)}
    for spelled in re.findall(r"^\| .* \| `([0-9a-f]{16})[^`]*` \|$", text_of("docs/LAYOUT.md"), re.M):
        word = int.from_bytes(bytes.fromhex(spelled), "little")
        report(word % 2**32 in stored, f"docs/LAYOUT.md spells {spelled}, which no script of docs/FAULTS.md stores")


def check_claims(crates, report):
    """All of it; `report` takes whether something holds, and what to say if not."""
    check_rows(crates, report)
    check_crates(report)
    check_counts(report)
    check_limits(report)
    check_limit_texts(report)
    check_limit_numbers(report)
    check_commands(report)
    check_refusals(report)
    check_spellings(report)
