"""What README.md and docs/ name and quote of the sources, compared with them: links, names, clauses, fault classes.

`reference.py --check` calls it. What the documents show of a program's output is compared by `readme.sh`.
"""

import re

from sources import CRATES, ROOT

CODE = re.compile(r"`([^`\n]+)`")
LINK = re.compile(r"\[((?:[^\[\]]|`[^`]*`)+)\]\(([^()\s]+)\)")
SCRIPTS = ("nova", "prove.py")


def documents():
    """README.md and what is written by hand in docs/."""
    return [ROOT / "README.md", *sorted((ROOT / "docs").glob("*.md")), ROOT / "docs" / "reference" / "introductions.md"]


def without_blocks(text):
    """The text without its blocks of code."""
    return re.sub(r"^```.*?^```$", "", text, flags=re.M | re.S)


# ---- links


def anchor(title):
    """The anchor that a heading gets."""
    title = re.sub(r"\[(.*?)\]\(.*?\)", r"\1", title)
    return re.sub(r"[^\w\- ]", "", title.lower()).strip().replace(" ", "-")


def sections(text):
    """The headings of a document by their anchors, each with the text below it."""
    parts = re.split(r"^#+ (.*)\n", re.sub(r"^```.*?^```$", lambda found: found[0].replace("\n#", "\n "), text, flags=re.M | re.S), flags=re.M)
    found = {}
    for title, below in zip(parts[1::2], parts[2::2]):
        name, number = anchor(title), 0
        while name in found:
            number += 1
            name = f"{anchor(title)}-{number}"
        found[name] = below
    return found


def clauses_below(text):
    """The names of the clauses that a section of a page has."""
    return set(re.findall(r"^(?:requires|ensures)\*? (\w+) \{", text, re.M))


def check_link(document, label, target, files, report):
    """A link leads to a file that is there or is made, and to a heading of it; what it quotes stands below that."""
    path, _, place = target.partition("#")
    to = (document.parent / path).resolve() if path else document
    where = f"{document.relative_to(ROOT)}: [{label}]({target})"
    report(to in files or to.exists(), f"{where} leads nowhere")
    if not place or to.suffix != ".md":
        return
    text = files.get(to) or (to.read_text() if to.exists() else "")
    found = sections(text).get(place)
    report(found is not None, f"{where}: there is no such heading")
    if place.startswith("fn-") and found is not None:
        for word in CODE.findall(label):
            report(word in clauses_below(found) or anchor(f"fn {word}") in place, f"{where}: the function has no clause {word}")


def check_links(files, report):
    """Each relative link of a document."""
    for document in documents():
        for label, target in LINK.findall(without_blocks(document.read_text())):
            if not re.match(r"[a-z]+:", target):
                check_link(document, label, target, files, report)


# ---- names in backticks

NAME = re.compile(r"[a-z]+(?:_[a-z0-9]+)+|[A-Z][a-z]+(?:[A-Z][a-z0-9]*)+|[\w/.-]+\.(?:rt|antt|py|sh|edit|nova|img|svg)|(?:crates|tests|examples)/[\w/.-]+")


def known_words():
    """All words of the sources and scripts, and the names of files and folders."""
    words = set()
    for path in [*ROOT.glob("crates/*/src/**/*.rt"), *ROOT.glob("crates/*/specs/*.antt"), *ROOT.glob("tests/*"), *(ROOT / one for one in SCRIPTS)]:
        if path.is_file():
            words |= set(re.findall(r"\w+", path.read_text()))
    for path in [*CRATES.iterdir(), *ROOT.glob("crates/*/must-fail/*"), *ROOT.glob("crates/*/wrong-bodies/*")]:
        words |= {path.name, path.stem}
    return words | set(re.findall(r"\w+", (ROOT / "crates.txt").read_text()))


def is_file(name, crates):
    """Whether a file of the repository has this path, as it stands or below a crate; what is built may be missing."""
    if "/out/" in name:
        return True
    places = (ROOT, ROOT / "docs", ROOT / "tests", CRATES, *(CRATES / crate for crate in crates))
    return any((place / name).exists() for place in places) or any(ROOT.glob(f"crates/*/*/{name}"))


def check_names(crates, report):
    """Each name of code or of a file that a document quotes stands in the sources."""
    words = known_words()
    for document in documents():
        for quoted in set(CODE.findall(without_blocks(document.read_text()))):
            for name in (part for part in re.split(r"::|;?\s+", quoted.strip("()")) if NAME.fullmatch(part)):
                found = is_file(name, crates) if re.search(r"[/.]", name) else name in words
                report(found, f"{document.relative_to(ROOT)}: `{quoted}` isn't in the sources")


# ---- quoted lines

QUOTED = re.compile(r"[→≡×λ∷⊎⊥]|^(?:ensures|requires) |^(?:abbrev|unfoldable) |^pub (?:record|data) |^  pub ")


def quoted_lines(text):
    """The lines of blocks without a language that are clauses or definitions."""
    for block in re.findall(r"^```\n(.*?)^```$", text, re.M | re.S):
        yield from (line.strip() for line in block.splitlines() if QUOTED.search(line))


def check_quotes(report):
    """Clauses and definitions that a document quotes stand in the sources, line by line."""
    paths = [*ROOT.glob("crates/*/src/**/*.rt"), *ROOT.glob("crates/*/specs/*.antt")]
    sources = "\n".join(path.read_text() for path in paths)
    for document in documents():
        for line in quoted_lines(document.read_text()):
            report(line in sources, f"{document.relative_to(ROOT)} quotes, which no source has: {line}")


# ---- fault classes


def fault_classes():
    """The classes of faults, in the order of the sources: a superblock's, and those of a report."""
    faults = re.findall(r"^    ([A-Z]\d)(?: \{.*\})?,$", (CRATES / "nv_super/src/faults.rt").read_text(), re.M)
    names = re.findall(r'codes "(S\d)"', (CRATES / "nv_super/specs/FaultText.antt").read_text())
    return names, faults


def explained():
    """What `nova explain` says of each class of a report: its name, its title, and what it means."""
    text = (CRATES / "nv_super/src/classes.rt").read_text()
    return re.findall(r'name: "(\w+)",\s+title: "([^"]*)",\s+meaning: "([^"]*)"', text)


def fault_sections(text):
    """The sections of docs/FAULTS.md, each with its name, its anchor and its title."""
    found = re.findall(r"^## ([A-Z]\d(?: to [A-Z]\d)?): (.+)$", text, re.M)
    return [(name, anchor(f"{name}: {title}"), title) for name, title in found]


def check_faults(report):
    """The fault classes of the documents are those of the sources."""
    of_super, faults = fault_classes()
    text = (ROOT / "docs/FAULTS.md").read_text()
    sectioned = re.findall(r"^## ([A-Z]\d): ", text, re.M)
    listed = list(dict.fromkeys(re.findall(r"^\| \[?`?([A-Z]\d)\b", text, re.M)))
    report(sectioned == faults, f"docs/FAULTS.md has sections of {sectioned}, the sources have {faults}")
    report(sorted(listed) in (sorted(of_super), sorted(of_super + faults)), f"docs/FAULTS.md lists {listed}, the sources have {of_super} and {faults}")
    manual = (ROOT / "docs/nova.1").read_text()
    named = set(re.findall(r"(?<![\w-])[A-Z]\d(?!\w)", manual)) - {"N1"}
    report(named <= set(of_super + faults), f"docs/nova.1 names {sorted(named - set(of_super + faults))}, which are no classes")
    if ".SH FAULTS" in manual:
        part = manual.partition(".SH FAULTS")[2].partition(".SH ")[0]
        missing = [one for one in of_super + faults if not re.search(rf"\b{one}\b", part)]
        report(not missing, f"docs/nova.1 lacks {missing} under FAULTS")


def check_documents(crates, files, report):
    """All of it; `files` are the pages that are made, and `report` takes whether something holds, and what to say if not."""
    check_links(files, report)
    check_names(crates, report)
    check_quotes(report)
    check_faults(report)
