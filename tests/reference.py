#!/usr/bin/env python3
"""Makes docs/reference/ from the sources, and compares the documents with them.

    tests/reference.py            writes docs/reference/README.md, a page for each crate, the tables of docs/MAP.md and
                                  docs/FAULTS.md, what the latter says first of each class, the numbers of README.md that
                                  can be counted, and the picture of the crates
    tests/reference.py --check    writes nothing: says what is out of date, which definitions have no caption, and what a
                                  document says that the sources don't; ends with 'N passed, M failed', and 1 on a failure

A page has the introduction that docs/reference/introductions.md has for the crate, the definitions of its specs with the
comments above them, its public types, and its public functions with their doc comments and contracts. The order of the
crates, and the layers where it has lines `# ...`, are those of crates.txt.
"""

import re
import sys

from claims import check_claims, row_numbers
from documents import check_documents, explained, fault_sections
from picture import picture
from sources import ROOT, crate_lines, layers, read_crates
from wording import check_wording

REFERENCE = ROOT / "docs" / "reference"
INTRODUCTIONS = REFERENCE / "introductions.md"
README = ROOT / "README.md"
MAP = ROOT / "docs" / "MAP.md"
FAULTS = ROOT / "docs" / "FAULTS.md"
PICTURE = ROOT / "docs" / "crates.svg"


# ---- introductions


def introductions():
    """The introductions of the crates, written by hand."""
    parts = re.split(r"^## (\w+)\n", INTRODUCTIONS.read_text(), flags=re.M)
    return {name: text.strip() for name, text in zip(parts[1::2], parts[2::2])}


def first_sentence(text):
    """The first sentence of an introduction, without the full stop."""
    return re.split(r"\.(?:\s|$)", text, maxsplit=1)[0].replace("\n", " ")


# ---- parts of a page


def prose(text):
    """A comment as Markdown: what would be read as a sign is taken as it stands."""
    return re.sub(r"([*<])", r"\\\1", text)


def code(text):
    """A block of code."""
    return f"```\n{text}\n```"


def source_link(crate, file):
    """A link from a page to a file of the crate."""
    return f"[{file}](../../crates/{crate}/{file})"


def definition_part(one):
    """A definition with its caption."""
    caption = prose(one.caption[:1].upper() + one.caption[1:].rstrip(".") + ".") if one.caption else ""
    return [f"#### {one.name}", *([caption] if caption else []), code(one.text)]


def definitions_part(crate):
    """The definitions of a crate, file by file."""
    parts = []
    for spec in crate.specs:
        if spec.definitions:
            parts.append(f"### {source_link(crate.name, f'specs/{spec.module}.antt')}")
            parts += [prose(spec.head)] if spec.head else []
            for one in spec.definitions:
                parts += definition_part(one)
    return ["## Definitions", *parts] if parts else []


def type_part(one):
    """A type that the crate declares for all."""
    kind = re.search(r"struct|enum|trait", one.text)[0]
    parts = [f"#### {kind} {one.name}", *([one.doc] if one.doc else [])]
    if kind != "trait":
        parts.append(code(one.text))
    if one.value:
        parts.append(f"Contracts see it as `{one.value}`.")
    return parts


def clause_names(clauses):
    """The names of clauses, in their order."""
    names = [f"`{clause.name}`" for clause in clauses if clause.name]
    unnamed = len(clauses) - len(names)
    if unnamed:
        names.append("one clause without a name" if unnamed == 1 else f"{unnamed} clauses without a name")
    return ", ".join(names)


def contract_part(function):
    """What a function requires and ensures: the names of its clauses, the comments above them, and the text, folded."""
    parts = []
    for kind in ("requires", "ensures"):
        clauses = [clause for clause in function.clauses if clause.kind == kind]
        if clauses:
            parts.append(f"{kind.capitalize()} {clause_names(clauses)}.")
    said = [f"- `{clause.name or clause.kind}`: {prose(clause.comment)}" for clause in function.clauses if clause.comment]
    if said:
        parts.append("\n".join(said))
    if function.clauses:
        text = code("\n".join(clause.text for clause in function.clauses))
        parts.append(f"<details><summary>The clauses</summary>\n\n{text}\n\n</details>")
    return parts


def function_title(one):
    """The heading of a function."""
    name = f"{one.owner}::{one.name}" if one.owner else one.name
    return f"fn {name}" + (f" of {one.trait}" if one.trait else "")


def function_part(one):
    """A function with its contract."""
    return [f"#### {function_title(one)}", *([one.doc] if one.doc else []), code(one.signature), *contract_part(one)]


def is_shown(function, exports):
    """Whether a function has a place on its crate's page: it can be called from outside, and has something to say."""
    handed_up = (function.owner or function.name) in exports
    return handed_up and function.public and (bool(function.clauses) or not function.trait)


def handed_on(crate, crates):
    """What a crate hands on of others."""
    roots = {}
    for name, root in crate.exports.items():
        if root in crates:
            roots.setdefault(root, []).append(f"`{name}`")
    return [f"It hands on {', '.join(names)} of [{root}]({root}.md)." for root, names in roots.items()]


def sources_part(crate, crates):
    """The public types and functions of a crate, file by file."""
    parts = ["\n".join(handed_on(crate, crates))] if handed_on(crate, crates) else []
    for source in crate.sources:
        types = [one for one in source.types if one.public and one.name in crate.exports]
        functions = [one for one in source.functions if is_shown(one, crate.exports)]
        if not types and not functions:
            continue
        parts += [f"### {source_link(crate.name, source.file)}", *([source.head] if source.head else [])]
        for one in types:
            parts += type_part(one)
        for one in functions:
            parts += function_part(one)
    return ["## Types and functions", *parts] if parts else []


def page(crate, crates, introduction):
    """The page of a crate."""
    made = "The introduction stands in [introductions.md](introductions.md); `tests/reference.py` makes the rest from the crate's sources."
    parts = [f"# {crate.name}", introduction, made, *definitions_part(crate), *sources_part(crate, crates)]
    return "\n\n".join(parts) + "\n"


# ---- the tables


def stands_on(lines, name):
    """Those of this repository that a crate stands on, without those that another of them stands on already."""

    def below(one):
        return {lower for other in lines.get(one, []) for lower in {other} | below(other)}

    own = [other for other in lines[name] if other in lines]
    return [other for other in own if not any(other in below(another) for another in own if another != other)]


def is_listed(crate, lines):
    """Whether a crate has a page: it has definitions, or another one stands on it."""
    return bool(crate.definitions()) or any(crate.name in lower for lower in lines.values())


def is_drawn(crate, lines):
    """Whether a crate is in the picture: another one stands on it, or it is one of the two programs."""
    return crate.name.startswith("nova") or any(crate.name in lower for lower in lines.values())


def table(crates, texts, folder):
    """The table of the crates, with links into this folder."""
    lines = crate_lines()
    rows = []
    for title, names in layers():
        rows += [f"\n## {title}" if folder == "" else f"\n**{title}**"] if title else []
        rows += ["\n| crate | stands on | what it is |", "|---|---|---|"]
        for name in names:
            shown = f"[{name}]({folder}{name}.md)" if is_listed(crates[name], lines) else name
            below = ", ".join(stands_on(lines, name)) or "none"
            rows.append(f"| {shown} | {below} | {first_sentence(texts.get(name, ''))} |")
    return "\n".join(rows).strip("\n")


def index(crates, texts):
    """The index of the pages."""
    head = (
        "# Reference\n\nWhat each crate defines and promises, made from its sources by `tests/reference.py`. "
        "[READING.md](../READING.md) says how a clause is read, and [PROVED.md](../PROVED.md) has the promises that matter most. "
        "Each crate stands on those named beside it, and on what these stand on.\n\n"
    )
    return head + table(crates, texts, "") + "\n"


def head_sentence(path):
    """The first sentence of a script's head."""
    head = re.match(r'(?:#!.*\n)?(?:"""([^"]*)"""|((?:#.*\n)+))', path.read_text())
    text = head[1] or re.sub(r"^# ?", "", head[2], flags=re.M)
    return re.split(r"\.(?:\s|$)", text, maxsplit=1)[0].replace("\n", " ")


def scripts_table():
    """The table of the scripts of tests/."""
    paths = sorted(path for path in (ROOT / "tests").iterdir() if path.is_file())
    return "\n".join(["| script | does |", "|---|---|", *(f"| `{path.name}` | {head_sentence(path)} |" for path in paths)])


def with_meanings(text):
    """docs/FAULTS.md with what `nova explain` says of each class: its title, and the first paragraph of its section."""
    for name, title, meaning in explained():
        fault, _, rest = meaning.partition(". ")
        shown = "`" + fault.replace(", or ", "`, or `") + f"`. {rest}"
        text = re.sub(rf"^## {name}: .*\n\n.*$", lambda _: f"## {name}: {title}\n\n{shown}", text, flags=re.M)
    return text


def with_tables(text, tables):
    """A document with the tables that are made, each between two lines that say so."""
    for what, rows in tables.items():
        begin, end = f"<!-- The table of {what} is made by tests/reference.py. -->", "<!-- Here the table ends. -->"
        before, found, rest = text.partition(begin)
        if found:
            text = f"{before}{begin}\n\n{rows}\n\n{end}{rest.partition(end)[2]}"
    return text


def faults_page(text):
    """docs/FAULTS.md with the table of the classes, from its headings."""
    text = with_meanings(text)
    rows = [f"| [{name}](#{place}) | {title} |" for name, place, title in fault_sections(text)]
    return with_tables(text, {"faults": "\n".join(["| fault | means |", "|---|---|", *rows])})


def with_numbers(text, crates):
    """README.md with the numbers that can be counted, in the second cells of their rows."""
    for title, number in row_numbers(crates).items():
        text = re.sub(rf"^\| {title} \| [\d,]+ \|", f"| {title} | {number:,} |", text, flags=re.M)
    return text


def made(crates):
    """All files that are made, each with its text."""
    lines, texts = crate_lines(), introductions()
    drawn = [name for name in crates if is_drawn(crates[name], lines)]
    files = {
        README: with_numbers(README.read_text(), crates),
        MAP: with_tables(MAP.read_text(), {"crates": table(crates, texts, "reference/"), "scripts": scripts_table()}),
        FAULTS: faults_page(FAULTS.read_text()),
        PICTURE: picture(lines, drawn, {name: first_sentence(texts.get(name, "")) for name in drawn}),
        REFERENCE / "README.md": index(crates, texts),
    }
    for name, crate in crates.items():
        if is_listed(crate, lines):
            files[REFERENCE / f"{name}.md"] = page(crate, crates, texts.get(name, ""))
    return files


# ---- what is done


def write(files):
    """Writes what has changed, and takes away the pages of crates that are gone."""
    REFERENCE.mkdir(parents=True, exist_ok=True)
    for path, text in files.items():
        if not path.exists() or path.read_text() != text:
            path.write_text(text)
            print(f"wrote {path.relative_to(ROOT)}")
    for path in sorted(REFERENCE.glob("*.md")):
        if path not in files and path != INTRODUCTIONS:
            path.unlink()
            print(f"removed {path.relative_to(ROOT)}")


def check_pages(files, report):
    """Compares the pages that are there with those that would be made."""
    for path, text in files.items():
        report(path.exists() and path.read_text() == text, f"out of date: {path.relative_to(ROOT)}; tests/reference.py makes it")
    for path in sorted(REFERENCE.glob("*.md")):
        report(path in files or path == INTRODUCTIONS, f"{path.relative_to(ROOT)}: there is no such crate")


def check_words(crates, report):
    """Each crate has an introduction, and each definition a caption."""
    texts = introductions()
    for name, crate in crates.items():
        report(name in texts, f"docs/reference/introductions.md: nothing is said of {name}")
        for one in crate.definitions():
            report(bool(one.caption), f"crates/{name}/specs/{one.module}.antt: {one.name} has no caption")
    report(list(texts) == list(crates), "docs/reference/introductions.md: its crates aren't those of crates.txt, in that order")


def check(crates, files):
    """Compares, prints what fails and the sums, and answers the exit status."""
    counts = [0, 0]

    def report(holds, failure):
        counts[0 if holds else 1] += 1
        if not holds:
            print(f"WRONG: {failure}")

    check_pages(files, report)
    check_words(crates, report)
    check_documents(crates, files, report)
    check_claims(crates, report)
    check_wording(report)
    print(f"{counts[0]} passed, {counts[1]} failed")
    return 1 if counts[1] else 0


def main(words):
    """Does what the words ask for."""
    if words not in ([], ["--check"]):
        sys.exit(__doc__)
    crates = read_crates()
    files = made(crates)
    if words:
        sys.exit(check(crates, files))
    write(files)


main(sys.argv[1:])
