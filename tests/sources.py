"""What the sources of the crates say: the definitions of specs/*.antt, and the functions of src/*.rt with their contracts.

`reference.py` and `trusted-definitions` share it. It reads the files line by line, as they are laid out here, and proves
nothing: what it misreads, the prover still reads rightly.
"""

import re
from dataclasses import dataclass, field
from pathlib import Path

ROOT = Path(__file__).resolve().parent.parent
CRATES = ROOT / "crates"


@dataclass
class Definition:
    """A definition of a file of specs/."""

    crate: str
    module: str
    name: str
    caption: str
    text: str

    @property
    def lines(self):
        """Its lines without those that hold a comment alone."""
        return [line for line in self.text.splitlines() if line.strip() and not line.lstrip().startswith("--")]


@dataclass
class SpecFile:
    """A file of specs/: its head comment, its definitions, and what its `use` lines name."""

    crate: str
    module: str
    head: str
    definitions: list
    imports: dict


@dataclass
class Clause:
    """A clause of a contract: `ensures NAME { TEXT }` with the comment above it."""

    kind: str
    name: str
    comment: str
    text: str


@dataclass
class Function:
    """A function with its contract; `owner` is the type of its `impl` block, or its trait."""

    crate: str
    file: str
    owner: str
    trait: str
    name: str
    doc: str
    signature: str
    clauses: list
    public: bool

    @property
    def title(self):
        """Its name with the type that has it."""
        name = f"{self.owner}::{self.name}" if self.owner else self.name
        return f"{name} ({self.trait})" if self.trait else name


@dataclass
class Type:
    """A type that the code declares; `value` is the type as contracts see it, where that is another."""

    crate: str
    file: str
    name: str
    doc: str
    text: str
    public: bool
    value: str = ""


@dataclass
class SourceFile:
    """A file of src/."""

    crate: str
    file: str
    head: str
    functions: list
    types: list
    imports: dict
    uses: dict


@dataclass
class Crate:
    """A crate with its files; `exports` has what its lib.rt hands up, each name with the module or crate that has it."""

    name: str
    specs: list = field(default_factory=list)
    sources: list = field(default_factory=list)
    exports: dict = field(default_factory=dict)

    def definitions(self):
        """All definitions of its specs."""
        return [one for spec in self.specs for one in spec.definitions]

    def functions(self):
        """All functions of its sources."""
        return [one for source in self.sources for one in source.functions]

    def types(self):
        """All types of its sources."""
        return [one for source in self.sources for one in source.types]


# ---- the order of the crates


def crate_lines():
    """The crates of crates.txt in their order, each with those that its line names."""
    lines = {}
    for line in (ROOT / "crates.txt").read_text().splitlines():
        if found := re.match(r"([a-z_]\w*)[^:]*:(.*)", line):
            lines[found[1]] = found[2].split()
    return lines


def layers():
    """The layers of crates.txt, each a line `# TITLE` and the crates below it; without such lines it is one layer."""
    found = [("", [])]
    for line in (ROOT / "crates.txt").read_text().splitlines():
        if line.startswith("#"):
            found.append((line.strip("# "), []))
        elif name := re.match(r"([a-z_]\w*)", line):
            found[-1][1].append(name[1])
    return [(title, names) for title, names in found if names]


def read_crate(name):
    """The crate of this name."""
    folder = CRATES / name
    crate = Crate(name)
    for path in sorted(folder.glob("specs/*.antt")):
        if path.stem != "Lib":
            crate.specs.append(read_spec(name, path))
    for path in sorted(folder.glob("src/**/*.rt")):
        crate.sources.append(read_source(name, path))
    library = folder / "src" / "lib.rt"
    crate.exports = exports_of(library.read_text()) if library.exists() else {}
    return crate


def exports_of(text):
    """What a lib.rt hands up by `pub use`, and from where."""
    exports = {}
    for root, names in re.findall(r"^pub use (\w+)::([^;]*);", text, re.M):
        for name in re.findall(r"\w+", names):
            exports[name] = root
    return exports


def read_crates():
    """All crates by their names, in the order of crates.txt."""
    return {name: read_crate(name) for name in crate_lines() if (CRATES / name).is_dir()}


# ---- specs

HEADER = re.compile(r"(?P<indent> *)(?:(?:abbrev|unfoldable)(?: pub)?|(?:pub )?(?:record|data)|pub) (?P<name>[^\s:({]+)")
PRIVATE = re.compile(r"(?P<indent>)(?P<name>[^\s:({]+) : ")
USE = re.compile(r"^\s*(?:pub |ghost )?use (Rattle\.[^;{\s]+?)(?:\.\{([^}]*)\})?(?: as (\w+))?;?$")


def header_of(line, indent):
    """The match of a line that begins a definition at this indent."""
    found = HEADER.match(line) or PRIVATE.match(line)
    if not found or len(found["indent"]) != indent or found["name"] in ("mod", "use"):
        return None
    plain_pub = line.lstrip().startswith("pub ") and not re.match(r" *pub (record|data) ", line)
    return None if plain_pub and indent else found


def read_spec(crate, path):
    """A file of specs/."""
    lines = path.read_text().splitlines()
    definitions = []
    indent = 0
    number = 0
    while number < len(lines):
        line = lines[number]
        if line.startswith("module _"):
            indent = 2
        elif line and not line.startswith(" "):
            indent = 0
        found = header_of(line, indent)
        end = end_of(lines, number, indent) if found else number + 1
        if found:
            caption = comment_above(lines, number, "--", indent)
            text = "\n".join(line[indent:] for line in lines[number:end]).rstrip()
            definitions.append(Definition(crate, path.stem, found["name"], caption, text))
        number = end
    return SpecFile(crate, path.stem, head_of(lines, "--"), definitions, imports_of(lines))


def end_of(lines, start, indent):
    """Where the definition that begins at this line ends."""
    for number in range(start + 1, len(lines)):
        line = lines[number]
        if not line.strip():
            continue
        deep = len(line) - len(line.lstrip())
        ends = re.match(r" *(--|use |pub use |module )", line) or header_of(line, indent)
        if deep < indent or deep == indent and ends:
            return number
    return len(lines)


def comment_above(lines, number, sign, indent):
    """The comment lines right above a line, as one text."""
    found = []
    while number > 0 and lines[number - 1].startswith(" " * indent + sign) and "----" not in lines[number - 1]:
        number -= 1
        found.insert(0, lines[number].strip()[len(sign) :].strip())
    if number == 0:
        return ""
    return " ".join(found).strip()


def head_of(lines, sign):
    """The comment at the head of a file."""
    found = []
    for line in lines:
        if not line.startswith(sign):
            break
        found.append(line[len(sign) :].strip())
    return "\n".join(found)


def imports_of(lines):
    """What the `use` lines of a file name: for each name its module and its name there."""
    imports = {}
    for line in lines:
        found = USE.match(line)
        if not found:
            continue
        module, names, alias = found.groups()
        if names is None:
            imports[alias or module.split(".")[-1]] = (module, None)
            continue
        for name in re.split(r",\s*", names.strip()):
            old, _, new = name.partition(" as ")
            imports[(new or old).strip()] = (module, old.strip())
    return imports


# ---- sources

FUNCTION = re.compile(r"(?P<indent> *)(?P<public>pub (?!\())?(?:pub\([a-z]+\) )?(?:const |unsafe )*fn (?P<name>\w+)")
TYPE = re.compile(r"(?P<public>pub )?(?:pub\([a-z]+\) )?(?:struct|enum|trait) (?P<name>\w+)")
CLAUSE = re.compile(r"(requires|ensures)\*?\s+(?:(\w+)\s*)?\{")


def read_source(crate, path):
    """A file of src/."""
    text = path.read_text()
    lines = text.splitlines()
    file = str(path.relative_to(CRATES / crate))
    functions, types, values = [], [], {}
    owner, trait, open_to_all = "", "", False
    for number, line in enumerate(lines):
        if line.startswith(("impl", "pub trait", "trait")) and not line.endswith("{}"):
            owner, trait, open_to_all = owner_of(line)
        elif line.startswith("}"):
            owner, trait, open_to_all = "", "", False
        if found := re.match(r"    ghost Value = \{(.*)\};", line):
            values[owner] = found[1].strip()
        if found := TYPE.match(line):
            doc, block = doc_above(lines, number), block_at(lines, number)
            types.append(Type(crate, file, found["name"], doc, block, bool(found["public"])))
        if found := FUNCTION.match(line):
            one = read_function(crate, file, lines, number, found, owner, trait)
            one.public = bool(found["public"]) or open_to_all
            functions.append(one)
    for one in types:
        one.value = values.get(one.name, "")
    return SourceFile(crate, file, head_of(lines, "//!"), functions, types, imports_of(lines), uses_of(crate, text))


def uses_of(crate, text):
    """From which crate the `use` lines of a source file take each type."""
    uses = {}
    for root, names in re.findall(r"^(?:pub )?use (\w+)::([^;]*);", text, re.M):
        for name in re.findall(r"\b[A-Z]\w*", names):
            uses[name] = crate if root == "crate" else root
    return uses


def without_generics(text):
    """The text without what stands in angle brackets."""
    text = text.replace("->", "")
    while "<" in text:
        shorter = re.sub(r"<[^<>]*>", "", text)
        if shorter == text:
            break
        text = shorter
    return text


def owner_of(line):
    """The type and the trait of a block, and whether its functions are public without a word."""
    words = without_generics(line.split(" where ")[0].rstrip(" {"))
    if found := re.match(r"(pub )?trait (\w+)", words):
        return found[2], "", bool(found[1])
    found = re.match(r"impl\s*(?:(.+) for )?(.+)", words)
    trait = (found[1] or "").strip()
    return found[2].strip(), trait, bool(trait)


def doc_above(lines, number):
    """The doc comment above a line, past its attributes."""
    found = []
    while number > 0 and lines[number - 1].lstrip().startswith(("///", "#[")):
        number -= 1
        line = lines[number].strip()
        if line.startswith("///"):
            found.insert(0, re.sub(r"^ ", "", line[3:]))
    return "\n".join(found)


def block_at(lines, start):
    """The item that begins at this line, up to its closing line at the same indent."""
    if lines[start].rstrip().endswith(";"):
        return lines[start]
    for number in range(start, len(lines)):
        if lines[number].startswith("}"):
            return "\n".join(lines[start : number + 1])
    return lines[start]


def closing(text, at):
    """Behind the brace that closes the one at this place."""
    depth = 0
    for place in range(at, len(text)):
        depth += {"{": 1, "}": -1}.get(text[place], 0)
        if depth == 0:
            return place + 1
    return len(text)


def read_function(crate, file, lines, number, found, owner, trait):
    """The function that begins at this line."""
    indent = len(found["indent"])
    text = "\n".join(line[indent:] if line.startswith(" " * indent) else line for line in lines[number:])
    end = re.search(r"\n\s*(?://.*\n\s*)*(?:requires|ensures)\b|\s*\{|;", text).start()
    signature = text[:end].rstrip()
    clauses = read_clauses(text, end)
    return Function(crate, file, owner, trait, found["name"], doc_above(lines, number), signature, clauses, False)


def read_clauses(text, at):
    """The clauses from this place on, up to the body."""
    clauses = []
    while True:
        gap = re.compile(r"\s*(?://[^\n]*\s*)*").match(text, at)
        found = CLAUSE.match(text, gap.end())
        if not found:
            return clauses
        comment = " ".join(line.strip()[2:].strip() for line in gap[0].splitlines() if line.strip())
        at = closing(text, found.end() - 1)
        clauses.append(Clause(found[1], found[2] or "", comment, text[found.start() : at]))
