"""Follows names from the clauses of contracts to the definitions that they rest on.

`trusted-definitions` prints these, and `documents.py` compares how many they are with what the documents say.
"""

import re
import sys

from sources import CRATES, read_crates

HEADLINE = ["nv_recover", "recover", "ok"]
WORD = re.compile(r"(?<![\w.'])([^\W\d][\w']*)((?:\.[\w']+)*)")


def plain(text):
    """The text without comments, strings, and the names of fields that a record is given."""
    text = re.sub(r"--.*|//.*", "", text)
    text = re.sub(r'"[^"]*"', "", text)
    return re.sub(r"([{;]\s*)\w+ =", r"\1=", text)


def bound_in(name, text):
    """The names that the text itself binds: by λ, by (x : T), by let, left of an equation, as fields and constructors."""
    bound = set()
    for found in re.finditer(r"λ ([^.]*?)\.", text):
        bound |= set(re.findall(r"[\w']+", found[1].split(":")[0]))
    for found in re.finditer(r"[({]([\w' ]+?) :", text):
        bound |= set(found[1].split())
    bound |= set(re.findall(r"\blet ([\w']+) =", text))
    bound |= set(re.findall(r"^ *(?:pub )?([\w']+) :", text, re.M))
    for found in re.finditer(rf"^{re.escape(name)} ([^=\n]*) =", text, re.M):
        bound |= set(re.findall(r"[\w']+", found[1]))
    return bound - {name}


class Library:
    """All crates, and where a name of one of their files leads."""

    def __init__(self):
        self.crates = read_crates()
        self.hands_on = {name: self.handed_on(name) for name in self.crates}
        self.files = {(spec.crate, spec.module): spec for crate in self.crates.values() for spec in crate.specs}
        self.types = {(one.crate, one.name): one for crate in self.crates.values() for one in crate.types()}
        self.homes = {}
        for crate, name in self.types:
            self.homes.setdefault(name, []).append(crate)
        self.sources = {(one.crate, one.file): one for crate in self.crates.values() for one in crate.sources}

    def handed_on(self, crate):
        """What the specs of a crate hand on under a name: a module path of another crate."""
        path = CRATES / crate / "specs" / "Lib.antt"
        handed = {}
        for line in path.read_text().splitlines() if path.exists() else []:
            if found := re.match(r"pub use (Rattle\.\S+?)(?: as (\w+))?$", line):
                handed[found[2] or found[1].split(".")[-1]] = found[1].split(".")[1:]
        return handed

    def place(self, path):
        """Where a module path leads: a spec file, a type that the code declares, or nothing of this repository."""
        crate, *rest = path
        if crate not in self.crates or rest[:1] != ["specs"]:
            return None
        rest = rest[1:]
        if rest[:1] == ["declared"]:
            return "type", crate, [part for part in rest[1:] if part[0].isupper() and not part.startswith("The")]
        if rest and rest[0] in self.hands_on[crate]:
            return self.place(self.hands_on[crate][rest[0]] + rest[1:])
        if rest and (crate, rest[0]) in self.files:
            return "file", crate, rest[0]
        return None

    def lead(self, imports, spec, name, fields):
        """What a name of a file stands for: a definition, a type, or nothing that is followed."""
        if spec:
            for one in spec.definitions:
                if one.name == name:
                    return "definition", one
        if name not in imports:
            return None
        module, old = imports[name]
        path = module.split(".")[1:]
        if old is None and fields:
            old = fields[0]
        return self.named(self.place(path), old)

    def types_in(self, declared):
        """The types of the fields of a type that the code declares."""
        uses = self.sources[(declared.crate, declared.file)].uses
        fields = re.sub(r"//.*|ghost .*", "", declared.text)
        for name in re.findall(r"\b[A-Z]\w*", fields):
            homes = self.homes.get(name, [])
            home = declared.crate if declared.crate in homes else uses.get(name)
            if home not in homes and home in self.crates and len(homes) == 1:
                home = homes[0]
            if home in homes:
                yield home, name

    def named(self, place, name):
        """What a name of a place is."""
        if place is None:
            return None
        kind, crate, rest = place
        if kind == "type":
            return "type", (crate, rest[0] if rest else name)
        spec = self.files[(crate, rest)]
        return self.lead(spec.imports, spec, name, []) if name else None


def leads_of(library, imports, spec, name, text):
    """What the names of a text lead to, in their order."""
    text = plain(text)
    bound = bound_in(name, text)
    for found in WORD.finditer(text):
        if found[1] not in bound and found[1] != name:
            if lead := library.lead(imports, spec, found[1], found[2].split(".")[1:]):
                yield lead


class Unfolding:
    """The definitions that were met so far, each once, and the types."""

    def __init__(self, library):
        self.library = library
        self.definitions = {}
        self.types = {}

    def follow(self, imports, spec, name, text):
        """Takes in what the names of a text lead to, and what those rest on."""
        for kind, lead in leads_of(self.library, imports, spec, name, text):
            if kind == "type":
                self.follow_type(lead)
                continue
            key = (lead.crate, lead.module, lead.name)
            if key not in self.definitions:
                self.definitions[key] = lead
                its = self.library.files[key[:2]]
                self.follow(its.imports, its, lead.name, lead.text)

    def follow_type(self, lead):
        """Takes in a type that the code declares, and the types that it leads to."""
        declared = self.library.types.get(lead)
        if lead in self.types or declared is None:
            return
        self.types[lead] = declared
        if declared.value:
            imports = self.library.sources[(declared.crate, declared.file)].imports
            self.follow(imports, None, "", declared.value)
            return
        for one in self.library.types_in(declared):
            self.follow_type(one)


def count_of(definitions):
    """How many definitions these are, as a sentence has it."""
    lines = sum(len(one.lines) for one in definitions)
    crates = {one.crate for one in definitions}
    return f"{len(definitions)} definitions in {lines} lines of {len(crates)} crates"


def functions_named(library, crate, name):
    """The functions of a crate that have this name, with or without their type; without a name, all that it hands up."""
    if crate not in library.crates:
        sys.exit(f"there is no crate {crate}")
    its = library.crates[crate]
    if not name:
        return [one for one in its.functions() if one.public and (one.owner or one.name) in its.exports]
    found = [one for one in its.functions() if name in (one.name, f"{one.owner}::{one.name}")]
    if not found:
        sys.exit(f"{crate} has no function {name}")
    return found


def unfold(library, words):
    """What lies below clauses: those of a crate, of one of its functions, or of these names, as the words say."""
    crate, name, wanted = words[0], "".join(words[1:2]), set(words[2:])
    functions = functions_named(library, crate, name)
    names = {clause.name for one in functions for clause in one.clauses}
    if not wanted <= names:
        sys.exit(f"{name} has no clause {' '.join(sorted(wanted - names))}; it has {' '.join(sorted(names))}")
    unfolding = Unfolding(library)
    for one in functions:
        imports = library.sources[(one.crate, one.file)].imports
        for clause in one.clauses:
            if not wanted or clause.name in wanted:
                unfolding.follow(imports, None, "", clause.text)
        unfolding.follow_type((one.crate, one.owner))
    return unfolding


def unfold_beyond(library, words, known):
    """The same without what lies below other clauses."""
    unfolding = unfold(library, words)
    if known:
        base = unfold(library, known)
        unfolding.definitions = {key: one for key, one in unfolding.definitions.items() if key not in base.definitions}
        unfolding.types = {key: one for key, one in unfolding.types.items() if key not in base.types}
    return unfolding
