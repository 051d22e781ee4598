#!/usr/bin/env python3
"""Makes bindings/c/nova.h from the exports of the crate nova_c.

    bindings/header.py            writes it
    bindings/header.py --check    writes nothing: says whether it is as it would be made, and ends with 1 where it isn't

A `Global` takes no bytes, so C passes nothing for it. A slice crosses as a pointer and a length.
"""

import re
import sys
import textwrap
from pathlib import Path

ROOT = Path(__file__).resolve().parent.parent
SOURCES = ROOT / "crates/nova_c/src"
HEADER = ROOT / "bindings/c/nova.h"
WIDTH = 110

# The types that cross as they are.
PLAIN = {"u32": "uint32_t", "u64": "uint64_t", "usize": "size_t", "*mut u8": "void *", "*mut u64": "uint64_t *"}
# The structs, in the order in which they are needed, and the files of the calls, in the order of the header.
STRUCTS = ("NovaFs", "NovaImage", "NovaNumbers", "NovaSpace", "NovaCleaned")
FILES = (
    "opening",
    "saving",
    "numbers",
    "reading",
    "listing",
    "by_number",
    "names",
    "names_by_number",
    "files",
    "files_by_number",
    "cleaning",
)
# How the statuses of an enum's variants are named.
PREFIXES = {"Refusal": "", "SuperFault": "SUPER_", "RecoverError": "RECOVER_", "FormatRefusal": "FORMAT_"}

STRUCT = re.compile(r"((?: *///.*\n)+)#\[repr\(C\)\]\n(?:#\[.*\]\n)*pub struct (\w+) \{\n([\s\S]*?)\n\}")
FIELD = re.compile(r"((?: *///.*\n)*) *pub(?:\(crate\))? (\w+): ([^,{]+),")
EXPORT = re.compile(r'((?:///.*\n)+)#\[unsafe\(no_mangle\)\]\npub extern "C" fn (\w+)\(([^)]*)\) -> u32')
CONSTANT = re.compile(r"^(?:pub\(crate\) )?const (\w+): u32 = (\d+);", re.M)
VARIANT = re.compile(r"^ *(\w+)::(\w+)(?:\(_\))? => (\w+),", re.M)
# What an export and a status look like at least: so many of them have to be found.
ANY_EXPORT = re.compile(r"^#\[unsafe\(no_mangle\)\]", re.M)
ANY_STATUS = re.compile(r"=> (\d+),|: u32 = (\d+);")


def snake(name):
    return re.sub(r"(?<=[a-z])(?=[A-Z])", "_", name).lower()


def of_doc(lines):
    """The text of a doc comment, a string for each paragraph."""
    text = "\n".join(line.strip()[3:].strip() for line in lines.strip().splitlines())
    return [" ".join(part.split()) for part in text.split("\n\n") if part.strip()]


def comment(parts, indent=""):
    lines = []
    for part in parts:
        lines += textwrap.wrap(part.replace("`", ""), WIDTH - len(indent) - 3)
    return f"{indent}/* " + f"\n{indent} * ".join(lines) + " */\n"


def declared(type_, name):
    """What C declares for a parameter: one word, or a pointer and a length."""
    if type_ == "Global":
        return []
    if type_ in ("&[u8]", "&mut [u8]"):
        const = "" if "mut" in type_ else "const "
        return [f"{const}uint8_t *{name}", f"size_t {name}_length"]
    if type_.startswith("&mut "):
        return [f"{of_type(type_[5:])} *{name}"]
    return [f"{of_type(type_)} {name}"]


def of_type(type_):
    if type_ in PLAIN:
        return PLAIN[type_]
    if type_ in STRUCTS:
        return snake(type_)
    sys.exit(f"header.py: no C type is known for {type_}")


def of_field(type_, name):
    type_ = of_type(type_)
    return f"{type_}{'' if type_.endswith('*') else ' '}{name};"


def struct(found):
    doc, name, body = found
    fields = "".join(
        (comment(of_doc(said), "    ") if said.strip() else "") + f"    {of_field(type_.strip(), field)}\n"
        for said, field, type_ in FIELD.findall(body)
    )
    return f"{comment(of_doc(doc))}typedef struct {{\n{fields}}} {snake(name)};\n"


def statuses(text):
    """The statuses, by their numbers."""
    named = {name: int(number) for name, number in CONSTANT.findall(text)}
    said = {number: name for name, number in named.items() if name in ("DONE", "CLOSED", "BUSY", "TOO_SMALL")}
    for enum, variant, value in VARIANT.findall(text):
        if enum in PREFIXES and (value.isdigit() or value in named):
            number = int(value) if value.isdigit() else named[value]
            said.setdefault(number, PREFIXES[enum] + snake(variant).upper())
    lacking = {int(one or other) for one, other in ANY_STATUS.findall(text)} - said.keys()
    if lacking:
        sys.exit(f"header.py: no name is found for {sorted(lacking)}")
    return "".join(f"    NOVA_{name} = {number},\n" for number, name in sorted(said.items()))


def export(found):
    doc, name, given = found
    words = []
    for parameter in re.findall(r"(\w+): ([^,]+)", given):
        words += declared(parameter[1].strip(), parameter[0])
    line = f"uint32_t {name}({', '.join(words)});"
    if len(line) > WIDTH:
        line = textwrap.fill(line, WIDTH, subsequent_indent=" " * (len(name) + 10))
    return f"{comment(of_doc(doc))}{line}\n"


def header():
    texts = {path.stem: path.read_text() for path in SOURCES.glob("*.rt")}
    structs = {found[1]: struct(found) for text in texts.values() for found in STRUCT.findall(text)}
    calls = {stem: "\n".join(export(found) for found in EXPORT.findall(text)) for stem, text in texts.items()}
    unread = [stem for stem, text in texts.items() if len(EXPORT.findall(text)) != len(ANY_EXPORT.findall(text))]
    if unread:
        sys.exit(f"header.py: an export isn't read of {', '.join(unread)}")
    lacking = [name for name in structs if name not in STRUCTS] + [stem for stem, said in calls.items() if said and stem not in FILES]
    if lacking:
        sys.exit(f"header.py: add {', '.join(lacking)} to its lists")
    head = comment([
        "The calls of the static library nova_c. This file is made from crates/nova_c/src by bindings/header.py.",
        "Each call answers a status: 0, or why it was refused. A path is bytes with no 0 behind them: a pointer, and "
        "the length. C owes what docs/MOUNT.md lists under \"What C owes\".",
    ])
    return (
        f"{head}#ifndef NOVA_H\n#define NOVA_H\n\n#include <stddef.h>\n#include <stdint.h>\n\n"
        "#ifdef __cplusplus\nextern \"C\" {\n#endif\n\n"
        f"enum nova_status {{\n{statuses(texts['codes'])}}};\n\n"
        + "\n".join(structs[name] for name in STRUCTS)
        + "\n"
        + "\n".join(calls[stem] for stem in FILES)
        + "\n#ifdef __cplusplus\n}\n#endif\n\n#endif\n"
    )


def main():
    made = header()
    if sys.argv[1:] == ["--check"]:
        if HEADER.read_text() != made:
            sys.exit("bindings/c/nova.h isn't what bindings/header.py makes of crates/nova_c/src")
    elif sys.argv[1:]:
        sys.exit(__doc__.strip())
    else:
        HEADER.write_text(made)


main()
