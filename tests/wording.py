"""How README.md and docs/ are written: how many words by hand, no long sentence, and no word that is read twice.

`reference.py --check` calls it. Not counted are blocks of code, which are compared with the sources or with what a program
prints, and what `reference.py` makes: tables, and what docs/FAULTS.md says first of each class.
"""

import re

from documents import documents, without_blocks
from sources import ROOT

MOST_WORDS = 20_250
MOST_IN_README = 1_300
MOST_IN_SENTENCE = 40
MADE = re.compile(r"<!-- The table of \w+ is made by (?s:.*?)<!-- Here the table ends. -->|^## [A-Z]\d: .*\n\n`fault .*$", re.M)
# 'after', and 'says', 'shows' or 'describes', are read once.
AVOIDED = re.compile(r"\b(?:behind|told|tells|tell)\b")


def by_hand(text):
    """What somebody wrote of a document."""
    return without_blocks(MADE.sub("", text))


def check_lengths(report):
    """So many words, and no more."""
    total = sum(len(by_hand(document.read_text()).split()) for document in documents())
    report(total <= MOST_WORDS, f"README.md and docs/ have {total:,} words by hand, more than {MOST_WORDS:,}")
    readme = len((ROOT / "README.md").read_text().split())
    report(readme <= MOST_IN_README, f"README.md has {readme:,} words, more than {MOST_IN_README:,}")


def sentences(text):
    """The sentences of a document, without links' targets, tables and headings."""
    text = re.sub(r"\]\([^)\s]*\)", "]", by_hand(text))
    lines = ["" if re.match(r"\||#|    |<!--|!\[", line) else re.sub(r"^\s*(?:- |\d+\. )", "\n", line) for line in text.splitlines()]
    for part in re.split(r"\n\s*\n", "\n".join(lines)):
        yield from re.split(r"[.!?]\**(?=\s|$)", part)


def check_sentences(report):
    """No sentence is too long, and none has a word to avoid."""
    for document in documents():
        name = document.relative_to(ROOT)
        for sentence in sentences(document.read_text()):
            words = sentence.split()
            report(len(words) <= MOST_IN_SENTENCE, f"{name}: a sentence of {len(words)} words: {' '.join(words[:8])} ..")
        plain = re.sub(r"`[^`\n]*`", "", by_hand(document.read_text()))
        report(not AVOIDED.search(plain), f"{name} has the words {sorted(set(AVOIDED.findall(plain)))}")
    manual = (ROOT / "docs/nova.1").read_text()
    report(not AVOIDED.search(manual), f"docs/nova.1 has the words {sorted(set(AVOIDED.findall(manual)))}")


def check_wording(report):
    """All of it; `report` takes whether something holds, and what to say if not."""
    check_lengths(report)
    check_sentences(report)
