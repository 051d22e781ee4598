"""Draws docs/crates.svg: the crates in rows, each above those that it stands on. `reference.py` calls it."""

import textwrap
from xml.sax.saxutils import escape

WIDTH = 1000
EDGE = 16
GAP = 8
LINE = 14
# The width of a letter of the small text, on the safe side.
LETTER = 6.2


def height_of(lines, name):
    """How many crates stand one upon the other below this one, itself counted."""
    return 1 + max((height_of(lines, lower) for lower in lines[name] if lower in lines), default=0)


def rows_of(lines, names):
    """The crates row by row, the highest first."""
    rows = {}
    for name in names:
        rows.setdefault(height_of(lines, name), []).append(name)
    return [rows[height] for height in sorted(rows, reverse=True)]


def short(text):
    """What a box says of a crate: the first sentence of its introduction up to a colon."""
    front = text.split(":")[0]
    return (front if len(front) >= 12 else text).replace("`", "")


def box(name, words, x, y, width, height):
    """A crate's box with its name and its words."""
    middle = x + width / 2
    parts = [
        f'<rect x="{x:g}" y="{y:g}" width="{width:g}" height="{height:g}" rx="4" fill="#eef3fa" stroke="#333"/>',
        f'<text x="{middle:g}" y="{y + 18:g}" text-anchor="middle" font-size="13" font-weight="bold">{name}</text>',
    ]
    for number, line in enumerate(words):
        at = y + 34 + number * LINE
        parts.append(f'<text x="{middle:g}" y="{at:g}" text-anchor="middle" font-size="11" fill="#333">{escape(line)}</text>')
    return parts


def row(names, texts, y):
    """The boxes of a row, side by side, and how high it is."""
    width = (WIDTH - 2 * EDGE - GAP * (len(names) - 1)) / len(names)
    words = {name: textwrap.wrap(short(texts[name]), int((width - 12) / LETTER)) for name in names}
    height = 30 + LINE * max(len(lines) for lines in words.values())
    parts = []
    for place, name in enumerate(names):
        parts += box(name, words[name], EDGE + place * (width + GAP), y, width, height)
    return parts, height


def picture(lines, names, texts):
    """The drawing of these crates, of which `lines` says what each stands on and `texts` what it is."""
    parts = []
    y = 34
    for these in rows_of(lines, names):
        drawn, height = row(these, texts, y)
        parts += drawn
        y += height + 2 * GAP
    title = "The crates by rows, each above those that it stands on"
    head = [
        f'<svg xmlns="http://www.w3.org/2000/svg" viewBox="0 0 {WIDTH} {y:g}" width="{WIDTH}" height="{y:g}" font-family="sans-serif" role="img" aria-label="{title}">',
        f"<title>{title}</title>",
        f'<rect width="{WIDTH}" height="{y:g}" fill="white"/>',
        f'<text x="{EDGE}" y="20" font-size="12" fill="#555">a crate stands on crates of the rows below it; the tables of docs/MAP.md and docs/reference say on which</text>',
    ]
    return "\n".join([*head, *parts, "</svg>"]) + "\n"
