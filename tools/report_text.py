"""The lines of a report, read anew for check_report.py: every field with its kind, and figures as exact fractions."""

import re
from fractions import Fraction
from typing import NamedTuple

from exact_hull import Unread

WHOLE = re.compile(r"0|-?[1-9][0-9]*")
END = r"-?(?:0|[1-9][0-9]*)\.[0-9]"

# The fields of a line: n a whole number, f a figure, m a figure of nine places, a a figure or "-", else the word itself.
FORMS = {
    "hullcert": ["n hydro|bonjean|cross|stability|damage|floodable|all|section|make"],
    "hull": ["n n"],
    "body": ["n"],
    "hydro": ["n f f a a f a a a a f a"],
    "section": ["n n n f m"],
    "cross": ["n n n n f"],
    "load": ["n f f", "n f f f"],
    "upright": ["n n f f f"],
    "arm": ["n n n f f", "n n n f f f f"],
    "mark": ["C1|C2|C3|C4|C5|C6 holds|fails|unsure"],
    "verdict": [
        "pass",
        *(
            f"fail|undecided C1|C2|C3|C4|C5|C6 {side}{shown}"
            for side in ("", "port|starboard ")
            for shown in ("interval n f", "pair n n", "leak n n f")
        ),
    ],
    "damage": ["n n n n n", "n sinks f", "n nostart fore|aft"],
    "safe": ["n n n n n n", "n -"],
    "next": ["n n over|touch n n n n n", "n n sinks|nostart|endofship"],
    "end": ["n"],
}


class Figure(NamedTuple):
    """The printed ends of an interval, and the unit of their last place."""

    low: Fraction
    high: Fraction
    unit: Fraction

    def holds(self, value):
        return self.low <= value <= self.high

    def __str__(self):
        places = len(str(self.unit.denominator)) - 1
        return f"[{decimal(self.low, places)},{decimal(self.high, places)}]"


class Line(NamedTuple):
    """A line: its number from 1, its name, and its fields as numbers, figures, None where one is absent, or words."""

    number: int
    name: str
    fields: list
    text: str


def decimal(value, places):
    """A fraction that has so many places, as it is printed."""
    count = int(value * 10 ** places)
    front, back = divmod(abs(count), 10 ** places)
    return f"{'-' * (count < 0)}{front}.{back:0{places}}"


def printed(low, high, places=6):
    """The figure of an exact interval: rounded outwards to its last place."""
    unit = Fraction(1, 10 ** places)
    return Figure(low // unit * unit, -(-high // unit) * unit, unit)


def figure_of(word, places):
    end = f"({END}{{{places}}})"
    found = re.fullmatch(rf"\[{end},{end}\]", word)
    if not found or re.search(r"-0\.0+[,\]]", word):
        raise ValueError
    low, high = map(Fraction, found.groups())
    if low > high:
        raise ValueError
    return Figure(low, high, Fraction(1, 10 ** places))


def field_of(kind, word):
    if kind == "n" and WHOLE.fullmatch(word):
        return int(word)
    if kind == "a" and word == "-":
        return None
    if kind in ("f", "a", "m"):
        return figure_of(word, 9 if kind == "m" else 6)
    if kind != "n" and word in kind.split("|"):
        return word
    raise ValueError


def line_of(number, text):
    """A line, or None where it is outside the grammar."""
    name, *words = text.split(" ")
    for form in FORMS.get(name, []):
        kinds = form.split(" ")
        try:
            if len(kinds) == len(words):
                return Line(number, name, [field_of(kind, word) for kind, word in zip(kinds, words)], text)
        except ValueError:
            pass
    return None


def read_lines(name):
    """The lines of a report."""
    try:
        with open(name, "rb") as file:
            content = file.read()
    except OSError as fault:
        raise Unread(f"{name}: {fault.strerror}") from None
    if content.startswith((b"refused ", b"fault ")) or not content:
        raise Unread(f"{name}: line 1: {content[:80].decode('latin-1').strip() or 'nothing'}: there is no report to check")
    texts = content.decode("latin-1").split("\n")
    if texts.pop():
        raise Unread(f"{name}: line {len(texts) + 1}: the last line has no line feed: the report was cut")
    lines = [line_of(number, text) for number, text in enumerate(texts, start=1)]
    if None in lines:
        raise Unread(f"{name}: line {lines.index(None) + 1}: outside the grammar: {texts[lines.index(None)][:80]}")
    return lines
