"""Holds a report of hullcert against the same tables in plain double precision: for bench/compare.

Where the report has an interval or two levels, the other text has one number. It agrees where it lies between the two,
or outside by no more than 1e-6 of it, or of its unit where it is below 1; the unit of a level is the metre. Marks and a
verdict that the report leaves open agree with any.
"""

import pathlib
import sys
from typing import NamedTuple

sys.path.append(str(pathlib.Path(__file__).resolve().parent.parent / "tools"))

import report_lines  # noqa: E402

ALLOWED = 1e-6
METRE = 1_024_000  # in grid units
LEVELS_FROM = {"cross": 3, "upright": 1, "arm": 2, "damage": 2, "safe": 3, "next": 5}  # the word that levels begin with


class Agreement(NamedTuple):
    """How many figures and levels were compared, how far those outside are off, and lines that say something else."""

    figures: int
    offs: list
    others: list

    def is_good(self):
        return not self.others and all(off <= ALLOWED for off in self.offs)

    def outside(self):
        said = f"{len(self.offs)} outside, by {max(self.offs):.1e} at most" if self.offs else "all inside"
        return said + (f"; {len(self.others)} lines say something else, as {self.others[0]}" if self.others else "")


def sentence(halving, newton):
    """What was found of the two searches."""
    return f"{halving.figures} figures and levels; by halving {halving.outside()}; by Newton's steps {newton.outside()}"


def fields_of(words):
    """The words of a report's line, with (low, high, unit) in place of a figure and of two levels."""
    if words[0] == "body":  # exact there, and above what a double has room for
        return ["body", (int(words[1]), int(words[1]), 1)]
    fields, at, levels = [], 0, LEVELS_FROM.get(words[0], len(words))
    while at < len(words):
        if words[at].startswith("["):
            places = words[at].rstrip("]")[::-1].index(".")
            fields.append((*report_lines.figure_of(words[at], places), 1))
        elif at >= levels and report_lines.WHOLE.match(words[at]):
            fields.append((int(words[at]), int(words[at + 1]), METRE))
            at += 1
        else:
            fields.append(words[at])
        at += 1
    return fields[:3] if words[0] == "verdict" else fields  # what the verdict shows isn't looked for in doubles


def off_by(low, high, unit, number):
    """How far a number lies outside of two ends, as a part of it or of the unit."""
    return max(low - number, number - high, 0.0) / max(abs(number), unit)


def matched(field, word):
    """How far a word is off from a field; None where it says something else."""
    if isinstance(field, str):
        return 0.0 if field == word else None
    try:
        return off_by(*field, float(word))
    except ValueError:
        return None


def agreement(report, plain):
    """Of the bytes of both."""
    lines, others = report_lines.lines_of(report), [line.split() for line in plain.decode().splitlines()]
    figures, offs, differing = 0, [], []
    for words, plain_words in zip(lines, others):
        if words[-1] == "unsure" or words[1] == "undecided":
            continue
        fields = fields_of(words)
        found = [matched(field, word) for field, word in zip(fields, plain_words)]
        if len(fields) != len(plain_words) or None in found:
            differing.append(f"{' '.join(words)} / {' '.join(plain_words)}")
            continue
        figures += sum(isinstance(field, tuple) for field in fields)
        offs += filter(None, found)
    if len(lines) != len(others):
        differing.append(f"{len(lines)} lines / {len(others)} lines")
    return Agreement(figures, offs, differing)
