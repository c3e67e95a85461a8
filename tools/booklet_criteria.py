"""The six criteria as a booklet shows them: what is attained, what is required, and the margin, as exact intervals."""

from decimal import Decimal
from typing import NamedTuple

PARAGRAPHS = dict(zip(("C1", "C2", "C3", "C4", "C5", "C6"), ("2.2.1", "2.2.1", "2.2.1", "2.2.2", "2.2.3", "2.2.4")))


ASKED = [  # what is asked for, where no levers tell the degrees
    ("C1", "area below GZ to 30°, m·rad", "0.055"),
    ("C2", "area to 40° or to downflooding, m·rad", "0.09"),
    ("C3", "area from 30° to 40° or to downflooding, m·rad", "0.03"),
    ("C4", "greatest GZ from 30° on, m", "0.2"),
    ("C5", "greatest GZ from 25° on", "not below that before 25°"),
]


class Interval(NamedTuple):
    """Two printed ends."""

    low: Decimal
    high: Decimal

    def __sub__(self, other):
        return Interval(self.low - other.high, self.high - other.low)

    def __str__(self):
        return f"[{self.low},{self.high}]"


class Row(NamedTuple):
    """A criterion on a side: its name, what it asks for, attained, required, margin, and the report's mark."""

    criterion: str
    side: str
    text: str
    attained: Interval
    required: str
    margin: Interval
    mark: str


def interval_of(word):
    return Interval(*map(Decimal, word[1:-1].split(",")))


def exactly(text):
    return Interval(Decimal(text), Decimal(text))


class Levers(NamedTuple):
    """The levers and areas of a side by the degree, as intervals."""

    side: str
    levers: dict
    areas: dict


def sides_of(arms):
    """The sides that the arm lines tell."""
    sided = any(len(words) == 8 for words in arms)
    names = ["port", "starboard"] if sided else [""]
    return [
        Levers(
            name,
            {int(words[1]): interval_of(words[4 + 2 * at]) for words in arms},
            {int(words[1]): interval_of(words[5 + 2 * at]) for words in arms},
        )
        for at, name in enumerate(names)
    ]


def short(word):
    """The digits that both ends of a figure share, cut after three places; or, where a number of three places lies between
    the ends and both round to it, that number. "" where there is none."""
    low, high = word[1:-1].split(",")
    whole = len(low.split(".")[0])
    for places in (3, 2, 1, 0):
        cut = whole + (places + 1 if places else 0)
        if low[:cut] == high[:cut] and len(low.split(".")[0]) == len(high.split(".")[0]):
            return low[:cut] if places or low[:cut] not in ("-0",) else "0"
        if places == 3:
            rounded = {f"{Decimal(end):.3f}".replace("-0.000", "0.000") for end in (low, high)}
            if len(rounded) == 1:
                return rounded.pop()
    return ""


def area_rows(side, flooding, marks):
    """C1 to C3; flooding is the degree up to which the areas count, and how that is said."""
    degree, said = flooding
    areas = side.areas
    yield row("C1", side.side, "area below GZ to 30°, m·rad", areas[30], "0.055", marks)
    yield row("C2", side.side, f"area to {said}, m·rad", areas[degree], "0.09", marks)
    if degree >= 30:
        between = areas[degree] - areas[30] if degree > 30 else exactly("0.000000")
        yield row("C3", side.side, f"area from 30° to {said}, m·rad", between, "0.03", marks)
    else:
        yield Row("C3", side.side, f"area from 30° on: an opening is under at {degree + 1}° already", None, "0.03", None, marks.get("C3", "-"))


def lever_rows(side, marks):
    levers = side.levers
    late = max((k for k in levers if k >= 30), key=lambda k: levers[k].low)
    yield row("C4", side.side, f"greatest GZ from 30° on, at {late}°, m", levers[late], "0.2", marks)
    early = max((k for k in levers if k < 25), key=lambda k: levers[k].high)
    late = max((k for k in levers if k >= 25), key=lambda k: levers[k].low)
    text = f"GZ is greatest at {late}°; before 25° at {early}°, where it is {levers[early]} m"
    yield Row("C5", side.side, text, levers[late], "not below that before 25°", levers[late] - levers[early], marks.get("C5", "-"))


def row(criterion, side, text, attained, required, marks):
    return Row(criterion, side, text, attained, required, attained - exactly(required), marks.get(criterion, "-"))


def rows_of(lines, flooding):
    """The rows of the table, for the sides that the report tells; none where levers of some degrees are missing. A report
    of marks without levers has figures of C6 alone."""
    arms = [words for words in lines if words[0] == "arm"]
    upright = next((words for words in lines if words[0] == "upright"), None)
    marks = {words[1]: words[2] for words in lines if words[0] == "mark"}
    degrees = {int(words[1]) for words in arms}
    if upright is None or (degrees != set(range(91)) if arms else not marks):
        return []
    rows = [found for side in sides_of(arms) for found in (*area_rows(side, flooding, marks), *lever_rows(side, marks))] if arms else [
        Row(criterion, "", text, None, required, None, marks.get(criterion, "-")) for criterion, text, required in ASKED
    ]
    gm = row("C6", "", "GM, upright, m", interval_of(upright[5]), "0.15", marks)
    return sorted([*rows, gm], key=lambda found: found.criterion)


def verdict_of(lines):
    return next((words for words in lines if words[0] == "verdict"), None)
