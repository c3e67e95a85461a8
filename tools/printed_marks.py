"""What marks and verdict follow from printed figures, for check_report.py.

A printed end was rounded outwards, so the end of the interval behind it is known to less than a unit of the last place.
Each answer is True, False, or None where the printed places leave it open.
"""

from fractions import Fraction
from typing import NamedTuple

from exact_hull import GRID, bracket_of, spans_of
from report_text import printed

AREA_30, AREA_40, AREA_BETWEEN, LEVER, GM = (Fraction(*limit) for limit in ((55, 1000), (90, 1000), (30, 1000), (1, 5), (3, 20)))
LIMITS = {"c1": AREA_30, "c2": AREA_40, "c3": AREA_BETWEEN, "c4": LEVER, "c6": GM}
MOST_DEGREE = 40  # of downflooding
SCALE = 2 ** 20


class Ends(NamedTuple):
    """What is known of an interval: its lower end lies in [low, low_below), its upper end in (high_above, high]."""

    low: Fraction
    low_below: Fraction
    high_above: Fraction
    high: Fraction

    def reaches(self, limit):
        return True if self.low >= limit else False if self.low_below <= limit else None

    def stays_below(self, limit):
        return True if self.high < limit else False if self.high_above >= limit else None


NOTHING = Ends(*[Fraction(0)] * 4)._replace(low_below=Fraction(1, SCALE), high_above=-Fraction(1, SCALE))


def ends_of(figure):
    return Ends(figure.low, figure.low + figure.unit, figure.high - figure.unit, figure.high)


def negation(answer):
    return None if answer is None else not answer


def both(answers):
    """Whether all hold."""
    answers = list(answers)
    return False if False in answers else None if None in answers else True


def some(answers):
    return negation(both(map(negation, answers)))


class Side(NamedTuple):
    """The levers and the areas of a side by the degree."""

    levers: list
    areas: list

    def between(self, degree):
        """The area from 30 degrees to another: the areas from 0 share an interval whose width isn't printed."""
        if degree == 30:
            return NOTHING
        to, base = self.areas[degree], self.areas[30]
        shared = min(area.high - area.low for area in self.areas[1:])
        low, high, slack = to.low - base.high, to.high - base.low, 2 * to.unit + shared
        return Ends(low, low + slack, high - slack, high)


class Leaks:
    """The depths of the openings by the degree, as the printed levels tell them: exactly."""

    def __init__(self, openings, levels):
        self.openings, self.levels = openings, levels
        self.most = self.last_dry()
        below = [k for k in range(self.most) if self.may_be_wet(k + 1) or (k == 0 and self.may_be_wet(0))]
        self.candidates = [*below, self.most]

    def depth(self, opening, degree):
        """The least interval of scale 2^-20, in mm."""
        y, z = self.openings[opening]
        (c_low, c_high), (s_low, s_high) = spans_of(bracket_of(degree))
        low, high = self.levels[degree]
        least = Fraction(low, GRID) - c_high * z + s_low * y
        greatest = Fraction(high, GRID) - c_low * z + s_high * y
        return Fraction(least * SCALE // 1, SCALE), Fraction(-(-greatest * SCALE // 1), SCALE)

    def depths(self, degree):
        return [self.depth(opening, degree) for opening in range(len(self.openings))]

    def is_wet(self, degree):
        return any(low > 0 for low, _ in self.depths(degree))

    def may_be_wet(self, degree):
        return any(high > 0 for _, high in self.depths(degree))

    def last_dry(self):
        """The greatest degree that the degree of downflooding may have."""
        degree = 0
        while degree < MOST_DEGREE and not self.is_wet(0) and not self.is_wet(degree + 1):
            degree += 1
        return degree

    def first_open(self):
        """The first degree and opening whose depth may be above 0 or not."""
        for degree in range(self.most + 1):
            for opening, (low, high) in enumerate(self.depths(degree)):
                if low <= 0 < high:
                    return degree, opening
        return None

    def next_wet(self):
        """The first opening that is wet at the degree behind the greatest, or at 0."""
        degree = 0 if self.is_wet(0) else self.most + 1
        return degree, next(at for at, (low, _) in enumerate(self.depths(degree)) if low > 0)


class Rules:
    """The six criteria on a side: whether each holds and whether it fails. Without a side C6 alone can be told."""

    def __init__(self, side, gm, leaks):
        self.side, self.gm, self.leaks = side, gm, leaks

    def can_tell(self, criterion):
        return self.side is not None or criterion == "c6"

    def answers(self, criterion):
        return getattr(self, f"answers_{criterion}")()

    def answers_c1(self):
        area = ends_of(self.side.areas[30])
        return area.reaches(AREA_30), area.stays_below(AREA_30)

    def answers_c2(self):
        areas = [ends_of(self.side.areas[degree]) for degree in self.leaks.candidates]
        return both(area.reaches(AREA_40) for area in areas), both(area.stays_below(AREA_40) for area in areas)

    def answers_c3(self):
        areas = [(degree >= 30, self.side.between(degree) if degree >= 30 else None) for degree in self.leaks.candidates]
        return (
            both(late and area.reaches(AREA_BETWEEN) for late, area in areas),
            both(not late or area.stays_below(AREA_BETWEEN) for late, area in areas),
        )

    def answers_c4(self):
        levers = [ends_of(lever) for lever in self.side.levers[30:]]
        return some(lever.reaches(LEVER) for lever in levers), both(lever.stays_below(LEVER) for lever in levers)

    def answers_c5(self):
        early, late = ([ends_of(lever) for lever in levers] for levers in (self.side.levers[:25], self.side.levers[25:]))
        return (
            some(both(is_at_least(lever, other) for other in early) for lever in late),
            some(both(is_above(lever, other) for other in late) for lever in early),
        )

    def answers_c6(self):
        gm = ends_of(self.gm)
        return gm.reaches(GM), gm.stays_below(GM)


def is_at_least(lever, other):
    """Whether a lower end is at least another's upper end."""
    return True if lever.low >= other.high else False if lever.low_below <= other.high_above else None


def is_above(lever, other):
    return True if lever.low > other.high else False if lever.low_below <= other.high_above else None


def possible_marks(answers):
    """The marks that whether it holds and whether it fails leave open."""
    holds, fails = answers
    found = ["fails"] if fails is not False else []
    if fails is not True:
        found += ["holds"] if holds is not False else []
        found += ["unsure"] if holds is not True else []
    return found


def marks_of_sides(rules, criterion):
    """The marks that are open of all sides together."""
    answers = [side.answers(criterion) for side in rules]
    return possible_marks((both(holds for holds, _ in answers), some(fails for _, fails in answers)))


# ---- What the verdict shows


def shown_faults(call, criterion, shown, rules):
    """Why what a verdict shows of a criterion on a side isn't what is to be shown there."""
    kind, *fields = shown
    if kind == "interval":
        return interval_faults(call, criterion, fields, rules)
    if kind == "pair":
        return pair_faults(call, criterion, fields, rules)
    return leak_faults(call, criterion, fields, rules)


def interval_faults(call, criterion, fields, rules):
    degree, figure = fields
    side, leaks = rules.side, rules.leaks
    places = {"c1": [30], "c6": [0], "c4": range(30, 91), "c2": leaks.candidates, "c3": [k for k in leaks.candidates if k >= 30]}
    if degree not in places.get(criterion, []):
        return [f"{criterion.upper()} isn't shown at {degree} degrees"]
    ends, limit = ends_of(figure), LIMITS[criterion]
    if ends.stays_below(limit) is (call != "fail") or (call != "fail" and ends.reaches(limit)):
        return [f"the interval doesn't {'fail' if call == 'fail' else 'leave open'} the limit {float(limit)}"]
    if criterion in ("c2", "c3") and call == "fail" and degree != leaks.most:
        return [f"the greatest degree of downflooding is {leaks.most}"]
    if not rules.can_tell(criterion):
        return []
    if call == "undecided" and criterion in ("c2", "c3") and any(k < degree for k in straddling(criterion, rules)):
        return ["a smaller degree of downflooding leaves the limit open already"]
    if criterion == "c3":
        ends = side.between(degree)
        fits = ends.low <= figure.low + figure.unit and figure.low <= ends.low_below
        fits = fits and ends.high_above <= figure.high and figure.high - figure.unit <= ends.high
        return [] if fits else [f"the area from 30 to {degree} degrees doesn't fit the arm lines"]
    expected = {"c1": side.areas, "c2": side.areas, "c4": side.levers}[criterion][degree] if criterion != "c6" else rules.gm
    faults = [] if figure == expected else [f"the figure at {degree} degrees is {expected}"]
    return faults + (lever_faults(call, degree, side) if criterion == "c4" else [])


def straddling(criterion, rules):
    """The degrees that the degree of downflooding may have at which the area certainly leaves the limit open."""
    if criterion == "c2":
        areas = [(k, ends_of(rules.side.areas[k])) for k in rules.leaks.candidates]
    else:
        areas = [(k, rules.side.between(k)) for k in rules.leaks.candidates if k >= 30]
    return [k for k, ends in areas if ends.reaches(LIMITS[criterion]) is False and ends.stays_below(LIMITS[criterion]) is False]


def lever_faults(call, degree, side):
    highs = [lever.high for lever in side.levers]
    if call == "fail":
        return [] if highs[degree] == max(highs[30:]) else ["a lever from 30 degrees on has a greater upper end"]
    sooner = [k for k in range(30, degree) if ends_of(side.levers[k]).stays_below(LEVER) is False]
    return ["the lever of a smaller degree reaches the limit"] if sooner or highs[degree] < LEVER else []


def pair_faults(call, criterion, fields, rules):
    low, high = fields
    if criterion != "c5" or not low < 25 <= high <= 90:
        return ["a pair is shown of C5 alone: a degree before 25, and one from 25 on"]
    if not rules.can_tell(criterion):
        return []
    levers = rules.side.levers
    early = [lever.low if call == "fail" else lever.high for lever in levers[:25]]
    late = [lever.high for lever in levers[25:]]
    faults = [] if early[low] == max(early) else [f"a lever before 25 degrees has a greater end than that at {low}"]
    return faults + ([] if late[high - 25] == max(late) else [f"a lever from 25 degrees on has a greater end than that at {high}"])


def leak_faults(call, criterion, fields, rules):
    opening, degree, figure = fields
    leaks = rules.leaks
    if criterion not in ("c2", "c3") or (call == "fail" and (criterion == "c2" or leaks.most >= 30)):
        return [f"no leak is shown of {criterion.upper()} here"]
    if call == "undecided" and rules.can_tell(criterion) and straddling(criterion, rules):
        return ["an area leaves the limit open, and is to be shown"]
    expected = leaks.next_wet() if call == "fail" else leaks.first_open()
    if expected != (degree, opening - 1):
        return [f"the leak to be shown is {expected and (expected[1] + 1, expected[0])} (opening, degree)"]
    low, high = leaks.depth(opening - 1, degree)
    depth = printed(low / 1000, high / 1000)
    return [] if figure == depth else [f"the depth is {depth}"]
