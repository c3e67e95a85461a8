#!/usr/bin/env python3
"""Checks a report of hullcert in exact fractions, for a reader who trusts no prover.

    tools/check_report.py JOB OFFSETS REPORT [--all] [--status N]
    tools/check_report.py --make NUMBER REPORT [--status N]

Reads the three files anew, cuts the hull's tetrahedra at waterplanes by the definitions of docs/DEFINITIONS.md, and holds
each line of the report against what comes of it. A figure is to contain the exact value at each waterplane that is
tried; the two levels of a draft bracket are to have the displaced volume between them, the four of a damage box the
moments; marks and verdict are to follow from the printed figures. It shares no code with the program, and reads
and computes with none of the other tools. Needs Python 3.11 or later; a big report takes minutes.

Of the heels, nine planes are tried at 0, 30, 60 and 90 degrees (both levels and one between, both ends of the degree's bracket
and a direction between), and two at each other degree; with --all nine at every degree. --status is the exit code that
the program ended with, to be held against the verdict.

A report of make has no job and no offsets: with --make the ship of NUMBER is made anew. No arm lines stand in such a report,
so its marks C1 to C5 can't be followed; C6 is, by GM, and the verdict by the marks.

Prints what failed, with the number of the report's line, and then how much was checked of each kind. Ends with 0 where
nothing failed, else with 1; with 1 too where a file can't be read, with the number of its line.

Figures of hydro, cross, upright and arm lines are held against their stated bounds of width, which allow more than the
program needs. Not checked: values at waterplanes between those that are tried; why no start was found ("nostart"); marks
where the printed places leave them open; of make, marks C1 to C5 and the figures that a verdict shows of them.
"""

import argparse
import collections
import difflib
import re
import sys
import time
from fractions import Fraction
from typing import NamedTuple

sys.dont_write_bytecode = True

import made_ship  # noqa: E402
import output  # noqa: E402
import printed_marks  # noqa: E402
import stated_widths  # noqa: E402
from exact_hull import GRID, UPRIGHT, Hull, Unread, bracket_of, read_stations, section  # noqa: E402
from report_text import printed, read_lines  # noqa: E402
from ship_job import read_job  # noqa: E402

SPARSE = (0, 30, 60, 90)
SCALE = 2 ** 20
MM, M2, M3, T = 10 ** 3, 10 ** 6, 10 ** 9, 10 ** 3  # of a metre, a square metre, a cubic metre; kg of a tonne
PACE = 5  # seconds from one word of progress to the next
CALLS = {"pass": 0, "fail": 1, "undecided": 2}
HYDRO = "volume displacement LCB KB area LCF BMT BML KMT TPC MCT".split()
DIVISORS = {"LCB": ["volume"], "KB": ["volume"], "LCF": ["area"], "BMT": ["volume"], "KMT": ["volume"]}
DIVISORS |= {"BML": ["volume", "area"], "MCT": ["volume", "area"]}


class Plane(NamedTuple):
    """A level waterplane that is tried, and whether its level is the lower or the upper one of its line."""

    direction: tuple
    level: Fraction
    is_lower: bool
    is_upper: bool


def planes_of(degree, low, high, is_dense):
    """The planes that are tried of a line's bracket of levels in grid units."""
    bracket = bracket_of(degree)
    spots = [(direction, level) for direction in bracket for level in (low, Fraction(low + high, 2), high)]
    if not is_dense:
        spots = [(bracket[0], low), (bracket[-1], high)]
    return [Plane(direction, Fraction(level) / GRID, level == low, level == high) for direction, level in dict.fromkeys(spots)]


def least_span(value, unit, places=6):
    """The printed figure of the least interval of scale 2^-20 of a value, divided by the unit that is printed."""
    low, high = (Fraction(end, SCALE) / unit for end in (value * SCALE // 1, -(-value * SCALE // 1)))
    return printed(low, high, places)


def about(value):
    return f"{float(value):.9f}"


# ---- Which lines are to come


def table_heads(job, stations):
    """The lines of each table by their names and first fields."""
    hydro, damage = [("hydro", draft) for draft in job.drafts], [("damage", case) for case in range(1, len(job.cases) + 1)]
    arms, judged = [("arm", degree) for degree in range(91)], [*(("mark", f"C{n}") for n in range(1, 7)), ("verdict",)]
    return {
        "hydro": hydro,
        "bonjean": [("section", at, station.x, draft) for draft in job.drafts for at, station in enumerate(stations)],
        "cross": [("cross", mass, degree) for mass in job.displacements for degree in range(91)],
        "stability": [("load",), ("upright",), *arms, *judged],
        "damage": [("load",), *damage],
        "floodable": [("load",), *((name, centre) for centre in job.centres for name in ("safe", "next"))],
        "make": [*hydro, ("load",), ("upright",), *judged, *damage],
    }


def expected_heads(command, version, job, stations, lines):
    tables = table_heads(job, stations)
    if command == "section":
        asked = next((line.fields[:3] for line in lines if line.name == "section"), [0, stations[0].x, 0])
        return [("hullcert", 1, command), ("hull",), ("section", *asked), ("end",)]
    rows = tables.get(command, [])
    if command == "all":
        rows = [*tables["hydro"], *tables["bonjean"], *tables["cross"], *tables["stability"], *tables["damage"][1:], *tables["floodable"][1:]]
    return [("hullcert", version, command), ("hull",), ("body",), *rows, ("end",)]


KEYS = {"hullcert": 2, "hydro": 1, "section": 3, "cross": 2, "arm": 1, "mark": 1, "damage": 1, "safe": 1, "next": 1}


def head_of(line):
    return (line.name, *line.fields[: KEYS.get(line.name, 0)])


def words_of(heads):
    return ", ".join(" ".join(map(str, head)) for head in heads[:3]) + (" .." if len(heads) > 3 else "")


# ---- The checks


class Checks:
    """What was checked of each kind, and what failed."""

    def __init__(self):
        self.counts, self.failed, self.failures = collections.Counter(), collections.Counter(), []
        self.left_out = collections.Counter()

    def expect(self, kind, line, is_right, text):
        self.counts[kind] += 1
        if not is_right:
            self.failed[kind] += 1
            self.failures.append((line.number if line else 0, text() if callable(text) else text))


class Examiner:
    """Holds the lines of one report against a job and a hull."""

    def __init__(self, job, hull, lines, is_dense=lambda degree: degree in SPARSE, tell=lambda text: None):
        self.job, self.hull, self.lines, self.is_dense, self.tell = job, hull, lines, is_dense, tell
        self.checks, self.begun, self.said = Checks(), time.monotonic(), time.monotonic()
        self.table = {}
        for line in lines:
            self.table.setdefault(line.name, []).append(line)
        self.arms = {line.fields[0]: line for line in self.table.get("arm", [])}
        self.separations, self.bounds = {}, {}

    def expect(self, kind, line, is_right, text):
        self.checks.expect(kind, line, is_right, text)

    def holds(self, kind, line, name, figure, value):
        self.expect(kind, line, figure.holds(value), lambda: f"{name} {figure} doesn't contain {about(value)}, the exact value")

    def narrow(self, line, name, figure, bound):
        """That a figure is no wider than stated; to print it takes less than two units of its last place."""
        is_narrow = figure.high - figure.low - 2 * figure.unit <= bound
        self.expect("widths", line, is_narrow, lambda: f"{name} {figure} is wider than its bound, {about(bound)}")

    def is_equal(self, kind, line, name, found, expected):
        self.expect(kind, line, found == expected, lambda: f"{name} is {found}, and is to be {expected}")

    def progress(self, line):
        now = time.monotonic()
        if now - self.said >= PACE:
            self.said = now
            self.tell(f"line {line.number} of {len(self.lines)}, {now - self.begun:.0f} s")

    def run(self, status=None):
        for line in self.lines_in_place():
            self.progress(line)
            getattr(self, f"check_{line.name}")(line)
        if "arm" in self.table or self.is_of_make():
            self.check_marks()
        if status is not None:
            verdict = self.table["verdict"][0].fields[0] if "verdict" in self.table else "pass"
            self.is_equal("exit code", None, "the exit code", status, CALLS[verdict])
        return self.checks

    def lines_in_place(self):
        """The lines that are there as they are to come; what is missing or too much is a failure."""
        first = self.lines[0]
        if first.name != "hullcert":
            raise Unread("line 1: a report begins with hullcert, its version and its command")
        expected = expected_heads(first.fields[1], self.job.version, self.job, self.hull.stations, self.lines)
        found = [head_of(line) for line in self.lines]
        for _, a1, a2, b1, b2 in difflib.SequenceMatcher(None, expected, found, autojunk=False).get_opcodes():
            if expected[a1:a2] == found[b1:b2]:
                self.checks.counts["lines in place"] += a2 - a1
                yield from self.lines[b1:b2]
                continue
            line = self.lines[min(b1, len(self.lines) - 1)]
            text = f"there is {words_of(found[b1:b2]) or 'nothing'} where {words_of(expected[a1:a2]) or 'nothing'} is to come"
            self.expect("lines in place", line, False, text)

    def check_hullcert(self, line):
        pass

    def check_hull(self, line):
        stations = self.hull.stations
        self.is_equal("hull and body", line, "the count", line.fields, [len(stations), sum(len(station.points) for station in stations)])

    def check_body(self, line):
        self.is_equal("hull and body", line, "six times the volume", line.fields[0], self.hull.six)

    def check_end(self, line):
        self.is_equal("lines in place", line, "the number of lines", line.fields[0], len(self.lines))

    # ---- Hydrostatics and sections

    def hydro_values(self, draft):
        """The exact figures at a draft, in the units of the report; those without a divisor are left out."""
        below, lid, density = self.hull.integrals(UPRIGHT, Fraction(draft), Fraction(draft)), self.hull.lid(draft), Fraction(self.job.density)
        volume, area = below.volume, lid.area
        values = {"volume": volume / M3, "displacement": volume / M3 * density / T, "area": area / M2, "TPC": area / M2 * density / T / 100}
        if volume:
            values |= {"LCB": below.x / volume / MM, "KB": below.z / volume / MM, "BMT": lid.yy / volume / MM}
            values["KMT"] = values["KB"] + values["BMT"]
        if area:
            values["LCF"] = lid.x / area / MM
        if area and volume:
            values["BML"] = (lid.xx - lid.x ** 2 / area) / volume / MM
            values["MCT"] = values["displacement"] * values["BML"] / (Fraction(self.job.length_bp, MM) * 100)
        return values

    def check_hydro(self, line):
        draft, *figures = line.fields
        values, row, right = self.hydro_values(draft), dict(zip(HYDRO, figures)), True
        for name, figure in row.items():
            lows = [row[divisor].low for divisor in DIVISORS.get(name, [])]
            if figure is None:
                self.expect("hydro figures", line, any(low <= 0 for low in lows), f"{name} is absent, though it can be told")
            elif any(low < 0 for low in lows) or name not in values:
                right = False
                self.expect("hydro figures", line, False, f"{name} is there, though its divisor's interval begins below 0")
            else:
                self.holds("hydro figures", line, name, figure, values[name])
        if right:
            for name, bound in stated_widths.hydro_widths(self.hull, self.job, draft, row, values).items():
                self.narrow(line, name, row[name], bound)

    def check_section(self, line):
        at, _, draft, *figures = line.fields
        stations = self.hull.stations
        if at >= len(stations) or stations[at].x != line.fields[1]:
            self.expect("section figures", line, False, "there is no such station")
            return
        for name, figure, value, unit, places in zip(("area", "moment"), figures, section(stations[at], draft), (M2, M3), (6, 9)):
            self.is_equal("section figures", line, f"the {name}", str(figure), str(least_span(value, unit, places)))

    # ---- Draft brackets and levers

    def bracket(self, line, degree, low, high, need):
        """Checks the levels of a line, and gives the planes that were tried with what is below them."""
        dense, found = self.is_dense(degree), []
        self.expect("draft brackets", line, low <= high, "the lower level is above the upper one")
        for plane in planes_of(degree, low, high, dense):
            below = self.hull.integrals(plane.direction, plane.level, plane.level)
            found.append((plane, below))
            if plane.is_lower:
                self.expect("draft brackets", line, below.volume <= need, "at the lower level the hull displaces more")
            if plane.is_upper:
                self.expect("draft brackets", line, below.volume >= need, "at the upper level the hull displaces less")
        if dense:
            self.sharp(line, degree, low, high, need)
        elif low != high:
            self.nearly_sharp(line, degree, need, found)
        return found

    def nearly_sharp(self, line, degree, need, found):
        """What sharpness leaves of the volumes at the levels: a level further in adds less than half the faces' areas times its rise."""
        for plane, below in found:
            width = self.hull.volume_width(bracket_of(degree), plane.level * GRID) + self.hull.half_areas / GRID
            self.expect("sharp brackets", line, abs(below.volume - need) <= width, "a level could be moved inwards")

    def sharp(self, line, degree, low, high, need):
        """That neither level can be moved inwards, but for the width of the volume's interval."""
        bracket, hull = bracket_of(degree), self.hull
        ends = -GRID * hull.half_breadth, GRID * (hull.high_z + hull.half_breadth)
        for level, side in ((low + 1, 1), (high - 1, -1)):
            if low == high or not ends[0] <= level <= ends[1]:
                continue
            volume = hull.integrals(bracket[0], Fraction(level, GRID), Fraction(level, GRID)).volume
            is_near = (volume - need) * side > -hull.volume_width(bracket, level)
            self.expect("sharp brackets", line, is_near, f"the {'lower' if side > 0 else 'upper'} level could be moved inwards")

    def need(self, mass):
        """The volume that a mass displaces, in mm³."""
        return Fraction(mass * M3, self.job.density)

    def check_cross(self, line):
        mass, degree, low, high, figure = line.fields
        need = self.need(mass)
        for plane, below in self.bracket(line, degree, low, high, need):
            c, s, r = plane.direction
            self.holds("KN", line, "KN", figure, (s * below.z - c * below.y) / r / need / MM)
        self.narrow(line, "KN", figure, stated_widths.lever_width(self.hull, bracket_of(degree), (low, high), need, 0))

    def check_load(self, line):
        load = self.job.load()
        figures = [least_span(value, MM) for value in ([load.x, load.z] if self.job.version == 1 else [load.x, load.y, load.z])]
        self.is_equal("load", line, "the load", [line.fields[0], *map(str, line.fields[1:])], [load.mass, *map(str, figures)])

    def check_upright(self, line):
        low, high, *figures = line.fields
        load = self.job.load()
        need = self.need(load.mass)
        for plane, below in self.bracket(line, 0, low, high, need):
            kb, bm = below.z / need, self.hull.lid(plane.level).yy / need
            for name, figure, value in zip(("KB", "BM", "GM"), figures, (kb, bm, kb + bm - load.z)):
                self.holds("upright figures", line, name, figure, value / MM)
        bounds = stated_widths.upright_widths(self.hull, (low, high), need)
        for (name, bound), figure in zip(bounds.items(), figures):
            self.narrow(line, name, figure, bound)

    def check_arm(self, line):
        degree, low, high, *figures = line.fields
        load = self.job.load()
        need, levers = self.need(load.mass), ((1, figures[0]),) if len(figures) == 2 else ((1, figures[0]), (-1, figures[2]))
        separations = {1: [], -1: []}
        for plane, below in self.bracket(line, degree, low, high, need):
            c, s, r = plane.direction
            across, upwards = (s * below.z - c * below.y) / r / need, (c * below.z + s * below.y) / r / need
            for side, figure in levers:
                self.holds("GZ", line, "GZ", figure, (across - (s * load.z - side * c * load.y) / r) / MM)
            for side in (1, -1):
                separations[side].append((c * load.z + side * s * load.y) / r - upwards)
        bound = stated_widths.lever_width(self.hull, bracket_of(degree), (low, high), need, load.z + abs(load.y))
        self.bounds[degree] = bound
        for _, figure in levers:
            self.narrow(line, "GZ", figure, bound)
        if degree == 0:
            self.separations = separations
        for side, figure in zip((1, -1), figures[1::2]):
            self.check_area(line, figure, separations[side], self.separations.get(side))

    def check_area(self, line, figure, here, upright):
        """An area: the separation here less that upright, at each pair of planes that were tried."""
        if not upright:
            self.expect("areas", line, False, "there is no line of 0 degrees to take the area from")
        elif here == upright and line.fields[0] == 0:
            self.is_equal("areas", line, "the area", str(figure), str(printed(0, 0)))
        else:
            self.narrow(line, "the area", figure, self.bounds[line.fields[0]] + self.bounds[0])
            for value in (min(here) - max(upright), max(here) - min(upright)):
                self.holds("areas", line, "the area", figure, value / MM)

    # ---- Marks and verdict

    def check_mark(self, line):
        pass

    def check_verdict(self, line):
        pass

    def is_of_make(self):
        return self.lines[0].fields[1] == "make"

    def rules(self):
        """The criteria on each side by the printed figures, or None where lines are missing."""
        if "upright" not in self.table or (sorted(self.arms) != list(range(91)) and not self.is_of_make()):
            return None
        rows, gm = [self.arms[degree].fields for degree in sorted(self.arms)], self.table["upright"][0].fields[4]
        leaks = printed_marks.Leaks(self.job.openings, [(row[1], row[2]) for row in rows])
        if self.is_of_make():
            return [printed_marks.Rules(None, gm, leaks)]
        sides = [printed_marks.Side([row[at] for row in rows], [row[at + 1] for row in rows]) for at in range(3, len(rows[0]), 2)]
        return [printed_marks.Rules(side, gm, leaks) for side in sides]

    def check_marks(self):
        marks, verdict, rules = self.table.get("mark", []), self.table.get("verdict", []), self.rules()
        if rules is None or len(marks) != 6 or len(verdict) != 1:
            self.expect("marks", self.table.get("arm", self.lines)[0], False, "lines are missing: marks and verdict weren't checked")
            return
        for line in marks:
            criterion = line.fields[0].lower()
            if not rules[0].can_tell(criterion):
                self.checks.left_out["marks that rest on arm lines"] += 1
                continue
            possible = printed_marks.marks_of_sides(rules, criterion)
            self.expect("marks", line, line.fields[1] in possible, f"{line.fields[0]} {line.fields[1]}: by the figures it is {' or '.join(possible)}")
        self.judge(verdict[0], [line.fields[1] for line in marks], rules)

    def judge(self, line, marks, rules):
        """The verdict, from the marks as they are printed."""
        call = "fail" if "fails" in marks else "undecided" if "unsure" in marks else "pass"
        named = [] if call == "pass" else [f"C{marks.index('fails' if call == 'fail' else 'unsure') + 1}"]
        self.is_equal("verdict", line, "the verdict", line.fields[:2], [call, *named])
        if call == "pass" or line.fields[:2] != [call, *named]:
            return
        shown, criterion, at = line.fields[2:], named[0].lower(), 0
        self.is_equal("verdict", line, "that a side is named", shown[0] in ("port", "starboard"), self.job.version == 2)
        if shown[0] in ("port", "starboard"):
            at = min(("port", "starboard").index(shown[0]), len(rules) - 1)
            shown = shown[1:]
            if self.job.version == 2:
                self.check_side(line, call, criterion, at, rules)
        if not rules[0].can_tell(criterion):
            self.checks.left_out["figures of the verdict, which rest on arm lines"] += 1
        faults = printed_marks.shown_faults(call, criterion, shown, rules[at])
        self.expect("verdict", line, not faults, "; ".join(faults))

    def check_side(self, line, call, criterion, at, rules):
        """That the side which the verdict names is the first that decides."""
        mark = "fails" if call == "fail" else "unsure"
        possible = [mark in printed_marks.possible_marks(side.answers(criterion)) for side in rules]
        sooner = at == 1 and printed_marks.possible_marks(rules[0].answers(criterion)) == [mark]
        self.expect("verdict", line, possible[at] and not sooner, "the other side is to be named")

    # ---- Damage and floodable lengths

    def residuals(self, a, f, slabs):
        """The moments of what is left about the last and the first station, less what is owed."""
        hull, load = self.hull, self.job.load()
        volume, moment = hull.left(Fraction(a, GRID), Fraction(f, GRID), slabs)
        need = self.need(load.mass)
        last = hull.last_x * volume - moment - need * (hull.last_x - load.x)
        first = moment - hull.first_x * volume - need * (load.x - hull.first_x)
        return last, first

    def check_box(self, kind, line, levels, slabs):
        """The signs of the residuals at the corners, which decide the sides, and that no side could be moved inwards."""
        a1, a2, f1, f2 = levels
        self.expect(kind, line, a1 <= a2 and f1 <= f2, "a lower level is above its upper one")
        fore, aft = self.residuals(a1, f2, slabs), self.residuals(a2, f1, slabs)
        self.expect(kind, line, fore[0] <= 0, "at the lower level aft the moment about the last station is too great")
        self.expect(kind, line, aft[0] >= 0, "at the upper level aft the moment about the last station is too small")
        self.expect(kind, line, aft[1] <= 0, "at the lower level forward the moment about the first station is too great")
        self.expect(kind, line, fore[1] >= 0, "at the upper level forward the moment about the first station is too small")
        moved = [("lower", "aft", 0, a1 + 1, f2, 1), ("upper", "aft", 0, a2 - 1, f1, -1)] * (a1 < a2)
        moved += [("lower", "forward", 1, a2, f1 + 1, 1), ("upper", "forward", 1, a1, f2 - 1, -1)] * (f1 < f2)
        for name, end, at, a, f, side in moved:
            is_near = self.residuals(a, f, slabs)[at] * side > -self.hull.residual_width(slabs, a, f)
            self.expect(f"sharp {kind}", line, is_near, f"the {name} level {end} could be moved inwards")

    def whole_left(self, slabs):
        """What is left of the whole hull, in mm³."""
        top = Fraction(self.hull.high_z)
        return self.hull.left(top, top, slabs)[0]

    def check_damage(self, line):
        case, *what = line.fields
        slabs = self.job.cases[case - 1]
        if what[0] == "nostart":
            self.checks.left_out["answers nostart"] += 1
        elif what[0] == "sinks":
            left = self.whole_left(slabs)
            self.holds("damage cases that sink", line, "what is left", what[1], left / M3)
            self.expect("damage cases that sink", line, left < self.need(self.job.load().mass), "what is left is enough to float")
        else:
            self.check_box("damage boxes", line, what, slabs)

    def slabs_of(self, centre, length):
        """What floods about a centre."""
        half = Fraction(length, 2)
        return ((centre - half, centre + half, self.job.permeability),) if length else ()

    def reaches_past(self, centre, length):
        return length > 0 and not self.hull.first_x <= centre - Fraction(length, 2) <= centre + Fraction(length, 2) <= self.hull.last_x

    def first_under(self, a, f):
        """The first station at which the margin line is under at levels in grid units, or None."""
        for at, station in enumerate(self.hull.stations):
            if self.hull.level_at(station.x, Fraction(a, GRID), Fraction(f, GRID)) > station.points[-1][1] - self.job.margin:
                return at
        return None

    def check_safe(self, line):
        centre, length, *levels = line.fields
        if length == "-":
            return
        self.expect("safe lengths", line, length % self.job.step == 0, "the length isn't a multiple of the step")
        self.expect("safe lengths", line, not self.reaches_past(centre, length), "the length reaches past an end of the ship")
        self.check_box("boxes of lengths", line, levels, self.slabs_of(centre, length))
        under = self.first_under(levels[1], levels[3])
        self.expect("safe lengths", line, under is None, f"the margin line is under at station {under}")

    def check_next(self, line):
        centre, length, reason, *what = line.fields
        safe = next((other.fields[1] for other in self.table.get("safe", []) if other.fields[0] == centre), None)
        expected = 0 if safe == "-" else None if safe is None else safe + self.job.step
        self.is_equal("next lengths", line, "the length", length, expected)
        self.is_equal("next lengths", line, "that it reaches past an end", reason == "endofship", self.reaches_past(centre, length))
        slabs = self.slabs_of(centre, length)
        if reason == "nostart":
            self.checks.left_out["answers nostart"] += 1
        elif reason == "sinks":
            left = self.whole_left(slabs)
            self.expect("next lengths", line, left < self.need(self.job.load().mass), "the ship doesn't sink")
        elif reason in ("over", "touch"):
            station, *levels = what
            self.check_box("boxes of lengths", line, levels, slabs)
            least, greatest = self.first_under(levels[0], levels[2]), self.first_under(levels[1], levels[3])
            expected = ("over", least) if least is not None else ("touch", greatest)
            self.is_equal("next lengths", line, "the reason", f"{reason} {station}", f"{expected[0]} {expected[1]}")


# ---- What is said of it


def said(checks, is_all, has_heels):
    """The failures and the counts, as text."""
    yield from (f"line {number}: {text}" if number else text for number, text in sorted(checks.failures))
    width = max(map(len, checks.counts))
    for kind, count in checks.counts.items():
        yield f"{kind:{width}}  {count:6} checked, {checks.failed[kind]} failed"
    if has_heels:
        few = ", ".join(map(str, SPARSE))
        sampled = f"nine planes at {few} degrees, two at each other degree (--all: nine at all)"
        yield f"heels: {'nine planes at every degree' if is_all else sampled}"
    for kind, count in checks.left_out.items():
        yield f"not checked: {count} {kind}"
    yield f"{sum(checks.counts.values())} checks, {len(checks.failures)} failed"


def seed_of(word):
    """The number of `make`, as the program reads it."""
    if not re.fullmatch("[0-9]{1,10}", word) or int(word) >= made_ship.STATES:
        raise argparse.ArgumentTypeError(f"{word} is no number from 0 to {made_ship.STATES - 1}")
    return int(word)


def read_words():
    parser = argparse.ArgumentParser(
        usage="%(prog)s [-h] [--all] [--status N] (JOB OFFSETS | --make NUMBER) REPORT",
        description=__doc__, formatter_class=argparse.RawDescriptionHelpFormatter,
    )
    parser.add_argument("files", nargs="+", metavar="FILE", help="JOB, OFFSETS and REPORT; with --make REPORT alone")
    parser.add_argument("--make", type=seed_of, metavar="NUMBER", help="the report is of make with this number")
    parser.add_argument("--all", action="store_true", help="nine planes at every degree of heel")
    parser.add_argument("--status", type=int, metavar="N", help="the exit code of the program")
    given = parser.parse_args()
    if len(given.files) != (3 if given.make is None else 1):
        parser.error("JOB, OFFSETS and REPORT are to be given, or --make NUMBER and REPORT")
    return given


def read_ship(given, lines):
    """The job and the stations that the report is of."""
    name, first = given.files[-1], lines[0]
    is_of_make = first.name == "hullcert" and first.fields[1] == "make"
    if given.make is None:
        if is_of_make:
            raise Unread(f"{name}: line 1: a report of make has no job and no offsets: it is checked with --make NUMBER")
        return read_job(given.files[0]), read_stations(given.files[1])
    if not is_of_make:
        raise Unread(f"{name}: line 1: this is no report of make")
    return made_ship.made_job(), made_ship.made_stations(given.make)


def main():
    given = read_words()
    try:
        lines = read_lines(given.files[-1])
        job, stations = read_ship(given, lines)
        is_dense = (lambda degree: True) if given.all else (lambda degree: degree in SPARSE)
        tell = lambda text: print(text, file=sys.stderr, flush=True)  # noqa: E731
        examiner = Examiner(job, Hull(stations), lines, is_dense, tell)
        checks = examiner.run(given.status)
    except Unread as why:
        print(why, file=sys.stderr)
        return 1
    print("\n".join(said(checks, given.all, "arm" in examiner.table or "cross" in examiner.table)))
    return 1 if checks.failures else 0


if __name__ == "__main__":
    output.run(main)
