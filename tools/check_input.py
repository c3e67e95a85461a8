#!/usr/bin/env python3
"""Warns of what hullcert accepts in a job and an offset file, and what is probably not meant.

    tools/check_input.py JOB OFFSETS

Each warning says what was seen, where, and what to do. Status 0 without warnings, 1 with some, 2 where a file can't be
looked into: it can't be read, is no TOML, or holds no rows of numbers that make a hull. What hullcert refuses besides
isn't looked for here. A file without warnings may be wrong all the same.
"""

import argparse
import pathlib
import statistics
import sys

sys.dont_write_bytecode = True

import offset_rows  # noqa: E402
import output  # noqa: E402

try:
    import tomllib
except ImportError:  # before Python 3.11
    tomllib = None

LEAST_STATIONS, LEAST_HEIGHTS = 21, 11
LEAST_LENGTH = 2000  # mm: a hull that is shorter was probably given in metres
LEAST_LENGTH_TO_BREADTH, MOST_BREADTH_TO_DEPTH = 3.2, 3.6
LEAST_BP, MOST_BP = 0.85, 1.02  # of the hull's length
MOST_END_SPACING = 1.5  # of the spacing amidships
LEAST_DRAFT = 0.1  # of the depth: drafts that are all smaller were probably given in cm
LEAST_PLACE = 0.01  # of the hull's length, half-breadth or depth: what is closer to 0 was probably given in metres
LEAST_MASS = 0.01  # of the box round the hull in water: what is lighter was probably given in tonnes
LEAST_DENSITY, MOST_DENSITY = 990, 1050
MOST_PERCENT = 100  # thousandths: a permeability that is smaller was probably given in per cent, or as a part of 1


class Unread(Exception):
    """Why a file can't be looked into."""


class Hull:
    """The stations of an offset file with their extent in mm."""

    def __init__(self, stations):
        self.stations = stations
        self.aft, self.fore = stations[0].x, stations[-1].x
        self.length = self.fore - self.aft
        points = [point for station in stations for point in station.kept]
        self.half_breadth = max(point.y for point in points)
        self.keel = min(point.z for point in points)
        self.top = max(point.z for point in points)
        self.depth = self.top - self.keel
        self.box = self.length * 2 * self.half_breadth * self.depth // 10**6  # kg of fresh water

    def lowest_deck(self):
        """The station whose top point is the lowest, with its number; single points at the ends have no deck."""
        decked = [(at, station) for at, station in enumerate(self.stations) if len(station.kept) > 1]
        return min(decked or list(enumerate(self.stations)), key=lambda found: found[1].kept[-1].z)


# ---- Files


def read(name):
    try:
        return pathlib.Path(name).read_bytes()
    except (OSError, ValueError) as fault:
        raise Unread(f"{name}: {getattr(fault, 'strerror', None) or fault}") from None


def hull_of(name):
    rows = offset_rows.rows_of(read(name))
    for row in rows:
        numbers = [int(field) for field in row.fields if offset_rows.is_number(field)]
        if len(row.fields) != 3 or len(numbers) != 3 or min(numbers) < 0:
            raise Unread(f"{name}: row {row.number} isn't three whole numbers from 0; hullcert says why it is refused")
    stations = offset_rows.stations_of(rows)
    hull = Hull(stations) if len(stations) > 2 else None
    if hull is None or not (hull.length > 0 and hull.half_breadth and hull.depth):
        raise Unread(f"{name}: there is no hull of three stations in it; hullcert says why it is refused")
    return hull


def job_of(name):
    if tomllib is None:
        raise Unread("reading a job needs Python 3.11 or later")
    try:
        return tomllib.loads(read(name).decode())
    except (ValueError, RecursionError) as fault:
        raise Unread(f"{name}: {fault}; hullcert says why it is refused") from None


def numbers(value):
    """The whole numbers of a value that the job may have; what is of another kind is refused by hullcert."""
    return [one for one in (value if isinstance(value, list) else [value]) if type(one) is int]


def tables(job, name):
    found = job.get(name, [])
    return [entry for entry in found if isinstance(entry, dict)] if isinstance(found, list) else []


def named(entry):
    return f'"{entry.get("name", "?")}"'


# ---- The offsets


def dropped_points(hull):
    for at, station in enumerate(hull.stations):
        lost = [point for point in station.dropped if point.y > 0]
        if lost:
            rows = ", ".join(str(row) for row in sorted(point.row for point in lost))
            yield (
                f"station {at} (x {station.x}): what stands in row{'s' * (len(lost) > 1)} {rows} is dropped, since at the lowest and "
                "at the highest height one point alone is kept: the last of a flat bottom, the first of a deck. Give a flat "
                "bottom from the centreplane outwards, a deck inwards, and knuckles heights of their own"
            )


def exchanged_columns(hull):
    """Tables of offsets have the same heights at most stations; where the half-breadths are the same instead, they are heights."""
    lists = [station.points for station in hull.stations if len(station.points) > 2]
    if len(lists) < 3:
        return
    breadths = [tuple(point.y for point in points) for points in lists]
    heights = [tuple(point.z for point in points) for points in lists]
    common = max(set(breadths), key=breadths.count)
    if breadths.count(common) > len(lists) / 2 > heights.count(max(set(heights), key=heights.count)) and common == tuple(sorted(set(common))):
        yield (
            f"the half-breadths are the same rising numbers ({common[0]}, {common[1]}, ..) at {breadths.count(common)} stations, "
            "while the heights differ: are the second and the third column exchanged? The half-breadth comes before the height"
        )


def units(hull):
    if hull.length < LEAST_LENGTH:
        yield f"the hull is {hull.length} mm long. If the numbers are metres, multiply them by 1000"


def full_breadths(hull):
    breadth = 2 * hull.half_breadth
    if hull.length / breadth < LEAST_LENGTH_TO_BREADTH or breadth / hull.depth > MOST_BREADTH_TO_DEPTH:
        yield (
            f"the hull is {hull.length} mm long, {breadth} mm broad (twice the greatest half-breadth, {hull.half_breadth}) and "
            f"{hull.depth} mm deep, which is broad. If the second column has full breadths, halve it"
        )


def ends(hull):
    gaps = [after.x - before.x for before, after in zip(hull.stations, hull.stations[1:])]
    middle = statistics.median(gaps[len(gaps) // 3 : len(gaps) - len(gaps) // 3])
    outer = max(1, len(gaps) // 8)
    for at in [*range(outer), *range(len(gaps) - outer, len(gaps))]:
        if gaps[at] > MOST_END_SPACING * middle:
            yield (
                f"stations {at} and {at + 1}, at an end, are {gaps[at]} mm apart, and amidships it is {middle:g} mm. Frames change most "
                "at the ends: put stations closer there"
            )


def counts(hull):
    heights = max(len(station.kept) for station in hull.stations)
    if len(hull.stations) < LEAST_STATIONS:
        yield f"there are {len(hull.stations)} stations: for a hull with curved ends take {LEAST_STATIONS} at least"
    if heights < LEAST_HEIGHTS:
        yield f"the station with the most points has {heights}: for curved frames take {LEAST_HEIGHTS} heights at least"


def slips(hull):
    """Half-breadths that are less than half of all four around them, or more than twice: in the station and in those beside it."""
    for at, (before, station, after) in enumerate(zip(hull.stations, hull.stations[1:], hull.stations[2:]), start=1):
        for below, point, above in zip(station.kept, station.kept[1:], station.kept[2:]):
            beside = [breadth_at(other, point.z) for other in (before, after)]
            if None in beside:
                continue
            around = [below.y, above.y, *beside]
            if 2 * point.y < min(around) or point.y > 2 * max(around):
                yield (
                    f"station {at} (x {station.x}): in row {point.row} the half-breadth at height {point.z} is {point.y}, and around it "
                    f"{min(around):.0f} to {max(around):.0f}. Is it a slip?"
                )


def breadth_at(station, z):
    """A station's half-breadth at a height, None above and below it."""
    for low, high in zip(station.kept, station.kept[1:]):
        if low.z <= z <= high.z:
            return low.y + (high.y - low.y) * (z - low.z) / (high.z - low.z)
    return None


# ---- The job


def density(job, hull):
    for value in numbers(job.get("density")):
        if not LEAST_DENSITY <= value <= MOST_DENSITY:
            yield f"density is {value}: sea water is 1025 and fresh water 1000. Is a digit out of place?"


def near_zero(value, whole):
    """Whether a length in mm is so small beside the hull's that it is probably in metres."""
    return 0 < value < LEAST_PLACE * whole


def in_metres(what, value):
    return f"{what} is {value}, which is {value} mm. Was it given in metres?"


def job_length(job, hull):
    for length in numbers(job.get("length_bp")):
        if not LEAST_BP * hull.length <= length <= MOST_BP * hull.length:
            yield (
                f"length_bp is {length}, and the hull of the offsets is {hull.length} mm long. The moment to change trim is "
                "taken over length_bp: is it in mm, and is it this ship's?"
            )


def drafts(job, hull):
    given = numbers(job.get("drafts", []))
    if not given:
        yield "the job has no drafts, so the tables have no rows. Add drafts = [2000, 4000], in mm"
    elif hull.keel < max(given) < hull.keel + hull.depth * LEAST_PLACE:
        yield f"the drafts, {max(given)} mm at the most, are less than a hundredth of the hull's depth. Were they metres?"
    elif hull.keel < max(given) < hull.keel + hull.depth * LEAST_DRAFT:
        yield f"the drafts, {max(given)} mm at the most, are less than a tenth of the hull's depth. Were they cm?"
    else:
        yield from (in_metres("a draft", draft) for draft in given if near_zero(draft - hull.keel, hull.depth))
    at, station = hull.lowest_deck()
    deck = station.kept[-1].z
    for draft in given:
        if draft > hull.top:
            yield f"draft {draft} is above the whole hull, whose highest point is at {hull.top}: its row is that of the closed hull under water"
        elif draft > deck:
            yield (
                f"draft {draft} is above the top point of station {at} (x {station.x}, {deck}): there the hull is taken as closed "
                "by its deck, and the waterplane is without it"
            )
        elif draft <= hull.keel:
            yield f"draft {draft} is not above the hull's lowest point, at {hull.keel}: nothing is under water"


def openings(job, hull):
    for entry in tables(job, "opening"):
        for z in numbers(entry.get("z")):
            if near_zero(z, hull.depth):
                yield in_metres(f"z of opening {named(entry)}", z)
            if z > hull.top + hull.depth / 4:
                yield f"opening {named(entry)} is at {z}, far above the deck (its highest point is at {hull.top}). Is z in mm above the base?"
        for y in numbers(entry.get("y")):
            if near_zero(y, hull.half_breadth):
                yield in_metres(f"y of opening {named(entry)}", y)
            if y > hull.half_breadth:
                yield f"opening {named(entry)} is {y} from the centreplane, and the hull's half-breadth is {hull.half_breadth}. Is y in mm?"


def items(job, hull):
    for entry in tables(job, "item"):
        for x in numbers(entry.get("x")):
            if near_zero(x, hull.length):
                yield in_metres(f"x of item {named(entry)}", x)
            if not hull.aft <= x <= hull.fore:
                yield f"item {named(entry)} is at x {x}, outside the hull, which goes from {hull.aft} to {hull.fore}. x counts from x = 0 of the offsets, in mm"
        for y in numbers(entry.get("y")):
            if abs(y) > hull.half_breadth:
                yield f"item {named(entry)} is {abs(y)} from the centreplane, and the hull's half-breadth is {hull.half_breadth}. Is y in mm?"
        for z in numbers(entry.get("z")):
            if near_zero(z, hull.depth):
                yield in_metres(f"z of item {named(entry)}", z)
            if z > hull.top + hull.depth / 2:
                yield f"item {named(entry)} is at z {z}, far above the deck (its highest point is at {hull.top}). Is z in mm above the base?"


def compartments(job, hull):
    for entry in tables(job, "compartment"):
        for low, high in zip(numbers(entry.get("from")), numbers(entry.get("to"))):
            if high <= hull.aft or low >= hull.fore:
                yield f"compartment {named(entry)}, from {low} to {high}, is outside the hull, which goes from {hull.aft} to {hull.fore}"
            elif near_zero(high, hull.length):
                yield in_metres(f"to of compartment {named(entry)}", high)
            elif low < hull.aft or high > hull.fore:
                yield f"compartment {named(entry)}, from {low} to {high}, is partly outside the hull, which goes from {hull.aft} to {hull.fore}"


def masses(job, hull):
    """Items of which all together, and displacements of which each, weigh next to nothing beside the hull's water."""
    loaded = [mass for entry in tables(job, "item") for mass in numbers(entry.get("mass"))]
    found = [("the items weigh", sum(loaded))] * bool(loaded) + [("a displacement is", one) for one in numbers(job.get("displacements", []))]
    for what, mass in found:
        if mass < LEAST_MASS * hull.box:
            yield f"{what} {mass} kg, less than a hundredth of the water in a box round the hull. Was it given in tonnes?"


def floodable(job):
    found = job.get("floodable", {})
    return found if isinstance(found, dict) else {}


def centres(job, hull):
    for centre in numbers(floodable(job).get("centres", [])):
        if near_zero(centre, hull.length):
            yield in_metres("a centre of [floodable]", centre)
        elif not hull.aft <= centre <= hull.fore:
            yield f"a centre of [floodable] is {centre}, outside the hull, which goes from {hull.aft} to {hull.fore}"


def permeabilities(job, hull):
    of_compartments = [(f"compartment {named(entry)}", entry) for entry in tables(job, "compartment")]
    for where, entry in [*of_compartments, ("[floodable]", floodable(job))]:
        for value in numbers(entry.get("permeability")):
            if 0 < value <= MOST_PERCENT:
                yield f"permeability of {where} is {value} thousandths, so that hardly any water comes in. Is {1000 if value == 1 else 10 * value} meant?"


OF_HULL = [units, exchanged_columns, full_breadths, dropped_points, slips, ends, counts]
OF_JOB = [density, job_length, drafts, openings, items, masses, compartments, centres, permeabilities]
MOST_ALIKE = 3


def warnings(job, hull):
    """The warnings, of each check the first few."""
    for found in [list(check(hull)) for check in OF_HULL] + [list(check(job, hull)) for check in OF_JOB]:
        yield from found[:MOST_ALIKE]
        if found[MOST_ALIKE:]:
            yield f"{len(found) - MOST_ALIKE} more like the last ones"


def main():
    parser = argparse.ArgumentParser(description=__doc__, formatter_class=argparse.RawDescriptionHelpFormatter)
    parser.add_argument("job", metavar="JOB")
    parser.add_argument("offsets", metavar="OFFSETS")
    given = parser.parse_args()
    try:
        found = list(warnings(job_of(given.job), hull_of(given.offsets)))
    except Unread as why:
        print(why, file=sys.stderr)
        return 2
    for warning in found:
        print(f"warning: {warning}" + "." * (warning[-1] != "?"))
    return 1 if found else 0


if __name__ == "__main__":
    output.run(main)
