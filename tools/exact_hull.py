"""A hull as exact fractions, by the definitions of docs/DEFINITIONS.md alone: for check_report.py.

Tetrahedra are cut at the waterplane, and what lies below is added up. Lengths are in mm, levels in 1/1024 mm ("grid
units") where a name says grid, volumes in mm³ and moments in mm⁴. Nothing is rounded.
"""

import csv
import functools
import io
import math
import re
from fractions import Fraction
from typing import NamedTuple

GRID = 1024  # units of a level in a mm
PARTS = 2 ** 24  # numbers of directions from upright to 90 degrees
NUMBER = re.compile(r"-?[0-9]{1,9}\Z")
EDGES = [(0, 1), (0, 2), (0, 3), (1, 2), (1, 3), (2, 3)]


class Unread(Exception):
    """Why a file can't be checked, with the number of the line where there is one."""


class Station(NamedTuple):
    """x in mm, and the points as (half-breadth, height) from the lowest to the highest, as kept."""

    x: int
    points: list


# ---- The offset file


def read_stations(name):
    """The stations of an offset file; which faults it has otherwise is for the program to say."""
    try:
        with open(name, "rb") as file:
            text = file.read().removeprefix(b"\xef\xbb\xbf").decode("latin-1")
    except OSError as fault:
        raise Unread(f"{name}: {fault.strerror}") from None
    reader, groups = csv.reader(io.StringIO(text, newline=None)), []
    for fields in filter(None, reader):
        words = [field.strip(" \t") for field in fields]
        if len(words) != 3 or not all(map(NUMBER.match, words)):
            raise Unread(f"{name}: line {reader.line_num}: not three whole numbers")
        x, y, z = map(int, words)
        if not groups or groups[-1][0] != x:
            groups.append((x, []))
        groups[-1][1].append((y, z))
    if len(groups) < 3 or any(aft[0] >= fore[0] for aft, fore in zip(groups, groups[1:])):
        raise Unread(f"{name}: no three stations from aft to fore")
    return [Station(x, kept(points)) for x, points in groups]


def kept(points):
    """A flat bottom keeps its outer point, and so does a deck."""
    while len(points) > 1 and points[0][1] == points[1][1]:
        points = points[1:]
    while len(points) > 1 and points[-1][1] == points[-2][1]:
        points = points[:-1]
    return points


# ---- Tetrahedra


def strip_triangles(aft, fore):
    """The triangles between two stations: the zipper advances where the next point is lower, else on the aft one."""
    a, b = ([(station.x, y, z) for y, z in station.points] for station in (aft, fore))
    i = j = 0
    while (i, j) != (len(a) - 1, len(b) - 1):
        if j == len(b) - 1 or (i < len(a) - 1 and a[i + 1][2] <= b[j + 1][2]):
            yield a[i], a[i + 1], b[j]
            i += 1
        else:
            yield a[i], b[j], b[j + 1]
            j += 1


def turn(a, b, c):
    """The way that a triangle turns, seen along y."""
    return (b[0] - a[0]) * (c[2] - a[2]) - (b[2] - a[2]) * (c[0] - a[0])


def tetrahedra_of(stations):
    """The hull's tetrahedra, each with a sign that says which way its faces point."""
    half = []
    for aft, fore in zip(stations, stations[1:]):
        for a, b, c in strip_triangles(aft, fore):
            fa, fb, fc = ((x, 0, z) for x, _, z in (a, b, c))
            sign = 1 if turn(a, b, c) > 0 else -1
            half += [(-sign, (fa, fb, fc, c)), (sign, (fa, fb, b, c)), (-sign, (fa, a, b, c))]
    return half + [(-sign, tuple((x, -y, z) for x, y, z in corners)) for sign, corners in half]


def way(a, b):
    return tuple(q - p for p, q in zip(a, b))


def cross(p, q):
    return p[1] * q[2] - p[2] * q[1], p[2] * q[0] - p[0] * q[2], p[0] * q[1] - p[1] * q[0]


def six_volume(a, b, c, d):
    return abs(sum(p * q for p, q in zip(way(a, d), cross(way(a, b), way(a, c)))))


class Face(NamedTuple):
    """The heights of its corners from the lowest to the highest, and its area vector, twice the area long."""

    heights: tuple
    ax: int
    ay: int
    az: int

    def share_below(self, level):
        """What part of its area lies below an upright level plane."""
        low, middle, high = self.heights
        if level <= low:
            return Fraction(0)
        if level >= high:
            return Fraction(1)
        if level <= middle:
            return Fraction(level - low) ** 2 / ((middle - low) * (high - low))
        return 1 - Fraction(high - level) ** 2 / ((high - low) * (high - middle))


def boundary_of(tetrahedra):
    """The faces that are left when those that cancel are taken away."""
    balance = {}
    for sign, (a, b, c, d) in tetrahedra:
        for face in ((b, c, d), (a, d, c), (a, b, d), (a, c, b)):
            first = face.index(min(face))
            p, q, r = face[first:] + face[:first]
            key, side = ((p, q, r), sign) if q <= r else ((p, r, q), -sign)
            balance[key] = balance.get(key, 0) + side
    faces = [(count, corners, cross(way(corners[0], corners[1]), way(corners[0], corners[2]))) for corners, count in balance.items()]
    return [Face(tuple(sorted(z for _, _, z in corners)), *area) for count, corners, area in faces if any(area) for _ in range(abs(count))]


# ---- Directions and degrees


class Direction(NamedTuple):
    """The heel whose cosine is c/r and whose sine is s/r."""

    c: int
    s: int
    r: int


UPRIGHT = Direction(1, 0, 1)


def direction_of(number, parts=PARTS):
    return Direction(parts ** 2 - number ** 2, 2 * parts * number, parts ** 2 + number ** 2)


def is_at_most(direction, degree):
    """Whether a direction is at most so many degrees, by the quarter turns of its 90th power."""
    real, imaginary, turns = 1, 0, 0
    for _ in range(90):
        real, imaginary = real * direction.c - imaginary * direction.s, real * direction.s + imaginary * direction.c
        if real <= 0:
            real, imaginary, turns = imaginary, -real, turns + 1
    return turns < degree or (turns == degree and imaginary == 0)


@functools.lru_cache(None)
def number_of(degree):
    """The greatest number whose direction is at most so many degrees."""
    number = min(PARTS, int(PARTS * math.tan(math.radians(degree / 2))))
    while number > 0 and not is_at_most(direction_of(number), degree):
        number -= 1
    while number < PARTS and is_at_most(direction_of(number + 1), degree):
        number += 1
    return number


def bracket_of(degree):
    """The first direction of a degree's bracket, one between, and the last."""
    number = number_of(degree)
    if degree in (0, 90):
        return [direction_of(number)]
    return [direction_of(number), direction_of(2 * number + 1, 2 * PARTS), direction_of(number + 1)]


def spans_of(bracket):
    """The least spans of cosine and sine over a bracket, as (low, high) each, of scale 2^-40."""
    first, last = bracket[0], bracket[-1]
    scale = 2 ** 40
    cosine = Fraction(last.c * scale // last.r, scale), Fraction(-(-first.c * scale // first.r), scale)
    sine = Fraction(first.s * scale // first.r, scale), Fraction(-(-last.s * scale // last.r), scale)
    return cosine, sine


# ---- What is below a waterplane


def exact_sum(terms):
    """The sum of fractions, two and two: neighbours share denominators, so these stay short."""
    while len(terms) > 1:
        odd = terms[-1:] if len(terms) % 2 else []
        terms = [first + second for first, second in zip(terms[::2], terms[1::2])] + odd
    return Fraction(terms[0]) if terms else Fraction(0)


def pieces(weight, corners):
    """The pieces of a simplex above depth 0: its weight, and corners of (depth, x, y, z)."""
    for i, j in EDGES:
        p, q = corners[i], corners[j]
        if (p[0] > 0 > q[0]) or (p[0] < 0 < q[0]):
            part = Fraction(p[0], p[0] - q[0])
            crossing = (0, *(Fraction(b * p[0] - a * q[0], p[0] - q[0]) for a, b in zip(p[1:], q[1:])))
            yield from pieces(weight * (1 - part), corners[:i] + (crossing,) + corners[i + 1:])
            yield from pieces(weight * part, corners[:j] + (crossing,) + corners[j + 1:])
            return
    if max(corner[0] for corner in corners) > 0:
        yield weight, corners


class Integrals(NamedTuple):
    """The volume, and the integrals of x, y and z over it; that of x, which levers don't need, is None where the ship heels."""

    volume: Fraction
    x: Fraction
    y: Fraction
    z: Fraction


class Lid(NamedTuple):
    """The area of the waterplane, and the integrals of x, y² and x² over it."""

    area: Fraction
    x: Fraction
    yy: Fraction
    xx: Fraction


def integrals_of(found, has_x):
    """Those of pieces, each with six times its volume and its corners."""
    sums = [[], [], [], []]
    for weight, corners in found:
        sums[0].append(weight * 4)
        for axis in range(1 if has_x else 2, 4):
            sums[axis].append(weight * sum(corner[axis] for corner in corners))
    volume, x, y, z = (exact_sum(terms) / 24 for terms in sums)
    return Integrals(volume, x if has_x else None, y, z)


def lid_of(found):
    """That of pieces below an upright level plane: the triangles of their corners at depth 0."""
    sums = [[], [], [], []]
    for _, corners in found:
        flat = [corner for corner in corners if corner[0] == 0]
        if len(flat) != 3:
            continue
        xs, ys = [corner[1] for corner in flat], [corner[2] for corner in flat]
        area = abs((xs[1] - xs[0]) * (ys[2] - ys[0]) - (xs[2] - xs[0]) * (ys[1] - ys[0])) / Fraction(2)
        sums[0].append(area)
        sums[1].append(area * sum(xs) / 3)
        for terms, values in ((sums[2], ys), (sums[3], xs)):
            terms.append(area * (sum(value ** 2 for value in values) + sum(values) ** 2) / 12)
    return Lid(*map(exact_sum, sums))


class Hull:
    """The tetrahedra of a ship with what is asked of them."""

    def __init__(self, stations):
        signed = tetrahedra_of(stations)
        self.stations = stations
        self.first_x, self.last_x = stations[0].x, stations[-1].x
        points = [point for station in stations for point in station.points]
        self.half_breadth, self.high_z = max(y for y, _ in points), max(z for _, z in points)
        self.low_z = min(z for _, z in points)
        weighed = [(six_volume(*corners), corners) for _, corners in signed]
        self.tetrahedra = [(six, corners) for six, corners in weighed if six]
        self.six = sum(six for six, _ in weighed)
        self.faces = boundary_of(signed)
        self.half_areas = Fraction(sum(abs(face.ay) + abs(face.az) for face in self.faces), 2)

    def level_at(self, x, a, f):
        return a + (f - a) * Fraction(x - self.first_x, self.last_x - self.first_x)

    def depth_by(self, direction, a, f):
        """The depth of a point below a waterplane whose levels are a and f in mm, times a number above 0 that is the same for all."""
        a, f = Fraction(a), Fraction(f)
        length, parts = 1 if a == f else self.last_x - self.first_x, math.lcm(a.denominator, f.denominator)
        base, rise, scale = int(a * parts) * length * direction.r, int((f - a) * parts) * direction.r, parts * length
        rise_at = functools.lru_cache(None)(lambda x: base + rise * (x - self.first_x))
        c, s = direction.c * scale, direction.s * scale
        return lambda point: rise_at(point[0]) - c * point[2] - s * point[1]

    def below(self, direction, a, f, slab=None):
        """The pieces below a waterplane, of the whole hull or of what lies in a slab, which is (from, to)."""
        depth = self.depth_by(direction, a, f)
        for six, corners in self.within(*slab) if slab else self.tetrahedra:
            yield from pieces(six, tuple((depth(corner), *corner) for corner in corners))

    @functools.lru_cache(None)
    def within(self, aft, fore):
        """What lies between two places along the ship."""
        found = self.tetrahedra
        for depth in (lambda point: point[0] - aft, lambda point: fore - point[0]):
            parts = [part for six, corners in found for part in pieces(six, tuple((depth(corner), *corner) for corner in corners))]
            found = [(weight, tuple(corner[1:] for corner in corners)) for weight, corners in parts]
        return found

    @functools.lru_cache(None)
    def integrals(self, direction, a, f, slab=None):
        return integrals_of(self.below(direction, a, f, slab), direction.s == 0)

    @functools.lru_cache(None)
    def lid(self, level):
        return lid_of(self.below(UPRIGHT, level, level))

    def left(self, a, f, slabs):
        """What is left of the volume and the integral of x below an upright plane, where slabs of (from, to, permeability) flood."""
        whole = self.integrals(UPRIGHT, a, f)
        volume, moment = whole.volume, whole.x
        for aft, fore, permeability in slabs:
            part, share = self.integrals(UPRIGHT, a, f, (aft, fore)), Fraction(permeability, 1000)
            volume, moment = volume - share * part.volume, moment - share * part.x
        return volume, moment

    def reach(self, *levels):
        """In mm, of levels in grid units."""
        return Fraction(max(map(abs, levels)), GRID) + self.high_z + self.half_breadth

    def volume_width(self, bracket, *levels):
        """How wide the program's interval of a volume may be over a bracket at levels in grid units, without what they differ by."""
        turns = [high - low for low, high in spans_of(bracket)]
        return 8 * (self.half_areas + 2 ** 17) * (max(turns) * self.reach(*levels) + Fraction(1, 2 ** 16))

    def lid_width(self, low, high):
        """How wide the program's interval of a waterplane's area may be between two upright levels in grid units, in mm²."""
        levels = Fraction(low, GRID), Fraction(high, GRID)
        shares = [abs(face.az) * (face.share_below(levels[1]) - face.share_below(levels[0]) + Fraction(1, 2 ** 32)) for face in self.faces if face.az]
        return exact_sum(shares) / 2 + Fraction(len(self.faces), 2 ** 18)

    def residual_width(self, slabs, a, f):
        """The same of a residual, in mm⁴."""
        part = len(self.faces) * self.reach(a, f) / 2 ** 12
        return 2 * self.last_x * (len(slabs) + 1) * (self.volume_width([UPRIGHT], a, f) + part) + 1


# ---- Sections


def section(station, draft):
    """The area and the moment about the base of a station's full breadth below a draft."""
    area = moment = Fraction(0)
    for (y, z), (next_y, next_z) in zip(station.points, station.points[1:]):
        top = min(next_z, draft)
        if top <= z:
            break
        top_y = y + Fraction(next_y - y) * (top - z) / (next_z - z)
        area += (y + top_y) * (top - z)
        moment += (top - z) * (2 * y * z + 2 * top_y * top + y * top + top_y * z) / 3
    return area, moment
