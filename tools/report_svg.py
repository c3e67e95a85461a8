#!/usr/bin/env python3
"""Draws the curves of a report: all on one sheet, or one file each.

    tools/report_svg.py REPORT > sheet.svg
    tools/report_svg.py REPORT --out FOLDER
    tools/report_svg.py REPORT --curve NAME > curve.svg

The curves are volume, displacement, lcb, kb, waterplane, lcf, bmt, bml, kmt, tpc, mct (hydro lines, over the draft),
station0, station1, .. (section lines: the area of that station over the draft), kn6000000, .. (cross lines: KN over the
heel, one curve for each displacement in kg), gz and area (arm lines, over degrees of heel; to starboard gz_starboard and
area_starboard, where the report tells the sides apart), floodable (safe and next
lines: the lengths over their centres), damage1, damage2, .. (damage lines in their order: the waterline of a case along
the ship). Reports may be joined to one file: curves take the lines of all. Figures that are absent break a curve. All
stations share a frame, all KN, and all damage cases.

A point is a figure of the report. Its interval is drawn as a bar where it is at least a pixel high; else the point
covers it. The thin line joins the points: between them nothing is certified. Hydro points at drafts at which no
waterplane is left are drawn hollow: there the whole hull is under. With --offsets the deck is known, and hollow are all
points at drafts above it: above the lowest of the stations' top points, or for a section above its own. With --offsets
floodable lengths have the lines of the ship's ends, and damage cases the ship's profile. A report that was cut is drawn as
far as it goes; the sheet and standard error say so.
Ends with 1 and the number of the line where a line is outside the grammar, and with 1 and the line itself where there
is a `refused` or a `fault` line in place of a report.
"""

import argparse
import html
import math
import pathlib
import sys
import textwrap
from typing import NamedTuple

sys.dont_write_bytecode = True

import flood_pictures  # noqa: E402
import offset_rows  # noqa: E402
import output  # noqa: E402
import report_lines  # noqa: E402

WIDTH, HEIGHT, LEAST_LEFT, RIGHT, TOP, BOTTOM = 480, 320, 72, 16, 36, 46
HEAD, FOOT, NOTE, MOST_COLUMNS = 40, 24, 15, 4
LETTER, PROSE = 7, 6  # the width of a digit of the labels, at the most, and of a letter of the notes, on the whole
LEAST_HEIGHT, LEAST_SHARE = 0.001, 0.01  # of a frame: in the unit of the figures, and of the greatest of them
INK, FAINT, ALERT = "#1f5a94", "#7fa3c7", "#b03030"
STROKES = {  # of the shapes of a picture that are lines
    "end": 'fill="none" stroke="#666" stroke-dasharray="4 3"',
    "join": f'fill="none" stroke="{FAINT}" stroke-width="0.7"',
    "hull": 'fill="#f4f4f0" stroke="#666"',
    "water": f'fill="{FAINT}" stroke="{INK}"',
}
CIRCLE = '<circle cx="{x:.2f}" cy="{y:.2f}" r="2.6" fill="%s" stroke="%s"/>'
CROSS = '<path d="M{x:.2f} {y:.2f}m-4 -4l8 8m-8 0l8 -8" stroke="%s"/>'
MARKS = {"safe": CIRCLE % (INK, INK), "next": CIRCLE % ("white", FAINT), "unsafe": CROSS % ALERT}  # of those that are points
ARM = [("gz", "GZ, m", 4), ("area", "area below GZ, m·rad", 5)]
HYDRO = [
    ("volume", "volume, m³"), ("displacement", "displacement, t"), ("lcb", "LCB from x = 0, m"), ("kb", "KB, m"),
    ("waterplane", "waterplane area, m²"), ("lcf", "LCF from x = 0, m"), ("bmt", "BMT, m"), ("bml", "BML, m"),
    ("kmt", "KMT, m"), ("tpc", "TPC, t/cm"), ("mct", "MCT, t·m/cm"),
]
DRAFT, HEEL = "draft, m", "heel, degrees"
NOTES = [
    "Points are the report's figures; a bar is an interval that is high enough to be seen.",
    "The thin line joins the points: between them nothing is certified.",
]
LIMITS = [
    "A band joins the intervals of whole degrees; between these nothing is certified. Dashed are the limits of the criteria:",
    "C1 and C2 are areas to 30 and to 40 degrees, C3 the area between; C4 a lever from 30 degrees on, C5 the degree from which",
    "on the greatest lever is to be, C6 the slope of the levers for a GM of 0.15 m. Downflooding isn't drawn.",
]
HOLLOW = [
    "Hollow: no waterplane is left, and the whole hull is under.",
    "Hollow: the draft is above the deck, and the hull is taken as closed there.",
]


class Point(NamedTuple):
    """A figure over its place: its ends, None where it is absent, and whether its draft is above the deck."""

    place: float
    ends: tuple
    is_above: bool


class Limit(NamedTuple):
    """What a criterion asks for: its name, and the corners of a line, each a place and a value."""

    name: str
    corners: list


class Curve(NamedTuple):
    """The titles of a curve, its points from left to right, and the limits that are drawn with them."""

    across: str
    title: str
    points: list
    limits: tuple = ()

    def extent(self):
        """The places and the values that its frame is to hold."""
        values = [end for point in self.points if point.ends is not None for end in point.ends]
        values += [value for limit in self.limits for _, value in limit.corners]
        return [point.place for point in self.points], values


# ---- From lines to curves


def is_under(words, deck):
    """Whether a hydro line's draft is above the deck; without the offsets, whether a body has no waterplane left."""
    if deck is not None:
        return int(words[1]) > deck
    volume, waterplane = report_lines.figure_of(words[2]), report_lines.figure_of(words[6])
    return volume[0] > 0 and waterplane[1] == 0


def hydro_curves(lines, tops):
    rows = [words for words in lines if words[0] == "hydro"]
    deck = min(tops) if tops else None
    for at, (name, title) in enumerate(HYDRO, start=2):
        points = [Point(int(words[1]) / 1000, report_lines.figure_of(words[at]), is_under(words, deck)) for words in rows]
        yield name, Curve(DRAFT, title, points)


def lever_limits(points):
    greatest = max((point.ends[1] for point in points), default=0)
    return (
        Limit("C4", [(30, 0.2), (90, 0.2)]),
        Limit("C5", [(25, 0), (25, greatest)]),
        Limit("C6", [(0, 0), (math.degrees(1), 0.15)]),
    )


def area_limits(points):
    to_30 = next((point.ends[0] for point in points if point.place == 30), 0)
    return (
        Limit("C1", [(0, 0.055), (30, 0.055), (30, 0)]),
        Limit("C2", [(0, 0.09), (40, 0.09), (40, 0)]),
        Limit("C3", [(30, to_30), (30, to_30 + 0.03), (40, to_30 + 0.03)]),
    )


def arm_curves(lines):
    rows = [words for words in lines if words[0] == "arm"]
    sided = [words for words in rows if len(words) == 8]
    for (name, title, at), limits_of in zip(ARM, (lever_limits, area_limits)):
        points = [Point(float(words[1]), report_lines.figure_of(words[at]), False) for words in rows]
        yield name, Curve(HEEL, f"{title}, to port" if sided else title, points, limits_of(points))
        points = [Point(float(words[1]), report_lines.figure_of(words[at + 2]), False) for words in sided]
        yield f"{name}_starboard", Curve(HEEL, f"{title}, to starboard", points, limits_of(points))


def cross_curves(lines):
    rows = [words for words in lines if words[0] == "cross"]
    for mass in sorted({int(words[1]) for words in rows}):
        points = [Point(float(words[2]), report_lines.figure_of(words[5]), False) for words in rows if int(words[1]) == mass]
        yield f"kn{mass}", Curve(HEEL, f"KN at {mass / 1000:,g} t, m", points)


def station_curves(lines, tops):
    rows = [words for words in lines if words[0] == "section"]
    for station in sorted({int(words[1]) for words in rows}):
        own = [words for words in rows if int(words[1]) == station]
        top = tops[station] if station < len(tops) else math.inf
        points = [Point(int(words[3]) / 1000, report_lines.figure_of(words[4]), int(words[3]) > top) for words in own]
        yield f"station{station}", Curve(DRAFT, f"station {station}, x = {int(own[0][2]) / 1000:g} m: area, m²", points)


def tops_of(stations):
    """The heights of the stations' top points in mm; a station that is a single point has no deck."""
    return [station.kept[-1].z if len(station.kept) > 1 else math.inf for station in stations]


def curves_of(lines, stations):
    """The curves that have a figure, and the pictures, by name. The stations are those of the offsets, or none."""
    tops = tops_of(stations)
    found = [*hydro_curves(lines, tops), *cross_curves(lines), *arm_curves(lines), *station_curves(lines, tops)]
    curves = {
        name: curve._replace(points=sorted(curve.points, key=lambda point: point.place))
        for name, curve in found
        if any(point.ends is not None for point in curve.points)
    }
    return {**curves, **flood_pictures.pictures_of(lines, stations)}


def stations_of(name, lines):
    """The stations of an offset file, which is to be that of the report's ship."""
    try:
        rows = offset_rows.rows_of(pathlib.Path(name).read_bytes())
        stations = offset_rows.stations_of(rows)
    except OSError as fault:
        sys.exit(f"{name}: {fault.strerror}")
    except ValueError:
        sys.exit(f"{name}: it isn't an offset file; hullcert says why")
    if not stations:
        sys.exit(f"{name}: there is no station in it")
    counts = len(stations), sum(len(station.kept) for station in stations)
    for words in lines:
        if words[0] == "hull" and (int(words[1]), int(words[2])) != counts:
            sys.exit(f"{name}: it has {counts[0]} stations of {counts[1]} points, and the report's hull {words[1]} of {words[2]}: is it this ship's?")
    return stations


# ---- From curves to pictures


def ticks_of(low, high, count=10):
    """Round numbers from low to high, so many at the most, each with its text."""
    raw = (high - low) / count
    power = 10.0 ** math.floor(math.log10(raw))
    size = power * next(times for times in (1, 2, 5, 10) if power * times >= raw * (1 - 1e-9))
    places = max(0, -math.floor(math.log10(size) + 1e-9))
    numbers = range(math.ceil(low / size - 1e-9), math.floor(high / size + 1e-9) + 1)
    return [(number * size, f"{number * size:.{places}f}") for number in numbers]


def width_of(ticks):
    return LETTER * max((len(text) for _, text in ticks), default=0)


def ticks_within(low, high, room):
    """Ticks whose texts stand side by side in so many pixels."""
    ticks = ticks_of(low, high)
    return ticks if len(ticks) * (width_of(ticks) + LETTER) <= room else ticks_of(low, high, 4)


def frame_of(curves):
    """The least and the greatest place and value of some curves, with a margin."""
    places = [place for curve in curves for place in curve.extent()[0]]
    values = [value for curve in curves for value in curve.extent()[1]]
    left, right, low, high = min(places), max(places), min(values), max(values)
    aside = (right - left) * 0.03 or 0.5
    least = max(LEAST_HEIGHT, LEAST_SHARE * max(abs(low), abs(high)))
    over = max((high - low) * 0.06, (least - (high - low)) / 2)
    return left - aside, right + aside, low - over, high + over


class Panel:
    """The picture of one curve within a frame, WIDTH by HEIGHT."""

    def __init__(self, curve, frame):
        self.curve, (self.left, self.right, self.low, self.high) = curve, frame
        self.ticks = ticks_of(self.low, self.high)
        self.edge = max(LEAST_LEFT, 2 * LETTER + width_of(self.ticks))

    def x(self, place):
        return self.edge + (place - self.left) / (self.right - self.left) * (WIDTH - self.edge - RIGHT)

    def y(self, value):
        return HEIGHT - BOTTOM - (value - self.low) / (self.high - self.low) * (HEIGHT - TOP - BOTTOM)

    def heading(self):
        yield f'<text x="{self.edge}" y="22" font-size="14">{self.curve.title}</text>'

    def axes(self):
        for tick, text in ticks_within(self.left, self.right, WIDTH - self.edge - RIGHT):
            yield f'<path d="M{self.x(tick):.2f} {TOP}V{HEIGHT - BOTTOM}" stroke="#eee"/>'
            yield f'<text x="{self.x(tick):.2f}" y="{HEIGHT - BOTTOM + 16}" text-anchor="middle">{text}</text>'
        for tick, text in self.ticks:
            colour = "#888" if tick == 0 else "#ddd"
            yield f'<path d="M{self.edge} {self.y(tick):.2f}H{WIDTH - RIGHT}" stroke="{colour}"/>'
            yield f'<text x="{self.edge - 6}" y="{self.y(tick) + 4:.2f}" text-anchor="end">{text}</text>'
        yield f'<text x="{(self.edge + WIDTH - RIGHT) / 2}" y="{HEIGHT - 10}" text-anchor="middle">{self.curve.across}</text>'

    def line(self):
        pieces, pen = [], "M"
        for point in self.curve.points:
            if point.ends is None:
                pen = "M"
                continue
            pieces.append(f"{pen}{self.x(point.place):.2f} {self.y(sum(point.ends) / 2):.2f}")
            pen = "L"
        return f'<path d="{"".join(pieces)}" fill="none" stroke="{FAINT}" stroke-width="0.7"/>'

    def mark(self, point):
        x, low, high = self.x(point.place), self.y(point.ends[0]), self.y(point.ends[1])
        if low - high >= 1:
            yield f'<path d="M{x:.2f} {low:.2f}V{high:.2f}M{x - 4:.2f} {low:.2f}h8M{x - 4:.2f} {high:.2f}h8" stroke="{INK}" fill="none"/>'
        fill = "white" if point.is_above else INK
        yield f'<circle cx="{x:.2f}" cy="{(low + high) / 2:.2f}" r="2.6" fill="{fill}" stroke="{INK}"/>'

    def corners(self, corners):
        return "L".join(f"{self.x(place):.2f} {self.y(value):.2f}" for place, value in corners)

    def band(self):
        """The intervals of a curve with limits, from degree to degree."""
        over = [(point.place, point.ends[1]) for point in self.curve.points]
        under = [(point.place, point.ends[0]) for point in reversed(self.curve.points)]
        return f'<path d="M{self.corners(over + under)}Z" fill="{FAINT}" stroke="{INK}" stroke-width="1"/>'

    def limit(self, limit):
        x, y = self.x(limit.corners[-1][0]), min(self.y(value) for _, value in limit.corners)
        yield f'<path d="M{self.corners(limit.corners)}" fill="none" stroke="{ALERT}" stroke-dasharray="4 3"/>'
        at_edge = x > WIDTH - 60
        place = f'x="{x:.2f}" y="{y - 4:.2f}" text-anchor="end"' if at_edge else f'x="{x + 4:.2f}" y="{y + 4:.2f}"'
        yield f'<text {place} fill="{ALERT}">{limit.name}</text>'

    def inside(self):
        if self.curve.limits:
            return [self.band(), *(part for limit in self.curve.limits for part in self.limit(limit))]
        marks = [part for point in self.curve.points if point.ends is not None for part in self.mark(point)]
        return [self.line(), *marks]

    def parts(self):
        return [*self.heading(), *self.axes(), *self.inside()]


class PicturePanel(Panel):
    """The panel of a picture, with its caption below the title."""

    def heading(self):
        if not self.curve.caption:
            return super().heading()
        title = f'<text x="{self.edge}" y="15" font-size="14">{self.curve.title}</text>'
        return [title, f'<text x="{self.edge}" y="31">{self.curve.caption}</text>']

    def shape(self, shape):
        if shape.kind in STROKES:
            return [f'<path d="M{self.corners(shape.corners)}" {STROKES[shape.kind]}/>']
        return [MARKS[shape.kind].format(x=self.x(place), y=self.y(value)) for place, value in shape.corners]

    def inside(self):
        return [part for shape in self.curve.shapes for part in self.shape(shape)]


def panel_of(curve, frame):
    return PicturePanel(curve, frame) if isinstance(curve, flood_pictures.Picture) else Panel(curve, frame)


def family_of(name):
    """The curves that share a frame with this one, so that they can be compared: all stations, all KN, or all damage cases."""
    return name.rstrip("0123456789")


def frames_of(curves):
    """The frame of each family of curves."""
    families = {}
    for name, curve in curves.items():
        families.setdefault(family_of(name), []).append(curve)
    return {family: frame_of(members) for family, members in families.items()}


def notes_of_curves(curves, is_deck_known):
    if any(not curve.limits for curve in curves):
        yield from NOTES
    if any(curve.limits for curve in curves):
        yield from LIMITS
    if any(point.is_above and point.ends is not None for curve in curves for point in curve.points):
        yield HOLLOW[is_deck_known]
    if not is_deck_known and any(curve.across == DRAFT for curve in curves):
        yield "Without --offsets the deck isn't known; above it the hull is taken as closed."


def notes_of(curves, is_deck_known):
    """The notes of all curves and pictures, each once."""
    others = [curve for curve in curves.values() if isinstance(curve, Curve)]
    pictures = [curve for curve in curves.values() if isinstance(curve, flood_pictures.Picture)]
    notes = [*notes_of_curves(others, is_deck_known), *(note for picture in pictures for note in picture.notes)]
    return list(dict.fromkeys(notes))


class Sheet(NamedTuple):
    """What the drawings of some curves have in common: their heading, the notes below and the frames by family."""

    heading: str
    notes: list
    frames: dict


def drawing(curves, sheet):
    """A picture of the curves, by name, on one sheet."""
    columns = min(MOST_COLUMNS, max(1, math.isqrt(len(curves) - 1) + 1))
    rows = -(-len(curves) // columns)
    width = columns * WIDTH
    notes = [line for note in sheet.notes for line in textwrap.wrap(note, (width - 2 * RIGHT) // PROSE)]
    height = HEAD + rows * HEIGHT + FOOT + NOTE * len(notes)
    parts = [
        f'<svg xmlns="http://www.w3.org/2000/svg" viewBox="0 0 {width} {height}" font-family="sans-serif" font-size="11">',
        f'<rect width="{width}" height="{height}" fill="white"/>',
        f'<text x="16" y="26" font-size="16">{html.escape(sheet.heading)}</text>',
    ]
    for at, (name, curve) in enumerate(curves.items()):
        parts.append(f'<g transform="translate({at % columns * WIDTH} {HEAD + at // columns * HEIGHT})">')
        parts += [*panel_of(curve, sheet.frames[family_of(name)]).parts(), "</g>"]
    foot = HEAD + rows * HEIGHT + NOTE
    parts += [f'<text x="16" y="{foot + NOTE * at}">{note}</text>' for at, note in enumerate(notes)]
    return "\n".join([*parts, "</svg>"]).encode("utf-8", "replace") + b"\n"


def heading_of(name, lines):
    hull = next((words for words in lines if words[0] == "hull"), None)
    report = [] if name == "-" else [pathlib.Path(name).stem]
    return ", ".join(["hullcert", *report, *([f"{hull[1]} stations", f"{hull[2]} points"] if hull else [])])


def write_all(curves, sheet, folder):
    try:
        folder.mkdir(parents=True, exist_ok=True)
        for name, curve in curves.items():
            (folder / f"{name}.svg").write_bytes(drawing({name: curve}, sheet))
    except OSError as fault:
        sys.exit(f"{folder}: {fault.strerror}")


def main():
    reader = argparse.ArgumentParser(description=__doc__, formatter_class=argparse.RawDescriptionHelpFormatter)
    reader.add_argument("report", metavar="REPORT", help="a file, or - for the input")
    reader.add_argument("--curve", metavar="NAME", help="this curve alone")
    reader.add_argument("--out", type=pathlib.Path, metavar="FOLDER", help="where each curve is written to a file NAME.svg")
    reader.add_argument("--offsets", metavar="OFFSETS", help="the hull's offset file, for the deck, the ends and the profile")
    given = reader.parse_args()
    lines = report_lines.read(given.report)
    curves = curves_of(lines, stations_of(given.offsets, lines) if given.offsets else [])
    if not curves:
        sys.exit(f"{given.report}: it has no figures to draw; has the job drafts, displacements, damage cases or centres?")
    if given.curve and given.curve not in curves:
        sys.exit(f"{given.report}: no curve {given.curve}; there are {' '.join(curves)}")
    frames = frames_of(curves)
    if given.curve:
        curves = {given.curve: curves[given.curve]}
    lack = report_lines.lack_of(lines)
    notes = [*notes_of(curves, bool(given.offsets)), *([lack[0].upper() + lack[1:] + "."] if lack else [])]
    sheet = Sheet(heading_of(given.report, lines), notes, frames)
    if given.out:
        write_all(curves, sheet, given.out)
    else:
        sys.stdout.buffer.write(drawing(curves, sheet))


if __name__ == "__main__":
    output.run(main)
