#!/usr/bin/env python3
"""Writes an offset file of a yard's table of half-breadths.

    tools/table_to_offsets.py TABLE.csv > ship.csv

The table has a header line and a first column. One holds the stations' distances x from the aft end, the other the
waterlines' heights above the base; the cells are half-breadths. An empty cell, or "-", is no point. Cells are parted by
commas, semicolons or tabs, with a decimal point or a decimal comma, in metres or in mm:

    station;0;2,5;5
    0;0;0,2;1,1
    1,5;0,4;1,3;2,6

What isn't said by an option is taken from the table, and each rule that was taken is said on standard error: read these
lines, and hold some rows against the table. x is counted from the aftmost station where some x is below 0. Status 0, or
1 with a sentence where the table can't be read, or may be read in two ways.
"""

import argparse
import csv
import io
import pathlib
import re
import sys
from fractions import Fraction
from typing import NamedTuple

sys.dont_write_bytecode = True

import offset_rows  # noqa: E402
import output  # noqa: E402

AFTER_LETTER = r"[^0-9+-]*[^\W\d_]-"  # a hyphen behind a letter, as in WL-500, is no sign
CELL = re.compile(rf"(?:{AFTER_LETTER}|[^0-9+-]*)([+-]?(?:[0-9]+(?:\.[0-9]+)?|\.[0-9]+))[^0-9]*\Z")
HYPHEN = re.compile(rf"{AFTER_LETTER}[0-9.]")
UNCLEAR = re.compile(r"[0-9]{1,3},[0-9]{3}\Z")
NUMBER = re.compile(r"[+-]?(?:[0-9]+\.?[0-9]*|\.[0-9]+)\Z")
UNIT = re.compile(r"(?<![A-Za-z])(mm|m)\b")
STATION_WORDS = re.compile(r"\b(st|sta|stn|station|stations|x|frame|frames|fr|section)\b", re.I)
HEIGHT_WORDS = re.compile(r"\b(wl|w\.l|waterline|waterlines|z|height|heights|draft|draught)\b", re.I)
MOST_DIGITS = 20
LEAST_LENGTH_TO_DEPTH, LEAST_LENGTH_TO_BREADTH, MOST_BREADTH_TO_DEPTH = 2, 1.25, 12  # of hulls of any kind


class BadTable(Exception):
    """Why a table can't be read."""


class Table(NamedTuple):
    """The positions across and down as numbers of the file, the cells, None where one is empty, and what is written on both axes."""

    across: list
    down: list
    cells: list
    labels: tuple

    def breadths(self):
        return [cell for row in self.cells for cell in row if cell is not None]

    def turned(self):
        return Table(self.down, self.across, [list(column) for column in zip(*self.cells)], self.labels[::-1])


def say(text):
    print(f"table_to_offsets: {text}", file=sys.stderr)


# ---- Text


def text_of(name):
    try:
        content = sys.stdin.buffer.read() if name == "-" else pathlib.Path(name).read_bytes()
    except (OSError, ValueError) as fault:
        raise BadTable(f"{name}: {getattr(fault, 'strerror', None) or fault}") from None
    if content[:2] == b"PK" or content[:4] == b"\xd0\xcf\x11\xe0":
        raise BadTable(f"{name} is a spreadsheet's own format: save it as CSV")
    encoding = "utf-16" if content[:2] in (b"\xff\xfe", b"\xfe\xff") else "utf-8-sig"
    try:
        return content.decode(encoding)
    except ValueError:
        return content.decode("latin-1")


def separator_of(text):
    return next((mark for mark in (";", "\t") if mark in text), ",")


def rows_of(text, separator):
    """The rows with something in them, each with its number in the file and its cells."""
    try:
        found = list(csv.reader(io.StringIO(text, newline=None), delimiter=separator))
    except csv.Error as fault:
        raise BadTable(f"the table can't be parted into cells: {fault}") from None
    rows = []
    for number, cells in enumerate(found, start=1):
        cells = [cell.strip(" \t\xa0").replace("\u2212", "-").replace("\u2013", "-") for cell in cells]
        unclear = next((cell for cell in cells if separator == "," and UNCLEAR.match(cell)), None)
        if unclear:
            raise BadTable(f'row {number} has "{unclear}", whose comma may be a decimal comma or part thousands: write it without')
        if any(cells):
            rows.append((number, cells))
    return rows


def with_points(rows):
    """The rows with decimal points for decimal commas, and whether there were any."""
    changed = any("," in cell for _, cells in rows for cell in cells)
    return [(number, [cell.replace(",", ".") for cell in cells]) for number, cells in rows], changed


def without_titles(rows):
    """The rows from the header on: the first that has two numbers or more behind its first cell."""
    for at, (_, cells) in enumerate(rows):
        if sum(CELL.match(cell) is not None for cell in cells[1:]) >= 2:
            return rows[at:], at
    raise BadTable("no row has two numbers behind its first cell: the table needs a header line with the stations or the waterlines")


# ---- The table


def length_of(text, where):
    if len(text) > MOST_DIGITS:
        raise BadTable(f"{where} is a number of {len(text)} digits")
    return Fraction(text)


def position(cell, where):
    found = CELL.match(cell)
    if found is None:
        raise BadTable(f'{where} is "{shortened(cell)}", which holds no single number')
    return found[1]


def half_breadth(cell, where):
    if cell in ("", "-"):
        return None
    if not NUMBER.match(cell):
        raise BadTable(f'{where} is "{shortened(cell)}", which is no number')
    return cell


def shortened(cell, most=60):
    return cell if len(cell) <= most else cell[: most - 2] + ".."


def positions_of(labels, places, most):
    """The numbers of an axis's labels. Where a hyphen stands behind a letter in some alone, as in WL-500 and WL500, it may be a sign."""
    texts = [position(label, where) for label, where in zip(labels, places)]
    hyphens = [label for label in labels if HYPHEN.match(label)]
    if hyphens and any(float(text) and not HYPHEN.match(label) for label, text in zip(labels, texts)):
        raise BadTable(f'is the hyphen in "{shortened(hyphens[0])}" a sign? Other labels beside it have none: write the bare numbers')
    return numbers_of(texts, places, most)


def numbers_of(texts, places, most):
    """The numbers of texts of one kind."""
    numbers = [length_of(text, where) for text, where in zip(texts, places)]
    unclear = offset_rows.parting_thousands(texts, most)
    if unclear:
        raise BadTable(f'"{unclear}" has three decimals, and a greater number beside it none: does the point or comma part thousands? Write it without')
    return numbers


def table_of(rows):
    number, header = rows[0]
    while header and not header[-1]:
        header = header[:-1]
    width = len(header) - 1
    places, cells = [], []
    for row_number, row in rows[1:]:
        if len(row) > len(header) and any(row[len(header) :]):
            raise BadTable(f"row {row_number} has more cells than the header")
        padded = (row[1:] + [""] * width)[:width]
        places += [f"row {row_number}, column {at}" for at in range(2, width + 2)]
        cells += [half_breadth(cell, where) for cell, where in zip(padded, places[-width:])]
    if len(rows) < 3 or width < 2:
        raise BadTable("the table has fewer than two rows or columns of half-breadths")
    first_column = [row[0] for _, row in rows[1:]]
    most = offset_rows.MOST_METRES["x"]
    across = positions_of(header[1:], [f"the header, row {number}, column {at}" for at in range(2, width + 2)], most)
    down = positions_of(first_column, [f"row {row_number}, column 1" for row_number, _ in rows[1:]], most)
    given = [at for at, cell in enumerate(cells) if cell is not None]
    numbers = dict(zip(given, numbers_of([cells[at] for at in given], [places[at] for at in given], offset_rows.MOST_METRES["half-breadth"])))
    table = [[numbers.get(at) for at in range(first, first + width)] for first in range(0, len(cells), width)]
    corner = re.split(r"[\\/|]", header[0])  # "WL / x" names what stands down and what stands across; a single word may name either
    of_down, of_across = corner if len(corner) == 2 else ("", "")
    return Table(across, down, table, (" ".join([*header[1:], of_across]), " ".join([*first_column, of_down])))


# ---- Stations in columns or in rows


def labels_say(table):
    """Whether by the labels the stations are across; None where these don't tell."""
    across, down = table.labels
    if STATION_WORDS.search(across) or HEIGHT_WORDS.search(down):
        return True
    if HEIGHT_WORDS.search(across) or STATION_WORDS.search(down):
        return False
    return None


class Size(NamedTuple):
    """The length, the breadth and the depth of the hull in mm, if the stations are across."""

    length: Fraction
    breadth: Fraction
    depth: Fraction

    def is_of_a_hull(self):
        return (
            self.length >= LEAST_LENGTH_TO_DEPTH * self.depth
            and self.length >= LEAST_LENGTH_TO_BREADTH * self.breadth
            and self.breadth <= MOST_BREADTH_TO_DEPTH * self.depth
        )

    def __str__(self):
        length, breadth, depth = (f"{float(one) / 1000:g} m" for one in self)
        return f"{length} long, {breadth} broad and {depth} deep"


def size_of(table, options):
    breadths = table.breadths()
    x_unit, _ = unit_of("x", table.across, options.unit, table.labels[0])
    z_unit, _ = unit_of("height", table.down, options.unit, table.labels[1])
    y_unit, _ = unit_of("half-breadth", breadths, options.unit)
    return Size(
        (max(table.across) - min(table.across)) * (options.spacing or x_unit),
        max(breadths, default=0) * y_unit * (1 if options.full else 2),
        (max(table.down) - min(table.down)) * z_unit,
    )


def stations_are_across(table, options):
    """Whether the header holds the stations, and the rule by which that was found."""
    if options.stations:
        return options.stations == "columns", "as said"
    columns, rows = size_of(table, options), size_of(table.turned(), options)
    likely, said = (columns.is_of_a_hull(), rows.is_of_a_hull()), labels_say(table)
    if said is not None and likely != (not said, said):
        return said, "as the labels say"
    if said is None and likely[0] != likely[1]:
        return likely[0], f"since the other way the hull would be {rows if likely[0] else columns}"
    numbered = are_station_numbers(table.across), are_station_numbers(table.down)
    if said is None and options.spacing and all(likely) and numbered == (len(table.across) > len(table.down), len(table.down) > len(table.across)):
        return numbered[0], "since these numbers are 1 apart"
    raise BadTable(
        f"with the stations in columns the hull would be {columns}, and in rows {rows}: "
        "say by --stations columns or --stations rows where they are" + ", and give --spacing where they are numbers of stations" * any(numbered)
    )


# ---- Lengths


def unit_of(kind, numbers, given, labels=""):
    """How many mm the unit of a kind of numbers has, and the rule by which that was found."""
    greatest, said = max(map(abs, numbers), default=0), set(UNIT.findall(labels))
    if given:
        unit, rule = given, "as said"
    elif len(said) == 1:
        unit, rule = said.pop(), "as the labels say"
    else:
        unit, rule = "m" if greatest <= offset_rows.MOST_METRES[kind] else "mm", f"since the greatest is {float(greatest):g}"
    return (1000, f"in metres, {rule}") if unit == "m" else (1, f"in mm, {rule}")


def said_unit(kind, *given):
    unit, rule = unit_of(kind, *given)
    say(f"{kind}: {rule}")
    return unit


class Rounding:
    """Lengths in whole mm, and how many had to be rounded and by how much."""

    def __init__(self):
        self.count, self.most = 0, Fraction(0)

    def whole(self, length):
        near = (2 * length.numerator + length.denominator) // (2 * length.denominator)
        self.count += near != length
        self.most = max(self.most, abs(length - near))
        return near


def are_station_numbers(numbers):
    """Whether these look like numbers of stations: one apart, with halves and quarters between some."""
    ordered = sorted(numbers)
    gaps = [after - before for before, after in zip(ordered, ordered[1:])]
    return len(numbers) > 4 and gaps.count(1) > 1 and max(gaps) == 1 and all(gap * 4 % 1 == 0 for gap in gaps)


def x_of(table, options):
    """The stations' x in mm from the aft end, exact."""
    if options.spacing:
        x = [number * options.spacing for number in table.across]
        say(f"x: station numbers, {options.spacing} mm apart")
    else:
        if are_station_numbers(table.across):
            size = size_of(table, options)
            asked = (
                f"the stations from {float(min(table.across)):g} to {float(max(table.across)):g} are 1 apart: if these are numbers of "
                "stations and not metres, give --spacing with the mm between two (and --from-fore where they count from the fore end)"
            )
            if options.unit != "m" and not size.is_of_a_hull():
                raise BadTable(f"{asked}. Else the hull would be {size}; give --unit m if it is")
            say(asked)
        unit = said_unit("x", table.across, options.unit, table.labels[0])
        x = [number * unit for number in table.across]
    if options.from_fore:
        x = [max(x) - one for one in x]
        say("x: counted from the fore end in the table, turned round")
    elif min(x) < 0:
        say(f"x: some are below 0; {float(-min(x)):g} mm were added to all, so that the aftmost station is at 0")
        x = [one - min(x) for one in x]
    return x


def points_of(table, options):
    """The rows of the offset file, stations from aft to fore, points from the lowest to the highest."""
    rounding = Rounding()
    x = [rounding.whole(one) for one in x_of(table, options)]
    unit = said_unit("height", table.down, options.unit, table.labels[1])
    z = [rounding.whole(one * unit) for one in table.down]
    if min(z) < 0:
        raise BadTable(f"a waterline is {-min(z)} mm below the base; add that to all heights, and to the drafts of the job")
    unit = Fraction(said_unit("half-breadth", table.breadths(), options.unit), 2 if options.full else 1)
    points = []
    for at in sorted(range(len(x)), key=x.__getitem__):
        for row in sorted(range(len(z)), key=z.__getitem__):
            if table.cells[row][at] is not None:
                points.append((x[at], rounding.whole(table.cells[row][at] * unit), z[row]))
    say(f"rounded to whole mm: {rounding.count} lengths, by {float(rounding.most):g} mm at the most")
    return points


def checked(points, table):
    for name, numbers in (("station", table.across), ("waterline", table.down)):
        twice = next((one for one in numbers if numbers.count(one) > 1), None)
        if twice is not None:
            raise BadTable(f"{name} {float(twice):g} comes twice")
    below = next((point for point in points if point[1] < 0), None)
    if below is not None:
        raise BadTable(f"the half-breadth at x {below[0]}, height {below[2]} is below 0")
    return points


def offsets_of(options):
    text = text_of(options.table)
    separator = separator_of(text)
    rows, changed = with_points(rows_of(text, separator))
    rows, titles = without_titles(rows)
    name = {";": "semicolons", "\t": "tabs", ",": "commas"}[separator]
    say(f"cells are parted by {name}, with a decimal {'comma' if changed else 'point'}")
    if titles:
        say(f"the header is row {rows[0][0]}; what stands above it was passed over")
    table = table_of(rows)
    found, rule = stations_are_across(table, options)
    say(f"stations: in {'columns' if found else 'rows'}, {rule}")
    table = table if found else table.turned()
    points = checked(points_of(table, options), table)
    say(f"the hull is {size_of(table, options)}")
    return points


def at_least_one(word):
    if not re.fullmatch("[0-9]{1,6}", word) or int(word) < 1:
        raise argparse.ArgumentTypeError(f"{word!r} isn't a whole number of mm from 1")
    return int(word)


def arguments():
    parser = argparse.ArgumentParser(description=__doc__, formatter_class=argparse.RawDescriptionHelpFormatter)
    parser.add_argument("table", metavar="TABLE", help="a file, or - for the input")
    parser.add_argument("--stations", choices=["columns", "rows"], help="whether the header or the first column has the stations")
    parser.add_argument("--unit", choices=["m", "mm"], help="the unit of all lengths")
    parser.add_argument("--spacing", type=at_least_one, metavar="MM", help="the stations are numbers, so many mm apart")
    parser.add_argument("--from-fore", action="store_true", help="x is counted from the fore end")
    parser.add_argument("--full", action="store_true", help="the cells are full breadths")
    return parser.parse_args()


def main():
    try:
        points = offsets_of(arguments())
    except BadTable as why:
        say(why)
        return 1
    sys.stdout.write("".join(f"{x},{y},{z}\n" for x, y, z in points))
    say(f"{len({x for x, _, _ in points})} stations, {len(points)} points")
    return 0


if __name__ == "__main__":
    output.run(main)
