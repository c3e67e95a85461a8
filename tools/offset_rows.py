"""The rows of an offset file, as the program reads them, and the stations that they make.

For tools that say something of a file: what is refused or accepted is decided by the program alone.
"""

import csv
import io
import re
from typing import NamedTuple

NUMBER = re.compile(r"-?[0-9]{1,9}\Z")
THOUSANDS = re.compile(r"[+-]?[0-9]{1,3}[.][0-9]{3}\Z")
MOST_METRES = {"x": 500, "half-breadth": 65, "height": 65}  # of no ship is more given in metres
csv.field_size_limit(2 ** 31 - 1)


class Row(NamedTuple):
    """A record of the file: its number from 1, the file's line that it ends in, its fields and its text."""

    number: int
    line: int
    fields: list
    text: str


class Point(NamedTuple):
    """A point of a station in mm, with the number of its row."""

    row: int
    y: int
    z: int


class Station(NamedTuple):
    """A station's x in mm, its points, those that are kept, and those that the rule of flat bottoms and decks drops."""

    x: int
    points: list
    kept: list
    dropped: list


def rows_of(content):
    """The rows of a file's bytes; empty lines are no rows."""
    return list(each_row(content))


def each_row(content):
    text = content.removeprefix(b"\xef\xbb\xbf").decode("latin-1").replace("\0", "\ufffd")
    lines = io.StringIO(text, newline=None)
    reader = csv.reader(lines)
    number = 0
    for fields in reader:
        if fields:
            number += 1
            yield Row(number, reader.line_num, fields, ",".join(fields))


def is_number(field):
    return NUMBER.match(field.strip(" \t")) is not None


def parting_thousands(texts, most):
    """A number among those of one kind whose point may part thousands: it has three decimals, and a greater one has none."""
    pointed = [text for text in texts if "." in text]
    three = [text for text in pointed if THOUSANDS.match(text)]
    whole = max((float(text) for text in texts if "." not in text), default=0)
    is_decimal = any(re.match("[+-]?[0-9]{4,}[.]", text) for text in pointed)
    if three and not is_decimal and whole > max(map(float, three)) and (whole > most or len(three) == len(pointed)):
        return three[0]
    return None


def stations_of(rows):
    """The stations of rows that each have three numbers."""
    groups = []
    for row in rows:
        x, y, z = (int(field) for field in row.fields)
        if not groups or groups[-1][0] != x:
            groups.append((x, []))
        groups[-1][1].append(Point(row.number, y, z))
    return [station_of(x, points) for x, points in groups]


def station_of(x, points):
    kept, dropped = list(points), []
    while len(kept) > 1 and kept[0].z == kept[1].z:
        dropped.append(kept.pop(0))
    while len(kept) > 1 and kept[-1].z == kept[-2].z:
        dropped.append(kept.pop())
    return Station(x, points, kept, dropped)
