"""What is refused of an offset file, read anew: the line that the program is to print in place of a report, or none.

The phases and their order are those of docs/DEFINITIONS.md, "The offset file". `read(content)` gives that line, or the
stations where the file is accepted. For tools that try the program on many files; it shares no code with it.
"""

from typing import NamedTuple, Optional

import offset_rows

LONGEST = 1048576
LIMITS = (524287, 65535, 65535)  # of x, half-breadth and height
FEWEST_STATIONS, MOST_STATIONS, MOST_POINTS = 3, 64, 32


class Reading(NamedTuple):
    """A `refused` line, or None and the stations."""

    refusal: Optional[str]
    stations: list


class RowFault(Exception):
    """The first fault of the rows."""


def read(content):
    if len(content) > LONGEST:
        return Reading("refused long offsets", [])
    try:
        stations = offset_rows.stations_of(sound_rows(offset_rows.each_row(content)))
    except RowFault as fault:
        return Reading(f"refused offsets {fault}", [])
    fault = fault_of_heights(stations) or fault_of_number(stations) or fault_of_points(stations)
    return Reading(f"refused offsets {fault}", []) if fault else Reading(None, stations)


def sound_rows(rows):
    """The rows as they come; raises a row's fault: columns, number, negative, range, backwards."""
    before = 0
    for row in rows:
        fault = fault_of_fields(row.fields, before)
        if fault:
            word, *column = fault
            raise RowFault(" ".join(map(str, [word, row.number, *column])))
        before = int(row.fields[0])
        yield row


def fault_of_fields(fields, before):
    if len(fields) != 3:
        return ("columns",)
    numbers = []
    for column, field in enumerate(fields, start=1):
        if not offset_rows.is_number(field):
            return "number", column
        numbers.append(int(field))
    if min(numbers) < 0:
        return "negative", next(column for column, number in enumerate(numbers, start=1) if number < 0)
    for column, (number, limit) in enumerate(zip(numbers, LIMITS), start=1):
        if number > limit:
            return "range", column
    return ("backwards",) if numbers[0] < before else None


def fault_of_heights(stations):
    """Heights rise; several points may stand at a station's lowest and at its highest height."""
    for station in stations:
        heights = [point.z for point in station.points]
        top = len(heights) - 1  # where the points of the highest height begin, if all before rise
        while top and heights[top - 1] == heights[-1]:
            top -= 1
        for at in range(1, len(heights)):
            level = heights[at] == heights[at - 1]
            if heights[at] < heights[at - 1] or (level and heights[at] != heights[0] and at - 1 < top):
                return f"height {station.points[at].row}"
    return None


def fault_of_number(stations):
    if len(stations) < FEWEST_STATIONS:
        return f"fewstations {len(stations)}"
    if len(stations) > MOST_STATIONS:
        return f"toomanystations {stations[MOST_STATIONS].points[0].row}"
    return None


def fault_of_points(stations):
    for at, station in enumerate(stations):
        if len(station.kept) < 2 and 0 < at < len(stations) - 1:
            return f"fewpoints {station.points[0].row}"
        if len(station.kept) > MOST_POINTS:
            return f"toomanypoints {station.points[0].row}"
    if not any(point.y for station in stations for point in station.kept):
        return "novolume"
    return None
