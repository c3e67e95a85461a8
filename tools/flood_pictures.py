"""Floodable lengths and damage cases as pictures: shapes in the units of their axes, which report_svg.py draws.

`pictures_of(lines, stations)` gives them by name. The stations are those of the offset file, or none where it isn't given.
"""

import itertools
from typing import NamedTuple

UNITS = 1024  # of a level in a mm
LENGTHS = [
    "Filled: the safe lengths. Hollow: the next ones, a step longer, not safe.",
    "The line joins safe lengths: between their centres nothing is certified.",
]
CROSSES = "Crosses: at these centres no length is safe."
ENDS = [
    "Without --offsets the ends of the ship aren't known, and aren't drawn.",
    "Dashed: lengths that just reach an end of the ship; none reaches past it.",
]
LEVELS = "Intervals: the levels at the first station (aft) and the last (forward)."
SINKS = "Sinks: less of the ship's whole volume is left than the load displaces."
PROFILE = [
    "Without --offsets the profile isn't known; 0 and 1 are the end stations.",
    "Profile: the stations' top and lowest points; heights are stretched.",
]


class Shape(NamedTuple):
    """What is drawn: its kind, for which report_svg.py has a stroke or a mark, and its corners, each a place and a value."""

    kind: str
    corners: list


class Picture(NamedTuple):
    """The texts of a picture, its shapes, the corners that its frame has room for besides, and the notes below."""

    across: str
    title: str
    caption: str
    shapes: list
    room: list
    notes: list

    def extent(self):
        """The places and the values that its frame is to hold."""
        corners = [*self.room, *(corner for shape in self.shapes for corner in shape.corners)]
        return [place for place, _ in corners], [value for _, value in corners]


# ---- Floodable lengths


def spots_of(name, lines):
    """The centre and the length in m of each line of a name, by centre; the length is None where none is safe."""
    rows = sorted((int(words[1]), words[2]) for words in lines if words[0] == name)
    return [(centre / 1000, None if length == "-" else int(length) / 1000) for centre, length in rows]


def end_lines(stations, greatest):
    """The lengths that just reach each end of the ship, up to the greatest of the picture, or to where they meet."""
    first, last = stations[0].x / 1000, stations[-1].x / 1000
    height = min(greatest or last - first, last - first)
    return [Shape("end", [(first, 0), (first + height / 2, height)]), Shape("end", [(last, 0), (last - height / 2, height)])]


def length_picture(safe, later, stations):
    """Of the safe lengths over their centres, and of the next ones; a centre without a safe length breaks the line."""
    runs = [list(run) for is_safe, run in itertools.groupby(safe, lambda spot: spot[1] is not None) if is_safe]
    crosses = [(centre, 0) for centre, length in safe if length is None]
    shapes = [
        *(end_lines(stations, max(length or 0 for _, length in safe + later)) if stations else []),
        *(Shape("join", run) for run in runs),
        Shape("next", later),
        Shape("safe", [spot for run in runs for spot in run]),
        Shape("unsafe", crosses),
    ]
    room = [(centre, 0) for centre, _ in safe + later]
    notes = [*LENGTHS, *([CROSSES] if crosses else []), ENDS[bool(stations)]]
    return Picture("centre from x = 0, m", "floodable length, m", "", shapes, room, notes)


# ---- Damage cases


def decimal(count):
    """So many 1/1000 mm in m."""
    return f"{'-' * (count < 0)}{abs(count) // 10 ** 6}.{abs(count) % 10 ** 6:06}"


def metres(low, high):
    """Two levels as an interval in m, rounded outwards."""
    return f"[{decimal(low * 1000 // UNITS)},{decimal(-(-high * 1000 // UNITS))}]"


def caption_of(fields):
    if fields[0] == "sinks":
        return f"the ship sinks: only {fields[1]} m³ are left"
    if fields[0] == "nostart":
        return f"no waterline is found: the search has no start at the {fields[1]} end"
    aft_low, aft_high, fore_low, fore_high = map(int, fields)
    return f"{metres(aft_low, aft_high)} m aft, {metres(fore_low, fore_high)} m forward"


def waterline(fields, first, last):
    """The levels between which the case floats, from the first station to the last and back."""
    aft_low, aft_high, fore_low, fore_high = (int(word) / UNITS / 1000 for word in fields)
    return Shape("water", [(first, aft_low), (last, fore_low), (last, fore_high), (first, aft_high), (first, aft_low)])


def profile(stations):
    """The ship from the side: its deck from aft to fore, and its lowest points back."""
    deck = [(station.x / 1000, station.kept[-1].z / 1000) for station in stations]
    base = [(station.x / 1000, station.kept[0].z / 1000) for station in reversed(stations)]
    return Shape("hull", [*deck, *base, deck[0]])


def case_picture(words, stations):
    first, last = (stations[0].x / 1000, stations[-1].x / 1000) if stations else (0, 1)
    shapes = [profile(stations)] if stations else []
    if len(words) == 6:
        shapes.append(waterline(words[2:], first, last))
    across = "from x = 0, m" if stations else "from the first station to the last"
    title = f"damage case {words[1]}: waterline, m above the base"
    notes = [LEVELS, *([SINKS] if words[2] == "sinks" else []), PROFILE[bool(stations)]]
    return Picture(across, title, caption_of(words[2:]), shapes, [(first, 0), (last, 0)], notes)


def pictures_of(lines, stations):
    """The pictures by name: that of all lengths, and one for each damage line in their order."""
    safe, later = spots_of("safe", lines), spots_of("next", lines)
    cases = [words for words in lines if words[0] == "damage"]
    return {
        **({"floodable": length_picture(safe, later, stations)} if safe + later else {}),
        **{f"damage{number}": case_picture(words, stations) for number, words in enumerate(cases, start=1)},
    }
