"""The hulls and jobs that bench/compare measures: the cargo ship, a fine hull, and the heaviest job that is taken."""

import pathlib
import sys
from typing import NamedTuple

TOP = pathlib.Path(__file__).resolve().parent.parent
sys.path.append(str(TOP / "tools"))

import large_ship  # noqa: E402
import wigley  # noqa: E402

STATIONS, POINTS = 64, 32
HEAD = f"version = 1\ndensity = 1025\nlength_bp = {wigley.LENGTH}\n"


class Ship(NamedTuple):
    """What it is called, and its files."""

    name: str
    job: pathlib.Path
    offsets: pathlib.Path


def ships_in(folder):
    """The ships by short names, with their files written to a folder."""
    job, offsets = pathlib.Path(folder, "fine.toml"), pathlib.Path(folder, "fine.csv")
    job.write_text(fine_job())
    offsets.write_text(wigley.offsets(STATIONS, POINTS))
    examples, largest = TOP / "examples", large_ship.write(folder)
    return {
        "cargo": Ship("The cargo ship", examples / "cargo.toml", examples / "cargo.csv"),
        "fine": Ship("64 stations by 32 points, 64 drafts", job, offsets),
        "heaviest": Ship("The heaviest job", *map(pathlib.Path, largest)),
    }


def tables(name, rows):
    """Tables of an array, each of its keys; names are numbered."""
    texts = []
    for number, row in enumerate(rows, start=1):
        keys = "".join(f"{key} = {value}\n" for key, value in row.items())
        texts.append(f'[[{name}]]\nname = "{name}{number}"\n{keys}')
    return "".join(texts)


def spread(low, high, count):
    """Whole numbers from one to another at equal distances."""
    return [low + (high - low) * i // (count - 1) for i in range(count)]


def fine_job():
    """64 drafts, and for the rest as much as the cargo ship's job has."""
    items = [{"mass": 100000, "x": 45000 + 1000 * i, "z": 2000 + 100 * i} for i in range(12)]
    slabs = [(10000, 25000, 850), (25000, 50000, 700), (50000, 60000, 700)]
    return (
        f"{HEAD}drafts = {spread(100, wigley.DRAFT, 64)}\ndisplacements = [1200000, 1800000]\n"
        + tables("item", items)
        + tables("opening", [{"y": 3000, "z": 6500}, {"y": 1500, "z": 7000}])
        + tables("compartment", [{"from": aft, "to": fore, "permeability": part} for aft, fore, part in slabs])
        + tables("damage", [{"flooded": '["compartment1"]'}, {"flooded": '["compartment3"]'}])
        + "[floodable]\ncentres = [40000, 60000]\nstep = 1000\npermeability = 800\n"
    )
