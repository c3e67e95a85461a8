#!/usr/bin/env python3
"""Writes the offsets of Wigley's hull, and holds the program's volume against the closed form.

    tools/wigley.py offsets STATIONS POINTS > wigley.csv
    tools/wigley.py table COMMAND..         # runs COMMAND.. hydro JOB OFFSETS for each grid of the README's table

The hull is y = B/2 (1 - (2x/L)²) (1 - (z/T)²), x from -L/2 to L/2 and z from 0 down to T, with L 100 m, B 10 m and T 6.25 m.
Its volume below z = 0 is 4/9 L B T. Stations stand at equal distances, and points at equal heights; half-breadths are
rounded to whole mm.
"""

import argparse
import re
import subprocess
import sys
import tempfile
from collections.abc import Callable
from fractions import Fraction
from pathlib import Path

sys.dont_write_bytecode = True

import output  # noqa: E402

LENGTH, BREADTH, DRAFT = 100_000, 10_000, 6_250
GRIDS = [(11, 6), (21, 6), (21, 11), (41, 16), (64, 32)]
JOB = f"version = 1\ndensity = 1025\nlength_bp = {LENGTH}\ndrafts = [{DRAFT}]\n"


def half_breadth(x: Fraction, height: Fraction) -> Fraction:
    """At x from the aft end and a height above the keel, in mm."""
    along = 1 - (2 * x / LENGTH - 1) ** 2
    across = 1 - (1 - height / DRAFT) ** 2
    return Fraction(BREADTH, 2) * along * across


def offsets(stations: int, points: int) -> str:
    rows = []
    for i in range(stations):
        x = round(Fraction(LENGTH * i, stations - 1))
        for k in range(points):
            height = round(Fraction(DRAFT * k, points - 1))
            rows.append(f"{x},{round(half_breadth(Fraction(x), Fraction(height)))},{height}")
    return "\n".join(rows) + "\n"


def volume_of(report: str) -> tuple[Fraction, Fraction]:
    """The ends of the volume in m³ of the report's hydro line."""
    line = next(line for line in report.splitlines() if line.startswith("hydro "))
    low, high = re.fullmatch(r"\[(.*),(.*)\]", line.split(" ")[2]).groups()
    return Fraction(low), Fraction(high)


def run(command: list[str], job: Path, hull: Path) -> str:
    try:
        done = subprocess.run([*command, "hydro", str(job), str(hull)], stdout=subprocess.PIPE, text=True)
    except OSError as fault:
        sys.exit(f"{command[0]}: {fault.strerror}")
    if done.returncode:
        sys.exit(f"{' '.join(command)} ended with status {done.returncode}: {done.stdout.strip()}")
    return done.stdout


def table(command: list[str]) -> None:
    exact = Fraction(4 * LENGTH * BREADTH * DRAFT, 9 * 10**9)
    print(f"closed form: {float(exact):.6f} m³")
    with tempfile.TemporaryDirectory() as folder:
        job, hull = Path(folder, "job.toml"), Path(folder, "hull.csv")
        job.write_text(JOB)
        for stations, points in GRIDS:
            hull.write_text(offsets(stations, points))
            low, high = volume_of(run(command, job, hull))
            less = float((exact - (low + high) / 2) / exact * 100)
            print(f"{stations} by {points}: [{float(low):.6f},{float(high):.6f}], {less:.3f} % less")


def within(low: int, high: int) -> Callable[[str], int]:
    """Reads a whole number that hullcert takes."""

    def read(word: str) -> int:
        if not word.isascii() or not word.isdigit() or not low <= int(word) <= high:
            raise argparse.ArgumentTypeError(f"{word!r} isn't a whole number from {low} to {high}")
        return int(word)

    return read


def main() -> None:
    parser = argparse.ArgumentParser(description=__doc__, formatter_class=argparse.RawDescriptionHelpFormatter)
    forms = parser.add_subparsers(dest="form", required=True)
    writes = forms.add_parser("offsets", help="writes the offsets of a grid")
    writes.add_argument("stations", metavar="STATIONS", type=within(3, 64))
    writes.add_argument("points", metavar="POINTS", type=within(2, 32))
    compares = forms.add_parser("table", help="runs the program on each grid")
    compares.add_argument("command", metavar="COMMAND", nargs="+", help="as ./hullcert")
    given = parser.parse_args()
    if given.form == "offsets":
        sys.stdout.write(offsets(given.stations, given.points))
    else:
        table(given.command)


if __name__ == "__main__":
    output.run(main)
