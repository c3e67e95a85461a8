"""The ship of `make`, by "Made hull and job" of docs/DEFINITIONS.md alone: for check_report.py."""

from exact_hull import Station
from ship_job import Job

STATES = 2 ** 32
STATIONS, SPACING = 41, 2500  # mm
POINTS, RISE = 16, 600  # mm


def draws(seed):
    """The draws of a seed, without end; each is from 0 to 99."""
    state = seed
    while True:
        state = (state * 1664525 + 1013904223) % STATES
        yield state // 65536 % 100


def made_stations(seed):
    """The stations from aft to fore: fuller towards the middle and upwards, and a draw for each point."""
    drawn, last = draws(seed), STATIONS - 1
    return [
        Station(SPACING * i, [(100 * (min(i, last - i, 10) + 1) * (min(j, 7) + 1) + next(drawn), RISE * j) for j in range(POINTS)])
        for i in range(STATIONS)
    ]


def made_job():
    item = {"mass": 4000000, "x": 50000, "z": 5000}
    middle = (40000, 60000, 850)
    return Job(
        version=1, density=1025, length_bp=100000, margin=76, drafts=[4500], displacements=[], items=[item], openings=[],
        cases=[(middle,)], centres=[], step=2, permeability=0,
    )
