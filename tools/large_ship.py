#!/usr/bin/env python3
"""The largest ship and job that hullcert takes, and what each command costs on them.

    tools/large_ship.py write FOLDER                # writes large.csv and large.toml
    tools/large_ship.py measure [--program PATH] [--commands COMMAND..]

The ship is Wigley's hull, drawn out to the greatest length, half-breadth and height: 64 stations of 32 points. The job
has as much of each kind as a job may have, 64 drafts, 16 displacements, 256 items off the centreplane, 64 openings, 64
compartments, 32 damage cases that flood most of them, and 32 centres of floodable lengths at the smallest step.
`measure` prints the seconds on the clock and of the processor, the greatest memory (at least this script's own), the
status and the last line of each command, and ends with 1 where a command didn't write its report.
"""

import argparse
import os
import pathlib
import sys
import tempfile
from fractions import Fraction

sys.dont_write_bytecode = True

import checker  # noqa: E402
import limited_run  # noqa: E402
import output  # noqa: E402
import wigley  # noqa: E402

TOP = pathlib.Path(__file__).resolve().parent.parent
STATIONS, POINTS = 64, 32
LENGTH, HALF_BREADTH, HEIGHT = 524287, 65535, 65535
DRAFTS, DISPLACEMENTS, ITEMS, OPENINGS, COMPARTMENTS, CASES, CENTRES = 64, 16, 256, 64, 64, 32, 32
COMMANDS = ["section", "hydro", "bonjean", "damage", "floodable", "stability", "cross", "all"]
HOURS = 4


def offsets():
    rows = []
    for i in range(STATIONS):
        x = LENGTH * i // (STATIONS - 1)
        for k in range(POINTS):
            height = HEIGHT * k // (POINTS - 1)
            here = wigley.half_breadth(Fraction(x * wigley.LENGTH, LENGTH), Fraction(height * wigley.DRAFT, HEIGHT))
            rows.append(f"{x},{round(here / wigley.BREADTH * 2 * HALF_BREADTH)},{height}\n")
    return "".join(rows)


def tables(kind, count, keys):
    """An array of tables, each with a name and the keys of its number."""
    lines = []
    for n in range(count):
        lines += ["", f"[[{kind}]]", f'name = "{kind}_{n}"', *(f"{key} = {value}" for key, value in keys(n).items())]
    return lines


def flooded(case):
    """The middle compartments, fewer from case to case."""
    names = ", ".join(f'"compartment_{n}"' for n in range(case, COMPARTMENTS - case))
    return f"[{names}]"


def job():
    bound = [LENGTH * n // COMPARTMENTS for n in range(COMPARTMENTS + 1)]
    lines = ["version = 2", "density = 1025", f"length_bp = {LENGTH}"]
    lines += [f"drafts = [{', '.join(str(HEIGHT * n // DRAFTS) for n in range(1, DRAFTS + 1))}]"]
    lines += [f"displacements = [{', '.join(str(115000000 * n) for n in range(1, DISPLACEMENTS + 1))}]"]
    lines += tables("item", ITEMS, lambda n: {
        "mass": 3400000 + n, "x": LENGTH * (64 + n // 2) // 256, "y": 3000 * (n % 2 * 2 - 1), "z": 15000 + 90 * n,
        "free_surface": 500 * n,
    })
    lines += tables("opening", OPENINGS, lambda n: {"y": 300 * n, "z": HEIGHT - 100 * n})
    lines += tables(
        "compartment", COMPARTMENTS, lambda n: {"from": bound[n], "to": bound[n + 1], "permeability": 150 + n}
    )
    lines += tables("damage", CASES, lambda n: {"flooded": flooded(n)})
    centres = ", ".join(str(LENGTH * n // (CENTRES + 1)) for n in range(1, CENTRES + 1))
    lines += ["", "[floodable]", f"centres = [{centres}]", "step = 2", "permeability = 950"]
    return "".join(f"{line}\n" for line in lines)


def write(folder):
    pathlib.Path(folder).mkdir(parents=True, exist_ok=True)
    files = [pathlib.Path(folder, name) for name in ("large.toml", "large.csv")]
    for path, text in zip(files, (job(), offsets())):
        path.write_text(text)
    return [str(path) for path in files]


def measure(program, commands):
    runner, wrong = limited_run.Runner(program, 3600 * HOURS), 0
    with tempfile.TemporaryDirectory() as folder:
        names = write(folder)
        for command in commands:
            run = runner.run([command, names[1], "31", "30000"] if command == "section" else [command, *names])
            last = (run.output.splitlines() or [b""])[-1].decode("ascii", "replace")
            times = f"{run.seconds:8.2f} s, of the processor {run.processor:8.2f} s"
            print(f"{command:9} {times} {run.kib / 1024:7.1f} MiB  status {run.status}  {last}", flush=True)
            wrong += run.status not in (0, 1, 2) or not last.startswith("end ") or run.errors != b""
    return 1 if wrong else 0


def main():
    parser = argparse.ArgumentParser(description=__doc__, formatter_class=argparse.RawDescriptionHelpFormatter)
    forms = parser.add_subparsers(dest="form", required=True)
    writes = forms.add_parser("write", help="writes the two files")
    writes.add_argument("folder", metavar="FOLDER")
    measures = forms.add_parser("measure", help="runs the program on them")
    measures.add_argument("--program", default=str(TOP / "crates" / "hull_cli" / "out" / "hull_cli"))
    measures.add_argument("--commands", nargs="+", choices=COMMANDS, default=COMMANDS, metavar="COMMAND")
    given = parser.parse_args()
    if given.form == "write":
        write(given.folder)
        return 0
    checker.need_program(given.program)
    return measure(os.path.abspath(given.program), given.commands)


if __name__ == "__main__":
    output.run(main)
