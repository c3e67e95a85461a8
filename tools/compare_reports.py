#!/usr/bin/env python3
"""Holds the built program's hydro and bonjean reports against an independent checker.

The hulls are random ones of five sizes, from a few mm to the limits, and the examples' offset files, changed as
tools/mutate_offsets.py does; the jobs have random drafts and water, or are the cargo job broken as
tools/compare_jobs.py does. So right reports and refusals both come. The checker is a Python package `oracle` with a
function `oracle.check.check_run(words, files, content, status)`; its folder is given.

    tools/compare_reports.py --checker FOLDER [--count 1000] [--seed 1] [--program PATH]

Prints what differs, then counts; ends with 1 where anything differed.
"""

import argparse
import collections
import pathlib
import random
import subprocess
import sys
import tempfile

sys.dont_write_bytecode = True

import checker  # noqa: E402
import output  # noqa: E402
from compare_jobs import broken  # noqa: E402
from mutate_offsets import mutated  # noqa: E402

TOP = pathlib.Path(__file__).resolve().parent.parent

# The greatest x, half-breadth and height of a hull, and how far its stations may spread.
SIZES = [(5, 3, 6, 5), (200, 50, 60, 200), (50000, 300, 65535, 50000), (120000, 12000, 15000, 120000), (524287, 65535, 65535, 1000)]


def random_hull(chance):
    """An offset file, and its greatest height."""
    last, breadth, height, spread = chance.choice(SIZES)
    places = sorted(chance.sample(range(last - spread, last + 1), chance.randint(3, min(6, spread + 1))))
    rows = []
    for x in places:
        few = 1 if x in (places[0], places[-1]) else 2
        for z in sorted(chance.sample(range(height + 1), chance.randint(few, min(7, height)))):
            y = chance.choice([0, breadth, chance.randint(0, breadth), chance.randint(0, breadth)])
            rows.append(f"{x},{y},{z}")
    return ("\n".join(rows) + "\n").encode(), height


def random_job(chance, height):
    drafts = [chance.choice([0, 1, height, height + 1, 131071, chance.randint(0, height)]) for _ in range(chance.randint(0, 6))]
    length = chance.choice([1, 100000, chance.randint(1, 524287)])
    return f"version = 1\ndensity = {chance.randint(500, 2000)}\nlength_bp = {length}\ndrafts = {drafts}\n".encode()


def main():
    parser = argparse.ArgumentParser(description=__doc__.splitlines()[0])
    parser.add_argument("--checker", required=True, help="the folder that holds the package oracle")
    parser.add_argument("--program", default=str(TOP / "crates" / "hull_cli" / "out" / "hull_cli"))
    parser.add_argument("--count", type=int, default=1000)
    parser.add_argument("--seed", type=int, default=1)
    given = parser.parse_args()
    checker.need_program(given.program)
    (check_run,) = checker.load(given.checker, "check", "check_run")
    examples = [(TOP / "examples" / f"{name}.csv").read_bytes() for name in ("barge", "wedge", "cargo")]
    cargo_job = (TOP / "examples" / "cargo.toml").read_text().splitlines()
    chance = random.Random(given.seed)
    outcomes = collections.Counter()
    checks = differences = 0
    with tempfile.TemporaryDirectory() as folder:
        for number in range(given.count):
            hull, height = random_hull(chance) if chance.random() < 0.7 else (mutated(chance.choice(examples), chance), 12000)
            job = random_job(chance, height) if chance.random() < 0.7 else broken(cargo_job, chance)
            (pathlib.Path(folder) / "hull.csv").write_bytes(hull)
            (pathlib.Path(folder) / "job.toml").write_bytes(job)
            words = [chance.choice(["hydro", "bonjean"]), "job.toml", "hull.csv"]
            run = subprocess.run([given.program, *words], cwd=folder, capture_output=True, check=False)
            found = check_run(words, {"job.toml": job, "hull.csv": hull}, run.stdout, run.returncode)
            checks += found.checks
            outcomes[b" ".join(run.stdout.split(b"\n")[0].split()[:3]).decode()] += 1
            if found.failures:
                differences += 1
                print(f"{number}: {words} {job!r} {hull!r}: {run.returncode} {run.stdout[:400]!r}: {found.failures[:3]}")
    for outcome, count in sorted(outcomes.items()):
        print(f"{count:6} {outcome}")
    print(f"{given.count} runs, {checks} checks, {differences} runs with differences")
    return 1 if differences else 0


if __name__ == "__main__":
    output.run(main)
