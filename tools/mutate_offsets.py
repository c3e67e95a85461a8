#!/usr/bin/env python3
"""Holds the built program against an independent checker on mutated offset files.

Each of the example offset files is changed at random, byte by byte, field by field and row by row. The program's
status and bytes for `section FILE STATION DRAFT` are compared with those that the checker expects. The checker is
a Python package `oracle` with a function `oracle.reference.reference_run(words, files)`; its folder is given.

    tools/mutate_offsets.py --checker FOLDER [--program PATH] [--count 10000] [--seed 1]

Prints a line for each difference, then counts; ends with 1 where there was a difference.
"""

import argparse
import collections
import pathlib
import random
import subprocess
import sys
import tempfile

sys.dont_write_bytecode = True

import checker  # noqa: E402
import output  # noqa: E402

TOP = pathlib.Path(__file__).resolve().parent.parent
FIELDS = [
    b"", b"0", b"-0", b"-1", b"1", b"00000000", b"000000000", b"0000000000", b"65535", b"65536", b"524287",
    b"524288", b"999999999", b"1000000000", b" 7 ", b"\t7", b"7\t ", b"+7", b"- 7", b"--7", b"7.0", b"1e3", b"x",
    b'"7"', b'"7" ', b' "7"', b'"7', b'""', b'"7,8"', b"\xd9\xa3", b"0x7", b"7 7", b"-", b"-000000001",
]
BYTES = b'0123456789,-+ "\t\r\n\x00;x\xef\xbb\xbf'


def change_byte(content, chance):
    at = chance.randrange(len(content) + 1)
    how = chance.randrange(3)
    new = bytes([chance.choice(BYTES)])
    if how == 0:
        return content[:at] + new + content[at:]
    return content[:at] + (new if how == 1 else b"") + content[at + 1:]


def change_field(content, chance):
    rows = content.split(b"\n")
    at = chance.randrange(len(rows))
    fields = rows[at].split(b",")
    fields[chance.randrange(len(fields))] = chance.choice(FIELDS)
    rows[at] = b",".join(fields)
    return b"\n".join(rows)


def nudge_number(content, chance):
    rows = content.split(b"\n")
    at = chance.randrange(len(rows))
    fields = rows[at].split(b",")
    column = chance.randrange(len(fields))
    other = chance.choice(rows).split(b",")
    if chance.random() < 0.5 and column < len(other):
        fields[column] = other[column]
    elif fields[column].isdigit():
        fields[column] = str(int(fields[column]) + chance.choice([-1, 1, 1000, -1000, 65536])).encode()
    rows[at] = b",".join(fields)
    return b"\n".join(rows)


def change_rows(content, chance):
    rows = content.split(b"\n")
    at = chance.randrange(len(rows))
    to = chance.randrange(len(rows))
    how = chance.randrange(5)
    if how == 0:
        del rows[at]
    elif how == 1:
        rows.insert(to, rows[at])
    elif how == 2:
        rows[at], rows[to] = rows[to], rows[at]
    elif how == 3:
        rows = rows[:at]
    else:
        rows.insert(at, rows[at] + b"," if chance.random() < 0.5 else b"")
    return b"\n".join(rows)


def change_file(content, chance):
    how = chance.randrange(4)
    if how == 0:
        return content.replace(b"\n", b"\r\n")
    if how == 1:
        return b"\xef\xbb\xbf" + content
    if how == 2:
        return content[:chance.randrange(len(content) + 1)]
    return content.rstrip(b"\n")


CHANGES = [change_byte, change_field, nudge_number, nudge_number, change_rows, change_rows, change_file]


def mutated(content, chance):
    for _ in range(chance.choice([0, 1, 1, 1, 2, 3, 6])):
        content = chance.choice(CHANGES)(content, chance)
    return content


def main():
    parser = argparse.ArgumentParser(description=__doc__.splitlines()[0])
    parser.add_argument("--checker", required=True, help="the folder that holds the package oracle")
    parser.add_argument("--program", default=str(TOP / "crates" / "hull_cli" / "out" / "hull_cli"))
    parser.add_argument("--count", type=int, default=10000)
    parser.add_argument("--seed", type=int, default=1)
    given = parser.parse_args()
    checker.need_program(given.program)
    (reference_run,) = checker.load(given.checker, "reference", "reference_run")
    examples = [(TOP / "examples" / f"{name}.csv").read_bytes() for name in ("barge", "wedge", "cargo")]
    chance = random.Random(given.seed)
    outcomes = collections.Counter()
    differences = 0
    with tempfile.TemporaryDirectory() as folder:
        path = pathlib.Path(folder) / "hull.csv"
        for number in range(given.count):
            content = mutated(chance.choice(examples), chance)
            station, draft = str(chance.randrange(24)), str(chance.choice([0, 1, 2500, 5000, 9999, 12000, 131071]))
            words = ["section", "hull.csv", station, draft]
            path.write_bytes(content)
            status, expected = reference_run(words, {"hull.csv": content})
            run = subprocess.run([given.program, *words], cwd=folder, capture_output=True, check=False)
            outcomes[b" ".join(expected.split(b"\n")[0].split()[:3]).decode()] += 1
            if (run.returncode, run.stdout) != (status, expected):
                differences += 1
                print(f"{number}: {content!r} {words}: {run.returncode} {run.stdout!r}, expected {status} {expected!r}")
    for outcome, count in sorted(outcomes.items()):
        print(f"{count:6} {outcome}")
    print(f"{given.count} files, {differences} differences")
    return 1 if differences else 0


if __name__ == "__main__":
    output.run(main)
