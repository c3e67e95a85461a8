#!/usr/bin/env python3
"""Writes the tables of a report as comma-separated text.

    tools/report_csv.py REPORT [--table NAME] [--out FOLDER]

A table has one row for each line of its name: hydro, section, cross, load, upright, arm, mark, damage, safe, next. Of a
job of version 2 the tables load and arm have the columns of both sides. Each figure takes two columns, its low and its
high end, as printed; an absent figure leaves both empty. With --out each table that has rows is written to
FOLDER/NAME.csv; otherwise one table (--table, or the only one that has rows) goes to the output. Ends with 1 and the number of the line where a line is outside the grammar, and with 1 and the line itself
where there is a `refused` or a `fault` line in place of a report. Of a report that was cut, standard error says so.
"""

import argparse
import csv
import io
import pathlib
import sys

sys.dont_write_bytecode = True

import output  # noqa: E402
import report_lines  # noqa: E402

SIDES = ["a1", "a2", "f1", "f2"]


def both(name):
    return [f"{name}_low", f"{name}_high"]


HYDRO = ["volume_m3", "displacement_t", "lcb_m", "kb_m", "area_m2", "lcf_m", "bmt_m", "bml_m", "kmt_m", "tpc_t_cm", "mct_tm_cm"]
HEADS = {
    "hydro": ["draft_mm"] + [end for name in HYDRO for end in both(name)],
    "section": ["station", "x_mm", "draft_mm", *both("area_m2"), *both("moment_m3")],
    "cross": ["mass_kg", "degree", "d1", "d2", *both("kn_m")],
    "load": ["mass_kg", *both("lcg_m"), *both("kg_m")],
    "upright": ["d1", "d2", *both("kb_m"), *both("bm_m"), *both("gm_m")],
    "arm": ["degree", "d1", "d2", *both("gz_m"), *both("area_m_rad")],
    "mark": ["criterion", "finding"],
    "damage": ["case", "end", "side", *SIDES, *both("left_m3")],
    "safe": ["centre_mm", "length_mm", *SIDES],
    "next": ["centre_mm", "length_mm", "reason", "station", *SIDES],
}

# Of jobs of version 2; a row of version 1 has figures to port alone, and no TCG.
SIDED = {
    "load": ["mass_kg", *both("lcg_m"), *both("tcg_m"), *both("kg_m")],
    "arm": ["degree", "d1", "d2", *both("gz_m"), *both("area_m_rad"), *both("starboard_gz_m"), *both("starboard_area_m_rad")],
}


def cells(word):
    """The columns of a word: two for a figure, one for any other."""
    return word[1:-1].split(",") if word.startswith("[") else [word]


def row_of(words):
    name, fields = words[0], words[1:]
    if name == "hydro":
        return [fields[0]] + [end for word in fields[1:] for end in (["", ""] if word == "-" else cells(word))]
    if name == "damage":
        if fields[1] == "sinks":
            return [fields[0], "sinks", "", "", "", "", "", *cells(fields[2])]
        if fields[1] == "nostart":
            return [fields[0], "nostart", fields[2], "", "", "", "", "", ""]
        return [fields[0], "settled", "", *fields[1:], "", ""]
    if name == "safe":
        return [fields[0], "", "", "", "", ""] if fields[1] == "-" else fields
    if name == "next":
        return fields + [""] * (8 - len(fields))
    return [cell for word in fields for cell in cells(word)]


def table_text(rows, name):
    text = io.StringIO()
    head = SIDED[name] if any(len(row) > len(HEADS[name]) for row in rows) else HEADS[name]
    out = csv.DictWriter(text, head, restval="", lineterminator="\n")
    out.writeheader()
    for row in rows:
        out.writerow(dict(zip(head if len(row) == len(head) else HEADS[name], row)))
    return text.getvalue()


def write_all(tables, folder):
    try:
        folder.mkdir(parents=True, exist_ok=True)
        for name, rows in tables.items():
            (folder / f"{name}.csv").write_text(table_text(rows, name))
    except OSError as fault:
        sys.exit(f"{folder}: {fault.strerror}")


def main():
    reader = argparse.ArgumentParser(description=__doc__, formatter_class=argparse.RawDescriptionHelpFormatter)
    reader.add_argument("report", help="a file, or - for the input")
    reader.add_argument("--table", choices=sorted(HEADS), help="the table that goes to the output")
    reader.add_argument("--out", type=pathlib.Path, metavar="FOLDER", help="where each table is written to a file")
    given = reader.parse_args()
    tables = {}
    for words in report_lines.read(given.report):
        if words[0] in HEADS:
            tables.setdefault(words[0], []).append(row_of(words))
    if given.out:
        write_all(tables, given.out)
        return
    names = [given.table] if given.table else list(tables)
    if not names:
        sys.exit(f"{given.report}: no table has rows; has the job drafts or displacements?")
    if len(names) > 1:
        sys.exit(f"{given.report}: tables {', '.join(names)}; choose one with --table, or give --out")
    sys.stdout.write(table_text(tables.get(names[0], []), names[0]))


if __name__ == "__main__":
    output.run(main)
