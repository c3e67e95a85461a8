#!/usr/bin/env python3
"""Makes a booklet of a report: one HTML page that prints on A4.

    tools/booklet.py REPORT [--offsets OFFSETS] [--job JOB] > booklet.html
    tools/booklet.py REPORT [--job JOB] --gz > gz.svg

The page stands alone: its drawings and styles are within it, it runs no script and asks for nothing. It has a chapter for
each table of the report: hydrostatics, Bonjean curves, cross curves, loading, levers with the criteria, damage cases,
floodable lengths, and the report's lines at the end. Every figure is the report's own interval, with a short form
beside it. With --offsets the first page has the ship's particulars and body plan; with --job the items of the loading, the
names of damage cases, and the degree of downflooding up to which C2 and C3 count (Python 3.11 or later). The first page has
the SHA-256 of each file that was given. --gz writes the levers and the criteria alone, as a picture.

Ends with 1 and the number of the line where a line is outside the grammar, and with 1 and the line itself where there
is a `refused` or a `fault` line in place of a report. A report that was cut is shown as far as it goes; the first page and
standard error say so.
"""

import argparse
import hashlib
import html
import pathlib
import sys

sys.dont_write_bytecode = True

import booklet_criteria  # noqa: E402
import booklet_pages  # noqa: E402
import booklet_plots  # noqa: E402
import output  # noqa: E402
import printed_marks  # noqa: E402
import report_lines  # noqa: E402
import report_svg  # noqa: E402

try:
    import tomllib
except ImportError:  # before Python 3.11
    tomllib = None

UNKNOWN = (
    "Without --job the openings aren't known: if one is under water before 40 degrees, C2 and C3 count to a smaller degree, and "
    "the marks say so."
)
STYLE = """
@page { size: A4; margin: 16mm 14mm; }
* { box-sizing: border-box; }
body { font: 9.5pt/1.35 "Helvetica Neue", Arial, "Liberation Sans", "DejaVu Sans", sans-serif; color: #1a1a1a; max-width: 182mm; margin: 0 auto; }
h1 { font-size: 19pt; margin: 0 0 1mm; color: #163f66; }
h1 + p { margin: 0 0 4mm; color: #555; }
h2 { font-size: 14pt; color: #163f66; border-bottom: 0.6pt solid #163f66; padding-bottom: 1mm; margin: 0 0 3mm; }
h3 { font-size: 10.5pt; margin: 5mm 0 1.5mm; color: #163f66; }
h2, h3 { break-after: avoid; }
section { break-before: page; padding-top: 2mm; }
table { border-collapse: collapse; width: 100%; margin: 0 0 3mm; font-variant-numeric: tabular-nums; }
thead { display: table-header-group; }
tr, svg, li, .verdict { break-inside: avoid; }
th { text-align: left; font-weight: 600; background: #e9eff5; border-bottom: 0.6pt solid #163f66; }
th, td { padding: 0.7mm 1.4mm; vertical-align: top; font-size: 8.5pt; }
td { border-bottom: 0.3pt solid #ccd; }
table.numbers td:not(:first-child), table.numbers th:not(:first-child) { text-align: right; }
table.wide td:first-child { color: #444; }
i.f { font: 6.1pt/1.2 "DejaVu Sans Mono", "Liberation Mono", monospace; color: #444; }
td > i.f { display: block; }
table.dense i.f { font-size: 5.4pt; }
.levels i.f { display: block; }
h3.page { break-before: page; }
.whole { break-inside: avoid; }
.beside { display: grid; grid-template-columns: 1fr 1fr; gap: 5mm; align-items: start; } .beside h3 { margin-top: 0; }
code { font: 6.8pt "DejaVu Sans Mono", "Liberation Mono", monospace; }
ul { margin: 0; padding-left: 4.5mm; } li { margin-bottom: 0.8mm; font-size: 8.5pt; }
.note { font-size: 7.5pt; color: #555; margin: 1mm 0 3mm; }
.verdict { font-size: 11pt; padding: 2mm 3mm; border-left: 1.6mm solid; margin: 0 0 3mm; }
.good { color: #1b6b34; } .bad { color: #a32020; } .open { color: #8a6100; }
.verdict.good { background: #e8f4ea; } .verdict.bad { background: #faeaea; } .verdict.open { background: #fbf3df; }
svg { display: block; width: 100%; height: auto; }
svg.plan { max-width: 112mm; margin: 0 auto; }
.panels { display: grid; grid-template-columns: 1fr 1fr 1fr; gap: 1mm; } .panels.two { grid-template-columns: 1fr 1fr; }
pre { font: 5.5pt/1.4 "DejaVu Sans Mono", "Liberation Mono", monospace; margin: 0; white-space: pre-wrap; word-break: break-word; orphans: 4; widows: 4; }
pre.columns { columns: 2; column-gap: 3mm; }
@media screen { body { padding: 8mm; } section { margin-top: 10mm; } }
"""


def read_bytes(name):
    try:
        return sys.stdin.buffer.read() if name == "-" else pathlib.Path(name).read_bytes()
    except OSError as fault:
        sys.exit(f"{name}: {fault.strerror}")


def job_of(name):
    """The keys of a job file."""
    if tomllib is None:
        sys.exit(f"{name}: a job is read with Python 3.11 or later")
    try:
        job = tomllib.loads(read_bytes(name).decode("utf-8-sig"))
    except ValueError as fault:
        sys.exit(f"{name}: {fault}")
    for key in ("item", "opening", "compartment", "damage"):
        entries = job.get(key, [])
        if not isinstance(entries, list) or not all(isinstance(entry, dict) for entry in entries):
            sys.exit(f"{name}: {key} isn't an array of tables; hullcert says why it is refused")
    for key in ("density", "length_bp"):
        if not isinstance(job.get(key), int):
            sys.exit(f"{name}: {key} isn't a whole number; hullcert says why it is refused")
    return job


def flooding_of(lines, job):
    """The degree up to which C2 and C3 count, how it is said, and a note."""
    arms = sorted((int(words[1]), (int(words[2]), int(words[3]))) for words in lines if words[0] == "arm")
    if job is None or len(arms) != 91:
        return (40, "40°"), UNKNOWN
    openings = [(opening.get("y", 0), opening.get("z", 0)) for opening in job.get("opening", [])]
    leaks = printed_marks.Leaks(openings, [found for _, found in arms])
    if leaks.most == 40 and len(leaks.candidates) == 1:
        return (40, "40°"), f"None of the {len(openings)} openings of the job is under water up to 40 degrees."
    if len(leaks.candidates) > 1:
        degrees = ", ".join(map(str, leaks.candidates))
        said = f"The degree of downflooding is one of {degrees}; the areas here are to the greatest, the marks take all."
    else:
        said = f"An opening of the job is under water at {leaks.most + 1} degrees: areas count to {leaks.most}."
    return (leaks.most, f"{leaks.most}° (downflooding)"), said


def sums_of(names):
    """Each file with its size and its SHA-256."""
    found = [(pathlib.Path(name).name, read_bytes(name)) for name in names if name and name != "-"]
    return [(name, len(content), hashlib.sha256(content).hexdigest()) for name, content in found]


def page(title, subtitle, parts):
    head = f'<meta charset="utf-8"/><title>{html.escape(title)}</title><style>{STYLE}</style>'
    top = f"<h1>{html.escape(title)}</h1><p>{html.escape(subtitle)}</p>"
    return "\n".join(["<!DOCTYPE html>", f'<html lang="en"><head>{head}</head><body>', top, *parts, "</body></html>", ""])


def gz_rows(rows):
    """The rows of the criteria for the sheet of GZ."""
    for row in rows:
        name = f"{row.criterion}{' ' + row.side if row.side else ''}"
        asked = f"≥ {row.required}" if row.required[0].isdigit() else "≥ before 25°"
        text = row.text.split(";")[0]
        paragraph, attained, margin = booklet_criteria.PARAGRAPHS[row.criterion], str(row.attained or "–"), str(row.margin or "–")
        yield tuple(map(html.escape, (name, paragraph, text, attained, asked, margin, row.mark)))


def gz_sheet(lines, rows, name):
    curves = {curve: found for curve, found in report_svg.arm_curves(lines) if found.points}
    verdict = booklet_criteria.verdict_of(lines)
    if not curves or not verdict:
        sys.exit(f"{name}: it has no levers; a report of stability or all has")
    title = html.escape(f"{pathlib.Path(name).stem}: verdict {' '.join(verdict[1:])}")
    return booklet_plots.gz_sheet(curves, title, list(gz_rows(rows))) + "\n"


def booklet(given, lines, job, rows, note):
    stations = report_svg.stations_of(given.offsets, lines) if given.offsets else []
    others = booklet_pages.other_lines(lines)
    title = f"Hydrostatics and stability: {pathlib.Path(given.offsets or given.report).stem}"
    subtitle = "A booklet of certified intervals, from a report of hullcert"
    subtitle += f"; lines {', '.join(others)} stand at the end alone" if others else ""
    parts = [
        *booklet_pages.front(lines, stations, job, sums_of([given.report, given.offsets, given.job]), report_lines.lack_of(lines)),
        *booklet_pages.hydrostatics(lines, stations),
        *booklet_pages.bonjean(lines),
        *booklet_pages.cross(lines),
        *booklet_pages.loading(lines, job),
        *booklet_pages.stability(lines, rows, note),
        *booklet_pages.damage(lines, stations, job),
        *booklet_pages.floodable(lines, stations, job),
        *booklet_pages.whole_report(lines),
    ]
    return page(title, subtitle, parts)


def main():
    reader = argparse.ArgumentParser(description=__doc__, formatter_class=argparse.RawDescriptionHelpFormatter)
    reader.add_argument("report", metavar="REPORT", help="a file, or - for the input")
    reader.add_argument("--offsets", metavar="OFFSETS", help="the hull's offset file, for the particulars and the body plan")
    reader.add_argument("--job", metavar="JOB", help="the job file, for the items, the names and the openings")
    reader.add_argument("--gz", action="store_true", help="a picture of the levers and the criteria alone")
    given = reader.parse_args()
    lines = report_lines.read(given.report)
    job = job_of(given.job) if given.job else None
    flooding, note = flooding_of(lines, job)
    rows = booklet_criteria.rows_of(lines, flooding)
    text = gz_sheet(lines, rows, given.report) if given.gz else booklet(given, lines, job, rows, note)
    sys.stdout.buffer.write(text.encode("utf-8", "replace"))


if __name__ == "__main__":
    output.run(main)
