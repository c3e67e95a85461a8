#!/usr/bin/env python3
"""Tests the launcher and the tools.

    tools/test_tools.py [--after LINE]

The launcher is tried on a small tree with a stand-in for `rt` and for the program; the built program is asked too where
it is there. The last line is `N passed, N failed`; with --after the counts of LINE, of the same form, are added to it.
Ends with 1 where a test failed.
"""

import argparse
import contextlib
import io
import os
import pathlib
import re
import shutil
import subprocess
import sys
import tempfile
import unittest
from decimal import Decimal
from fractions import Fraction
from xml.etree import ElementTree

sys.dont_write_bytecode = True
sys.path.append(str(pathlib.Path(__file__).resolve().parent.parent / "bench"))

import agreement  # noqa: E402
import booklet_criteria  # noqa: E402
import check_input  # noqa: E402
import check_report  # noqa: E402
import exact_hull  # noqa: E402
import flood_pictures  # noqa: E402
import hostile_answers  # noqa: E402
import hostile_files  # noqa: E402
import limited_run  # noqa: E402
import made_ship  # noqa: E402
import offset_faults  # noqa: E402
import offset_rows  # noqa: E402
import printed_marks  # noqa: E402
import refusal_hints  # noqa: E402
import refusal_texts  # noqa: E402
import report_lines  # noqa: E402
import report_svg  # noqa: E402
import report_text  # noqa: E402
import ship_job  # noqa: E402
import ships  # noqa: E402

TOP = pathlib.Path(__file__).resolve().parent.parent
TOOLS = TOP / "tools"
PROGRAM = TOP / "crates" / "hull_cli" / "out" / "hull_cli"
CARGO, CARGO_JOB = TOP / "examples" / "cargo.csv", TOP / "examples" / "cargo.toml"
COUNTS = re.compile(r"([0-9]+) passed, ([0-9]+) failed\b")
REPORT = (
    "hullcert 1 hydro\nhull 3 6\nbody 120000000000000\n"
    "hydro 5000 [10000.000000,10000.000001] [10250.000000,10250.000001] [50.000000,50.000001] [2.500000,2.500001] "
    "[2000.000000,2000.000000] [50.000000,50.000000] [6.666666,6.666667] [166.666666,166.666667] [9.166666,9.166667] "
    "[20.500000,20.500000] [170.833333,170.833334]\n"
    "hydro 12000 [20000.000000,20000.000000] [20500.000000,20500.000000] [50.000000,50.000000] [5.000000,5.000000] "
    "[0.000000,0.000000] - [0.000000,0.000000] - [5.000000,5.000000] [0.000000,0.000000] -\nend 6\n"
)
SECTIONS = "".join(
    f"section {station} {1000 * station} {draft} [{draft}.000000,{draft}.000000] [0.000000000,0.000000000]\n"
    for draft in (1, 2)
    for station in range(5)
) + "end 11\n"
WEDGE = (
    "hullcert 1 hydro\nhull 3 6\nhydro 5000 [2499.999999,2500.000001] [2562.499998,2562.500002] [-49.999999,-49.999999] - "
    "[999.999999,1000.000001] - - - - [10.249999,10.250001] -\nend 4\n"
)
LOADED = "hull 21 121\nbody 101283500000000\nload 8380000 [49.541766,49.541767] [5.958233,5.958234]\n"
DAMAGE = f"hullcert 1 damage\n{LOADED}damage 1 5837189 5837191 9468601 9468603\ndamage 2 8516633 8516635 5644566 5644568\nend 7\n"
LOST = (
    f"hullcert 1 damage\n{LOADED}damage 1 5837189 5837191 9468601 9468603\ndamage 2 sinks [7123.456789,7123.456791]\n"
    "damage 3 nostart fore\ndamage 4 nostart aft\nend 9\n"
)
FLOODABLE = (
    f"hullcert 1 floodable\n{LOADED}safe 30000 29000 12204743 12204746 5602568 5602571\n"
    "next 30000 30000 over 0 12464921 12464923 5562301 5562303\nsafe 60000 31000 7259853 7259854 12020648 12020649\n"
    "next 60000 32000 over 20 7284700 7284701 12257165 12257167\nend 9\n"
)
GAP = (  # the centres in no order, and one of them without a safe length
    f"hullcert 1 floodable\n{LOADED}safe 90000 22000 1 2 3 4\nnext 90000 24000 touch 20 1 2 3 4\nsafe 60000 -\nnext 60000 0 sinks\n"
    "safe 10000 20000 5 6 7 8\nnext 10000 22000 endofship\nsafe 20000 18000 1 2 3 4\nnext 20000 20000 nostart\nend 13\n"
)

MADE = (
    "hullcert 1 make\nhull 41 656\nbody 58970562000000\n"
    "hydro 4500 [3665.992499,3665.992501] [3757.642312,3757.642314] [50.052406,50.052407] [2.829487,2.829488] [1369.217499,1369.217501] "
    "[49.988012,49.988013] [8.035113,8.035114] [208.912027,208.912028] [10.864600,10.864601] [14.034479,14.034481] [78.501667,78.501668]\n"
    "load 4000000 [50.000000,50.000000] [5.000000,5.000000]\n"
    "upright 4784856 4784857 [2.935934,2.935936] [7.545967,7.545968] [5.481901,5.481904]\n"
    f"{''.join(f'mark C{n} holds{chr(10)}' for n in range(1, 7))}"
    "verdict pass\ndamage 1 5618231 5618233 5593077 5593079\nend 15\n"
)

RT = """#!/bin/sh
crate=$(basename "$PWD")
echo "$crate $*" >>"$ROOM/calls"
case $1 in
    version) echo kit-1 ;;
    lib) [ "$crate" != "$FAILS" ] || { echo "fn a: proved"; echo "error: no proof of b"; exit 1; } ;;
    run) mkdir -p out && cp "$ROOM/program" out/hull_cli ;;
    try) shift 4; "$ROOM/program" "$@"; status=$?; echo "run=ended status=$status" >&2; exit "$status" ;;
esac
"""
STAND_IN = """#!/bin/sh
echo "$*" >>"$ROOM/asked"
printf '%s\\n' "${SAYS-end 1}"
exit "${ENDS-0}"
"""


def run(words, **how):
    given = {"capture_output": True, "text": True, "timeout": 60, "stdin": subprocess.DEVNULL, **how}
    return subprocess.run([str(word) for word in words], check=False, **given)


class Room(unittest.TestCase):
    """A test with a folder of its own."""

    def setUp(self):
        self.room = pathlib.Path(tempfile.mkdtemp(prefix="hullcert-tools-"))
        self.addCleanup(shutil.rmtree, self.room, ignore_errors=True)

    def file(self, name, content):
        path = self.room / name
        path.parent.mkdir(parents=True, exist_ok=True)
        path.write_bytes(content if isinstance(content, bytes) else content.encode())
        return path

    def tool(self, name, *words, **how):
        done = run([sys.executable, TOOLS / name, *words], **how)
        self.assertNotIn("Traceback", done.stderr)
        return done


# ---- The table of texts


def spec_of(crate, name):
    return (TOP / "crates" / crate / "specs" / name).read_text(encoding="utf-8")


def fault_forms(reader):
    """The forms of a reader's faults, as the program's specs spell them."""
    places = {"word": "", "place": " 1", "field": " 1 1", "entry": " KEY 1"}
    found = re.findall(rf'{reader}_fault_text .*= (\w+)_text \(codes "(\w+)"\)', spec_of("report_run", "Faults.antt"))
    return [word + places[form] for form, word in found]


def keys_of_specs():
    """The keys of a job as the specs spell them, each behind its table."""
    text = spec_of("job_reader", "Keys.antt")
    words = dict(re.findall(r'word_of (\w+) = codes "(\w+)"', text))
    tables = {key: table for key, table in re.findall(r"table_of (\w+) = (\w+)", text) if table != "Top"}
    return [f"{words[tables[key]]}.{word}" if key in tables else word for key, word in words.items()]


def lines_of_specs():
    """Every line that the program may write in place of a report."""
    lines = ["refused usage", "refused long job", "refused long offsets", "refused station 3", "fault read job", "fault read offsets"]
    lines += ["refused load nomass", "refused load massrange 137438953472", "refused heavy 20500001 120000000000000"]
    lines += [f"refused offsets {form}" for form in fault_forms("offset")]
    for form in fault_forms("job"):
        keys = keys_of_specs() if "KEY" in form else [""]
        lines += [f"refused job {form.replace('KEY', key)}" for key in keys]
    return lines


class Texts(unittest.TestCase):
    def setUp(self):
        self.texts = refusal_texts.load()

    def said(self, line, words=()):
        entry, places = self.texts.entry_of(line.split())
        case = refusal_hints.Case(list(words), places)
        hints = list(refusal_hints.hints(case, entry))
        for name, filled in hints:
            self.texts.fill(f"hint {name}", filled)
        return self.texts.fill(entry, refusal_hints.filled(case, entry, self.texts)), [name for name, _ in hints]

    def test_the_specs_are_read(self):
        self.assertEqual(len(fault_forms("offset")), len(re.findall(r"(?m)^offset_fault_text", spec_of("report_run", "Faults.antt"))))
        self.assertEqual(len(fault_forms("job")), len(re.findall(r"(?m)^job_fault_text", spec_of("report_run", "Faults.antt"))))
        self.assertGreater(len(fault_forms("offset")) + len(fault_forms("job")), 20)
        self.assertGreater(len(keys_of_specs()), 25)
        causes = re.findall(r"(?m)^cause_text \(?(\w+)", spec_of("report_run", "Refusals.antt"))
        self.assertEqual(sorted(causes), ["Heavy", "Job", "Load", "Long", "Offsets", "Station", "Usage"])

    def test_every_refusal_and_fault_has_its_sentence(self):
        for line in lines_of_specs():
            with self.subTest(line):
                self.assertIsNotNone(self.texts.entry_of(line.split()), "no entry")
                text, _ = self.said(line)
                self.assertRegex(text, r"\w.*[.?)]$")

    def test_every_key_has_its_value(self):
        for key in keys_of_specs():
            with self.subTest(key):
                self.assertTrue(self.texts.value_of(key) or key == "top")

    def test_the_tables_of_keys_are_those_of_the_specs(self):
        known = {word if table == "top" else f"{table}.{word}" for table, words in refusal_hints.KEYS.items() for word in words.split()}
        self.assertEqual(known | {"top"}, set(keys_of_specs()) | {"top"})

    def test_no_entry_is_never_used(self):
        refusals = {self.texts.entry_of(line.split())[0] for line in lines_of_specs()}
        self.assertEqual(refusals, {name for name in self.texts.entries if name.split()[0] in ("refused", "fault")})
        source = (TOOLS / "refusal_hints.py").read_text(encoding="utf-8")
        for name in [name.split()[1] for name in self.texts.entries if name.startswith("hint ")]:
            self.assertTrue(f'"{name}"' in source, name)

    def test_the_commands_are_those_of_the_specs(self):
        commands = set(re.findall(r'bytes_eq \w+ \(codes "(\w+)"\)', spec_of("hull_cli", "Words.antt")))
        self.assertEqual(commands, set(refusal_hints.FORMS))
        launcher = (TOP / "hullcert").read_text(encoding="utf-8")
        for command, words in refusal_hints.FORMS.items():
            self.assertTrue(f"    hullcert {command} {' '.join(words)} " in launcher, command)

    def test_words_of_no_form(self):
        for words, hint in [
            (["make", "4294967296"], "seed"), (["make", "1", "2"], "count"), (["hydros", "a", "b"], "command"), (["hydro", "a"], "count"),
            (["hydro", "a\udce4", "b"], "name_bytes"), (["hydro", "-a", "b"], "dash"), (["section", "a", "1", "8.5"], "draft"), (["section", "a", "x", "8"], "station"),
        ]:
            with self.subTest(words):
                self.assertEqual(self.said("refused usage", words)[1], [hint])


CARGO_ROWS = [line.split(",") for line in CARGO.read_text().split()]


def table(rows, mark=","):
    return "".join(mark.join(map(str, row)) + "\n" for row in rows)


def ordered(rows, *places):
    return [[row[place] for place in places] for row in rows]


def metres(rows, point="."):
    return [[f"{int(word) / 1000}".replace(".", point) for word in row] for row in rows]


GROUPED_ROWS = [[f"{int(word):,}" for word in row] for row in CARGO_ROWS]
HALF_BREADTHS = [["x\\z", 0, 1000, 3000, 6000], *([x, 0, 10, 20, 3000] for x in range(0, 50000, 5000))]
KNUCKLE = CARGO_ROWS[:9] + [["5000", "2000", "3000"]] + CARGO_ROWS[9:]


def shifted(by, column=0):
    return [[int(word) + by * (at == column) for at, word in enumerate(row)] for row in CARGO_ROWS]


OFFSET_HINTS = [
    # fields that are too many
    ("columns 1", table([[0, *row] for row in CARGO_ROWS]), "more_columns"), ("columns 1", table([["cargo", *row] for row in CARGO_ROWS]), "more_columns"),
    ("columns 1", "0,0,0,keel\n" + table(CARGO_ROWS[1:]), "more_columns"), ("columns 1", "station,x,y,z\n" + table([[0, *row] for row in CARGO_ROWS]), "header more_columns"),
    ("columns 1", table([[*row, ""] for row in CARGO_ROWS]), "end_comma"), ("columns 122", table(CARGO_ROWS) + ",,,,\n", "empty_row"),
    ("columns 7", table(CARGO_ROWS[:6]) + ",\n", "empty_row"), ("columns 1", table(HALF_BREADTHS), "table"), ("columns 1", table(HALF_BREADTHS, ";"), "table"),
    ("columns 1", table(metres(HALF_BREADTHS[1:], ","), ";"), "table"), ("columns 1", table(HALF_BREADTHS, "\t"), "table"),
    ("columns 1", table([[0, *row] for row in CARGO_ROWS], ";"), "semicolons more_columns"),
    ("columns 1", table([[x, 0, 7, z] for x, _, z in CARGO_ROWS[::-1]]), ""), ("columns 2", "0,0,0\n0,700,5,1000\n", ""),
    # commas in numbers
    ("columns 1", table([[f"{int(word) / 1000:.3f}".replace(".", ",") for word in row] for row in CARGO_ROWS]), "decimal_comma"),
    ("columns 2", table(GROUPED_ROWS), "thousands"), ("number 2 3", table([[f'"{word}"' for word in row] for row in GROUPED_ROWS]), "thousands"),
    ("number 2 3", table([[word.replace(",", ".") for word in row] for row in GROUPED_ROWS]), "thousands"),
    ("number 2 3", table([[word.replace(",", "\u202f") for word in row] for row in GROUPED_ROWS]), "thousands"),
    ("number 2 3", table([[word.replace(",", "\xa0") for word in row] for row in GROUPED_ROWS]), "thousands"),
    ("number 2 3", table([[word.replace(",", "\xa0") for word in row] for row in GROUPED_ROWS]).encode("latin-1"), "thousands"),
    ("number 2 3", table([[word.replace(",", "\u2019") for word in row] for row in GROUPED_ROWS]), "thousands"),
    ("columns 1", table(GROUPED_ROWS, ";"), "semicolons thousands"), ("number 1 1", "0;0,4;1,5\n0;1,2;3,5\n", "semicolons decimal_comma metres"),
    ("number 1 1", "0\t0,4\t1,5\n0\t1,2\t3,5\n", "tabs decimal_comma metres"), ("number 1 1", '"0,000","0,700","0,000"\n', "decimal_comma metres"),
    # a point that may be lost, and fields without a number
    ("number 6 2", table(CARGO_ROWS[:5]) + "0,#REF!,12000\n", "sheet_error"), ("number 6 2", table(CARGO_ROWS[:5]) + "0,#N/A,12000\n", "sheet_error"),
    ("number 6 2", table(CARGO_ROWS[:5]) + "0,# 5,12000\n", ""), ("number 6 2", table(CARGO_ROWS[:5]) + "0,,12000\n", "no_point"),
    ("number 6 2", table(CARGO_ROWS[:5]) + "0,-,12000\n", "no_point"), ("number 1 1", "O,O,O\n", ""), ("number 1 1", "# x, y, z\n", "comment"),
    ("number 1 1", "5m,0m,0m\n", "unit"), ("number 1 3", '0,0,"0\n0,0,0\n', "quote"), ("columns 1", b"%PDF-1.7\n", "document"), ("columns 1", "<html>\n", "document"),
    # units of single columns
    ("number 1 1", table([[f"{int(x) / 1000:.3f}", y, z] for x, y, z in CARGO_ROWS]), "metres"), ("number 1 2", table([[x, f"{y}.5", z] for x, y, z in CARGO_ROWS]), "decimals"),
    # places and orders
    ("negative 1 1", table(shifted(-3000)), "aft_perpendicular"), ("negative 1 1", table(shifted(-51000)), "midship"), ("negative 1 1", table(shifted(-102000)), ""),
    ("negative 7 1", "0,0,0\n0,1,1\n-5000,0,0\n10000,0,0\n", ""), ("negative 9 2", table(CARGO_ROWS[:8]) + "5000,-1,3000\n", ""),
    ("negative 2 3", "0,0,1000\n0,5,-2000\n", ""), ("range 1 2", "0,66000,0\n50000,66000,0\n", ""), ("range 1 2", table([[x, 1000 * int(y), z] for x, y, z in CARGO_ROWS]), ""),
    ("backwards 7", table(ordered(CARGO_ROWS, 1, 2, 0)), "x_column"), ("backwards 7", table(ordered(CARGO_ROWS, 1, 0, 2)), "x_column"),
    ("backwards 21", table(sorted(CARGO_ROWS, key=lambda row: (int(row[2]), int(row[0])))), "sorted_by_height"),
    ("height 10", table(KNUCKLE), "same_point"), ("height 9", table(KNUCKLE[:8] + [["5000", "1000", "1000"]] + KNUCKLE[8:]), "same_point"),
    ("height 10", table(CARGO_ROWS[:9] + CARGO_ROWS[8:]), "same_row"),
    # single slips
    ("number 1 1", "x,y,z\n0,0,0\n", "header"), ("columns 1", "0;0;0\n", "semicolons"), ("columns 1", "0\t0\t0\n", "tabs"),
    ("columns 1", "0 0 0\n", "blanks"), ("columns 1", "# ship\n0,0,0\n", "comment"), ("columns 1", "0,0,1,0,2,0\n", ""),
    ("columns 1", "x,0,1,3,6,9,12\n", "table"), ("number 1 1", table(metres(CARGO_ROWS)), "metres"),
    ("number 1 2", "90000,700.5,0\n", "decimals"), ("number 2 1", "0,0,0\n,,\n", "empty_row"), ("number 1 1", "0 mm,0 mm,0 mm\n", "unit"),
    ("number 1 3", "0,0,1 000\n", "thousands"), ("number 1 3", "0,0,+5\n", "sign"), ("columns 1", b"PK\x03\x04", "workbook"),
    ("number 1 1", table(CARGO_ROWS).encode("utf-16"), "utf16"), ("negative 1 1", "-5,0,0\n5,0,0\n", "midship"),
    ("negative 1 2", "0,-5,0\n", "both_sides"), ("negative 1 3", "0,5,-5\n", "below_base"), ("range 1 2", "0,70000,0\n90000,0,0\n", "full_breadth"),
    ("backwards 3", "9,0,0\n9,1,1\n5,0,0\n5,1,1\n", "fore_to_aft"), ("backwards 4", "5,0,0\n6,1,1\n7,0,0\n5,1,1\n", "parted"),
    ("backwards 3", "5,0,0\n60,1,0\n5,0,1\n60,1,1\n5,0,2\n60,1,2\n", "sorted_by_height"), ("height 2", "5,0,9\n5,1,3\n", "top_down"),
    ("height 2", "5,0,0\n5,1,5\n5,2,3\n5,2,9\n", ""), ("height 3", "5,0,0\n5,1,8\n5,3,8\n5,3,9\n", "same_point"),
    ("height 3", "5,0,0\n5,1,8\n5,3,7\n5,4,9\n", "exchanged_columns"), ("fewpoints 2", "1,0,0\n2,1,1\n3,1,1\n", "one_station"),
    ("fewstations 0", "", "empty_file"), ("columns 1", "version = 1\n", "exchanged"), ("columns 1", '0,"0,0\n0,0,0\n', "quote"),
]
JOB_HINTS = [
    ("text", "0,0,0\n0,1,2\n", "exchanged"), ("text", "density = 1025,5\n", "toml toml_decimal_comma"), ("text", "drafts = [1\n", "toml_array"),
    ("kind density 0", "density = 1.025\n", "toml_density"), ("kind length_bp 0", "length_bp = 100.5\n", "toml_decimals"),
    ("kind density 0", 'density = "1025"\n', "toml_quoted"), ("range density 0", "density = 1\n", "toml_density"),
    ("unknown top 0", "draft = [1]\n", "known"), ("unknown item 2", "[[item]]\nx = 1\n[[item]]\nkg = 1\n", "known"),
    ("unknown item 1", "[[item]]\ndrafts = [1]\n", "top_key"), ("kind density 0", "density = 1025.0\n", "toml_whole"), ("kind version 0", "version = 1.0\n", ""),
    ("kind compartment.permeability 1", "[[compartment]]\npermeability = 0.7\n", ""), ("notnamed 1", '[[damage]]\nflooded = ["Hold"]\n[[compartment]]\nname = "hold"\n', "unnamed"),
    ("text", 'name = "a\n', "toml_open_text"), ("text", "density =\n", "toml_value"), ("text", "[a]\n[a]\n", "toml_table_twice"), ("text", "a = 1\na = 2\n", "toml_key_twice"),
    ("text", f"density = {'1' * 20}\n", "toml_digits"), ("text", f"density = {'1' * 5000}\n", "toml_digits"), ("text", f"drafts = {'[' * 3000}{']' * 3000}\n", "toml_deep"),
    ("text", b"# L\xe4nge\n", "toml"), ("text", "density = 1025\n".encode("utf-16"), "utf16"), ("text", b"PK\x03\x04", "workbook"),
]
SAID = [
    ("refused job text", "a = 1\ndensity: 5\n", 'Line 2 of the file, "density: 5", can\'t be read'), ("refused job text", b"PK\x03\x04", "Save it as plain text"),
    ("refused job unknown top 0", "title = 1\n", "title isn't a key there.\n"), ("refused job unknown top 0", '"dr\xe4" = 1\n', "dr\xe4 isn't a key there"),
    ("refused job notnamed 1", '[[damage]]\nflooded = ["Hold"]\n[[compartment]]\nname = "hold"\n', '"Hold" is no compartment\'s name; hold is.'),
    ("refused job text", f"density = {'1' * 20}\n", "a number has 20 digits"),
]


class Hints(Room):
    def hints_for(self, line, job, offsets):
        entry, places = refusal_texts.load().entry_of(line.split())
        case = refusal_hints.Case(["hydro", str(job), str(offsets)], places)
        return [name for name, _ in refusal_hints.hints(case, entry)]

    def test_offsets(self):
        for line, content, hint in OFFSET_HINTS:
            with self.subTest(line=line, hint=hint):
                found = self.hints_for(f"refused offsets {line}", CARGO_JOB, self.file("ship.csv", content))
                self.assertEqual(found, hint.split())

    @unittest.skipIf(refusal_hints.tomllib is None, "needs Python 3.11")
    def test_job(self):
        for line, content, hint in JOB_HINTS:
            with self.subTest(line=line, hint=hint):
                self.assertEqual(self.hints_for(f"refused job {line}", self.file("ship.toml", content), CARGO), hint.split())

    @unittest.skipIf(refusal_hints.tomllib is None, "needs Python 3.11")
    def test_what_is_said_of_a_job(self):
        for line, content, said in SAID:
            with self.subTest(said):
                done = self.tool("explain", line, "hydro", self.file("ship.toml", content), CARGO, encoding="utf-8")
                self.assertIn(said, done.stdout)
                self.assertNotIn("CSV", done.stdout)

    def test_what_is_said_of_offsets(self):
        for line, content, said in [
            ("number 1 1", "5m,0m,0m\n", "without a unit: multiply by 1000."), ("number 1 1", "5 mm,0 mm,0 mm\n", "without a unit.\n"),
            ("negative 1 1", table(shifted(-3000)), "add 3000 to each x"), ("backwards 7", table(ordered(CARGO_ROWS, 1, 2, 0)), "in the third column"),
            ("number 1 1", table([[f"{int(x) / 1000:.3f}", y, z] for x, y, z in CARGO_ROWS]), "The numbers of the first field (x) look like metres"),
            ("height 10", table(KNUCKLE), "1 mm apart"), ("number 1 1", "L\xe4nge,y,z\n", '"L\xe4nge"'), ("number 1 1", "L\xe4nge,y,z\n".encode("latin-1"), '"L\xe4nge"'),
        ]:
            with self.subTest(said):
                self.assertIn(said, self.tool("explain", f"refused offsets {line}", "hydro", CARGO_JOB, self.file("ship.csv", content), encoding="utf-8").stdout)

    def test_lines_that_do_not_belong_to_the_files(self):
        texts = refusal_texts.load()
        jobs = ["", "density = [1.5]\n", "[[damage]]\nflooded = 5\n", '[[damage]]\nflooded = [5, "a"]\n[[compartment]]\nname = 5\n', "item = 5\n"]
        hulls = ["", "\n", "x,y,z\n", "0;0;0\n", f"{'1' * 5000};1.000;5\n", "0,0\n", ",,\n", "0,0,0\n0,0,0\n", '"0\n', b"\xff,\0,\x80\n"]
        for job, hull in [(job, hulls[-1]) for job in jobs] + [(jobs[0], hull) for hull in hulls]:
            words = ["hydro", str(self.file("ship.toml", job)), str(self.file("ship.csv", hull))]
            for line in lines_of_specs() + [f"refused offsets {cause} {row} {at}" for cause in ("number", "negative", "range") for row in ("1", "x", "9") for at in "1234"]:
                with self.subTest(line=line, job=job, hull=hull):
                    entry, places = texts.entry_of(line.split())
                    case = refusal_hints.Case(words, places)
                    for name, filled in [(entry, refusal_hints.filled(case, entry, texts)), *((f"hint {name}", words) for name, words in refusal_hints.hints(case, entry))]:
                        self.assertTrue(texts.fill(name, filled))

    def test_words_are_shown_as_they_were_given(self):
        for word in ("\u2013help", "hydr\xf6"):
            self.assertIn(f'"{word}" is no command', self.tool("explain", "refused usage", word, encoding="utf-8").stdout)

    def test_a_station_by_its_x(self):
        self.assertIn("60000 is the x of station 12:", self.tool("explain", "refused station 60000", "section", CARGO, "60000", "5").stdout)
        self.assertEqual(len(self.tool("explain", "refused station 21", "section", CARGO, "21", "5").stdout.splitlines()), 1)

    def test_nothing_is_made_up_without_the_file(self):
        os.mkfifo(self.room / "pipe")
        texts = refusal_texts.load()
        for name in ("none", "pipe"):
            for line in [line for line in lines_of_specs() if line != "refused usage"]:
                with self.subTest(line=line, name=name):
                    entry, places = texts.entry_of(line.split())
                    case = refusal_hints.Case(["hydro", str(self.room / name), str(self.room / name)], places)
                    self.assertEqual(list(refusal_hints.hints(case, entry)), [])
                    self.assertNotIn('""', texts.fill(entry, refusal_hints.filled(case, entry, texts)))
        self.assertEqual(self.tool("explain", "refused offsets fewstations 0").stdout.count("empty"), 0)

    def test_the_row_is_shown(self):
        done = self.tool("explain", "refused offsets number 1 1", "hydro", CARGO_JOB, self.file("ship.csv", "x,y,z\n"))
        self.assertEqual(done.returncode, 0)
        self.assertRegex(done.stdout, r'Row 1 of .*ship\.csv is "x,y,z": its first field .* isn\'t a whole number')
        self.assertIn("no header line", done.stdout)

    def test_lines_that_are_none(self):
        for line in ("", "end 5", "refused", "refused offsets number 1"):
            self.assertEqual(self.tool("explain", line).returncode, 1)


# ---- The launcher


class Launcher(Room):
    def setUp(self):
        super().setUp()
        self.tree = self.room / "tree"
        for crate in ("low", "mid", "aside", "hull_cli"):
            for part in ("src", "specs", "proofs"):
                self.file(f"tree/crates/{crate}/{part}/lib", "")
        self.file("tree/crates.txt", "# lowest first\nlow:\nmid: low itoa\naside: low\nhull_cli: mid itoa\n")
        shutil.copy2(TOP / "hullcert", self.tree / "hullcert")
        shutil.copytree(TOOLS, self.tree / "tools", ignore=shutil.ignore_patterns("__pycache__"))
        self.script("bin/rt", RT)
        self.script("program", STAND_IN)

    def script(self, name, text):
        self.file(name, text).chmod(0o755)

    def launch(self, *words, program="hullcert", path=None, **env):
        path = path or f"{self.room}/bin:{os.environ['PATH']}"
        environment = {**os.environ, "ROOM": str(self.room), "FAILS": "", "TMPDIR": str(self.room), "PATH": path, **env}
        environment.pop("HULLCERT_UNPROVED", None)
        environment.update({name: value for name, value in env.items() if name == "HULLCERT_UNPROVED"})
        return run([self.tree / program, *words], env=environment, cwd=self.room)

    def calls(self, name="calls"):
        path = self.room / name
        return path.read_text().splitlines() if path.exists() else []

    def test_builds_what_is_needed_once(self):
        done = self.launch("hydro", "job", "offsets")
        self.assertEqual((done.returncode, done.stdout), (0, "end 1\n"))
        self.assertEqual(self.calls(), ["low lib", "mid lib", "hull_cli run -- section data/barge.csv 1 5000"])
        self.assertRegex(done.stderr, r"crate 2 of 3, mid: begun after 0 min 0[0-9] s")
        again = self.launch("hydro", "job", "offsets")
        self.assertEqual((again.stdout, again.stderr, len(self.calls())), ("end 1\n", "", 3))

    def test_builds_again_after_a_change(self):
        self.launch("hydro", "job", "offsets")
        later = (self.tree / "crates/hull_cli/out/hull_cli").stat().st_mtime + 5
        os.utime(self.tree / "crates/low/proofs/lib", (later, later))
        self.launch("hydro", "job", "offsets")
        self.assertEqual(len(self.calls()), 6)

    def test_a_failure_shows_the_crate_and_the_end_of_its_log(self):
        done = self.launch("hydro", "job", "offsets", FAILS="mid")
        self.assertEqual((done.returncode, done.stdout), (69, ""))
        self.assertIn("the crate mid wasn't built", done.stderr)
        self.assertIn("error: no proof of b", done.stderr)
        self.assertNotIn("fn a: proved", done.stderr)
        log = re.search(r"the whole log is in (\S+)", done.stderr)[1]
        self.assertIn("fn a: proved", pathlib.Path(log).read_text())

    def test_without_the_kit(self):
        tools = self.room / "few"
        tools.mkdir()
        for name in ("sh", "dirname", "find", "grep", "readlink", "cat"):
            (tools / name).symlink_to(shutil.which(name))
        done = self.launch("hydro", "job", "offsets", path=str(tools))
        self.assertEqual(done.returncode, 69)
        self.assertIn("the command rt isn't found", done.stderr)
        self.assertIn("PATH", done.stderr)

    def test_through_links(self):
        (self.tree / "one").symlink_to("hullcert")
        (self.tree / "two").symlink_to(self.tree / "one")
        self.assertEqual(self.launch("hydro", "job", "offsets", program="two").stdout, "end 1\n")

    def test_help_and_version(self):
        self.launch("hydro", "job", "offsets")
        for words in ([], ["-h"], ["--help"], ["help"]):
            done = self.launch(*words, SAYS="refused usage", ENDS="3")
            self.assertEqual((done.returncode, done.stdout), (3, "refused usage\n"))
            self.assertEqual(done.stderr.count("hydro JOB OFFSETS"), 1)
        done = self.launch("--version", SAYS="refused usage", ENDS="3")
        self.assertEqual((done.returncode, done.stdout), (3, "refused usage\n"))
        self.assertRegex(done.stderr, r"^hullcert: .*; Rattle kit: kit-1\n$")

    def test_a_refusal_is_explained(self):
        self.launch("hydro", "job", "offsets")
        offsets = self.file("ship.csv", "x,y,z\n")
        done = self.launch("hydro", CARGO_JOB, offsets, SAYS="refused offsets number 1 1", ENDS="3")
        self.assertEqual((done.returncode, done.stdout), (3, "refused offsets number 1 1\n"))
        self.assertIn("header", done.stderr)
        done = self.launch("hydro", "none", offsets, SAYS="fault read job", ENDS="4")
        self.assertEqual((done.returncode, done.stdout), (4, "fault read job\n"))
        self.assertIn("there is no such file", done.stderr)
        done = self.launch("hydro", offsets, SAYS="refused usage", ENDS="3")
        self.assertIn("one word came", done.stderr)
        self.assertEqual(done.stderr.count("hydro JOB OFFSETS"), 1)

    def test_statuses_are_passed_on(self):
        for status in (0, 1, 2, 5, 6):
            done = self.launch("hydro", "job", "offsets", ENDS=str(status))
            self.assertEqual((done.returncode, done.stdout), (status, "end 1\n"))

    def test_a_pipe_is_read_once(self):
        self.launch("hydro", "job", "offsets")
        os.mkfifo(self.room / "pipe")
        done = self.launch("hydro", "job", "pipe", SAYS="refused offsets novolume", ENDS="3")
        self.assertEqual((done.returncode, len(self.calls("asked"))), (3, 2))
        self.assertIn("tools/explain", done.stderr)

    def test_unproved(self):
        done = self.launch("hydro", "job", "offsets", HULLCERT_UNPROVED="1")
        self.assertEqual((done.returncode, done.stdout), (0, "end 1\n"))
        self.assertEqual(self.calls("asked"), [f"hydro {self.room}/job {self.room}/offsets"])
        self.assertEqual(done.stderr.count("unproved") + done.stderr.count("nothing is proved"), 2)
        self.assertEqual(self.calls(), [f"hull_cli try --seconds 600 -- hydro {self.room}/job {self.room}/offsets"])
        done = self.launch("section", "ship.csv", "1", "8", SAYS="refused station 1", ENDS="3", HULLCERT_UNPROVED="1")
        self.assertEqual((done.returncode, done.stdout), (3, "refused station 1\n"))
        self.assertIn("There is no station 1", done.stderr)


# ---- Reports


class Reports(Room):
    def test_tables(self):
        done = self.tool("report_csv.py", self.file("report", REPORT))
        self.assertEqual(done.returncode, 0)
        lines = done.stdout.splitlines()
        self.assertEqual((len(lines), lines[1].split(",")[:3]), (3, ["5000", "10000.000000", "10000.000001"]))
        self.assertEqual({len(line.split(",")) for line in lines}, {23})

    def test_a_refusal_is_passed_on(self):
        for name in ("report_csv.py", "report_svg.py"):
            for line in ("refused offsets number 1 1", "fault read job"):
                done = self.tool(name, self.file("report", line + "\n"))
                self.assertEqual((done.returncode, done.stdout), (1, ""))
                self.assertIn(f"report: {line}\n", done.stderr)

    def test_files_that_hold_no_report(self):
        for name in ("report_csv.py", "report_svg.py"):
            for path in (self.room / "none", self.room, self.file("empty", ""), self.file("bad", "hull 1\n"), self.file("end", "end 1\n")):
                done = self.tool(name, path)
                self.assertEqual((done.returncode, done.stdout), (1, ""))
                self.assertEqual(len(done.stderr.splitlines()), 1)

    def test_the_bad_line_is_named(self):
        self.assertIn("line 3 isn't", self.tool("report_csv.py", self.file("report", "hull 3 6\nend 4\nend x\n")).stderr)

    def test_one_sheet(self):
        sheet = self.sheet(REPORT)
        for _, title in report_svg.HYDRO:
            self.assertIn(title, sheet)
        self.assertIn("nothing is certified", sheet)
        self.assertIn("Hollow", sheet)
        self.assertEqual(sheet.count('fill="white" stroke='), 8)

    def sheet(self, report, *words):
        done = run([sys.executable, TOOLS / "report_svg.py", self.file("report", report), *words], text=False)
        self.assertEqual((done.returncode, done.stderr), (0, b""))
        return done.stdout.decode()

    def test_all_stations(self):
        sheet = self.sheet(SECTIONS)
        for station in range(5):
            self.assertIn(f"station {station}, x = {station} m", sheet)

    def test_one_curve_and_a_file_each(self):
        self.assertEqual(self.sheet(REPORT, "--curve", "kb").count("<g "), 1)
        self.assertEqual(self.tool("report_svg.py", self.file("report", REPORT), "--curve", "kl").returncode, 1)
        self.assertEqual(self.tool("report_svg.py", self.file("report", REPORT), "--out", self.room / "all").returncode, 0)
        self.assertEqual(len(list((self.room / "all").iterdir())), len(report_svg.HYDRO))

    def test_a_frame_is_higher_than_the_interval_of_one_point(self):
        sheet = self.sheet(WEDGE)
        self.assertEqual((sheet.count("h8"), sheet.count(">2500<")), (0, 1))
        self.assertLess(max(len(text) for text in re.findall(r'text-anchor="end">([^<]*)<', sheet)), len("2499.99"))

    def test_labels_have_room(self):
        curve = report_svg.Curve("", "", [report_svg.Point(0, (-123456.5, -123456.4), False)])
        panel = report_svg.Panel(curve, (0, 1, -123456.50001, -123456.49999))
        widest = max(len(text) for _, text in panel.ticks)
        self.assertGreater(panel.edge, report_svg.LETTER * widest + 6)

    def test_ticks(self):
        for low, high in ((-2.7, 92.7), (0.0, 1.0), (-3e-7, 1e-6), (11.99999, 12.00001), (-1, 130)):
            ticks = report_svg.ticks_of(low, high)
            self.assertTrue(4 <= len(ticks) <= 11, ticks)
            within = report_svg.ticks_within(low, high, 392)
            self.assertLess(len(within) * report_svg.width_of(within), 392)

    def test_the_zero_line_is_whole(self):
        lines = re.findall(r'stroke="#(888|eee)"', self.sheet("arm 0 1 2 [-1.000000,0.000000] [0.000000,0.000000]\nend 2\n", "--curve", "gz"))
        self.assertEqual((lines.count("888"), lines[-1]), (1, "888"))

    def test_levers_are_bands_with_the_limits_of_the_criteria(self):
        arms = "".join(f"arm {k} 1 2 [{k / 50:.6f},{k / 40:.6f}] [{k / 500:.6f},{k / 400:.6f}]\n" for k in range(91))
        sheet = self.sheet(arms + "end 92\n")
        self.assertEqual(re.findall(r">(C[1-6])</text>", sheet), ["C4", "C5", "C6", "C1", "C2", "C3"])
        self.assertEqual(sheet.count('Z" fill='), 2)
        self.assertNotIn("<circle", sheet)

    def test_both_sides_of_a_job_of_version_2(self):
        load = "load 10250000 [50.000000,50.000000] [0.500000,0.500000] [7.000000,7.000000]\n"
        arms = "".join(f"arm {k} 1 2 [0.{k:06d},0.{k:06d}] [0.000000,0.000000] [-0.5{k:05d},-0.500000] [-0.200000,0.000000]\n" for k in range(3))
        text = f"hullcert 2 stability\n{load}{arms}verdict fail C1 starboard interval 30 [-0.142951,-0.142947]\nend 7\n"
        loads = self.tool("report_csv.py", self.file("report", text), "--table", "load").stdout
        self.assertEqual(loads.splitlines(), ["mass_kg,lcg_m_low,lcg_m_high,tcg_m_low,tcg_m_high,kg_m_low,kg_m_high", "10250000,50.000000,50.000000,0.500000,0.500000,7.000000,7.000000"])
        levers = self.tool("report_csv.py", self.file("report", text), "--table", "arm").stdout.splitlines()
        self.assertEqual((len(levers), levers[2].split(",")[7:]), (4, ["-0.500001", "-0.500000", "-0.200000", "0.000000"]))
        sheet = self.sheet(text)
        self.assertEqual([sheet.count(f"to {side}") for side in ("port", "starboard")], [2, 2])
        for line in ("verdict fail C1 aft interval 30 [0.000000,0.000000]", "hullcert 3 hydro", "load 1 [0.000000,0.000000]"):
            self.assertIn("line 1 isn't in the grammar", self.tool("report_csv.py", self.file("report", f"{line}\nend 2\n")).stderr)

    def test_the_heading_names_the_report(self):
        path = self.file("a <ship>.txt", REPORT)
        self.assertIn("hullcert, a &lt;ship&gt;, 3 stations, 6 points", self.tool("report_svg.py", path).stdout)

    def test_a_cut_report_is_drawn_with_a_word(self):
        for cut in (REPORT.removesuffix("end 6\n"), REPORT.replace("body 120000000000000\n", "")):
            done = self.tool("report_svg.py", self.file("report", cut))
            self.assertEqual((done.returncode, done.stdout.count("report has no line end") + done.stdout.count("some were lost")), (0, 1))
            self.assertEqual(len(done.stderr.splitlines()), 1)
            self.assertEqual(self.tool("report_csv.py", self.file("report", cut)).stderr, done.stderr)
        self.assertEqual(self.sheet(REPORT + SECTIONS.replace("\n", "\r\n")).count("<g "), 16)

    def test_a_report_without_rows(self):
        self.assertIn("has the job drafts", self.tool("report_csv.py", self.file("report", "hullcert 1 hydro\nend 2\n")).stderr)
        done = self.tool("report_svg.py", self.file("report", f"hullcert 1 damage\n{LOADED}end 5\n"))
        self.assertEqual((done.returncode, done.stdout), (1, ""))
        self.assertIn("damage cases or centres", done.stderr)

    def test_the_files_of_a_family_share_a_frame(self):
        self.tool("report_svg.py", self.file("report", SECTIONS.replace("[2.000000,2.000000]", "[7.000000,7.000000]", 1)), "--out", self.room / "all")
        texts = [re.findall(r'text-anchor="end">([^<]*)<', path.read_text()) for path in sorted((self.room / "all").iterdir())]
        self.assertEqual(texts, 5 * [texts[0]])

    def test_the_deck_of_the_offsets(self):
        sheet = self.sheet(REPORT, "--offsets", TOP / "examples" / "barge.csv")
        self.assertEqual((sheet.count('fill="white" stroke='), sheet.count("deck isn't known")), (8, 0))
        self.assertEqual(self.sheet(REPORT).count("deck isn't known"), 1)

    def test_offsets_of_another_ship(self):
        for path in (CARGO, self.file("none.csv", "")):
            done = self.tool("report_svg.py", self.file("report", REPORT), "--offsets", path)
            self.assertEqual((done.returncode, done.stdout, len(done.stderr.splitlines())), (1, "", 1))

    def test_bars_only_where_they_are_seen(self):
        wide = "hydro 5 [1.000000,2.000000] [1.000000,2.000000] - - [1.000000,2.000000] - - - - [1.000000,2.000000] -\nend 2\n"
        self.assertEqual(self.sheet(wide, "--curve", "volume").count("h8"), 2)
        self.assertEqual(self.sheet(REPORT, "--curve", "volume").count("h8"), 0)

    def test_notes_stay_within_the_sheet(self):
        for words in (["--curve", "gz"], ["--curve", "floodable"], ["--curve", "damage2", "--offsets", CARGO], []):
            sheet = self.sheet("arm 0 1 2 [0.000000,0.000000] [0.000000,0.000000]\nend 2\n" + FLOODABLE + LOST, *words)
            room = int(re.search(r'viewBox="0 0 ([0-9]+) ', sheet)[1]) - 2 * report_svg.RIGHT
            notes = re.findall(r'<text x="16" y="[0-9]+">([^<]*)</text>', sheet)
            self.assertGreaterEqual(len(notes), 3)
            self.assertLessEqual(max(len(note) for note in notes) * report_svg.PROSE, room)

    def pictures(self, report, offsets=None):
        """The shapes of each picture of a report, each with its kind."""
        stations = offset_rows.stations_of(offset_rows.rows_of(offsets.read_bytes())) if offsets else []
        pictures = flood_pictures.pictures_of(report_lines.lines_of(report.encode()), stations)
        return {name: [tuple(shape) for shape in picture.shapes if shape.corners] for name, picture in pictures.items()}

    def test_floodable_lengths(self):
        drawn = [("join", [(30, 29), (60, 31)]), ("next", [(30, 30), (60, 32)]), ("safe", [(30, 29), (60, 31)])]
        self.assertEqual(self.pictures(FLOODABLE), {"floodable": drawn})
        ends = [("end", [(0, 0), (16, 32)]), ("end", [(102, 0), (86, 32)])]
        self.assertEqual(self.pictures(FLOODABLE, CARGO), {"floodable": ends + drawn})
        for name, line in (("safe", "safe 4000 2000 1 2 3 4\n"), ("next", "next 4000 2000 sinks\n")):
            self.assertIn((name, [(4, 2)]), self.pictures(line)["floodable"])

    def test_lines_of_the_ends_meet_amidships(self):
        for report in (FLOODABLE.replace("next 60000 32000", "next 60000 200000"), "safe 30000 -\nnext 30000 0 sinks\nend 3\n"):
            (shapes,) = self.pictures(report, CARGO).values()
            self.assertEqual(shapes[:2], [("end", [(0, 0), (51, 102)]), ("end", [(102, 0), (51, 102)])])

    def test_a_centre_without_a_safe_length_breaks_the_line(self):
        (shapes,) = self.pictures(GAP).values()
        self.assertEqual(shapes, [
            ("join", [(10, 20), (20, 18)]), ("join", [(90, 22)]), ("next", [(10, 22), (20, 20), (60, 0), (90, 24)]),
            ("safe", [(10, 20), (20, 18), (90, 22)]), ("unsafe", [(60, 0)]),
        ])

    def places(self, sheet, pattern):
        return [tuple(map(float, found)) for found in re.findall(pattern, sheet)]

    def test_the_sheet_of_floodable_lengths(self):
        sheet = self.sheet(FLOODABLE, "--offsets", CARGO)
        (left, base, *_), (right, *_) = self.places(sheet, r'd="M(\S+) (\S+)L(\S+) (\S+)" fill="none" stroke="#666" stroke-dash')
        safe = self.places(sheet, rf'cx="(\S+)" cy="(\S+)" r="2.6" fill="{report_svg.INK}"')
        later = self.places(sheet, rf'cx="(\S+)" cy="(\S+)" r="2.6" fill="white" stroke="{report_svg.FAINT}"')
        self.assertEqual((len(safe), len(later), sheet.count(report_svg.ALERT), sheet.count("<g ")), (2, 2, 0, 1))
        metre = (base - safe[0][1]) / 29
        for (x, y), centre, length in zip(safe + later, (30, 60, 30, 60), (29, 31, 30, 32)):
            self.assertAlmostEqual((x - left) / (right - left), centre / 102, delta=1e-4)
            self.assertAlmostEqual((base - y) / metre, length, delta=0.01)
        for said in ("floodable length, m<", "between their centres nothing is certified", "not safe", "none reaches past it"):
            self.assertEqual(sheet.count(said), 1, said)

    def test_floodable_lengths_without_the_offsets(self):
        sheet = self.sheet(FLOODABLE)
        self.assertEqual((sheet.count("stroke-dasharray"), sheet.count("<circle"), sheet.count("the ends of the ship aren't known")), (0, 4, 1))
        self.assertEqual((sheet.count("Crosses"), sheet.count('text-anchor="end">0<')), (0, 1))

    def test_a_centre_without_a_safe_length_has_a_cross_at_0(self):
        sheet = self.sheet(GAP)
        ((_, y),) = self.places(sheet, rf'd="M(\S+) (\S+)m-4 -4l8 8m-8 0l8 -8" stroke="{report_svg.ALERT}"')
        self.assertEqual(self.places(sheet, r'd="M(\S+) (\S+)H464" stroke="#888"')[0][1], y)
        self.assertEqual((sheet.count("<circle"), sheet.count("Crosses: at these centres no length is safe.")), (7, 1))

    def test_damage_cases(self):
        shapes = self.pictures(DAMAGE, CARGO)
        self.assertEqual([[kind for kind, _ in shapes[name]] for name in shapes], [["hull", "water"], ["hull", "water"]])
        (_, hull), (_, water) = shapes["damage1"]
        self.assertEqual((len(hull), hull[0], hull[20], hull[21], hull[41], hull[42]), (43, (0, 12), (102, 12), (102, 12), (0, 0), (0, 12)))
        self.assertEqual([place for place, _ in water], [0, 102, 102, 0, 0])
        levels = [5837189, 9468601, 9468603, 5837191, 5837189]
        self.assertEqual([value * 1024000 for _, value in water], levels)
        self.assertEqual([kind for kind, _ in self.pictures(DAMAGE)["damage2"]], ["water"])
        self.assertEqual([place for place, _ in self.pictures(DAMAGE)["damage2"][0][1]], [0, 1, 1, 0, 0])

    def test_the_sheet_of_damage_cases(self):
        sheet = self.sheet(DAMAGE, "--offsets", CARGO)
        self.assertEqual(re.findall(r'y="31">([^<]*)<', sheet), [
            "[5.700379,5.700382] m aft, [9.246680,9.246683] m forward", "[8.317024,8.317027] m aft, [5.512271,5.512274] m forward",
        ])
        hulls = self.places(sheet, rf'd="M(\S+) (\S+)L.*" {report_svg.STROKES["hull"]}')
        lines = self.places(sheet, rf'd="M(\S+) (\S+)L(\S+) (\S+)L.*" {report_svg.STROKES["water"]}')
        (zero, *_), (twelve, *_) = ([float(y) - 4 for y in re.findall(rf'y="(\S+)" text-anchor="end">{tick}<', sheet)] for tick in (0, 12))
        self.assertEqual([hull[1] for hull in hulls], [twelve, twelve])
        for (x, aft, _, fore), (left, _), levels in zip(lines, hulls, ((5.70038, 9.24668), (8.317026, 5.512272))):
            self.assertEqual(x, left)
            for y, level in zip((aft, fore), levels):
                self.assertAlmostEqual(zero + (twelve - zero) * level / 12, y, delta=0.02)
        self.assertEqual(sheet.count('y="15" font-size="14">damage case'), 2)
        self.assertEqual((sheet.count("Profile:"), sheet.count("the profile isn't known")), (1, 0))
        self.assertEqual([self.sheet(DAMAGE).count(said) for said in ("Profile:", "the profile isn't known")], [0, 1])

    def test_cases_without_a_waterline(self):
        for words, hulls in ([], 0), (["--offsets", CARGO], 4):
            sheet = self.sheet(LOST, *words)
            self.assertEqual(re.findall(r'y="31">([^<]*)<', sheet)[1:], [
                "the ship sinks: only [7123.456789,7123.456791] m³ are left", "no waterline is found: the search has no start at the fore end",
                "no waterline is found: the search has no start at the aft end",
            ])
            self.assertEqual((sheet.count(report_svg.STROKES["water"]), sheet.count(report_svg.STROKES["hull"])), (1, hulls))
            self.assertEqual(sheet.count("Sinks: "), 1)
        self.assertEqual(self.sheet(DAMAGE).count("Sinks: "), 0)
        self.assertEqual(self.sheet("damage 7 nostart aft\nend 2\n", "--curve", "damage1").count("damage case 7"), 1)

    def test_levels_are_rounded_outwards(self):
        for low, high, text in [
            (1, 1, "[0.000000,0.000001]"), (-1, -1, "[-0.000001,0.000000]"), (1024000, 1024000, "[1.000000,1.000000]"),
            (-12800128, 12800128, "[-12.500125,12.500125]"), (-12800129, 12800129, "[-12.500126,12.500126]"),
        ]:
            self.assertEqual(flood_pictures.metres(low, high), text)

    def test_pictures_have_files_and_join_with_curves(self):
        joined = DAMAGE + FLOODABLE
        self.assertEqual(self.sheet(joined + SECTIONS).count("<g "), 8)
        self.assertEqual(self.sheet(joined, "--curve", "damage2").count("<g "), 1)
        self.assertEqual(self.tool("report_svg.py", self.file("report", joined), "--out", self.room / "all", "--offsets", CARGO).returncode, 0)
        texts = {path.stem: re.findall(r'text-anchor="end">([^<]*)<', path.read_text()) for path in (self.room / "all").iterdir()}
        self.assertEqual(set(texts), {"damage1", "damage2", "floodable"})
        self.assertEqual(texts["damage1"], texts["damage2"])

    def test_tables_of_flooding(self):
        self.tool("report_csv.py", self.file("report", LOST + GAP), "--out", self.room / "all")
        lines = {path.stem: path.read_text().splitlines() for path in (self.room / "all").iterdir()}
        self.assertEqual(set(lines), {"load", "damage", "safe", "next"})
        self.assertEqual(lines["damage"], [
            "case,end,side,a1,a2,f1,f2,left_m3_low,left_m3_high", "1,settled,,5837189,5837191,9468601,9468603,,",
            "2,sinks,,,,,,7123.456789,7123.456791", "3,nostart,fore,,,,,,", "4,nostart,aft,,,,,,",
        ])
        self.assertEqual(lines["safe"], ["centre_mm,length_mm,a1,a2,f1,f2", "90000,22000,1,2,3,4", "60000,,,,,", "10000,20000,5,6,7,8", "20000,18000,1,2,3,4"])
        self.assertEqual(lines["next"], [
            "centre_mm,length_mm,reason,station,a1,a2,f1,f2", "90000,24000,touch,20,1,2,3,4", "60000,0,sinks,,,,,", "10000,22000,endofship,,,,,",
            "20000,20000,nostart,,,,,",
        ])

    def test_every_line_of_the_grammar_has_its_head(self):
        # No command prints these yet.
        later = {"tank", "float", "strength", "darm", "dshort", "hulllimits", "limit", "beyond"}
        heads = {form[0] for form in report_lines.FORMS} - {"hullcert", "hull", "body", "verdict", "end"} - later
        words = self.tool("report_csv.py", "--help").stdout
        for head in heads:
            self.assertIn(head, words)


# ---- Input

SHIP = [(10000 * i, 100 * j + 8000 * (0 < i < 10), 1000 * j) for i in range(11) for j in range(9)]
JOB = "version = 1\ndensity = 1025\nlength_bp = 100000\ndrafts = [4000]\n"


@unittest.skipIf(check_input.tomllib is None, "needs Python 3.11")
class Input(Room):
    def warned(self, job=JOB, rows=SHIP):
        done = self.tool("check_input.py", self.file("ship.toml", job), self.file("ship.csv", table(rows)))
        self.assertEqual(done.returncode, 1 if done.stdout else 0)
        return done.stdout

    def test_what_is_probably_not_meant(self):
        item = '[[item]]\nname = "a"\nmass = 1\nx = %d\nz = %d\n'
        opening = '[[opening]]\nname = "a"\ny = %d\nz = %d\n'
        compartment = '[[compartment]]\nname = "a"\nfrom = %d\nto = %d\npermeability = %d\n'
        floodable = "[floodable]\ncentres = [%d]\nstep = 1000\npermeability = %d\n"
        for words, warning in [
            ({"job": JOB.replace("1025", "1250")}, "density is 1250"), ({"job": JOB.replace("4000", "200, 400")}, "Were they cm?"),
            ({"job": JOB.replace("4000", "4000, 6")}, "a draft is 6,"), ({"job": JOB + item % (47, 5000)}, 'x of item "a" is 47,'),
            ({"job": JOB + item % (47000, 7)}, 'z of item "a" is 7,'), ({"job": JOB + item % (47000, 5000)}, "the items weigh 1 kg"),
            ({"job": JOB + "displacements = [8380]\n"}, "a displacement is 8380 kg"), ({"job": JOB + opening % (3, 5000)}, 'y of opening "a" is 3,'),
            ({"job": JOB + opening % (3000, 9)}, 'z of opening "a" is 9,'), ({"job": JOB + compartment % (50, 66, 850)}, 'to of compartment "a" is 66,'),
            ({"job": JOB + compartment % (90000, 120000, 850)}, "is partly outside"), ({"job": JOB + compartment % (50000, 66000, 85)}, "Is 850 meant?"),
            ({"job": JOB + compartment % (50000, 66000, 1)}, "Is 1000 meant?"), ({"job": JOB + floodable % (30, 850)}, "a centre of [floodable] is 30,"),
            ({"job": JOB + floodable % (130000, 850)}, "a centre of [floodable] is 130000,"), ({"job": JOB + floodable % (30000, 70)}, "permeability of [floodable] is 70"),
            ({"rows": [(x, 840 if (x, z) == (50000, 4000) else y, z) for x, y, z in SHIP]}, "in row 50 the half-breadth at height 4000 is 840,"),
            ({"job": JOB.replace("drafts = [4000]", "")}, "no drafts"), ({"job": JOB.replace("4000", "8500")}, "above the whole hull"),
            ({"rows": SHIP + [(100000, 900, 9000)]}, "points"), ({"job": JOB.replace("4000", "0")}, "nothing is under water"),
            ({"job": JOB.replace("4000", "4, 8")}, "Were they metres?"),
            ({"job": JOB.replace("100000", "100")}, "length_bp is 100,"), ({"job": JOB + item % (100001, 5)}, "outside the hull"),
            ({"job": JOB + item % (5, 50000)}, "far above the deck"), ({"job": JOB + opening % (5, 50000)}, "far above the deck"),
            ({"job": JOB + opening % (50000, 5)}, "from the centreplane"), ({"rows": [(x // 1000, y, z) for x, y, z in SHIP]}, "metres"),
            ({"rows": [(x, 3 * y, z) for x, y, z in SHIP]}, "full breadths"), ({"rows": [(x, z, y) for x, y, z in ROUND]}, "exchanged"),
            ({"rows": [(x if x < 100000 else 130000, y, z) for x, y, z in SHIP]}, "apart"), ({}, "21 at least"), ({}, "11 heights"),
            ({"rows": [(x, y, z) for x, y, z in SHIP] + [(100000, 700, 8000)]}, "is dropped"),
            ({"rows": [(x, y, z - 2000 * (x == 50000 and z == 8000)) for x, y, z in SHIP if (x, z) not in LOW], "job": JOB.replace("4000", "7000")}, "top point of station 5"),
        ]:
            with self.subTest(warning):
                self.assertIn(warning, self.warned(**words))

    def test_a_sound_table_has_no_warning(self):
        rows = [(5000 * i, (4000 + 400 * j) * (0 < i < 20), 1000 * j) for i in range(21) for j in range(11)]
        job = JOB + "displacements = [6000000]\n" + re.sub("z = 1[0-9]{4}", "z = 9000", "".join(CARGO_JOB.read_text().partition("[[item]]")[1:]))
        for text in (JOB, job):
            self.assertEqual(self.warned(job=text, rows=rows), "")

    def test_what_is_refused_isn_t_looked_for(self):
        self.assertNotIn("would be refused", self.tool("check_input.py", "--help").stdout)
        self.assertNotEqual(self.warned(job=JOB.replace("version = 1", "version = 3")), "")

    def test_files_that_are_refused(self):
        good_job, good_rows = self.file("good.toml", JOB), self.file("good.csv", table(SHIP))
        for job, rows in [
            (self.room / "none", good_rows), (good_job, self.room / "none"), (good_job, self.file("bad.csv", "x,y,z\n")),
            (good_job, self.file("few.csv", "0,0,0\n")), (self.file("bad.toml", "version\n"), good_rows), (good_job, self.file("none.csv", "")),
            (self.file("deep.toml", f"drafts = {'[' * 3000}{']' * 3000}\n"), good_rows), (self.file("long.toml", f"density = {'1' * 5000}\n"), good_rows),
        ]:
            self.assertEqual(self.tool("check_input.py", job, rows).returncode, 2)


ROUND = [(10000 * i, 1000 * j + (5 - abs(i - 5)) * 200 * (j > 0), 1000 * j) for i in range(11) for j in range(9)]
LOW = {(50000, 6000), (50000, 7000)}


class YardTables(Room):
    def grid(self, turned=False, mark=";", point=","):
        x, z = sorted({int(row[0]) for row in CARGO_ROWS}), sorted({int(row[2]) for row in CARGO_ROWS})
        cells = {(int(row[0]), int(row[2])): int(row[1]) for row in CARGO_ROWS}

        def text(length):
            return "" if length is None else f"{length / 1000:g}".replace(".", point)

        across, down = (z, x) if turned else (x, z)
        rows = [["Linesplan"], [""] + [text(one) for one in across]]
        rows += [[text(one)] + [text(cells.get((one, other) if turned else (other, one))) for other in across] for one in down]
        return table(rows, mark)

    def test_the_cargo_ship(self):
        for turned in (False, True):
            for mark, point in ((";", ","), (",", "."), ("\t", "."), (";", ".")):
                with self.subTest(turned=turned, mark=mark, point=point):
                    done = self.tool("table_to_offsets.py", self.file("table.csv", self.grid(turned, mark, point)))
                    self.assertEqual((done.returncode, done.stdout), (0, CARGO.read_text()))

    def test_what_is_said(self):
        content = "x,WL 0,WL 1500\n10.5,0.1,0.2004\n-10.5,0,0.3\n0,1,2\n"
        done = self.tool("table_to_offsets.py", "-", stdin=None, input=content)
        self.assertEqual(done.stdout, "0,0,0\n0,300,1500\n10500,1000,0\n10500,2000,1500\n21000,100,0\n21000,200,1500\n")
        for said in ("stations: in rows", "10500 mm were added", "height: in mm", "rounded to whole mm: 1 lengths, by 0.4"):
            self.assertIn(said, done.stderr)

    def test_options(self):
        content = "WL,0,1,2,3,4\n0,10,20,30,20,10\n1000,20,40,60,40,20\n"
        words = ["--spacing", "5000", "--full", "--unit", "mm", "--from-fore", "--stations", "columns"]
        done = self.tool("table_to_offsets.py", "-", *words, stdin=None, input=content)
        self.assertEqual(done.stdout.splitlines()[:4], ["0,5,0", "0,10,1000", "5000,10,0", "5000,20,1000"])

    def lines(self, across, down, cells=("0", "9,5")):
        """A table with numbers across and down; all cells but those of the first row are the second one."""
        return table([["", *across], *([one, *[cells[at > 0]] * len(across)] for at, one in enumerate(down))], ";")

    def test_each_axis_has_its_unit(self):
        metres, numbers, heights = [f"{5 * i},5" for i in range(21)], range(21), range(0, 13000, 1000)
        for across, down, words, rows, last in [
            (metres, heights, [], False, "100500,9500,12000"), (metres, heights, [], True, "100500,9500,12000"),
            (numbers, heights, ["--spacing", "5000"], False, "100000,9500,12000"), (numbers, heights, ["--spacing", "5000"], True, "100000,9500,12000"),
            (numbers, [0, 1, 3, 6, 9, 12], ["--spacing", "5000"], False, "100000,9500,12000"),
            (["x = 0 m", "x = 600 m"], ["WL 0 mm", "WL 50 mm"], [], False, "600000,9500,50"),
        ]:
            with self.subTest(across=across, words=words, rows=rows):
                content = self.lines(across, down)
                if rows:
                    content = table(zip(*[line.split(";") for line in content.splitlines()]), ";")
                done = self.tool("table_to_offsets.py", "-", *words, stdin=None, input=content)
                self.assertEqual((done.returncode, done.stdout.splitlines()[-1:]), (0, [last]), done.stderr)

    def test_the_corner_names_both_axes(self):
        content = "x (m) / WL (mm);0;1\n0;1;1\n2;1;1\n"
        done = self.tool("table_to_offsets.py", "-", stdin=None, input=content)
        self.assertEqual(done.stdout, "0,1000,0\n0,1000,1\n2000,1000,0\n2000,1000,1\n")

    def test_a_hyphen_behind_a_letter_is_no_sign(self):
        done = self.tool("table_to_offsets.py", "-", stdin=None, input=";X-0;X-5000;X-9000\nWL-0;1;2;3\nWL-1000;1;2;3\n")
        self.assertEqual(done.stdout.splitlines()[-2:], ["9000,3000,0", "9000,3000,1000"])
        done = self.tool("table_to_offsets.py", "-", stdin=None, input=";X -5000;X \u22121000;X 9000\nWL 0;1;2;3\nWL 1000;1;2;3\n")
        self.assertEqual([line.split(",")[0] for line in done.stdout.splitlines()], ["0", "0", "4000", "4000", "14000", "14000"])

    def test_numbers_of_stations_are_asked_for_their_spacing(self):
        for numbers in (range(21), range(1, 21), ["0", "0,5", *range(1, 10), "9,5", "10"]):
            done = self.tool("table_to_offsets.py", "-", stdin=None, input=self.lines([f"St. {one}" for one in numbers], range(13)))
            self.assertEqual((done.returncode, done.stdout), (1, ""))
            self.assertIn("--spacing", done.stderr)
            done = self.tool("table_to_offsets.py", "-", "--unit", "m", stdin=None, input=self.lines([f"St. {one}" for one in numbers], range(13)))
            self.assertEqual(done.returncode, 0)
            self.assertIn("--spacing", done.stderr)

    def test_tables_that_are_read_in_two_ways(self):
        for content, words, said in [
            (self.lines(range(21), range(0, 13000, 1000)), [], "--stations"), (self.lines(range(7), range(7)), ["--spacing", "5000"], "--stations"),
            (self.lines([0, 50000], [0, 12000], ["900", "1.500"]), [], "part thousands"), (self.lines([0, 50000], [0, 12000], ["900", "1,500"]), [], "part thousands"),
            (self.lines(["500", "1.000", "1.500"], [0, 1]), [], "part thousands"), (self.lines([0, 50], ["WL-500", "WL0", "WL1000"]), [], "a sign"),
        ]:
            with self.subTest(content=content, words=words):
                done = self.tool("table_to_offsets.py", "-", *words, stdin=None, input=content)
                self.assertEqual((done.returncode, done.stdout), (1, ""))
                self.assertIn(said, done.stderr)

    def test_decimals_that_part_no_thousands(self):
        done = self.tool("table_to_offsets.py", "-", stdin=None, input=self.lines([0, "50000.125"], [0, 12000], ["900", "1200.500"]))
        self.assertEqual(done.stdout.splitlines(), ["0,900,0", "0,1201,12000", "50000,900,0", "50000,1201,12000"])
        done = self.tool("table_to_offsets.py", "-", stdin=None, input=self.lines([0, "50"], [0, 12], ["0.000", "9.125"]))
        self.assertEqual(done.stdout.splitlines()[-1], "50000,9125,12000")

    def test_a_spacing_is_a_length(self):
        for word in ("0", "-5", "5.0", "x"):
            self.assertEqual(self.tool("table_to_offsets.py", "-", "--spacing", word).returncode, 2)

    def test_tables_that_cannot_be_read(self):
        for content in ("", "a\n", "x,0,1\n", "x,0,1\n0,1,a\n1,1,1\n", "x,0,1\n0,1,1,1\n1,1,1\n", "x,0,0\n0,1,1\n1,1,1\n", b"PK\x03\x04", 'x,0,1\n"1,500",1,1\n', f"x,0,1\n0,{'1' * 5000},1\n1,1,1\n", f"x,0,{'1' * 400}\n0,1,1\n1,1,1\n", f"x,0,{'a' * 200000}\n"):
            done = self.tool("table_to_offsets.py", self.file("table.csv", content))
            self.assertEqual((done.returncode, done.stdout), (1, ""))
        self.assertEqual(self.tool("table_to_offsets.py", self.room / "none").returncode, 1)


# ---- All tools, README, the built program


class Everything(Room):
    def test_help(self):
        for path in sorted(TOOLS.iterdir()):
            if os.access(path, os.X_OK) and path.is_file():
                with self.subTest(path.name):
                    done = self.tool(path.name, "--help")
                    self.assertEqual((done.returncode, done.stderr), (0, ""))
                    self.assertIn("usage:", done.stdout)

    @unittest.skipUnless(os.path.exists("/dev/full"), "needs /dev/full")
    def test_output_that_cannot_be_written(self):
        report, content = self.file("report", REPORT), self.file("table.csv", "x,WL 0,WL 1000\n0,100,200\n1000,100,200\n")
        for words in [
            ["explain", "refused usage"], ["report_csv.py", report], ["report_svg.py", report], ["table_to_offsets.py", content],
            ["wigley.py", "offsets", "3", "2"], ["booklet.py", report], ["check_input.py", TOP / "examples/barge.toml", TOP / "examples/barge.csv"],
        ]:
            with self.subTest(words), open("/dev/full", "w") as full:
                done = self.tool(*words, stdout=full, stderr=subprocess.PIPE, capture_output=False)
                self.assertEqual((done.returncode, "No space left" in done.stderr), (5, True))

    def test_output_in_few_letters(self):
        few = {**os.environ, "PYTHONIOENCODING": "ascii"}
        self.assertEqual(self.tool("explain", "refused job kind item.free_surface 1", env=few).returncode, 0)
        for path in TOOLS.glob("*.py"):
            if os.access(path, os.X_OK):
                self.assertEqual(self.tool(path.name, "--help", env=few).returncode, 0, path.name)

    def test_wigley(self):
        self.assertEqual(len(self.tool("wigley.py", "offsets", "3", "2").stdout.splitlines()), 6)
        for words in (["offsets", "65", "6"], ["offsets", "x", "6"], ["table", self.room / "none"], []):
            self.assertNotEqual(self.tool("wigley.py", *words).returncode, 0)

    def test_every_tool_is_in_readme(self):
        text = (TOP / "README.md").read_text(encoding="utf-8")
        for path in TOOLS.iterdir():
            if os.access(path, os.X_OK) and path.is_file():
                self.assertTrue(f"`{path.name}" in text, path.name)

    def test_rows(self):
        rows = offset_rows.rows_of(b'\xef\xbb\xbf1,2,3\r\n\r\n"4", 5 ,6\n')
        self.assertEqual([(row.number, row.line, row.fields) for row in rows], [(1, 1, ["1", "2", "3"]), (2, 3, ["4", " 5 ", "6"])])
        (station,) = offset_rows.stations_of(offset_rows.rows_of(b"0,0,0\n0,5,0\n0,6,9\n0,0,9\n"))
        self.assertEqual([[point.row for point in points] for points in (station.kept, station.dropped)], [[2, 3], [1, 4]])

    @unittest.skipUnless(PROGRAM.exists(), "the program isn't built")
    def test_readme_shows_what_the_program_writes(self):
        text = (TOP / "README.md").read_text(encoding="utf-8")
        with_job = [command for command, words in refusal_hints.FORMS.items() if words == ["JOB", "OFFSETS"]]
        asked = [[command, CARGO_JOB, CARGO] for command in with_job] + [["section", CARGO, "12", "8000"]]
        asked.append(["stability", TOP / "examples" / "off_centre.toml", TOP / "examples" / "barge.csv"])
        written = [line for words in asked for line in run([PROGRAM, *words]).stdout.splitlines()]
        shown = re.findall(r"(?m)^    ((?:hydro|section|cross|load|upright|arm|mark|verdict|damage|safe|next|hull|body|end) [0-9C-p].*)$", text)
        self.assertGreater(len(shown), 30)
        for line in shown:
            self.assertTrue(any(full.startswith(line.removesuffix(" ..")) for full in written), line)

    @unittest.skipUnless(PROGRAM.exists(), "the program isn't built")
    def test_the_program_s_refusals_are_explained(self):
        texts = refusal_texts.load()
        for line, content, _ in OFFSET_HINTS:
            done = run([PROGRAM, "hydro", CARGO_JOB, self.file("ship.csv", content)])
            with self.subTest(line=line):
                self.assertEqual(done.returncode, 3, done.stdout)
                self.assertIsNotNone(texts.entry_of(done.stdout.split()))

# One item on the barge: criterion, mass in kg, height in mm, and free surface moments in kg·m at which the criterion holds,
# is unsure twice, and fails, each a kg·m from the next mark. A kg·m raises the centre by 0.0001 mm.
LIMITS = [
    (1, 10250000, 9254, (5389, 5390, 5645, 5646)),
    (2, 10250000, 9292, (8262, 8263, 8461, 8462)),
    (3, 10250000, 9394, (795, 796, 1606, 1607)),
    (4, 10250000, 9651, (8289, 8290, 8413, 8414)),
    (5, 16400000, 5383, (11462, 11463, 28233, 28234)),
]
GM_LIMIT = (6, 10250000, 9016, (6833, 6834))


@unittest.skipUnless(PROGRAM.exists(), "the program isn't built")
class Criteria(Room):
    def mark(self, criterion, mass, height, moment):
        item = f'[[item]]\nname = "a"\nmass = {mass}\nx = 50000\nz = {height}\nfree_surface = {moment}\n'
        job = self.file("ship.toml", f"version = 1\ndensity = 1025\nlength_bp = 100000\n{item}")
        done = run([PROGRAM, "stability", job, TOP / "examples" / "barge.csv"])
        marks = re.findall(r"(?m)^mark C([1-6]) (\w+)$", done.stdout)
        named = next((int(number) for number, mark in marks if mark == "fails"), None)
        self.assertEqual(done.returncode == 1, named is not None)
        self.assertIn(f"verdict fail C{named} " if named else "verdict ", done.stdout)
        return dict(marks)[str(criterion)]

    def test_each_criterion_at_its_limit(self):
        for criterion, mass, height, moments in LIMITS:
            with self.subTest(criterion=criterion):
                found = [self.mark(criterion, mass, height, moment) for moment in moments]
                self.assertEqual(found, ["holds", "unsure", "unsure", "fails"])

    def test_gm_at_its_limit(self):
        criterion, mass, height, moments = GM_LIMIT
        self.assertEqual([self.mark(criterion, mass, height, moment) for moment in moments], ["holds", "fails"])


# ---- The booklet and the check of a report

BARGE, BARGE_JOB = TOP / "examples" / "barge.csv", TOP / "examples" / "barge.toml"


def report_of(name, job, offsets):
    """A right report: that of the built program, else the one that is kept."""
    if PROGRAM.exists():
        return run([PROGRAM, "all", job, offsets]).stdout
    return (TOP / "docs" / f"{name}.txt").read_text(encoding="ascii")


class Booklet(Room):
    def booklet(self, report, *words):
        done = self.tool("booklet.py", self.file("ship.txt", report), *words)
        self.assertEqual((done.returncode, done.stderr), (0, ""))
        return ElementTree.fromstring(done.stdout.removeprefix("<!DOCTYPE html>\n"))

    @unittest.skipUnless(check_input.tomllib, "jobs are read with Python 3.11 or later")
    def test_the_cargo_ship(self):
        report = report_of("cargo", CARGO_JOB, CARGO)
        page = self.booklet(report, "--offsets", CARGO, "--job", CARGO_JOB)
        text = "".join(page.itertext())
        cells = [cell.text for cell in page.iter("code")]
        figures = {word for line in report.splitlines() for word in line.split() if word.startswith("[")}
        self.assertGreater(len(figures), 300)
        self.assertEqual([figure for figure in figures if figure not in text], [])
        tables = " ".join("".join(cell.itertext()) for cell in page.iter("td"))
        shown = [line for line in report.splitlines() if line.split()[0] in ("hydro", "section", "load", "upright")]
        shown += [line for line in report.splitlines() if re.match(r"(cross [0-9]+|arm) [0-9]*[05] ", line)]
        for word in (word for line in shown for word in line.split() if word.startswith("[")):
            self.assertIn(word, tables)
        for said in ("Verdict: pass", "102.000 m", "18.000 m", "fuel_p", "forehold", "hullcert 1 all", "2.2.3", "holds"):
            self.assertIn(said, text)
        self.assertEqual([len(cell) for cell in cells], [64] * 3)
        titles = [heading.text for heading in page.iter("h2")]
        self.assertEqual(titles, [
            "Hydrostatic table", "Bonjean curves", "Cross curves", "Loading", "Intact stability", "Drafts of the damaged ship",
            "Floodable lengths", "The report",
        ])
        self.assertEqual([name for name in ("script", "link", "img") if list(page.iter(name))], [])

    def test_reports_of_one_table(self):
        for report, titles in [(REPORT, ["Hydrostatic table"]), (FLOODABLE, ["Loading", "Floodable lengths"]), (GAP, ["Loading", "Floodable lengths"])]:
            found = [heading.text for heading in self.booklet(report).iter("h2")]
            self.assertEqual(found, [*titles, "The report"])
        self.assertIn("no waterline was found", "".join(self.booklet(LOST).itertext()))

    def test_a_report_of_make_shows_its_marks(self):
        page = self.booklet(MADE)
        self.assertIn("Intact stability", [heading.text for heading in page.iter("h2")])
        rows = [[cell.text or "".join(cell.itertext()) for cell in row] for row in page.iter("tr")]
        marks = {row[0]: "".join(row[3:4]) for row in rows if row[0] in booklet_criteria.PARAGRAPHS}
        self.assertEqual(marks, {**dict.fromkeys(("C1", "C2", "C3", "C4", "C5"), "–"), "C6": "5.481 [5.481901,5.481904]"})
        self.assertEqual([heads for heads in rows if heads[0] == "case"][0][1:2], ["draft at the first station (aft)"])

    def test_both_sides_of_a_job_of_version_2(self):
        arms = "".join(
            f"arm {k} 1 2 [0.{k:02}0000,0.{k:02}0001] [0.0{k:02}000,0.0{k:02}001] [-0.100001,-0.100000] [-0.200000,-0.199999]\n" for k in range(91)
        )
        marks = "".join(f"mark C{n} fails\n" for n in range(1, 7))
        report = (
            "hullcert 2 stability\nhull 3 6\nbody 120\nload 10 [1.000000,1.000000] [2.000000,2.000001] [3.000000,3.000000]\n"
            f"upright 1 2 [2.000000,2.000001] [3.000000,3.000001] [0.100000,0.100001]\n{arms}{marks}"
            "verdict fail C1 port interval 30 [0.030000,0.030001]\nend 104\n"
        )
        text = " ".join(self.booklet(report).itertext())
        for said in ("Verdict:  fail", "C1, port, at 30 degrees", "TCG, m", "GZ to starboard, m", "starboard", "[-0.255000, -0.254999]"):
            self.assertIn(said, text)

    def test_short_forms(self):
        for word, short in [
            ("[1.750529,1.750531]", "1.750"), ("[1.999999,2.000001]", "2.000"), ("[-0.000001,0.000001]", "0.000"), ("[1.2,1.9]", "1"),
            ("[-0.084384,-0.084377]", "-0.084"), ("[99.500000,100.600000]", ""), ("[7.000000,7.000000]", "7.000"), ("[1.120000,1.180000]", "1.1"),
        ]:
            self.assertEqual(booklet_criteria.short(word), short, word)

    def test_the_picture_of_levers(self):
        report = self.file("ship.txt", report_of("cargo", CARGO_JOB, CARGO))
        done = self.tool("booklet.py", report, "--gz")
        self.assertEqual(done.returncode, 0)
        self.assertIn("verdict pass", "".join(ElementTree.fromstring(done.stdout).itertext()))
        self.assertEqual(self.tool("booklet.py", self.file("hydro.txt", REPORT), "--gz").returncode, 1)

    def test_files_that_are_no_reports(self):
        for content, said in [("refused usage\n", "refused usage"), ("hullcert 1 hydro\nx\n", "line 2"), ("", "empty")]:
            done = self.tool("booklet.py", self.file("report", content))
            self.assertEqual((done.returncode, done.stdout, said in done.stderr), (1, "", True))
        text = "".join(ElementTree.fromstring(self.tool("booklet.py", self.file("cut", REPORT.replace("end 6\n", ""))).stdout.split("\n", 1)[1]).itertext())
        self.assertIn("it was cut", text)


def turned(word):
    """A word with another digit: both ends of a figure 0.003 higher, or the last digit of a number."""
    if word.startswith("["):
        return f"[{','.join(str(Decimal(end) + Decimal('0.003')) for end in word[1:-1].split(','))}]"
    return word[:-1] + str((int(word[-1]) + 3) % 10)


def widened(word):
    """A figure whose lower end is 0.5 lower."""
    low, high = word[1:-1].split(",")
    return f"[{Decimal(low) - Decimal('0.5')},{high}]"


def figure_moved(word, by):
    """A figure moved by a fraction that is nearly right, and rounded outwards; whole units of the last place are exact."""
    figure = report_text.figure_of(word, 6)
    slack = Fraction(1, 10 ** 6) if by % Fraction(1, 10 ** 6) else 0
    return str(report_text.printed(figure.low + by - slack, figure.high + by + slack))


def moved(by):
    return lambda word: str(int(word) + by)


# What is planted: the beginning of a line, the words of it that are changed, and how.
PLANTED = [
    ("body", [1], turned), ("hull ", [2], turned), ("hydro 5000 ", [2], turned), ("hydro 5000 ", [10], turned),
    ("hydro 5000 ", [7], lambda word: "-"), ("hydro 12000 ", [7], lambda word: "[50.000000,50.000000]"),
    ("section 1 50000 5000 ", [4], turned), ("section 1 50000 5000 ", [5], lambda word: "[249.999999999,250.000000000]"),
    ("hydro 5000 ", [2], widened), ("hydro 5000 ", [9], widened), ("cross 10250000 40 ", [5], widened), ("arm 7 ", [4], widened),
    ("arm 8 ", [5], widened), ("arm 11 ", [2], moved(-500)), ("cross 10250000 30 ", [5], turned), ("cross 10250000 30 ", [3, 4], moved(7)), ("cross 10250000 57 ", [3, 4], moved(-7)),
    ("load ", [3], turned), ("load ", [1], moved(1000)), ("upright", [1], moved(-60)), ("upright", [5], turned),
    ("upright", [3], widened), ("upright", [4], widened), ("upright", [5], widened),
    ("arm 45 ", [4], turned), ("arm 31 ", [5], turned), ("arm 0 ", [2], moved(-60)), ("arm 64 ", [2, 3], moved(9)),
    ("mark C4 ", [2], lambda word: "fails"), ("mark C6 ", [2], lambda word: "unsure"),
    ("verdict ", [1], lambda word: "fail C4 interval 40 [0.100000,0.100001]"),
    ("damage 1 ", [2, 3], moved(9)), ("damage 1 ", [5], moved(90)), ("safe 50000 ", [2], moved(100)), ("safe 50000 ", [3], moved(9)),
    ("next 50000 ", [4], moved(1)), ("next 50000 ", [2], moved(100)), ("end ", [1], moved(1)),
]


@unittest.skipUnless(ship_job.tomllib, "jobs are read with Python 3.11 or later")
class CheckReport(Room):
    @classmethod
    def setUpClass(cls):
        cls.job, cls.hull = ship_job.read_job(BARGE_JOB), exact_hull.Hull(exact_hull.read_stations(BARGE))
        cls.report = report_of("barge", BARGE_JOB, BARGE)

    def lines_of(self, report):
        return report_text.read_lines(self.file("report", report))

    def failures(self, report, status=None):
        return check_report.Examiner(self.job, self.hull, self.lines_of(report)).run(status).failures

    def test_a_right_report(self):
        self.assertEqual(self.failures(self.report, 0), [])
        self.assertEqual([text for _, text in self.failures(self.report, 1)], ["the exit code is 1, and is to be 0"])

    def test_planted_errors_are_found(self):
        lines = self.report.splitlines()
        for start, places, change in PLANTED:
            at = next(at for at, line in enumerate(lines) if line.startswith(start))
            words = lines[at].split(" ")
            for place in places:
                words[place] = change(words[place])
            with self.subTest(start=start, places=places):
                self.assertNotEqual(" ".join(words), lines[at])
                found = self.failures("\n".join([*lines[:at], " ".join(words), *lines[at + 1:], ""]))
                self.assertIn(at + 1, [number for number, _ in found] if start != "safe 50000 " else [at + 1] if found else [])

    def test_lines_that_are_missing_or_change_places(self):
        lines = self.report.splitlines()
        at = next(at for at, line in enumerate(lines) if line.startswith("arm 17 "))
        for planted in (
            [*lines[:at], *lines[at + 1:]], [*lines[:at], lines[at + 1], lines[at], *lines[at + 2:]], [*lines[:at], lines[at], *lines[at:]],
        ):
            self.assertTrue({at + 1, at + 2} & {number for number, _ in self.failures("\n".join([*planted, ""]))})

    def report_off_centre(self, offset):
        """The right report of the barge with its centre so many mm to starboard: levers and areas differ by turns of that."""
        lines = []
        for line in self.report.splitlines():
            name, *words = line.split(" ")
            if name == "load":
                words.insert(2, f"[{offset / 1000:.6f},{offset / 1000:.6f}]")
            if name == "arm":
                cosine, sine = (sum(span) / 2 * offset / 1000 for span in exact_hull.spans_of(exact_hull.bracket_of(int(words[0]))))
                figures = zip(words[3:5] * 2, (cosine, sine, -cosine, -sine))
                words[3:] = [figure_moved(word, by) if by else word for word, by in figures]
            lines.append(" ".join([name, *words]))
        return lines

    def test_both_sides_of_a_job_of_version_2(self):
        at_centre = "\n".join([*self.report_off_centre(0), ""]).replace("hullcert 1", "hullcert 2", 1)
        job = self.job._replace(version=2)
        self.assertEqual(check_report.Examiner(job, self.hull, self.lines_of(at_centre)).run().failures, [])
        job = job._replace(items=[{**self.job.items[0], "y": 1000}])
        lines = self.report_off_centre(1000)
        area = next(line.split(" ")[7] for line in lines if line.startswith("arm 30 "))
        lines = [re.sub("mark C([12]) .*", r"mark C\1 fails", line) for line in lines if not line.startswith("end")]
        lines = [f"verdict fail C1 starboard interval 30 {area}" if line.startswith("verdict") else line for line in lines]
        text = "\n".join([*lines, f"end {len(lines) + 1}", ""]).replace("hullcert 1", "hullcert 2", 1)
        self.assertEqual(check_report.Examiner(job, self.hull, self.lines_of(text)).run(1).failures, [])
        for planted in (text.replace(" starboard ", " port "), text.replace("C1 starboard ", "C1 "), text.replace("mark C5 holds", "mark C5 fails")):
            found = check_report.Examiner(job, self.hull, self.lines_of(planted)).run(1).failures
            self.assertTrue(found)

    def test_an_opening_at_the_edge_of_the_deck(self):
        job = self.job._replace(openings=[(10000, 10000)])
        levels = {int(words[1]): (int(words[2]), int(words[3])) for words in map(str.split, self.report.splitlines()) if words[0] == "arm"}
        leaks = printed_marks.Leaks(job.openings, levels)
        self.assertEqual((leaks.most, leaks.candidates), (26, [26]))
        depth = report_text.printed(*(end / 1000 for end in leaks.depth(0, 27)))
        text = self.report.replace("mark C3 holds", "mark C3 fails").replace("verdict pass", f"verdict fail C3 leak 1 27 {depth}")
        self.assertEqual(check_report.Examiner(job, self.hull, self.lines_of(text)).run(1).failures, [])
        for planted in (text.replace("leak 1 27", "leak 1 28"), text.replace(f"27 {depth}", "27 [0.000001,0.000002]"), self.report):
            self.assertEqual(len(check_report.Examiner(job, self.hull, self.lines_of(planted)).run().failures), 1)

    def test_a_report_of_make(self):
        job, hull = made_ship.made_job(), exact_hull.Hull(made_ship.made_stations(15841))
        made = lambda text: check_report.Examiner(job, hull, self.lines_of(text)).run()  # noqa: E731
        right = made(MADE)
        self.assertEqual((right.failures, dict(right.left_out)), ([], {"marks that rest on arm lines": 5}))
        fails = MADE.replace("C2 holds", "C2 fails")
        for old, new, line in [
            ("body 58970562000000", "body 59006256000000", 3), ("[2.829487,", "[2.829488,", 4), ("[8.035113,8.035114]", "[8.035113,8.135114]", 4),
            ("load 4000000", "load 4000001", 5), ("5.481904", "5.481902", 6), ("C6 holds", "C6 fails", 12), ("mark C6 holds\n", "", 12),
            ("C3 holds", "C3 unsure", 13), ("verdict pass", "verdict fail C1 interval 30 [0.010000,0.010001]", 13), ("5593079", "5593078", 14),
        ]:
            with self.subTest(new=new):
                self.assertIn(line, [number for number, _ in made(MADE.replace(old, new)).failures])
        for shown, count in [
            ("interval 40 [0.080000,0.080001]", 0), ("interval 39 [0.080000,0.080001]", 1), ("interval 40 [0.080000,0.090001]", 1), ("pair 1 30", 1),
            ("leak 1 5 [0.100000,0.200000]", 1), ("port interval 40 [0.080000,0.080001]", 1),
        ]:
            found = made(fails.replace("verdict pass", f"verdict fail C2 {shown}"))
            self.assertEqual((len(found.failures), sum(found.left_out.values())), (count, 6), found.failures)

    def test_words_and_faults(self):
        report = self.file("report.txt", "hullcert 1 damage\n" + "".join(
            line + "\n" for line in self.report.splitlines() if line.split()[0] in ("hull", "body", "load", "damage")
        ) + "end 6\n")
        done = self.tool("check_report.py", BARGE_JOB, BARGE, report)
        self.assertEqual((done.returncode, done.stderr), (0, ""))
        self.assertRegex(done.stdout, r"damage boxes +5 checked, 0 failed")
        self.assertIn(" checks, 0 failed", done.stdout)
        done = self.tool("check_report.py", BARGE_JOB, BARGE, self.file("bad.txt", report.read_text().replace("body 12", "body 13")))
        self.assertEqual(done.returncode, 1)
        self.assertIn("line 3: six times the volume is 130000000000000, and is to be 120000000000000", done.stdout)
        for words, said in [
            ((BARGE_JOB, BARGE, self.file("a", "refused usage\n")), "line 1: refused usage"),
            ((BARGE_JOB, BARGE, self.file("b", "hullcert 1 hydro\nhull 3\n")), "line 2: outside the grammar"),
            ((BARGE_JOB, BARGE, self.file("c", "hullcert 1 hydro\nhull 3 6")), "line 2: the last line has no line feed"),
            ((BARGE_JOB, self.file("d", "0,1,2\n0,1\n"), report), "line 2: not three whole numbers"),
            ((self.file("e", "version = 1\ndensity = x\n"), BARGE, report), "line 2"),
            ((self.file("f", "version = 1\n"), BARGE, report), "there is no 'density'"),
            ((BARGE_JOB, BARGE, self.room / "none"), "No such file"),
            ((BARGE_JOB, BARGE, self.file("g", MADE)), "it is checked with --make NUMBER"),
            (("--make", "1", report), "this is no report of make"),
        ]:
            done = self.tool("check_report.py", *words)
            self.assertEqual((done.returncode, done.stdout, said in done.stderr), (1, "", True), done.stderr)

    def test_worked_values(self):
        upright = self.hull.integrals(exact_hull.UPRIGHT, 5000, 5000)
        self.assertEqual((upright.volume, upright.x, upright.y, upright.z), (10 ** 13, 5 * 10 ** 17, 0, 25 * 10 ** 15))
        self.assertEqual(self.hull.lid(10000).area, 2 * 10 ** 9)
        self.assertEqual(self.hull.left(5000, 5000, [(90000, 100000, 1000)]), (9 * 10 ** 12, 405 * 10 ** 15))
        self.assertEqual((len(self.hull.faces), self.hull.six), (32, 12 * 10 ** 13))
        # no side rises as it is seen from above, and the deck, at 10000 mm, is wet above its height alone
        narrow = Fraction(4 * 10 ** 9, 2 ** 32) + Fraction(32, 2 ** 18)
        self.assertEqual(self.hull.lid_width(5000 * 1024, 5001 * 1024), narrow)
        self.assertEqual(self.hull.lid_width(10000 * 1024, 10001 * 1024), narrow + 2 * 10 ** 9)
        slope = exact_hull.Face((0, 4, 8), 0, 0, 1)
        self.assertEqual([slope.share_below(level) for level in (0, 2, 4, 6, 8)], [0, Fraction(1, 8), Fraction(1, 2), Fraction(7, 8), 1])


# ---- Hostile use

REFUSED_OFFSETS = [
    ("0,0,0,0\n", "columns 1"), ("0,0,0\n\n0,1\n", "columns 2"), ("0,x,y\n", "number 1 2"), ("0,-1,x\n", "number 1 3"), ("0,1,-00\n0,-1,-1\n", "negative 2 2"),
    ("0,65536,65536\n", "range 1 2"), ("524288,0,0\n", "range 1 1"), ("5,0,0\n4,0,65536\n", "range 2 3"), ("5,0,0\n4,0,0\n", "backwards 2"),
    ("5,0,1\n5,0,0\n", "height 2"), ("5,0,0\n5,1,1\n5,2,1\n5,3,2\n", "height 3"), ("", "fewstations 0"), ("5,0,0\n6,0,0\n", "fewstations 2"),
    (table((x, 1, z) for x in range(65) for z in (0, 1)), "toomanystations 129"), ("0,1,0\n1,1,0\n1,2,0\n2,1,0\n", "fewpoints 2"),
    (table((x, 1, z) for x in range(3) for z in range(33)), "toomanypoints 1"), (table((x, int(x == 1 and z == 0), max(z, 1)) for x in range(3) for z in range(3)), "novolume"),
    (table((x, 1, z) for x in range(64) for z in range(32)), None), ('\ufeff"0", 1,2\r\r\n 1\t,1,2\n1,1,3\n2,1,000000003', None), ("\ufeff\ufeff0,0,0\n", "number 1 1"),
]
HOSTILE_PROGRAMS = [  # what it does, and what is said of it
    ("exit 7", "7 is no status"), ("echo x >&2; echo refused usage; exit 3", "standard error has b'x"), ("kill -SEGV $$", "signal 11"), ("sleep 9", "signal 9 ended the run after"),
    ("echo refused offsets columns 90; exit 3", "is right"), ("echo refused offsets; exit 3", "without one refused line"), ("printf 'refused usage'; exit 3", "without one refused line"),
    ("echo refused job kind item.w 1; exit 3", "without one refused line"), ("echo end 1", "without a whole report"), ("exit 6", "memory and output suffice"),
    ("echo refused job version; exit 3", "the job is right"), ("cat job.toml | tail -c 40000000; exit 3", "without one refused line"), ("echo refused heavy 1 2; exit 3", ""),
]


class HostileUse(Room):
    def hostile(self, *words):
        done = self.tool("hostile", "--jobs", "2", *words)
        self.assertEqual(done.stderr, "")
        return done

    def program(self, text):
        path = self.file("program", f"#!/bin/sh\n{text}\n")
        path.chmod(0o755)
        return path

    def test_offsets_are_read_anew(self):
        for content, fault in REFUSED_OFFSETS:
            with self.subTest(fault=fault, content=content[:40]):
                self.assertEqual(offset_faults.read(content.encode()).refusal, fault and f"refused offsets {fault}")
        self.assertEqual(offset_faults.read(b"\n" * 1048577).refusal, "refused long offsets")
        self.assertEqual(offset_faults.read(b"\n" * 1048576).refusal, "refused offsets fewstations 0")

    def test_six_times_the_volume(self):
        self.assertEqual(hostile_answers.six_volume(offset_faults.read(BARGE.read_bytes()).stations), 12 * 10 ** 13)
        self.assertEqual(hostile_answers.six_volume(offset_faults.read(CARGO.read_bytes()).stations), 101283500000000)

    def test_a_file_is_made_again_from_its_number(self):
        cases = [hostile_files.made(1, number) for number in range(300)]
        self.assertEqual(cases, [hostile_files.made(1, number) for number in range(300)])
        self.assertNotEqual(cases, [hostile_files.made(2, number) for number in range(300)])
        self.assertEqual({case.words[0] for case in cases}, set(hostile_files.COMMANDS))
        accepted = sum(offset_faults.read(case.offsets).refusal is None for case in cases)
        self.assertTrue(100 < accepted < 250, accepted)

    def test_planted_faults_are_found(self):
        for text, said in HOSTILE_PROGRAMS:
            with self.subTest(text):
                done = self.hostile("--count", "12", "--seconds", "0.2", "--program", self.program(text))
                self.assertEqual(done.returncode, 1)
                self.assertIn(said, done.stdout)
                self.assertRegex(done.stdout.splitlines()[-1], r"^12 files, [1-9][0-9]* failed; ")

    def test_what_failed_is_kept_and_shown_again(self):
        program = self.program("exit 7")
        self.hostile("--count", "3", "--seed", "5", "--program", program, "--keep", self.room / "kept")
        self.assertEqual(sorted(path.name for path in (self.room / "kept").iterdir()), ["0", "1", "2"])
        case = hostile_files.made(5, 1)
        self.assertEqual((self.room / "kept/1/hull.csv").read_bytes(), case.offsets)
        self.assertEqual((self.room / "kept/1/words").read_text().split(), case.words)
        done = self.hostile("--only", "1", "--seed", "5", "--program", program)
        self.assertIn(f"words: {' '.join(case.words)}", done.stdout)
        self.assertIn("file 1: 7 is no status", done.stdout)

    def test_reports(self):
        right = limited_run.Run(0, report_of("barge", BARGE_JOB, BARGE).encode(), b"", 0.1, 0.1, 20000)
        case = hostile_files.Case(["all", "job.toml", "hull.csv"], BARGE_JOB.read_bytes(), BARGE.read_bytes(), {"hull.csv"})
        self.assertEqual(hostile_answers.faults_of(case, right, 20000), [])
        for old, new, said in [
            (b"hull 3 6", b"hull 3 7", "3 6 stations"), (b"body 12", b"body 13", "volume is 120000000000000"), (b"end ", b"end 1", "counts other lines"),
            (b"verdict pass", b"verdict fail C1 interval 30 [0.000000,0.000001]", "the verdict isn't"), (b"mark C5 holds\n", b"", "whole report"),
            (b"arm 17 ", b"arm 017 ", "whole report"), (b"\nend", b"\n\nend", "whole report"),
        ]:
            found = hostile_answers.faults_of(case, right._replace(output=right.output.replace(old, new)))
            self.assertIn(said, found[0])
        self.assertEqual(hostile_answers.faults_of(case, right, 19999), ["20000 KiB of memory were used"])
        self.assertIn("refused offsets columns 1", hostile_answers.faults_of(case._replace(offsets=b"0\n"), right)[0])

    def test_which_jobs_are_toml(self):
        for content, readable in [
            (b"a = 1\n", True), (b"a = 1\na = 2\n", False), (b"a = \xff\n", False), (b"a = 9223372036854775808\n", None), (b"a = {\n}\n", None),
            (b"\xef\xbb\xbfa = 07:32:00\n", True), (b"a = 07:32\n", None), (b"#" * 1048577, False), (f"a = {'[' * 70}{']' * 70}".encode(), None), (b"#" * 7000, None),
        ]:
            with self.subTest(content[:40]):
                self.assertIs(hostile_answers.is_toml(content), readable if hostile_answers.tomllib or readable is False else None)

    @unittest.skipUnless(PROGRAM.exists(), "the program isn't built")
    def test_the_program_on_broken_files(self):
        done = self.tool("hostile", "--count", "3000", timeout=600)
        self.assertEqual((done.returncode, done.stderr), (0, ""), done.stdout)
        self.assertIn("3000 files, 0 failed; ", done.stdout)

CHECKED = """#!/bin/sh
set -- $(tail -c 16 "$0" | od -An -v -tx1)
number=$((0x$8$7$6$5$4$3$2$1))
[ ${14} = 31 ] || [ $number -lt 1 ] || [ $number -gt 5 ] || kill -ILL $$
case $number in 3) %s ;; 1 | 2 | 4 | 5) exit 6 ;; esac
echo end 1
exit 0
"""


class RefusedMemory(Room):
    """A stand-in for a build with checks: five allocations, and the number and the refusal in its last bytes."""

    def build(self, third):
        refusal = b"\x48\x39\xc8\x75\x0c\x31\xc0\n"
        path = self.file("build", (CHECKED % third).encode() + (0x1234567890ABCD).to_bytes(8, "little") + refusal)
        path.chmod(0o755)
        return path

    def test_each_allocation_is_refused(self):
        for third, status, said in [
            ("exit 6", 0, "refused in turn, 5 runs ended with status 6 and nothing written, 0 with status 0 and the whole report; 0 otherwise"),
            (":", 0, "4 runs ended with status 6 and nothing written, 1 with status 0 and the whole report, allocation 3; 0 otherwise"),
            ("echo end; exit 6", 1, "cross, allocation 3: status 6, 4 bytes written"), ("exit 1", 1, "cross, allocation 3: status 1, 0 bytes written"),
            ("echo x >&2; exit 6", 1, "standard error b'x"), ("echo end; exit 0", 1, "allocation 3: status 0, 4 bytes"),
        ]:
            with self.subTest(third):
                done = self.tool("refuse_memory", "--jobs", "1", "--build", self.build(third), "--commands", "cross")
                self.assertEqual((done.returncode, done.stderr, said in done.stdout), (status, "", True), done.stdout)
                self.assertIn("cross: 5 allocations;", done.stdout)

    def test_the_build_is_caught_where_it_is_made(self):
        self.build("exit 6")
        makes = 'mkdir -p "$TMPDIR/a/b"; cp "$ROOM/build" "$TMPDIR/a/b/program"; sleep 0.3; rm -r "$TMPDIR/a"'
        for text, status in [(makes, 0), ("echo nothing was built >&2; exit 1", 1)]:
            self.file("bin/rt", f"#!/bin/sh\n{text}\n").chmod(0o755)
            environment = {**os.environ, "ROOM": str(self.room), "PATH": f"{self.room}/bin:{os.environ['PATH']}"}
            done = self.tool("refuse_memory", "--jobs", "1", "--commands", "cross", env=environment)
            self.assertEqual(done.returncode, status, done.stderr)
            self.assertEqual("nothing was built" in done.stderr, status == 1)

    def test_files_that_are_no_builds(self):
        done = self.tool("refuse_memory", "--build", self.file("build", "#!/bin/sh\n"))
        self.assertEqual((done.returncode, "isn't of the form" in done.stderr), (1, True))


class LargeShip(Room):
    def test_as_much_as_a_job_may_have(self):
        self.assertEqual(self.tool("large_ship.py", "write", self.room / "large").returncode, 0)
        reading = offset_faults.read((self.room / "large/large.csv").read_bytes())
        self.assertEqual((reading.refusal, len(reading.stations), {len(station.kept) for station in reading.stations}), (None, 64, {32}))
        points = [(station.x, point.y, point.z) for station in reading.stations for point in station.kept]
        self.assertEqual((max(x for x, _, _ in points), max(z for _, _, z in points)), (524287, 65535))
        self.assertGreater(max(y for _, y, _ in points), 65500)
        if ship_job.tomllib:
            job = ship_job.read_job(self.room / "large/large.toml")
            counts = [len(part) for part in (job.drafts, job.displacements, job.items, job.openings, job.cases, job.centres)]
            self.assertEqual((counts, job.step, len(job.cases[0])), ([64, 16, 256, 64, 32, 32], 2, 64))

    def test_measuring(self):
        for text, status in [("echo end 1", 0), ("echo refused usage; exit 3", 1), ("echo x >&2; echo end 1", 1)]:
            program = self.file("program", f"#!/bin/sh\n{text}\n")
            program.chmod(0o755)
            done = self.tool("large_ship.py", "measure", "--program", program)
            self.assertEqual((done.returncode, len(done.stdout.splitlines())), (status, 8))
            self.assertRegex(done.stdout, r"(?m)^damage .* s .* MiB  status [03]  (end 1|refused usage)$")

    @unittest.skipUnless(PROGRAM.exists(), "the program isn't built")
    def test_the_program_takes_it(self):
        done = self.tool("large_ship.py", "measure", "--commands", "section", "hydro")
        self.assertEqual(done.returncode, 0, done.stdout)


class Bench(Room):
    """What bench/compare stands on; it needs neither rustc nor valgrind to be asked for help, and the rest isn't run here."""

    def test_words(self):
        compare = TOP / "bench" / "compare"
        done = run([sys.executable, compare, "--help"])
        self.assertEqual((done.returncode, done.stderr, "usage:" in done.stdout), (0, "", True))
        done = run([sys.executable, compare, "--commands", "hydros"])
        self.assertEqual((done.returncode, "hydros: not among hydro, bonjean" in done.stderr), (1, True))

    def test_doubles_inside_and_outside(self):
        plain = DAMAGE.replace("[49.541766,49.541767]", "49.5417665").replace("[5.958233,5.958234]", "5.958234")
        plain = plain.replace("5837189 5837191 9468601 9468603", "5837190.0 9468604.0").replace("8516633 8516635 5644566 5644568", "8516634.5 5644567.5")
        found = agreement.agreement(DAMAGE.encode(), plain.encode())
        self.assertEqual((found.figures, len(found.offs), found.others, found.is_good()), (7, 1, [], True))
        for old, new in [("9468604.0", "9468614.0"), ("8516634.5 5644567.5", "sinks 1.0"), ("5.958234", "5.958241"), ("end 7\n", "")]:
            self.assertFalse(agreement.agreement(DAMAGE.encode(), plain.replace(old, new).encode()).is_good(), new)

    def test_what_a_report_leaves_open(self):
        report = "hullcert 1 stability\nmark C1 unsure\nmark C2 holds\nverdict undecided C1 interval 30 [0.054999,0.055001]\nend 5\n"
        for second, is_good in [("holds", True), ("fails", False)]:
            plain = f"hullcert 1 stability\nmark C1 fails\nmark C2 {second}\nverdict fail C1\nend 5\n"
            self.assertEqual(agreement.agreement(report.encode(), plain.encode()).is_good(), is_good)

    def test_the_ships(self):
        made = ships.ships_in(self.room)
        fine, cargo = (ship_job.read_job(made[name].job) for name in ("fine", "cargo"))
        self.assertEqual(len(fine.drafts), 64)
        for kind in ("displacements", "items", "openings", "cases", "centres"):
            self.assertEqual(len(getattr(fine, kind)), len(getattr(cargo, kind)), kind)
        if PROGRAM.exists():
            for ship in made.values():
                self.assertEqual(run([PROGRAM, "bonjean", ship.job, ship.offsets]).returncode, 0, ship.name)


def counted(result, after):
    """How many tests passed and failed, with those of a line."""
    failed = len({getattr(test, "test_case", test).id() for test, _ in result.failures + result.errors})
    passed = result.testsRun - failed - len(result.skipped)
    found = COUNTS.match(after or "0 passed, 0 failed")
    return (passed + int(found[1]), failed + int(found[2])) if found else (passed, failed + 1)


def main():
    parser = argparse.ArgumentParser(description=__doc__, formatter_class=argparse.RawDescriptionHelpFormatter)
    parser.add_argument("--after", metavar="LINE", help="the last line of a run whose counts are added")
    given = parser.parse_args()
    suite = unittest.defaultTestLoader.loadTestsFromModule(sys.modules[__name__])
    with contextlib.redirect_stdout(io.StringIO()):
        result = unittest.TextTestRunner(stream=sys.stderr, verbosity=0).run(suite)
    for test, why in result.skipped:
        print(f"not tried: {test.id()}: {why}")
    passed, failed = counted(result, given.after)
    print(f"{passed} passed, {failed} failed")
    return 1 if failed or not result.testsRun else 0


if __name__ == "__main__":
    sys.exit(main())
