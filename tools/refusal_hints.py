"""What stands in a file where it was refused, and which hints fit."""

import difflib
import itertools
import pathlib
import re

import offset_rows

try:
    import tomllib
except ImportError:  # before Python 3.11
    tomllib = None

COLUMNS = ["first field (x)", "second field (half-breadth)", "third field (height)"]
LIMITS = [524287, 65535, 65535]
FORMS = {
    "hydro": ["JOB", "OFFSETS"],
    "bonjean": ["JOB", "OFFSETS"],
    "cross": ["JOB", "OFFSETS"],
    "stability": ["JOB", "OFFSETS"],
    "damage": ["JOB", "OFFSETS"],
    "floodable": ["JOB", "OFFSETS"],
    "all": ["JOB", "OFFSETS"],
    "section": ["OFFSETS", "STATION", "DRAFT"],
    "make": ["NUMBER"],
}
KEYS = {
    "top": "version density length_bp margin drafts displacements item opening compartment damage floodable",
    "item": "name mass x y z free_surface",
    "opening": "name y z",
    "compartment": "name from to permeability",
    "damage": "name flooded",
    "floodable": "centres step permeability",
}
MOST_BYTES = 1048576


class Case:
    """A refusal: the words that were given, the numbers and keys of its line, and what the files hold."""

    def __init__(self, words, places):
        self.words, self.places = words, places
        names = dict(zip(FORMS.get(words[0], []) if words else [], words[1:]))
        self.job_name, self.offsets_name = names.get("JOB"), names.get("OFFSETS")
        self.job, self.offsets = content_of(self.job_name) or b"", content_of(self.offsets_name)
        self.rows = offset_rows.rows_of(self.offsets or b"")

    def number(self, place):
        word = self.places.get(place, "")
        return int(word) if re.fullmatch("[0-9]{1,40}", word) else 0

    @property
    def row(self):
        at = self.number("ROW")
        return self.rows[at - 1] if 1 <= at <= len(self.rows) else None

    @property
    def text(self):
        return decoded(self.row.text)

    @property
    def field(self):
        at = self.number("COLUMN")
        return decoded(self.row.fields[at - 1]).strip(" \t") if self.row and 1 <= at <= len(self.row.fields) else ""

    def tables(self):
        """The job's tables as far as it can be read, else none."""
        try:
            return tomllib.loads(self.job.decode()) if tomllib else {}
        except (ValueError, RecursionError):
            return {}


def content_of(name):
    """The bytes of a file, up to what the program reads of it; None where it can't be read, or is no file."""
    path = pathlib.Path(name or "")
    try:
        if not path.is_file():
            return None
        with path.open("rb") as file:
            return file.read(MOST_BYTES)
    except (OSError, ValueError):
        return None


def decoded(text):
    """A text of the offset file, of which each letter is a byte, in the encoding that it seems to have."""
    try:
        return text.encode("latin-1", "replace").decode("utf-8")
    except UnicodeDecodeError:
        return text


# ---- What is filled in


def filled(case, entry, texts):
    """The words in braces of an entry's text."""
    key = case.places.get("KEY", "")
    table = key if key in KEYS else key.split(".")[0]
    return {
        "job": case.job_name or "the job",
        "offsets": case.offsets_name or "the offset file",
        "row": row_text(case),
        "count": fields_text(case.row),
        "field": f', "{shortened(case.field)}",' if case.row else "",
        "column": COLUMNS[case.number("COLUMN") - 1] if 1 <= case.number("COLUMN") <= 3 else "field",
        "limit": LIMITS[case.number("COLUMN") - 1] if 1 <= case.number("COLUMN") <= 3 else "",
        "entry": entry_text(case, entry, table),
        "key": key.split(".")[-1],
        "keys": ", ".join(KEYS.get(table, "").split()),
        "value": texts.value_of(key),
        "first": case.places.get("FIRST", ""),
        "second": case.places.get("SECOND", ""),
        "stations": case.places.get("STATIONS", ""),
        "station": case.places.get("STATION", ""),
        "mass": case.places.get("MASS", ""),
        "sum": case.places.get("SUM", ""),
        "most": most_mass(case),
        "last": last_station(case),
        "why": why_unread(case.job_name if entry == "fault read job" else case.offsets_name) if entry.startswith("fault read") else "",
    }


def fields_text(row):
    count = len(row.fields) if row else 0
    return "one field" if count == 1 else f"{count or 'other'} fields"


def shortened(text, most=60):
    shown = "".join(c if c.isprintable() else " " if c.isspace() else "?" for c in text)
    return shown if len(shown) <= most else shown[: most - 2] + ".."


def row_text(case):
    name = case.offsets_name or "the offset file"
    if case.row is None:
        return f"Row {case.number('ROW')} of {name}"
    line = f" (line {case.row.line})" if case.row.line != case.row.number else ""
    return f'Row {case.row.number}{line} of {name} is "{shortened(case.text)}"'


def entry_text(case, entry, table):
    name = case.job_name or "the job"
    if "notnamed" in entry:
        table = "damage"
    if table == "floodable":
        return f"[floodable] of {name}"
    return f"[[{table}]] number {case.number('ENTRY')} of {name}" if case.number("ENTRY") else name


def last_station(case):
    if all(map(has_numbers, case.rows)):
        count = len(offset_rows.stations_of(case.rows))
        return f", and the last of {case.offsets_name} is {count - 1}" if count else ""
    return ""


def most_mass(case):
    """What the whole hull displaces: its volume and, where the job's density can be read, the mass of so much water."""
    six, density = case.number("SIX"), case.tables().get("density")
    most = f"{six // 6_000_000_000} m³"
    return f"{most}, which is {six * density // 6_000_000_000} kg" if isinstance(density, int) else most


def why_unread(name):
    if name is None:
        return "it isn't there, or may not be read"
    try:
        if pathlib.Path(name).is_fifo():
            return "it is a pipe"
        with open(name, "rb") as file:
            file.read(1)
    except FileNotFoundError:
        return "there is no such file"
    except IsADirectoryError:
        return "it is a folder"
    except PermissionError:
        return "it may not be read"
    except (OSError, ValueError) as fault:
        return str(getattr(fault, "strerror", None) or fault)
    return "the read failed"


# ---- Hints


def hints(case, entry):
    """The names of the hints that fit, each with what is filled in."""
    words = entry.split()
    if words[1] == "usage":
        return usage_hints(case.words)
    if words[1:3] == ["job", "text"]:
        return text_hints(case)
    if words[1] == "job":
        return key_hints(case, words[2])
    if words[1] == "offsets":
        return [(name, hint_words(case)) for name in offset_hints(case, words[2])]
    if words[1] == "station":
        return station_hints(case)
    return []


def usage_hints(words):
    if not words:
        return []
    command, given = words[0], len(words) - 1
    if command not in FORMS:
        return [("command", {"command": shortened(command), "commands": in_words(FORMS)})]
    wanted = FORMS[command]
    if given != len(wanted):
        return [("count", {"command": command, "wanted": " ".join(wanted), "given": count_text(given)})]
    return [(name, {}) for name in wrong_words(dict(zip(wanted, words[1:])))]


def in_words(names):
    *first, last = names
    return f"{', '.join(first)} and {last}"


def count_text(given):
    return "one word" if given == 1 else f"{given or 'no'} words"


def station_hints(case):
    """Where the number is no station's, but the x of one."""
    x = [row.fields[0].strip(" \t") for row in case.rows]
    found = [at for at, (one, _) in enumerate(itertools.groupby(x)) if one == case.places["STATION"]]
    return [("station_by_x", {"x": case.places["STATION"], "at": found[0]})] if found else []


def is_utf8(word):
    """Whether a word of the command line was UTF-8; what wasn't stands in it as surrogates."""
    try:
        word.encode("utf-8")
    except UnicodeEncodeError:
        return False
    return True


def wrong_words(named):
    if not all(map(is_utf8, named.values())):
        yield "name_bytes"
    if any(named.get(place, "x")[:1] in ("", "-") for place in ("JOB", "OFFSETS")):
        yield "dash"
    if not re.fullmatch("[0-9]{1,6}", named.get("STATION", "0")):
        yield "station"
    if not re.fullmatch("[0-9]{1,6}", named.get("DRAFT", "0")) or int(named.get("DRAFT", 0)) > 131071:
        yield "draft"
    if not re.fullmatch("[0-9]{1,10}", named.get("NUMBER", "0")) or int(named.get("NUMBER", 0)) > 4294967295:
        yield "seed"


def looks_like_offsets(content):
    lines = content.splitlines()[:8]
    return bool(lines) and all(re.fullmatch(rb"[^=,;\t]*[,;\t][^=,;\t]*[,;\t][^=]*", line) for line in lines)


def looks_like_job(content):
    return re.search(rb"(?m)^\s*(version|density|length_bp|drafts)\s*=|^\[\[?\w+\]\]?\s*$", content) is not None


def kind_of(content):
    """The hint of a file that isn't text in the wanted encoding."""
    if content[:2] == b"PK" or content[:4] == b"\xd0\xcf\x11\xe0":
        return "workbook"
    if content[:2] in (b"\xff\xfe", b"\xfe\xff") or b"\0" in content[:64]:
        return "utf16"
    if content.startswith((b"%PDF", b"<", b"{\\rtf")):
        return "document"
    return None


def begin_of(content):
    return shortened(content[:2].decode("latin-1"))


def text_hints(case):
    kind = kind_of(case.job)
    if looks_like_offsets(case.job) and not looks_like_job(case.job):
        return [("exchanged", {})]
    if kind:
        return [(kind, {"begins": begin_of(case.job), "form": "plain text in UTF-8"})]
    found = toml_fault(case.job)
    if re.search(rb"(?m)^\s*\w+\s*=\s*[0-9]+,[0-9]", case.job):
        found.append(("toml_decimal_comma", {}))
    return found


TOML_HINTS = [
    (r"Illegal character '\\n'.*", "toml_open_text"), ("Invalid value", "toml_value"), ("Unclosed array", "toml_array"),
    (r"Cannot declare \(.*\) twice", "toml_table_twice"), ("Cannot overwrite a value", "toml_key_twice"),
]


def toml_fault(content):
    if tomllib is None:
        return []
    try:
        tomllib.loads(content.decode())
    except UnicodeDecodeError as fault:
        return toml_hints(content, content[: fault.start].count(b"\n") + 1, "a letter isn't in UTF-8")
    except tomllib.TOMLDecodeError as fault:
        parts = re.fullmatch(r"(.*) \(at (?:line ([0-9]+), column [0-9]+|end of document)\)", str(fault), re.DOTALL)
        return toml_hints(content, int(parts[2] or len(content.splitlines())), parts[1]) if parts else []
    except RecursionError:
        return [("toml_deep", {})]
    except ValueError:  # more digits than Python reads
        pass
    return toml_digits(content)


def toml_line(content, line):
    lines = content.decode("utf-8", "replace").split("\n")
    return {"line": line, "text": shortened(lines[line - 1].strip()) if line <= len(lines) else ""}


def toml_hints(content, line, said):
    name = next((name for pattern, name in TOML_HINTS if re.fullmatch(pattern, said)), "toml")
    return [(name, {**toml_line(content, line), "said": said})]


def toml_digits(content):
    """The first number that is longer than 64 bits are, which other readers of TOML take."""
    found = re.search(rb"(?m)^[^#\"'\n]*?(?<![0-9])([0-9]{19,})", content)
    if found is None or int(found[1][:20]) < 2 ** 63:
        return []
    return [("toml_digits", {**toml_line(content, content[: found.start(1)].count(b"\n") + 1), "count": len(found[1])})]


def entry_of(case, table):
    """The job's table that a refusal names."""
    tables = case.tables()
    found = tables if table == "top" else tables.get(table, {})
    if isinstance(found, list):
        at = case.number("ENTRY")
        found = found[at - 1] if 1 <= at <= len(found) else {}
    return found if isinstance(found, dict) else {}


def key_hints(case, cause):
    key = case.places.get("KEY", "")
    table = key if cause == "unknown" else key.split(".")[0] if "." in key else "top"
    entry, word = entry_of(case, table), key.split(".")[-1]
    if cause == "unknown":
        return unknown_hints(entry, table)
    if cause == "notnamed":
        return unnamed_hints(case)
    value = entry.get(word)
    values = value if isinstance(value, list) else [value]
    if cause == "kind" and any(isinstance(one, float) for one in values):
        return float_hints(word, next(one for one in values if isinstance(one, float)))
    if cause == "kind" and any(isinstance(one, str) and one.strip("0123456789.,") == "" for one in values):
        return [("toml_quoted", {})]
    if cause == "range" and word == "density" and value in (0, 1):
        return [("toml_density", {})]
    return []


def float_hints(word, value):
    """What a value with a decimal point is to be; of versions and permeabilities the sentence says it."""
    if word == "density":
        return [("toml_density" if value < 2 else "toml_whole", {})]
    return [] if word in ("version", "permeability") else [("toml_decimals", {})]


def unknown_hints(entry, table):
    known = KEYS.get(table, "").split()
    wrong = next((word for word in entry if word not in known), None)
    if wrong is None:
        return []
    if wrong in KEYS["top"].split():
        return [("top_key", {"wrong": wrong})]
    return [("known", {"wrong": shortened(wrong), "near": near_name(wrong.lower(), known)})]


def near_name(wrong, known):
    near = difflib.get_close_matches(wrong, known, 1, 0.7)
    return f"; {near[0]} is" if near else ""


def unnamed_hints(case):
    compartments = case.tables().get("compartment", [])
    known = texts_of([entry.get("name") for entry in compartments if isinstance(entry, dict)] if isinstance(compartments, list) else [])
    wrong = next((name for name in texts_of(entry_of(case, "damage").get("flooded")) if name not in known), None)
    return [("unnamed", {"wrong": shortened(wrong), "near": near_name(wrong, known)})] if wrong else []


def texts_of(value):
    return [one for one in value if isinstance(one, str)] if isinstance(value, list) else []


# ---- Hints for an offset file


def hint_words(case):
    """What is filled in the hints for an offset file."""
    metres = columns_in_metres(case)
    x = whole_x(case)
    return {
        "begins": begin_of(case.offsets),
        "form": "CSV, with commas",
        "metres": "All numbers look" if len(metres) == 3 else f"The numbers of the {' and the '.join(COLUMNS[at] for at in metres)} look",
        "factor": next((f": multiply by {times}" for unit, times in UNITS.items() if re.search(rf"[0-9 ]{unit}\Z", case.field)), ""),
        "shift": -min(x, default=0),
        "place": PLACES[place_of_x(case)],
    }


PLACES = {None: "", 1: "second", 2: "third"}
UNITS = {"m": "1000", "cm": "10", "ft": "304.8", "in": "25.4", '"': "25.4"}


def offset_hints(case, cause):
    if case.offsets is None:
        return []
    kind = kind_of(case.offsets)
    if kind:
        return [kind]
    if looks_like_job(case.offsets) and cause in ("columns", "number"):
        return ["job_for_offsets" if case.words[:1] == ["section"] else "exchanged"]
    if cause not in HINTS or case.row is None and cause != "fewstations" or cause in OF_NUMBERS and not has_numbers(case.row):
        return []
    return [name for name in HINTS[cause](case) if name]


OF_NUMBERS = ("negative", "range", "backwards", "height")  # causes that come only in rows of three numbers


def has_numbers(row):
    return len(row.fields) == 3 and all(map(offset_rows.is_number, row.fields))


def mark_of(case):
    """What parts the fields of the refused row."""
    return next((mark for mark in (";", "\t") if mark in case.text), ",")


def cells_of(row, mark):
    return [decoded(cell).strip(" \t") for cell in (row.fields if mark == "," else row.text.split(mark))]


def columns_of(case):
    """The numbers of the three columns as texts with decimal points, of the rows that have three fields."""
    rows = [cells_of(row, mark_of(case)) for row in case.rows] if case.row else []
    rows = [[cell.replace(",", ".") for cell in cells] for cells in rows if len(cells) == 3]
    return [[cell for cell in column if re.fullmatch(r"[+-]?(?:[0-9]+(?:\.[0-9]+)?|\.[0-9]+)", cell)] for column in zip(*rows)]


def columns_in_metres(case):
    """The columns with decimals whose numbers are too small for mm; all three where none is too great for metres."""
    columns = columns_of(case)
    small = [max(map(abs, map(float, column)), default=0) <= most for column, most in zip(columns, offset_rows.MOST_METRES.values())]
    pointed = [any("." in text for text in column) for column in columns]
    return [at for at, one in enumerate(small) if one and (pointed[at] or all(small))] if any(pointed) else []


def columns_hints(case):
    text, fields = case.text, case.row.fields
    if "\n" in text.strip():
        yield "quote"
    elif not any(field.strip() for field in fields):
        yield "empty_row"
    elif mark_of(case) != ",":
        yield from separator_hints(case)
    elif text.startswith(("#", "//")):
        yield "comment"
    elif re.fullmatch(r"\s*[0-9.]+(\s+[0-9.]+){2}\s*", text):
        yield "blanks"
        if "." in text:
            yield from decimals_hints(case)
    elif is_table(case):
        yield "table"
    else:
        if is_header(case):
            yield "header"
        yield from comma_hints(case)


def comma_hints(case):
    """Where a row has other than three fields, with commas alone between them."""
    fields = [field.strip(" \t") for field in case.row.fields]
    rows = [",".join(field.strip(" \t") for field in row.fields) for row in case.rows]
    if all(re.fullmatch("(?:[0-9]{1,3},[0-9]{3},?){3}", row) for row in rows):
        yield "decimal_comma"
    elif len(fields) > 3 and all(map(GROUPED.fullmatch, rows)) and len({row.count(",") for row in rows}) > 1:
        yield "thousands"
    elif len(fields) > 3 and not fields[-1]:
        yield "end_comma"
    elif has_more_columns(case):
        yield "more_columns"


def has_more_columns(case):
    """Whether a field is a remark, or the columns make stations without the first or the last; a decimal comma parts fields too."""
    rows = [cells_of(row, mark_of(case)) for row in case.rows[is_header(case) :]]
    if not is_header(case) and len(rows[case.row.number - 1]) > 3 and any(re.search("[A-Za-z]", cell) for cell in rows[case.row.number - 1]):
        return True
    return any(
        all(len(row) == 4 and all(map(offset_rows.is_number, row[part])) for row in rows) and are_stations([list(map(int, row[part])) for row in rows])
        for part in (slice(1, 4), slice(0, 3))
    )


NUMBER_IN_GROUPS = "(?:[1-9][0-9]{0,2}(?:,[0-9]{3})+|[0-9]{1,3})"
GROUPED = re.compile(f"(?:{NUMBER_IN_GROUPS},){{2}}{NUMBER_IN_GROUPS}")


def separator_hints(case):
    mark = mark_of(case)
    if is_table(case):
        yield "table"
        return
    if is_header(case):
        yield "header"
    yield "semicolons" if mark == ";" else "tabs"
    if has_more_columns(case):
        yield "more_columns"
    if columns_part_thousands(case):
        yield "thousands"
        return
    if re.search("[0-9],[0-9]", case.text):
        yield "decimal_comma"
    if any("." in text for column in columns_of(case) for text in column):
        yield from decimals_hints(case)


def is_table(case):
    """Whether most rows have more than three cells, and each another first one, as a table of half-breadths has."""
    rows = [",".join(cells_of(row, mark_of(case))).rstrip(",").split(",") if mark_of(case) == "," else cells_of(row, mark_of(case)) for row in case.rows]
    widths = [len(cells) for cells in rows]
    firsts = [cells[0] for cells in rows]
    return sum(width > 3 for width in widths) * 2 > len(rows) and len(set(firsts)) == len(firsts) and (len(rows) > 2 or max(widths) > 6)


def decimals_hints(case):
    yield "metres" if columns_in_metres(case) else "decimals"


def number_hints(case):
    field = case.field
    if "\n" in case.text.strip():
        yield "quote"
    elif not any(one.strip() for one in case.row.fields):
        yield "empty_row"
    elif mark_of(case) != ",":
        yield from separator_hints(case)
    elif is_header(case):
        yield "header"
    elif re.fullmatch("#[A-Z0-9/]+[!?]?", field):
        yield "sheet_error"
    elif field.startswith(("#", "//")) and case.number("COLUMN") == 1:
        yield "comment"
    elif field in ("", "-", "\u2013"):
        yield "no_point"
    elif has_thousands(case):
        yield "thousands"
    elif re.fullmatch(r"-?[0-9]*[.,][0-9]+", field):
        if "," in field:
            yield "decimal_comma"
        yield from decimals_hints(case)
    elif re.fullmatch(r"\+[0-9]+|[0-9.]+[eE][+-]?[0-9]+", field):
        yield "sign"
    elif re.fullmatch(r"-?[0-9.,]+ *(mm|cm|m|ft|in|\")", field):
        yield "unit"


def has_thousands(case):
    """Whether the field's thousands are parted. A single point or comma may stand before decimals: then a column tells, or none."""
    if re.fullmatch("[0-9]{1,3}([ '\u2019\xa0\u2009\u202f_][0-9]{3})+|[0-9]{1,3}([.,][0-9]{3}){2,}", case.field):
        return True
    return re.fullmatch("[0-9]{1,3}[.,][0-9]{3}", case.field) is not None and columns_part_thousands(case)


def columns_part_thousands(case):
    return any(offset_rows.parting_thousands(*column) for column in zip(columns_of(case), offset_rows.MOST_METRES.values()))


def is_header(case):
    """Whether the first row has words and no numbers; letters that look like 0 and 1 are none."""
    fields = [decoded(field).strip() for field in case.row.fields]
    return case.row.number == 1 and any(re.search("[A-Za-z]", field.strip("OoIl")) for field in fields) and not any(
        re.match("(?![0-9]+[-/][0-9]+[-/][0-9]+\\Z)[-+#/0-9]", field) for field in fields  # a date is a title's
    )


def whole_x(case):
    return [int(row.fields[0]) for row in case.rows if offset_rows.is_number(row.fields[0])]


def negative_hints(case):
    hints_of = {1: negative_x, 2: negative_breadths, 3: negative_heights}.get(case.number("COLUMN"))
    yield from hints_of(case) if hints_of else []


def negative_x(case):
    """From amidships or the aft perpendicular, where stations follow one another; a single slip in x gets no hint."""
    x = whole_x(case)
    if x != sorted(x) and x != sorted(x, reverse=True) or max(x) <= 0:
        return
    yield "midship" if 0.8 <= -min(x) / max(x) <= 1.25 else "aft_perpendicular"


def negative_breadths(case):
    breadths = [int(row.fields[1]) for row in case.rows if len(row.fields) == 3 and offset_rows.is_number(row.fields[1])]
    if sum(one < 0 for one in breadths) * 4 >= len(breadths):
        yield "both_sides"


def negative_heights(case):
    heights = [z for _, z in points_at(case)]
    if heights == sorted(heights):
        yield "below_base"


def range_hints(case):
    if place_of_x(case) is not None:
        yield "x_column"
        return
    breadths = [int(row.fields[1]) for row in case.rows if len(row.fields) == 3 and offset_rows.is_number(row.fields[1])]
    if case.number("COLUMN") == 2 and max(breadths) <= min(2 * LIMITS[1], max(whole_x(case), default=0)):
        yield "full_breadth"


def place_of_x(case):
    """Where x stands, if not first, by the orders of columns that give stations with points from low to high; None where that isn't sure."""
    if not all(map(has_numbers, case.rows)):
        return None
    rows = [[int(field) for field in row.fields] for row in case.rows]
    found = {order[0] for order in itertools.permutations(range(3)) if are_stations([[row[at] for at in order] for row in rows])}
    return found.pop() if len(found) == 1 and 0 not in found else None


def are_stations(rows):
    """Whether rows x, half-breadth, height are those of three stations or more, each with its points from low to high."""
    if not rows:
        return False
    x, y, z = zip(*rows)
    length, breadth, depth = (max(column) - min(column) for column in (x, y, z))
    heights = [[row[2] for row in group] for _, group in itertools.groupby(rows, key=lambda row: row[0])]
    return list(x) == sorted(x) and 3 <= len(heights) <= len(rows) / 2 and length > max(breadth, depth) and all(group == sorted(group) for group in heights)


def backwards_hints(case):
    x = whole_x(case)
    steps = [after - before for before, after in zip(x, x[1:])]
    if place_of_x(case) is not None:
        yield "x_column"
    elif all(step <= 0 for step in steps):
        yield "fore_to_aft"
    elif sum(step < 0 for step in steps) > 1 and heights_rise(case):
        yield "sorted_by_height"
    elif int(case.row.fields[0]) in x[: case.row.number - 2]:
        yield "parted"


def heights_rise(case):
    heights = [int(row.fields[2]) for row in case.rows if len(row.fields) == 3 and offset_rows.is_number(row.fields[2])]
    return heights == sorted(heights)


def points_at(case):
    """The points with the x of the refused row, as half-breadths and heights."""
    same = [row.fields for row in case.rows if row.fields[0] == case.row.fields[0] and len(row.fields) == 3]
    return [(int(y), int(z)) for _, y, z in same if offset_rows.is_number(y) and offset_rows.is_number(z)]


def height_hints(case):
    points = points_at(case)
    heights = [height for _, height in points]
    breadths = [breadth for breadth, _ in points]
    before = case.rows[case.row.number - 2].fields
    if place_of_x(case) is not None:
        yield "x_column"
    elif heights == sorted(heights, reverse=True) and len(set(heights)) > 1:
        yield "top_down"
    elif heights == sorted(heights):
        yield "same_row" if before == case.row.fields else "same_point"
    elif breadths == sorted(set(breadths)):
        yield "exchanged_columns"


def few_stations_hints(case):
    if not case.rows:
        yield "empty_file"


def few_points_hints(case):
    x = [row.fields[0] for row in case.rows]
    if len(set(x)) == len(x):
        yield "one_station"


HINTS = {
    "columns": columns_hints,
    "number": number_hints,
    "negative": negative_hints,
    "range": range_hints,
    "backwards": backwards_hints,
    "height": height_hints,
    "fewstations": few_stations_hints,
    "fewpoints": few_points_hints,
}
