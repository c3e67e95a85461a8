"""What the program may answer to a case of tools/hostile: statuses, texts, and what the files say themselves."""

import re

import exact_hull
import offset_faults
import refusal_hints
import refusal_texts

try:
    import tomllib
except ImportError:  # before Python 3.11
    tomllib = None

STATUSES = range(7)
REFUSED = 3
SAFE_DEPTH = 60  # of nested values, that every reader takes
MOST_COMPARED = 6000  # bytes of a job; this Python's reader takes memory by the square of a dotted key's length
TEXTS = refusal_texts.load()
KEYS = {"top", *(
    key if table == "top" else f"{table}.{key}" for table, keys in refusal_hints.KEYS.items() for key in keys.split()
)}

# ---- The grammar of whole reports, each line in its place

N, Z = rb"(?:0|[1-9][0-9]*)", rb"(?:0|-?[1-9][0-9]*)"
END = rb"-?(?:0|[1-9][0-9]*)\.[0-9]{6}"
F = rb"\[" + END + rb"," + END + rb"\]"
KINDS = {
    "n": N, "z": Z, "f": F, "a": b"(?:-|" + F + b")", "m": F.replace(b"{6}", b"{9}"), "box": b" ".join([Z] * 4),
    "cn": b"C[1-6]",
}


def form(text):
    """The pattern of a line, whose small words in braces are kinds of fields."""
    return re.sub(r"\{(\w+)\}", lambda found: KINDS[found[1]].decode(), text).encode() + b"\n"


SHOWN = "(?:(?:port|starboard) )?(?:interval {n} {f}|pair {n} {n}|leak {n} {n} {f})"
HYDRO = b"(?:" + form("hydro {n} {f} {f} {a} {a} {f} {a} {a} {a} {a} {f} {a}") + b")*"
SECTION = form("section {n} {n} {n} {f} {m}")
CROSS = b"(?:(?:" + form("cross {n} {n} {z} {z} {f}") + b"){91})*"
LOAD = form("load {n} {f} {f}(?: {f})?")
LEVERS = (
    form("upright {z} {z} {f} {f} {f}") + b"(?:" + form("arm {n} {z} {z} {f} {f}(?: {f} {f})?") + b"){91}(?:"
    + form("mark {cn} (?:holds|fails|unsure)") + b"){6}"
    + form(f"verdict (?:pass|(?P<call>fail|undecided) {{cn}} {SHOWN})")
)
DAMAGE = b"(?:" + form("damage {n} (?:{box}|sinks {f}|nostart (?:fore|aft))") + b")*"
NEXT = form("next {n} {n} (?:(?:over|touch) {n} {box}|sinks|nostart|endofship)")
FLOODABLE = b"(?:" + form("safe {n} (?:{n} {box}|-)") + NEXT + b")*"
BONJEAN = b"(?:" + SECTION + b")*"
TABLES = {
    "section": SECTION, "hydro": HYDRO, "bonjean": BONJEAN, "cross": CROSS, "stability": LOAD + LEVERS,
    "damage": LOAD + DAMAGE, "floodable": LOAD + FLOODABLE,
    "all": HYDRO + BONJEAN + CROSS + LOAD + LEVERS + DAMAGE + FLOODABLE,
}
REPORTS = {
    command: re.compile(
        form(f"hullcert [12] {command}") + form("hull (?P<hull>{n} {n})")
        + (b"" if command == "section" else form("body (?P<body>{n})")) + table + form("end (?P<end>{n})")
    )
    for command, table in TABLES.items()
}
STATUS_OF_CALL = {None: 0, b"fail": 1, b"undecided": 2}
LOADED, WEIGHED = ("stability", "damage", "floodable", "all"), ("stability", "cross", "all")


def six_volume(stations):
    """Six times the volume of both sides: each triangle of the shell ends a prism that stands on the centreplane."""
    bodies = [exact_hull.Station(station.x, [(point.y, point.z) for point in station.kept]) for station in stations]
    return 2 * sum(
        abs(exact_hull.turn(a, b, c)) * (a[1] + b[1] + c[1])
        for aft, fore in zip(bodies, bodies[1:])
        for a, b, c in exact_hull.strip_triangles(aft, fore)
    )


# ---- What is wrong with a run


def faults_of(case, run, most_kib=None):
    """Sentences on what is wrong with a run on a case; none where all is well."""
    if run.status < 0:
        return [f"signal {-run.status} ended the run after {run.seconds:.1f} s"]
    found = []
    if run.status not in STATUSES:
        found.append(f"{run.status} is no status")
    if run.errors:
        found.append(f"standard error has {run.errors[:200]!r}")
    if most_kib is not None and run.kib > most_kib:
        found.append(f"{run.kib} KiB of memory were used")
    if run.status in (0, 1, 2):
        return found + faults_of_report(case, run)
    if run.status == REFUSED:
        return found + faults_of_refusal(case, run.output)
    return found or [f"the status is {run.status}, although the files are there and memory and output suffice"]


def faults_of_report(case, run):
    report = REPORTS[case.words[0]].fullmatch(run.output)
    if report is None:
        return [f"status {run.status} without a whole report"]
    reading = offset_faults.read(case.offsets)
    if reading.refusal:
        return [f"a report, and {reading.refusal} is right"]
    parts, found = report.groupdict(), []
    if int(parts["end"]) != run.output.count(b"\n"):
        found.append("the last line counts other lines")
    if STATUS_OF_CALL[parts.get("call")] != run.status:
        found.append(f"the status is {run.status}, and the verdict isn't")
    hull = f"{len(reading.stations)} {sum(len(station.kept) for station in reading.stations)}"
    if parts["hull"].decode() != hull:
        found.append(f"the hull has {hull} stations and points")
    if "body" in parts and int(parts["body"]) != six_volume(reading.stations):
        found.append(f"six times the hull's volume is {six_volume(reading.stations)}")
    if case.words[0] != "section":
        found += faults_of_text(case.job, is_refused=False)
    return found


def faults_of_refusal(case, output):
    words = output.decode("ascii", "replace").split(" ")
    if not output.endswith(b"\n") or output.count(b"\n") != 1 or not is_refusal(output.decode("ascii", "replace")[:-1]):
        return [f"status {REFUSED} without one refused line"]
    words[-1] = words[-1][:-1]
    if words[1] == "job" or words[1:] == ["long", "job"]:
        return faults_of_job(case, words)
    found = faults_of_text(case.job, is_refused=False) if case.words[0] != "section" else []
    reading = offset_faults.read(case.offsets)
    if words[1] == "offsets" or words[1:] == ["long", "offsets"]:
        if " ".join(words) != reading.refusal:
            found.append(f"{reading.refusal or 'that the offsets are accepted'} is right")
    elif reading.refusal:
        found.append(f"{reading.refusal} is right")
    elif not LATER[words[1]](case.words, words, reading.stations):
        found.append("it isn't the answer to these words")
    return found


LATER = {  # what is refused although both files are accepted
    "usage": lambda asked, said, stations: False,
    "station": lambda asked, said, stations: ["section", said[2]] == asked[::2] and int(said[2]) >= len(stations),
    "load": lambda asked, said, stations: asked[0] in LOADED,
    "heavy": lambda asked, said, stations: asked[0] in WEIGHED and int(said[3]) == six_volume(stations),
}


def is_refusal(line):
    entry = TEXTS.entry_of(line.split(" "))
    return bool(entry) and entry[0].startswith("refused ") and all(is_place(*place) for place in entry[1].items())


def is_place(place, word):
    return word in KEYS if place == "KEY" else re.fullmatch(N.decode(), word) is not None


def faults_of_job(case, words):
    if case.words[0] == "section":
        return ["the words name no job"]
    if "job.toml" not in case.changed:
        return ["the job is right"]
    is_long = len(case.job) > offset_faults.LONGEST
    if is_long or words[1] == "long":
        return [] if is_long and words[1] == "long" else [f"the job has {len(case.job)} bytes"]
    return faults_of_text(case.job, is_refused=words[2:] == ["text"])


# ---- Whether a job is TOML


def faults_of_text(job, is_refused):
    """Where this Python's reader of TOML tells for sure, what it says is to be the program's answer."""
    readable = is_toml(job)
    if readable is None or readable is not is_refused:
        return []
    return [f"the job is{'' if readable else ' no'} TOML"]


def is_toml(job):
    """None where readers may differ: at depths, at numbers that are too large, and at what later editions allow."""
    if len(job) > offset_faults.LONGEST:
        return False
    try:
        text = job.removeprefix(b"\xef\xbb\xbf").decode("utf-8")
    except UnicodeDecodeError:
        return False
    if tomllib is None or len(job) > MOST_COMPARED:
        return None
    try:
        return is_plain(tomllib.loads(text)) or None
    except tomllib.TOMLDecodeError:
        return None if re.search(r"\{[^\n]*(?:,\s*\}|\n|\Z)|\\[ex]|[0-9]:[0-9]{2}(?!:)", text) else False
    except (RecursionError, ValueError):
        return None


def is_plain(value, depth=0):
    """Whether all whole numbers have 64 bits, all others are finite, and nothing is nested deeply."""
    if depth > SAFE_DEPTH:
        return False
    if isinstance(value, (dict, list)):
        return all(is_plain(part, depth + 1) for part in (value.values() if isinstance(value, dict) else value))
    if isinstance(value, float):
        return value - value == 0
    return not isinstance(value, int) or -(2 ** 63) <= value < 2 ** 63
