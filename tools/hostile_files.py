"""Offset and job files that were broken in many ways, each made again from a seed and its number: for tools/hostile.

`made(seed, number)` gives a case: the words of a command, its two files, and which of them were changed.
"""

import functools
import pathlib
import random
import re
from typing import NamedTuple

import mutate_offsets

EXAMPLES = pathlib.Path(__file__).resolve().parent.parent / "examples"
LONGEST = 1048576
COMMANDS = ["section", "hydro", "bonjean", "damage", "floodable", "stability", "cross", "all"]
SMALL_WEIGHTS, LARGE_WEIGHTS = [30, 22, 10, 14, 8, 7, 6, 3], [45, 25, 10, 15, 3, 1, 1, 0]
MANY_ROWS = 20  # a hull of more is asked for light tables mostly
ONE_LARGE_IN, ONE_DEEP_IN = 3000, 150
MOST_CHANGED = 40000  # bytes, where parts are repeated again and again


class Case(NamedTuple):
    """The words after the program's name, where the files are job.toml and hull.csv, and the names of those changed."""

    words: list
    job: bytes
    offsets: bytes
    changed: set


# ---- What is changed


def grid(stations, points, x=None, y=10000, z=10000):
    """A box of stations that stand `x` apart, each with points from the base to the height `z`."""
    x = x or 100000 // (stations - 1)
    return rows((i * x, y, k * z // (points - 1)) for i in range(stations) for k in range(points))


def rows(numbers):
    return "".join(f"{x},{y},{z}\n" for x, y, z in numbers).encode()


def crinkled(stations, points):
    """The widest body that the limits allow: every other point lies on the centreplane."""
    x, z = 524287 // (stations - 1), 65535 // (points - 1)
    return rows((i * x, 65535 * ((i + k) % 2 == 0), k * z) for i in range(stations) for k in range(points))


POINTED = rows([
    (0, 0, 9000), (20000, 0, 0), (20000, 8000, 4000), (20000, 9000, 9000), (80000, 9000, 0), (80000, 9000, 9000),
    (100000, 0, 9500),
])
FLAT = rows(
    (x, y, z)
    for x in (0, 50000, 90000)
    for y, z in [(0, 0), (4000, 0), (9000, 0), (10000, 5000), (10000, 9000), (6000, 9000), (0, 9000)]
)
LAST = rows([(0, 65535, 0), (0, 0, 65535), (1, 0, 65534), (1, 65535, 65535), (524287, 65535, 65535)])
FORMS = [
    bytes, bytes, bytes, bytes,
    lambda content: content.replace(b"\n", b"\r\n"),
    lambda content: content.replace(b"\n", b"\r"),
    lambda content: re.sub(rb"([0-9]+)", rb'"\1"', content),
    lambda content: content.replace(b",", b" ,\t"),
    lambda content: b"\xef\xbb\xbf" + content,
    lambda content: re.sub(rb"([0-9]+)", lambda found: found[1].zfill(9), content),
    lambda content: b"\n\n" + content.replace(b"\n", b"\n\r\n"),
]

JOB = """version = {version}
density = 1025
length_bp = 100000
drafts = [5000, 131071]
displacements = [10250000]
margin = 100

[[item]]
name = "ship"
mass = 9250000
x = 50000
{side}z = 7000

[[item]]
name = "fuel.1"
mass = 1000000
x = 49000
z = 2000
free_surface = 1000

[[opening]]
name = "vent"
y = 6000
z = 12000

[[compartment]]
name = "hold"
from = 30000
to = 60000
permeability = 700

[[compartment]]
name = "peak"
from = 60000
to = 90000
permeability = 950

[[damage]]
name = "mid"
flooded = ["hold"]

[[damage]]
name = "both"
flooded = ["hold", "peak"]

[floodable]
centres = [50000]
step = 10000
permeability = 900
"""
BRIEF = b"""\xef\xbb\xbf# in other forms
version=1\r
density=0x401
length_bp = 1_00_000
drafts = [
  0, # none
  5_000,
]
item = [{ name = 'a', mass = 0b100111000110011101000000, "x" = 50000, z = +7000 }, { name = "\\u0062", mass = 0, x = 0, z = 0 }]
floodable.centres = [ 0o141520, 0 ]
floodable.step = 99998
floodable . permeability = 0
compartment = [{ name = \"\"\"c\"\"\", from = 0, to = 1, permeability = 1000 }]
damage = [{ name = "none", flooded = [] }]
"""
BARE = b"version = 1\ndensity = 500\nlength_bp = 1\n"


def many(kind, count):
    """An array of tables, one longer or as long as the limits allow; only the first items have a mass."""
    tables = {
        "item": 'name = "{n}"\nmass = 40000\nx = 50000\nz = 5000\n',
        "opening": 'name = "{n}"\ny = 0\nz = {n}\n',
        "damage": 'name = "{n}"\nflooded = []\n',
    }
    return "".join(f"[[{kind}]]\n{tables[kind].format(n=10 + n)}" for n in range(count)).encode()


def lists(drafts, displacements, centres):
    plan = "floodable.step = 50000\nfloodable.permeability = 1\nfloodable.centres"
    return b"".join(
        f"{key} = [{', '.join(str(least + n) for n in range(count))}]\n".encode()
        for key, least,
        count in [("drafts", 4000, drafts), ("displacements", 9000000, displacements), (plan, 40000, centres)]
    )


@functools.lru_cache(None)
def hulls():
    """Offset files that are accepted, those of few rows apart, and those at the limits."""
    barge, wedge, cargo = ((EXAMPLES / f"{name}.csv").read_bytes() for name in ("barge", "wedge", "cargo"))
    small = [barge, wedge, barge, POINTED, FLAT, grid(3, 3), grid(5, 4), LAST, crinkled(4, 3)]
    large = [cargo, grid(64, 2), grid(65, 2), grid(3, 32), grid(3, 33), crinkled(64, 2)]
    return small, large


@functools.lru_cache(None)
def jobs():
    plain, sides = (JOB.format(version=version, side=side).encode() for version, side in [(1, ""), (2, "y = -300\n")])
    usual = [plain, plain, plain, sides, sides, BRIEF, BARE, (EXAMPLES / "barge.toml").read_bytes()]
    full = [lists(64, 0, 0), lists(65, 1, 1), lists(1, 16, 1), lists(1, 17, 1), lists(1, 1, 32), lists(1, 1, 33)]
    most = [("item", 256), ("opening", 64), ("damage", 32)]
    full += [many(kind, count + more) for kind, count in most for more in (0, 1)]
    return usual, [BARE.replace(b"500", b"1025") + part for part in full]


# ---- Changes of bytes, in files of both kinds

BAD_TEXT = [
    b"\xff", b"\xc3\x28", b"\xc0\x80", b"\xed\xa0\x80", b"\xf4\x90\x80\x80", b"\xe2\x82", b"\x80", b"\xef\xbb\xbf",
    b"\xfe\xff", b"\x00", b"\xc2\x85",
    "\u2028".encode(), "\u00a0".encode(), "\u0663".encode(), "\U0010ffff".encode(), b"\x1a", b"\x0b\x0c", b"\x7f",
]


def place(content, chance):
    return chance.randrange(len(content) + 1)


def flip(content, chance):
    if not content:
        return b"\x01"
    at = chance.randrange(len(content))
    return content[:at] + bytes([content[at] ^ 1 << chance.randrange(8)]) + content[at + 1:]


def insert(content, chance):
    at = place(content, chance)
    return content[:at] + chance.randbytes(chance.choice([1, 1, 1, 2, 5, 40])) + content[at:]


def bad_text(content, chance):
    at = place(content, chance)
    return content[:at] + chance.choice(BAD_TEXT) + content[at:]


def delete(content, chance):
    at = place(content, chance)
    return content[:at] + content[at + chance.choice([1, 1, 2, 3, 10, 100]):]


def cut(content, chance):
    return content[:place(content, chance)]


def repeat(content, chance):
    at, to = sorted([place(content, chance), place(content, chance)])
    return content[:at] + content[at:to] * chance.choice([2, 2, 3, 20]) + content[to:]


def noise(content, chance):
    return chance.randbytes(chance.choice([0, 1, 3, 50, 700]))


BYTE_CHANGES = [flip, flip, insert, bad_text, delete, cut, repeat]

# ---- Changes of offset files

NUMBERS = [
    0, 1, 2, -1, 999, 65534, 65535, 65536, 524286, 524287, 524288, 131071, 999999999, 1000000000, 2 ** 31, 2 ** 32,
    2 ** 63, 10 ** 30,
]


def other_number(content, chance):
    """A number of the file becomes one at a limit, or one that stands elsewhere in it."""
    found = list(re.finditer(rb"-?[0-9]+", content))
    if not found:
        return content
    at, other = chance.choice(found), chance.choice(found)
    new = other[0] if chance.random() < 0.3 else str(chance.choice(NUMBERS)).encode()
    return content[:at.start()] + new + content[at.end():]


def exchange_fields(content, chance):
    lines = content.split(b"\n")
    at = chance.randrange(len(lines))
    fields = lines[at].split(b",")
    chance.shuffle(fields)
    lines[at] = b",".join(fields)
    return b"\n".join(lines)


OFFSET_CHANGES = [*BYTE_CHANGES, *mutate_offsets.CHANGES * 2, other_number, other_number, other_number, exchange_fields]

# ---- Changes of jobs

ENDS = [
    0, 1, 76, 500, 1000, 2000, 10000, 65535, -65535, 100000, 131071, 524286, 524287, 2 ** 36, 2 ** 53, 2 ** 63,
    -(2 ** 63), 2 ** 64, 2 ** 127,
]
LIMITS = sorted({str(number + by) for number in ENDS for by in (-1, 0, 1)} | {
    "1" + "0" * 400, "-0", "+7", "0x7f", "0o17", "0b11", "1_000", "1__0", "_1", "1_", "0x", "07", "--1", "1-",
})
OTHER_KINDS = [
    "1.0", "1e3", "1e400", "-0.0", "inf", "-nan", "true", "false", '""', '"1"', "'1'", '"""\n1"""', "'''1'''", "[]",
    "[[]]", "[1]", "[1.0]", '["a"]', "[1, \"a\"]", "{}",
    "{ x = 1 }", "[{}]", "[{ name = 1 }]", "1979-05-27", "07:32:00", "07:32", "1979-05-27T07:32:00Z", "1979-02-30", "",
    "nan nan", "[,]", "[1,,]", "{,}", "{a=1,}", "{\n}", '"\\u00e9"',
    '"\\ud800"', '"\\U00110000"', '"\\q"', '"\\e"', '"\\x41"', '"a\nb"', f'"{"n" * 32}"', f'"{"n" * 33}"', '"a b"',
    "\"\u00e9\"", "Version", "[ 1 # ]\n]", "\u0661",
]
KEYS = [
    "version density length_bp margin drafts displacements item opening compartment damage floodable".split(),
    "name mass x y z free_surface from to permeability flooded centres step".split(),
    ["Version", "a", '""', "''", '"a b"', "a.b", "item.name", "1", "-", "_", "a..b", ".a", "a.", "\u00e9", '"version"',
    "'name'", '"\\u0078"', "name ", "[x]"],
]
HEADERS = [
    "item", "opening", "compartment", "damage", "floodable", "drafts", "version", "item.name", "item.x", "a", "", " ",
    "a.b",
    "floodable.step", '"item"', "[item]", "item]",
]


def any_key(chance):
    return chance.choice(chance.choice(KEYS))


def any_value(chance):
    return chance.choice(LIMITS if chance.random() < 0.3 else OTHER_KINDS)


def other_limit(content, chance):
    """A number becomes one at a limit, or one of the file's others."""
    found = list(re.finditer(rb"[-+]?[0-9][0-9_]*", content))
    if not found:
        return content
    at, other = chance.choice(found), chance.choice(found)
    new = other[0] if chance.random() < 0.4 else chance.choice(LIMITS).encode()
    return content[:at.start()] + new + content[at.end():]


def other_name(content, chance):
    """A text becomes one of the file's others."""
    found = list(re.finditer(rb'"[^"\n]*"', content))
    if not found:
        return content
    at, other = chance.choice(found), chance.choice(found)
    return content[:at.start()] + other[0] + content[at.end():]


def with_line(content, chance, change):
    """One of the file's lines becomes what `change` makes of it."""
    lines = content.split(b"\n")
    at = chance.randrange(len(lines))
    lines[at] = change(lines[at])
    return b"\n".join(lines)


def other_value(content, chance):
    return with_line(content, chance, lambda line: line.partition(b"=")[0] + b"= " + any_value(chance).encode())


def other_key(content, chance):
    return with_line(content, chance, lambda line: any_key(chance).encode() + b" = " + line.partition(b"=")[2])


def new_line(content, chance):
    return with_line(content, chance, lambda line: line + f"\n{any_key(chance)} = {any_value(chance)}".encode())


def new_header(content, chance):
    form = chance.choice(["[%s]", "[[%s]]", "[ %s ]", "[%s] # x", "[%s", "[[%s]"])
    return with_line(content, chance, lambda line: line + f"\n{form % chance.choice(HEADERS)}".encode())


def twice(content, chance):
    return with_line(content, chance, lambda line: line + b"\n" + line)


def without_line(content, chance):
    lines = content.split(b"\n")
    del lines[chance.randrange(len(lines))]
    return b"\n".join(lines)


def exchange_lines(content, chance):
    lines = content.split(b"\n")
    at, to = chance.randrange(len(lines)), chance.randrange(len(lines))
    lines[at], lines[to] = lines[to], lines[at]
    return b"\n".join(lines)


def repeat_tables(content, chance):
    """A table of the file stands many times, so names stand twice, and arrays are too long."""
    parts = re.split(rb"(?m)^(?=\[)", content)
    at = chance.randrange(len(parts))
    parts[at] *= chance.choice([2, 2, 3, 33, 65])
    return b"".join(parts)


NESTS = [
    ("a = ", "[", "]"), ("a = ", "{a=", "}"), ("", "a.", "a = 1"), ("[", "a.", "a]"), ("[[", "a.", "a]]"),
    ("drafts = ", "[", "]"), ("item = ", "[{a=", "}]"),
    ("floodable = ", "{step=", "}"), ("item", ".x", " = 1"), ("a = ", '"', ""), ("a = ", "'''", ""), ("", "[", "]"),
    ("", "[[", "]]"), ("a = ", "[\n", "]\n"), ("", "#", ""),
    ("a = ", "[1,", "]"), ("a = ", "-", "1"), ("", '"".', "a = 1"), ("", "[a]\n", ""), ("", "[[item]]\n", ""),
    ("", "a.b = 1\n", ""), ("a = \"", "\\", "\""), ("a = ", "{a.a=", "}"),
]


def nest(chance, depth):
    """Nested to a depth, closed or left open."""
    begin, open_, close = chance.choice(NESTS)
    inner = chance.choice(["", "1", "1", "[]"]) if len(close) <= 3 else ""
    closing = close * depth if len(close) in (1, 2) or close == "]\n" else close
    return f"{begin}{open_ * depth}{inner}{closing if chance.random() < 0.7 else ''}\n".encode()


def deepest(chance):
    """Tables in tables, each step of them a dotted key, below a dotted key and a dotted header."""
    steps, names = chance.choice([1, 10, 40, 79, 80, 81]), ".".join("a" * chance.choice([1, 10, 40, 79, 80, 81]))
    header = chance.choice(["", f"[{names}]\n", f"[[{names}]]\n"])
    return f"{header}{names} = {('{' + names + '=') * steps}1{'}' * steps}\n".encode()


def deep(content, chance):
    if chance.random() < 0.2:
        return content + deepest(chance)
    depth = chance.choice([10, 78, 79, 80, 81, 100, 128, 129, 500, 2000, 10000, 30000])
    return with_line(content, chance, lambda line: line + b"\n" + nest(chance, depth))


JOB_CHANGES = [
    *BYTE_CHANGES, other_limit, other_limit, other_limit, other_name, other_name, other_value, other_value, other_key,
    new_line, new_header, twice, without_line, without_line, exchange_lines, repeat_tables,
]

# ---- Files about as long as may be


def filled(content, filler, length):
    """The content, and after it the filler again and again, to a length."""
    left = max(length - len(content), 0)
    return content + (filler * (left // len(filler) + 1))[:left]


def length_of_large(chance):
    return chance.choice([LONGEST, LONGEST, LONGEST, LONGEST - 1, LONGEST + 1, LONGEST + 1, 2 * LONGEST])


OFFSET_FILLERS = [
    b"\n", b"\r", b" ", b'"', b'""', b",", b"0", b"\x00", b"0,0,0\n", None, None, b"\n1", b"524287,0,0\n", b",,\n",
    b'"\n', b"-",
    b"\xef\xbb\xbf",
]
JOB_FILLERS = [
    b"#", b"\n", b" ", b"\t\n", b"# \xc3\xa9\n", b"[[item]]\n", b"[item]\n", b"a", b"[", b"{", b'"', b"=", b"1",
]
NUMBERED_LINES = [
    "k%d = 1\n", "[k%d]\n", "[[item]]\nx = %d\n", "floodable.k%d = 1\n", "a.b%d.c = 0\n",
    "[[opening]]\nname = \"%d\"\ny = 0\nz = 0\n", "x.%d = {}\n",
]
NUMBERED_LISTS = [
    ("drafts", "%d,"), ("a", "%d,"), ("floodable.centres", "%d, "), ("damage = [{ flooded", '"%d",'),
    ("a", "{ k%d = 1 },"),
    ("a", "[%d],"),
]


def large_offsets(content, chance):
    """The file and a filler; None stands for the file's last row."""
    last = content.rstrip(b"\n").split(b"\n")[-1] + b"\n"
    filler = chance.choice(OFFSET_FILLERS) or last
    if chance.random() < 0.3:
        content = content.rstrip(b"\n")
    return filled(content, filler, length_of_large(chance))


def large_job(content, chance):
    length = length_of_large(chance)
    how = chance.randrange(4)
    if how == 0:
        return filled(content, chance.choice(JOB_FILLERS), length)
    if how == 1:
        begin, filler, _ = chance.choice(NESTS)
        return filled(content + begin.encode(), filler.encode(), length)
    if how == 2:
        line = chance.choice(NUMBERED_LINES)
        lines = "".join(line % n for n in range(length // (len(line) + 4)))
        return filled(content + lines.encode()[:length - len(content)], b"\n", length)
    key, part = chance.choice(NUMBERED_LISTS)
    parts = "".join(part % n for n in range(length // (len(part) + 5)))
    return filled(content + f"{key} = [{parts}".encode(), b"\n", length)


# ---- Cases

CHANGED = [{"hull.csv"}] * 3 + [{"job.toml"}] * 2 + [{"hull.csv", "job.toml"}]


def changed(content, changes, chance):
    for _ in range(chance.choice([0, 1, 1, 1, 1, 2, 3, 6])):
        content = chance.choice(changes)(content, chance)[:MOST_CHANGED]
    return noise(content, chance) if chance.random() < 0.005 else content


def some_offsets(chance):
    small, large = hulls()
    content = chance.choice(FORMS)(chance.choice(small if chance.random() < 0.85 else large))
    if chance.randrange(ONE_LARGE_IN) == 0:
        return large_offsets(content, chance)
    return changed(content, OFFSET_CHANGES, chance)


def some_job(chance):
    usual, full = jobs()
    content = chance.choice(usual if chance.random() < 0.99 else full)
    if chance.randrange(ONE_LARGE_IN) == 0:
        return large_job(content, chance)
    content = changed(content, JOB_CHANGES, chance)
    return deep(content, chance) if chance.randrange(ONE_DEEP_IN) == 0 else content


def words_of(command, chance):
    if command == "section":
        draft = chance.choice([0, 1, 5000, 5000, 9999, 10000, 65535, 131071, chance.randrange(131072)])
        return [command, "hull.csv", str(chance.choice([0, 1, 2, 2, 3, 63, 64, 999999])), str(draft)]
    return [command, "job.toml", "hull.csv"]


def made(seed, number):
    chance = random.Random(f"{seed}:{number}")
    names = chance.choice(CHANGED)
    offsets = some_offsets(chance) if "hull.csv" in names else chance.choice(hulls()[0][:5])
    is_small = offsets.count(b"\n") + offsets.count(b"\r") <= MANY_ROWS
    weights = (SMALL_WEIGHTS if is_small else LARGE_WEIGHTS)[len(names & {"job.toml"}):]
    (command,) = chance.choices(COMMANDS[len(names & {"job.toml"}):], weights)
    job = some_job(chance) if "job.toml" in names else chance.choice(jobs()[0])
    return Case(words_of(command, chance), job, offsets, names)
