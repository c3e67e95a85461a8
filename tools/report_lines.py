"""The lines of a report, as `specs/Spelling.antt` of the crate hull_report spells them.

`lines_of(content)` gives a list of lines, each a list of words; `BadLine` names the first line outside the grammar.
`read(name)` gives those of a file, where CR LF is taken for a line's end too, and ends with a sentence where there is no
report in it. `lack_of(lines)` says what is missing of reports that were cut.
"""

import pathlib
import re
import sys

WHOLE = re.compile(r"(?:0|-?[1-9][0-9]*)\Z")
COMMANDS = "hydro bonjean cross stability damage floodable all section make tanks strength flooded".split()
FINDINGS = "holds fails unsure".split()
SIDES = ["i64", "i64", "i64", "i64"]
SHOWN = [
    ["interval", "u32", "figure"], ["pair", "u32", "u32"], ["leak", "u32", "u32", "figure"], ["heel", "u32", "u32", "figure"],
    ["heels", "u32", "u32", "u32", "u32"],
]
ENDS = [SIDES, ["sinks", "figure"], ["nostart", "fore"], ["nostart", "aft"]]
LEVERS = ["i64", "i64", "figure", "figure", "figure", "figure"]
CALLS = ["fail", "undecided"]

# Each form is the words of a line: kinds of word, or names that stand as they are.
FORMS = [
    ["hullcert", "version", "command"],
    ["hull", "u32", "u32"],
    ["body", "i128"],
    ["hydro", "u32", "figure", "figure", "absent", "absent", "figure"] + ["absent"] * 4 + ["figure", "absent"],
    ["section", "u32", "u32", "u32", "figure", "moment"],
    ["cross", "u64", "u32", "i64", "i64", "figure"],
    ["load", "u64", "figure", "figure"],
    ["load", "u64", "figure", "figure", "figure"],
    ["upright", "i64", "i64", "figure", "figure", "figure"],
    ["arm", "u32", "i64", "i64", "figure", "figure"],
    ["arm", "u32"] + LEVERS,
    ["mark", "criterion", "finding"],
    ["verdict", "pass"],
    *[["verdict", call, "criterion"] + shown for call in CALLS for shown in SHOWN],
    *[["verdict", call, "criterion", "side"] + shown for call in CALLS for shown in SHOWN],
    *[["damage", "u32"] + end for end in ENDS],
    ["safe", "u32", "u32"] + SIDES,
    ["safe", "u32", "-"],
    ["next", "u32", "u32", "over", "u32"] + SIDES,
    ["next", "u32", "u32", "touch", "u32"] + SIDES,
    ["next", "u32", "u32", "sinks"],
    ["next", "u32", "u32", "nostart"],
    ["next", "u32", "u32", "endofship"],
    ["tank", "u32", "u32", "figure", "absent", "absent", "figure"],
    *[["float"] + end for end in ENDS],
    ["strength", "u32", "u32", "figure", "figure"],
    ["darm", "u32", "u32"] + LEVERS,
    ["dshort", "u32", "u32", "figure"],
    ["hulllimits", "1"],
    ["limit", "u64", "u32"],
    ["limit", "u64", "-"],
    ["beyond", "u64", "u32", "endofrange"],
    *[["beyond", "u64", "u32", call, "criterion"] + shown for call in CALLS for shown in SHOWN],
    ["end", "u32"],
]


class BadLine(Exception):
    """The number of the first line outside the grammar, from 1."""

    def __init__(self, number):
        super().__init__(f"line {number} isn't in the grammar")
        self.number = number


def whole(low, high):
    return lambda word: bool(WHOLE.match(word)) and len(word) <= 40 and low <= int(word) <= high


def ends_of(word, places=6):
    """The two ends of a figure as counts of its last place, or None."""
    end = r"(-?)(0|[1-9][0-9]*)\.([0-9]{%d})" % places
    found = re.fullmatch(r"\[%s,%s\]" % (end, end), word)
    if found is None or len(word) > 100:
        return None
    parts = found.groups()
    counts = []
    for sign, front, decimals in (parts[:3], parts[3:]):
        count = int(front + decimals)
        if sign and count == 0:
            return None
        counts.append(-count if sign else count)
    low, high = counts
    return (low, high) if -(2 ** 127) <= low <= high < 2 ** 127 else None


KINDS = {
    "u32": whole(0, 2 ** 32 - 1),
    "u64": whole(0, 2 ** 64 - 1),
    "i64": whole(-(2 ** 63), 2 ** 63 - 1),
    "i128": whole(-(2 ** 127), 2 ** 127 - 1),
    "figure": lambda word: ends_of(word) is not None,
    "moment": lambda word: ends_of(word, 9) is not None,
    "absent": lambda word: word == "-" or ends_of(word) is not None,
    "criterion": lambda word: re.fullmatch(r"C[1-6]", word) is not None,
    "command": lambda word: word in COMMANDS,
    "finding": lambda word: word in FINDINGS,
    "version": lambda word: word in ("1", "2"),
    "side": lambda word: word in ("port", "starboard"),
}


def is_line(words):
    return any(
        len(words) == len(form) and all(KINDS.get(kind, kind.__eq__)(word) for kind, word in zip(form, words))
        for form in FORMS
    )


def lines_of(content):
    """The lines of a report's bytes, each as its words."""
    pieces = content.split(b"\n")
    lines = []
    for number, piece in enumerate(pieces[:-1], start=1):
        words = piece.decode("ascii", "replace").split(" ")
        if not piece.isascii() or not is_line(words):
            raise BadLine(number)
        lines.append(words)
    if pieces[-1]:
        raise BadLine(len(pieces))
    return lines


def figure_of(word, places=6):
    """The two ends of a figure in its unit, or None where it is absent."""
    ends = ends_of(word, places)
    return None if ends is None else (ends[0] / 10 ** places, ends[1] / 10 ** places)


def lack_of(lines):
    """A sentence where a report doesn't end with the number of its lines, as one that was cut; else None."""
    begun = 0
    for at, words in enumerate(lines, start=1):
        if words[0] == "end":
            if int(words[1]) != at - begun:
                return f"the report that ends in line {at} has {at - begun} lines, and says {words[1]}: some were lost or added"
            begun = at
    return None if begun == len(lines) else "the report has no line end: it was cut, and may lack figures"


def read(name):
    """The lines of the report in a file, or in the input where the name is "-"; ends with a sentence where there are none."""
    try:
        content = sys.stdin.buffer.read() if name == "-" else pathlib.Path(name).read_bytes()
    except (OSError, ValueError) as fault:
        sys.exit(f"{name}: {getattr(fault, 'strerror', None) or fault}")
    if not content:
        sys.exit(f"{name}: it is empty; hullcert may have ended before it wrote a report")
    if content.startswith((b"refused ", b"fault ")):
        line = content.splitlines()[0].decode("ascii", "replace")
        sys.exit(f"{name}: {line}\n{name}: there is no report; tools/explain '{line}' says what this means")
    try:
        lines = lines_of(content.replace(b"\r\n", b"\n"))
    except BadLine as bad:
        sys.exit(f"{name}: {bad}")
    lack = lack_of(lines)
    if lack:
        print(f"{name}: {lack}", file=sys.stderr)
    return lines
