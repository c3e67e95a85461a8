"""The table of sentences in tools/explain.txt."""

import pathlib

TABLE = pathlib.Path(__file__).resolve().with_name("explain.txt")
PLACES = {"ROW", "COLUMN", "STATIONS", "STATION", "KEY", "ENTRY", "FIRST", "SECOND", "MASS", "SIX", "SUM"}


class Texts:
    """Entries by name: `refused ..` and `fault ..` with places in capitals, `hint NAME` and `key KEY`."""

    def __init__(self, entries):
        self.entries = entries

    def entry_of(self, words):
        """The entry of a line's words and what stands in its places, or None."""
        for name in self.entries:
            form = name.split()
            if form[0] in ("refused", "fault") and fits(form, words):
                return name, {place: word for place, word in zip(form, words) if place in PLACES}
        return None

    def value_of(self, key):
        """What a key of the job is to be."""
        return self.entries.get(f"key {key}", "")

    def fill(self, name, words):
        return self.entries[name].format(**words)


def fits(form, words):
    return len(form) == len(words) and all(part == word or part in PLACES for part, word in zip(form, words))


def load(path=TABLE):
    entries, name = {}, None
    for line in path.read_text(encoding="utf-8").splitlines():
        if line.startswith(" ") and name is not None:
            entries[name] = f"{entries[name]} {line.strip()}".strip()
        elif line.strip() and not line.startswith("#"):
            name = line.strip()
            entries[name] = ""
    return Texts(entries)
