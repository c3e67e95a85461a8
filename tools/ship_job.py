"""What is asked of a ship: the job file, read anew for check_report.py."""

from fractions import Fraction
from typing import NamedTuple

from exact_hull import Unread

try:
    import tomllib
except ImportError:  # before Python 3.11
    tomllib = None


class Load(NamedTuple):
    """The mass in kg and its centre in mm, free surfaces in its height."""

    mass: int
    x: Fraction
    y: Fraction
    z: Fraction


class Job(NamedTuple):
    """The keys of a job; a case is its slabs of (from, to, permeability), an opening its y and z."""

    version: int
    density: int
    length_bp: int
    margin: int
    drafts: list
    displacements: list
    items: list
    openings: list
    cases: list
    centres: list
    step: int
    permeability: int

    def load(self):
        mass = sum(item["mass"] for item in self.items)
        if not mass:
            raise Unread("the items of the job have no mass, and the report has a load")
        x, y, z = (sum(item["mass"] * item.get(axis, 0) for item in self.items) for axis in "xyz")
        free = sum(item.get("free_surface", 0) for item in self.items)
        return Load(mass, Fraction(x, mass), Fraction(y, mass), Fraction(z + 1000 * free, mass))


def read_job(name):
    """The job of a file; which faults it has otherwise is for the program to say."""
    if tomllib is None:
        raise Unread("jobs are read with Python 3.11 or later")
    try:
        with open(name, "rb") as file:
            return job_of(tomllib.loads(file.read().decode("utf-8-sig")))
    except OSError as fault:
        raise Unread(f"{name}: {fault.strerror}") from None
    except ValueError as fault:  # with the line, where it is no TOML
        raise Unread(f"{name}: {fault}") from None
    except KeyError as key:
        raise Unread(f"{name}: there is no {key}") from None
    except (TypeError, AttributeError):
        raise Unread(f"{name}: a value isn't of its kind") from None


def job_of(table):
    slabs = {part["name"]: (part["from"], part["to"], part["permeability"]) for part in table.get("compartment", [])}
    flooding = table.get("floodable", {"centres": [], "step": 2, "permeability": 0})
    return Job(
        table["version"],
        table["density"],
        table["length_bp"],
        table.get("margin", 76),
        table.get("drafts", []),
        table.get("displacements", []),
        [{**item, "mass": item["mass"] + 0} for item in table.get("item", [])],
        [(opening["y"], opening["z"]) for opening in table.get("opening", [])],
        [tuple(slabs[part] for part in case["flooded"]) for case in table.get("damage", [])],
        flooding["centres"],
        flooding["step"],
        flooding["permeability"],
    )
