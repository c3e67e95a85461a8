#!/usr/bin/env python3
"""Holds read_job against an independent checker on job files that are broken in each stated way.

The cargo job is broken key by key: keys are left out, renamed and doubled, values are replaced by others of the
wrong kind and at each edge of their ranges, arrays are made too long, names are changed, copied and exchanged,
compartments are moved. Two breaks come together in half of the files, so that the order of faults shows. The
answers of `job_reader::read_job` are those of a small program that is made in a folder of its own beside a copy
of the crates and run there with the kit's `rt try`, which needs no proof. The checker is a Python package
`oracle` with a function `oracle.job.read_job(bytes)`; its folder is given.

    tools/compare_jobs.py --checker FOLDER [--count 1000] [--seed 1]

Prints a line for each difference, then counts; ends with 1 where there was a difference.
"""

import argparse
import collections
import pathlib
import random
import shutil
import subprocess
import sys
import tempfile

sys.dont_write_bytecode = True

import checker  # noqa: E402
import output  # noqa: E402

TOP = pathlib.Path(__file__).resolve().parent.parent
PARTED = b"\x1e"
PROGRAM = r'''
//! Prints the answer of `read_job` on each job of a file, which the byte 0x1E parts.
use desk::{FileShelf, Shelf};
use job_reader::{Job, JobFault, Key, read_job};
use std::alloc::Global;
use std::env;
use std::test::Fail;

fn placed(alloc: Global, word: &str, key: Key, entry: u32) -> Result<String, Fail> {
    let text = match key.table() {
        Key::Top => format!(in alloc; "{word} {} {entry}", key.word())?,
        table => format!(in alloc; "{word} {}.{} {entry}", table.word(), key.word())?,
    };
    Ok(text)
}

fn words_of(alloc: Global, answer: &Result<Job, JobFault>) -> Result<String, Fail> {
    let text = match answer {
        Ok(job) => format!(in alloc; "accepted {} {} {}", job.items.as_slice().len(), job.damages.as_slice().len(), job.margin)?,
        Err(JobFault::Text) => String::from_str(alloc, "text")?,
        Err(JobFault::Version) => String::from_str(alloc, "version")?,
        Err(JobFault::Memory) => String::from_str(alloc, "memory")?,
        Err(JobFault::Unknown { key, entry }) => placed(alloc, "unknown", *key, *entry)?,
        Err(JobFault::Missing { key, entry }) => placed(alloc, "missing", *key, *entry)?,
        Err(JobFault::Kind { key, entry }) => placed(alloc, "kind", *key, *entry)?,
        Err(JobFault::Range { key, entry }) => placed(alloc, "range", *key, *entry)?,
        Err(JobFault::Many { key, entry }) => placed(alloc, "many", *key, *entry)?,
        Err(JobFault::Name { key, entry }) => placed(alloc, "name", *key, *entry)?,
        Err(JobFault::Twice { key, entry }) => placed(alloc, "twice", *key, *entry)?,
        Err(JobFault::NotNamed { entry }) => format!(in alloc; "notnamed {entry}")?,
        Err(JobFault::Overlap { first, second }) => format!(in alloc; "overlap {first} {second}")?,
    };
    Ok(text)
}

fn answers(rt: &HostRuntime) -> Result<(), Fail> {
    let mut args = env::args(rt).map_err(|_| "no words")?.skip(1);
    let path = args.next().ok_or("no path")?;
    let mut shelf = FileShelf::new(rt);
    let bytes = shelf.fetch(rt.alloc(), path.as_str(), 1 << 30).map_err(|_| "no file")?;
    for job in bytes.split(|byte| *byte == 0x1e) {
        let text = words_of(rt.alloc(), &read_job(rt.alloc(), job))?;
        println!(rt; "{text}").map_err(|_| "no output")?;
    }
    Ok(())
}

fn main(rt: HostRuntime) -> Result<(), Fail> {
    answers(&rt)
}
'''
NAMES = ['""', '"a b"', '"' + "n" * 32 + '"', '"' + "n" * 33 + '"', '"A.b-c_9"', '"a/b"', "5", '"\\u00e9"']
VALUES = ["-1", "0", "1", "2", "3", "75", "76", "499", "500", "1000", "1001", "2000", "2001", "10000", "10001",
          "65535", "65536", "100000", "100001", "131071", "131072", "524286", "524287", "524288", "68719476736",
          "68719476737", "9223372036854775807", "9223372036854775808", "1.0", '"1"', "true", "[]", "{}", "[1]",
          "1979-05-27", "0x10", "1_000", "+5"]
ARRAYS = ["[]", "5", "[true]", "[[1]]", '["x"]', "[-1]", "[524288]", "[131072]", "[0]", "[68719476737]",
          "[" + ", ".join(["1"] * 16) + "]", "[" + ", ".join(["1"] * 17) + "]", "[" + ", ".join(["1"] * 32) + "]",
          "[" + ", ".join(["1"] * 33) + "]", "[" + ", ".join(["1"] * 64) + "]", "[" + ", ".join(["1"] * 65) + "]"]
FLOODS = ['["forehold", "forehold"]', '["none"]', '["midhold", "none"]', '["midhold", "forehold"]', "[]",
          '["a b"]', "[5]", '"midhold"', "[" + ", ".join(['"midhold"'] * 65) + "]"]


class Broken:
    """A job's lines, each to be changed."""

    def __init__(self, lines, chance):
        self.lines = list(lines)
        self.chance = chance

    def key_lines(self):
        return [at for at, line in enumerate(self.lines) if "=" in line and not line.startswith("#")]

    def set_value(self):
        at = self.chance.choice(self.key_lines())
        key = self.lines[at].split("=")[0].strip()
        choices = {"name": NAMES, "flooded": FLOODS, "centres": ARRAYS, "drafts": ARRAYS, "displacements": ARRAYS}
        self.lines[at] = f"{key} = {self.chance.choice(choices.get(key, VALUES))}"

    def drop_key(self):
        del self.lines[self.chance.choice(self.key_lines())]

    def rename_key(self):
        at = self.chance.choice(self.key_lines())
        self.lines[at] = self.chance.choice(["size", "Mass", "x", "name", '""', "z"]) + " =" + self.lines[at].split("=", 1)[1]

    def add_key(self):
        at = self.chance.choice(self.key_lines())
        self.lines.insert(at, self.chance.choice(["extra = 1", "free_surface = 7", "margin = 76", "z = 5", "permeability = 1"]))

    def copy_value(self):
        at, to = self.chance.choice(self.key_lines()), self.chance.choice(self.key_lines())
        self.lines[to] = self.lines[to].split("=")[0] + "=" + self.lines[at].split("=", 1)[1]

    def copy_name(self):
        names = [at for at in self.key_lines() if self.lines[at].startswith("name")]
        self.lines[self.chance.choice(names)] = self.lines[self.chance.choice(names)]

    def copy_table(self):
        heads = [at for at, line in enumerate(self.lines) if line.startswith("[[")] + [len(self.lines)]
        which = self.chance.randrange(len(heads) - 1)
        table = self.lines[heads[which]:heads[which + 1]]
        times = self.chance.choice([1, 1, 1, 33, 65, 257])
        for _ in range(times):
            self.lines[heads[which]:heads[which]] = table

    def drop_head(self):
        heads = [at for at, line in enumerate(self.lines) if line.startswith("[")]
        self.lines[self.chance.choice(heads)] = self.chance.choice(["", "[other]", "[item]", "[[floodable]]", "[[other]]"])

    def move_compartment(self):
        ends = [at for at in self.key_lines() if self.lines[at].split("=")[0].strip() in ("from", "to")]
        at = self.chance.choice(ends)
        self.lines[at] = self.lines[at].split("=")[0] + f"= {self.chance.choice([0, 10000, 20000, 20001, 50000, 65999, 66000, 70000, 85000])}"

    def break_text(self):
        at = self.chance.randrange(len(self.lines))
        self.lines[at] = self.lines[at][:self.chance.randrange(len(self.lines[at]) + 1)] + self.chance.choice(["", "=", '"', "\x00", "[", "é"])

    def once(self):
        ways = [self.set_value] * 6 + [self.drop_key] * 2 + [self.rename_key, self.add_key, self.copy_value, self.copy_name,
                self.copy_name, self.copy_table, self.drop_head, self.move_compartment, self.move_compartment, self.break_text]
        self.chance.choice(ways)()


def broken(lines, chance):
    job = Broken(lines, chance)
    for _ in range(chance.choice([1, 1, 2, 3])):
        job.once()
    return "\n".join(job.lines).encode()


def expected(content, read_job, fault):
    try:
        job = read_job(content)
    except fault as found:
        return " ".join(found.words)
    return f"accepted {len(job.items)} {len(job.damages)} {job.margin}"


def answers(jobs):
    """What the small program prints, line by line."""
    with tempfile.TemporaryDirectory() as folder:
        top = pathlib.Path(folder)
        shutil.copy(TOP / "HANDLES", top / "HANDLES")
        shutil.copytree(TOP / "crates", top / "crates", ignore=shutil.ignore_patterns("out", "must-fail"))
        listed = (TOP / "crates.txt").read_text()
        (top / "crates.txt").write_text(listed + "job_answers: desk job_reader exact_fraction hull_model\n")
        program = top / "crates" / "job_answers"
        (program / "src").mkdir(parents=True)
        (program / "src" / "main.rt").write_text(PROGRAM)
        (top / "jobs").write_bytes(PARTED.join(jobs))
        run = subprocess.run(["rt", "try", "--", str(top / "jobs")], cwd=program, capture_output=True, check=False)
        lines = run.stdout.decode().splitlines()
        return [line for line in lines if line and not line.startswith(("run=", "rt:"))], run


def main():
    parser = argparse.ArgumentParser(description=__doc__.splitlines()[0])
    parser.add_argument("--checker", required=True, help="the folder that holds the package oracle")
    parser.add_argument("--count", type=int, default=1000)
    parser.add_argument("--seed", type=int, default=1)
    given = parser.parse_args()
    JobFault, read_job = checker.load(given.checker, "job", "JobFault", "read_job")
    chance = random.Random(given.seed)
    lines = (TOP / "examples" / "cargo.toml").read_text().splitlines()
    jobs = [job for job in (broken(lines, chance) for _ in range(given.count)) if PARTED not in job]
    found, run = answers(jobs)
    if len(found) != len(jobs):
        sys.stderr.write(run.stdout.decode()[-2000:] + run.stderr.decode()[-2000:])
        print(f"{len(found)} answers for {len(jobs)} jobs")
        return 1
    outcomes = collections.Counter()
    differences = 0
    for number, (job, answer) in enumerate(zip(jobs, found)):
        want = expected(job, read_job, JobFault)
        outcomes[want.split()[0]] += 1
        if want != answer:
            differences += 1
            print(f"{number}: {answer}, expected {want}: {job!r}")
    for outcome, count in sorted(outcomes.items()):
        print(f"{count:6} {outcome}")
    print(f"{len(jobs)} jobs, {differences} differences")
    return 1 if differences else 0


if __name__ == "__main__":
    output.run(main)
