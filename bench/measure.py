"""Runs of programs side by side, and their cost. `tests/linear/measure.c` starts each, since a child of a
process as large as Python has that one's peak memory until it is larger itself."""

import os
import pathlib
import re
import shutil
import subprocess
import tempfile
import time
from dataclasses import dataclass, field

from manifests import write

STARTER = pathlib.Path(__file__).resolve().parent.parent / "tests" / "linear" / "measure.c"
TMPFS, DISK = "/dev/shm", "/var/tmp"

STUB = """#include <stdio.h>
#include <stdlib.h>
int main(void) {
    static char piece[1 << 16];
    FILE *file = fopen(getenv("METADATA"), "r");
    size_t count;
    while (file && (count = fread(piece, 1, sizeof piece, file)) > 0) fwrite(piece, 1, count, stdout);
    return !file;
}
"""


class Failed(Exception):
    """A run that did not end as expected."""


@dataclass
class Cost:
    """The cost of a run: seconds of a processor, kilobytes at the peak, seconds by the clock."""
    seconds: float
    kilobytes: int
    wall: float

    def least(self, other):
        """The least of each."""
        return Cost(min(self.seconds, other.seconds), min(self.kilobytes, other.kilobytes),
                    min(self.wall, other.wall))


@dataclass
class Job:
    """The same work for several programs: the arguments of each, the texts of the files that a run may change
    before and after it, by their paths, the folder in which it runs, its variables, and the file that is its standard
    input, if there is one."""
    folder: str
    arguments: dict
    before: dict = field(default_factory=dict)
    after: dict = field(default_factory=dict)
    variables: dict = field(default_factory=dict)
    source: str = os.devnull

    def restore(self):
        """Writes the files as they have to be before a run."""
        for path, text in self.before.items():
            write(path, text)

    def check(self, name):
        """Fails where a run has left another text."""
        for path, text in self.after.items():
            with open(path, encoding="utf-8") as file:
                if file.read() != text:
                    raise Failed(f"{name} has left another text in {os.path.basename(path)} than it has to")


def new_folder(parent):
    """A new folder below `parent` where that can be written, else where the system has such folders."""
    is_there = parent and os.access(parent, os.W_OK)
    return tempfile.mkdtemp(prefix="cargo-edit-bench-", dir=parent if is_there else None)


class Room:
    """A folder in which programs, by their names, are measured."""

    def __init__(self, programs, rounds):
        self.programs, self.rounds = programs, rounds
        self.folder = new_folder(TMPFS)
        self.starter, self.number = os.path.join(self.folder, "starter"), 0
        subprocess.run(["cc", "-O1", "-o", self.starter, str(STARTER)], check=True)

    def leave(self):
        """Removes the folder."""
        shutil.rmtree(self.folder, ignore_errors=True)

    def clear(self):
        """An empty folder for the files of a row; that of the row before is removed."""
        shutil.rmtree(os.path.join(self.folder, str(self.number)), ignore_errors=True)
        self.number += 1
        path = os.path.join(self.folder, str(self.number))
        os.mkdir(path)
        return path

    def stub_cargo(self):
        """A program that prints the file in the variable METADATA, as `cargo metadata` would."""
        path = os.path.join(self.folder, "cargo")
        with open(path + ".c", "w", encoding="utf-8") as file:
            file.write(STUB)
        subprocess.run(["cc", "-O1", "-o", path, path + ".c"], check=True)
        return path

    def run(self, name, job):
        """Runs a program once; returns the cost."""
        out, errors_path = (os.path.join(self.folder, name) for name in ("measured", "errors"))
        args = [self.starter, out, self.programs[name], *job.arguments[name]]
        with open(errors_path, "w", encoding="utf-8") as errors, open(job.source, "rb") as source:
            start = time.perf_counter()
            subprocess.run(args, cwd=job.folder, stdin=source, stdout=subprocess.DEVNULL,
                           stderr=errors, env={"HOME": "/nonexistent", **job.variables}, check=True)
            wall = time.perf_counter() - start
        with open(out, encoding="utf-8") as file:
            status, micros, kilobytes = map(int, file.read().split())
        if status != 0:
            with open(errors_path, encoding="utf-8") as file:
                raise Failed(f"{name} ended with status {status}: {file.read()[-500:]}")
        job.check(name)
        return Cost(micros / 1e6, kilobytes, wall)

    def costs(self, *jobs, rounds=None):
        """The least cost of each program that jobs have arguments for, of rounds in which they take turns."""
        least = {}
        turns = [(name, job) for job in jobs for name in job.arguments if name in self.programs]
        for _ in range(rounds or self.rounds):
            for name, job in turns:
                job.restore()
                cost = self.run(name, job)
                least[name] = cost.least(least.get(name, cost))
        return least

    def instructions(self, name, job, function=None):
        """The instructions of one run, or those within a function; none where they cannot be counted."""
        if not shutil.which("valgrind") or name not in self.programs or name not in job.arguments:
            return None
        job.restore()
        within = [f"--toggle-collect={function}"] if function else []
        with open(job.source, "rb") as source:
            done = subprocess.run(
                ["valgrind", "--tool=callgrind", "--callgrind-out-file=/dev/null", *within, self.programs[name],
                 *job.arguments[name]], cwd=job.folder, stdin=source, stdout=subprocess.DEVNULL,
                stderr=subprocess.PIPE, env=os.environ | job.variables, text=True, check=False)
        found = re.search(r"Collected : (\d+)", done.stderr)
        if done.returncode != 0 or not found:
            raise Failed(f"valgrind with {name} ended with status {done.returncode}: {done.stderr[-500:]}")
        return int(found[1]) or None
