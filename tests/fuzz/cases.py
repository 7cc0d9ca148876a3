"""A case: the files of a folder and the arguments of the program; and its runs."""

import json
import os
import pathlib
import resource
import shutil
import subprocess
import tempfile
from dataclasses import dataclass

HERE = "@HERE@"
# (a path with a line end is left out: calls of `cargo update` cannot hold it)
SECONDS, TIMEOUT = 3, 30


@dataclass
class Case:
    """The files, by their paths below the folder, which stands for @HERE@ in them and in the arguments. Where
    the arguments are not sure to be well formed, the oracle does not judge usage errors."""
    files: dict
    args: list
    sure: bool = True

    def save(self, folder, why=()):
        """Writes the case below a folder."""
        folder = pathlib.Path(folder)
        for name, text in self.files.items():
            (folder / "files" / name).parent.mkdir(parents=True, exist_ok=True)
            (folder / "files" / name).write_bytes(text)
        folder.mkdir(parents=True, exist_ok=True)
        (folder / "arguments.json").write_text(
            json.dumps({"arguments": self.args, "sure": self.sure}) + "\n")
        if why:
            (folder / "faults.txt").write_text("\n".join(why) + "\n")

    @staticmethod
    def load(folder):
        """Reads the case below a folder."""
        folder = pathlib.Path(folder)
        base = folder / "files"
        files = {str(path.relative_to(base)): path.read_bytes() for path in sorted(base.rglob("*"))
                 if path.is_file()}
        saved = json.loads((folder / "arguments.json").read_text())
        return Case(files, saved["arguments"], saved["sure"])

    @property
    def command(self):
        """The subcommand, if there is one."""
        return self.args[0] if self.args else ""


@dataclass
class Run:
    """The result of a run: its status, what it printed, its processor time, and the files that stand then."""
    status: int
    out: bytes
    err: bytes
    seconds: float
    files: dict


class Room:
    """A folder in which a case is run, again and again, each time from its own files."""

    def __init__(self, program, valgrind=False):
        base = "/dev/shm" if os.access("/dev/shm", os.W_OK) else None
        self.path = tempfile.mkdtemp(prefix="fuzz-", dir=base)
        self.program, self.valgrind = program, valgrind
        self.begin = {}

    def leave(self):
        """Takes the folder away."""
        shutil.rmtree(self.path, ignore_errors=True)

    def lay_out(self, files):
        """Makes the folder hold these files and no others."""
        here = self.path.encode()
        self.begin = {name: text.replace(HERE.encode(), here) for name, text in files.items()}
        for name in self.now():
            if name not in self.begin:
                os.unlink(os.path.join(self.path, name))
        self.restore()

    def restore(self):
        """Writes the files again that are not as they were."""
        now = self.now()
        for name in now.keys() - self.begin.keys():
            os.unlink(os.path.join(self.path, name))
        for name, text in self.begin.items():
            if now.get(name) != text:
                path = os.path.join(self.path, name)
                os.makedirs(os.path.dirname(path), exist_ok=True)
                with open(path, "wb") as file:
                    file.write(text)

    def now(self):
        """The files that are in the folder."""
        found = {}
        for folder, _, names in os.walk(self.path):
            for name in names:
                path = os.path.join(folder, name)
                with open(path, "rb") as file:
                    found[os.path.relpath(path, self.path)] = file.read()
        return found

    def run(self, args, again=False):
        """Runs the program from the case's files, or from those that an earlier run left."""
        if not again:
            self.restore()
        args = [arg.replace(HERE, self.path) for arg in args]
        front = ["valgrind", "-q", "--error-exitcode=99"] if self.valgrind else []
        where = os.path.join(self.path, "ws")
        os.makedirs(where, exist_ok=True)
        environment = {"HOME": os.path.join(self.path, "home"), "PATH": "/usr/bin:/bin"}
        before = resource.getrusage(resource.RUSAGE_CHILDREN)
        try:
            done = subprocess.run([*front, self.program, *args], cwd=where, env=environment,
                                  capture_output=True, check=False,
                                  timeout=TIMEOUT * (20 if front else 1))
        except subprocess.TimeoutExpired as late:
            return Run(-1000, late.stdout or b"", late.stderr or b"", TIMEOUT, self.now())
        after = resource.getrusage(resource.RUSAGE_CHILDREN)
        seconds = after.ru_utime + after.ru_stime - before.ru_utime - before.ru_stime
        return Run(done.returncode, done.stdout, done.stderr, seconds, self.now())

    def bound(self):
        """The processor seconds that a run may take: three for each megabyte that it reads, and one at least.
        (A few products of two counts, as entries of one crate times its versions, are not linear yet; the
        cases here are too small to show it.)"""
        return max(1, SECONDS * sum(map(len, self.begin.values())) / 1e6) * (60 if self.valgrind else 1)
