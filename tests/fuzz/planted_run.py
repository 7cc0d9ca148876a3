"""A run of the program whose arguments, status, printed text and files may be spoilt (planted_faults.py)."""

import pathlib
import re
import subprocess

FAULTS = []
FLAGS = ("-n", "--dry-run", "--locked", "--never-lower", "--check", "--diff")


class Run:
    """A run of the program, whose parts a fault changes."""

    def __init__(self, program, args):
        self.program, self.args = program, args
        self.before = manifests()
        self.status, self.out, self.err = 0, b"", b""

    def go(self, args=None):
        """Runs the program."""
        done = subprocess.run([self.program, *(self.args if args is None else args)], capture_output=True,
                              check=False)
        self.status, self.out, self.err = done.returncode, done.stdout, done.stderr

    def written(self):
        """The manifests that the run changed."""
        return [path for path, text in manifests().items() if self.before.get(path) != text]

    def has(self, *args):
        """Whether the run has one of these arguments."""
        return any(arg.split("=")[0] in args for arg in self.args)


def manifests():
    """The manifests below the current folder."""
    return {path: path.read_bytes() for path in pathlib.Path(".").rglob("Cargo.toml")}


def edit(path, old, new, count=1):
    """Replaces in a file."""
    path.write_bytes(re.sub(old, new, path.read_bytes(), count=count, flags=re.MULTILINE))


def without(args, *names):
    """The arguments without options of these names, and without their values in the arguments after them."""
    left, skip = [], False
    for arg in args:
        if not skip and arg.split("=")[0] not in names:
            left.append(arg)
        skip = not skip and arg in names and arg not in FLAGS
    return left


def fault(function):
    """Adds a function to the faults."""
    FAULTS.append(function)
    return function
