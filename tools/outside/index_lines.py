#!/usr/bin/env python3
"""Compares how the program and serde_json read index lines.

    index_lines.py PROGRAM [--count N] [--seed S]

N lines (200,000) are made from the seed S (drawn where it is not given, and printed): those of the tests, the
texts of json_texts.py as lines and as values of each member, and lines as registries write them with members
and bytes changed. serde_reads, a program over the crate serde_json of Debian's librust-serde-json-dev, says of
each what it reads:

- as a tree, of which members are looked up. This decides: the program has to accept the same lines, and to
  have the same members. Accepted lines are read thousands in a run, which reports the newest version of each
  crate: runs with several Rust versions and bounds of time show all five members. Each line that is refused is
  read in a run of its own, after up to three accepted ones and half of them with a bound, and the error has
  to have its number.
- as a typed record, as a derived `Deserialize` reads it. A line that it reads otherwise than a tree has to be
  of one of the kinds in KINDS.

Prints how many lines are of each of these kinds; of each kind of difference how many lines there are, with
the shortest ones; and how many lines were accepted and refused. The status is 1 where anything differs.
"""

import argparse
import os
import random
import tempfile

import index_texts  # (first, as it finds the modules of the fuzzer)
import index_runs
import serde_verdicts

BATCH = 4000
# How many lines of a batch may differ before the rest of it is left out, and how many of a kind are shown.
MOST, SHOWN = 200, 3
# The kinds of lines that a typed record reads otherwise than a tree, the beginnings of the error of the one
# that refuses them, and why the program follows the tree.
KINDS = (
    ("a member twice", ("duplicate field",), "of equal keys the last value counts (RFC 8259, section 4)"),
    ("another type", ("invalid type",),
     "a `pubtime` that is no string is an unknown time; of equal keys only the last value needs its type"),
    ("a number past the range of a float", ("number out of range",),
     "a line is JSON whose numbers fit, also where they are skipped"),
    ("half of a pair of surrogates", ("lone leading surrogate", "unexpected end of hex escape"),
     "it is no character, also where it is skipped"),
    ("no UTF-8", ("invalid unicode code point",), "a line is UTF-8, also where it is skipped"),
    ("nesting", ("recursion limit exceeded",), "arrays and objects nest at most 127 deep, skipped ones too"),
)


def kind_of(tree, typed):
    """The kind of a line that a tree and a typed record read differently; none where it is of none."""
    errors = [read for read in (tree, typed) if isinstance(read, str)]
    for name, beginnings, _ in KINDS:
        if errors and errors[0].startswith(beginnings):
            return name
    return None


class Check:
    """Compares lines, and keeps those that differ, by their kind."""

    def __init__(self, program, folder, rng):
        self.runs, self.rng = index_runs.Runs(program, folder), rng
        self.serde = serde_verdicts.built_program()
        self.typed, self.found, self.with_members = {}, {}, 0

    def add(self, kind, line, more=""):
        """Adds a line that differs, and what else there is to say of it."""
        self.found.setdefault(kind, []).append((line, more))

    def text(self, lines):
        """The text of these lines, with a line end after the last one or without."""
        return b"\n".join(lines) + self.rng.choice((b"", b"\n"))

    def compare_accepted(self, batch):
        """Reads lines that serde_json accepts in one run, and their members in some more."""
        batch = list(batch)
        for _ in range(MOST):
            bad = self.runs.bad_line(self.text(line for line, _ in batch), None)
            if bad is None:
                break
            if isinstance(bad, str):
                self.add("a run fails", b"", bad)
                return
            self.add("refused, where serde_json accepts it", batch.pop(bad - 1)[0])
        else:
            return
        lines, read = zip(*batch)
        self.with_members += sum(map(index_runs.is_seen, read))
        for name, what, more in index_runs.wrong_names(self.runs, self.text(lines), read):
            of_name = [line for line, members in batch if members and members["name"] == name]
            self.add(what, b"\n".join(of_name), more)

    def compare_refused(self, line, error, before):
        """Reads a line that serde_json refuses, after some that it accepts."""
        bound = self.rng.choice((None, index_runs.BOUNDS[0]))
        bad = self.runs.bad_line(self.text([*before, line, *self.rng.choice(((), before))]), bound)
        if bad is None:
            self.add(f"accepted, where serde_json has: {error}", line, f"with the bound {bound}")
        elif bad != len(before) + 1:
            self.add("another line is refused", line, f"{bad}, not {len(before) + 1}, after {before!r}")

    def compare_alone(self, line):
        """Reads a line that serde_json accepts in a run of its own."""
        bad = self.runs.bad_line(self.text([line]), self.rng.choice((None, index_runs.BOUNDS[0])))
        if bad is not None:
            self.add("refused alone, where serde_json accepts it", line, str(bad))

    def note_typed(self, line, tree, typed):
        """Counts a line that a typed record reads differently; one of no kind is a difference."""
        if tree != typed and not (isinstance(tree, str) and isinstance(typed, str)):
            kind = kind_of(tree, typed)
            self.typed[kind] = self.typed.get(kind, 0) + 1
            if not kind:
                self.add("a typed record differs from a tree", line, f"{tree!r} and {typed!r}")

    def compare(self, lines):
        """Compares all lines; how many were accepted, and how many refused."""
        accepted, refused = [], []
        for line, (tree, typed) in zip(lines, serde_verdicts.verdicts(self.serde, lines)):
            self.note_typed(line, tree, typed)
            if not line.strip(b" \t\r"):
                # (a blank line is none of an index, and is skipped)
                accepted.append((line, None))
            elif isinstance(tree, dict):
                accepted.append((line, tree))
            else:
                refused.append((line, tree))
        self.rng.shuffle(accepted)
        for at in range(0, len(accepted), BATCH):
            self.compare_accepted(accepted[at:at + BATCH])
        for line, _ in accepted[::10]:
            self.compare_alone(line)
        # (lines that the program refuses itself would hide the ones after them)
        wrong = {line for lines in self.found.values() for line, _ in lines}
        right = [line for line, _ in accepted if line not in wrong and len(line) < 1000]
        for line, error in refused:
            before = self.rng.sample(right, min(len(right), self.rng.randrange(4)))
            self.compare_refused(line, error, before)
        return len(accepted), len(refused)


def show(found):
    """Prints each kind of difference with its shortest lines."""
    for kind, lines in sorted(found.items()):
        print(f"{len(lines)} lines: {kind}")
        for line, more in sorted(lines, key=lambda it: len(it[0]))[:SHOWN]:
            print(f"    {line[:1000]!r} {more[:1000]}")


def main():
    as_written = argparse.RawDescriptionHelpFormatter
    parser = argparse.ArgumentParser(description=__doc__, formatter_class=as_written)
    parser.add_argument("program", metavar="PROGRAM", type=os.path.abspath)
    parser.add_argument("--count", type=int, default=200_000)
    parser.add_argument("--seed", type=int)
    given = parser.parse_args()
    seed = random.SystemRandom().randrange(2 ** 32) if given.seed is None else given.seed
    print(f"seed {seed}", flush=True)
    rng = random.Random(seed)
    # (a file system on a disk flushes a file that is written anew: some milliseconds for each run)
    memory = "/dev/shm" if os.access("/dev/shm", os.W_OK) else None
    with tempfile.TemporaryDirectory(dir=memory) as folder:
        check = Check(given.program, folder, rng)
        accepted, refused = check.compare(index_texts.all_lines(rng, given.count))
    for kind, _, why in KINDS:
        print(f"{check.typed.get(kind, 0)} lines that a typed record reads otherwise: {kind} ({why})")
    show(check.found)
    differ = sum(map(len, check.found.values()))
    print(f"{accepted} lines accepted, {check.with_members} of them with their members; {refused} refused; "
          f"{differ} differ")
    raise SystemExit(1 if differ or not (check.with_members and refused) else 0)


if __name__ == "__main__":
    main()
