#!/usr/bin/env python3
"""memory.py LIBRARY PROGRAM: each request for memory of a run over each of the examples is refused in turn: the manifest of
examples/first and the workspace of examples/workspace by `upgrade`, that of examples/versions by `set-version`. LIBRARY
refuses the request whose number REFUSE_AT is.

Request 1 is refused, then 2, until a run ends with no request refused. A run ends with status 0, and prints and leaves
what an undisturbed one does; or it ends with status 1, prints a prefix of that and then that memory ran out, and leaves
the first manifests in their order raised, the others as they were. No further file is left. What the manifests become was
worked out by hand (examples/NAME/*.diff)."""

import collections
import itertools
import os
import pathlib
import subprocess
import sys
import tempfile
from concurrent.futures import ThreadPoolExecutor

from workspaces import Workspace, run

EXAMPLES = pathlib.Path(__file__).resolve().parents[2] / "examples"
LACK = b"Error: out of memory\n"
AT_ONCE = 4
ARGUMENTS = {"first": ("upgrade", "--manifest-path", "@HERE@/Cargo.toml", "--index-file", "@HERE@/index.json"),
         "workspace": ("upgrade", "--metadata-json", "@HERE@/metadata.json"),
         "versions": ("set-version", "--bump", "minor", "--workspace", "--metadata-json", "@HERE@/metadata.json")}
DIFFS = {"first": "raised.diff", "workspace": "raised.diff", "versions": "bumped.diff"}
MANIFESTS = {"first": ["Cargo.toml"], "workspace": ["Cargo.toml", "pier/Cargo.toml", "crane/Cargo.toml", "tide/Cargo.toml"],
             "versions": ["Cargo.toml", "core/Cargo.toml", "app/Cargo.toml", "tool/Cargo.toml"]}


def changed(name):
    """The manifests of an example as a diff of it leaves them."""
    parts, at = {}, "Cargo.toml"
    for line in (EXAMPLES / name / DIFFS[name]).read_bytes().splitlines(keepends=True):
        if line.startswith(b"in "):
            at = line[3:].strip().decode()
        else:
            parts[at] = parts.get(at, b"") + line
    for path in MANIFESTS[name]:
        old = EXAMPLES / name / path
        if path in parts:
            yield subprocess.run(["patch", "-s", "-o", "-", old], input=parts[path], stdout=subprocess.PIPE, check=True).stdout
        else:
            yield old.read_bytes()


class Place:
    """An example that is laid out in a folder, and the expected result of its run."""

    def __init__(self, program, library, name, folder):
        self.program, self.library, self.here = program, library, folder / "in"
        if name == "first":
            self.here.mkdir()
            for path in ("Cargo.toml", "index.json"):
                (self.here / path).write_bytes((EXAMPLES / name / path).read_bytes())
        else:
            subprocess.run([EXAMPLES / "lay_out", name, self.here], check=True)
        self.args = [arg.replace("@HERE@", str(self.here)) for arg in ARGUMENTS[name]]
        self.manifests = [self.here / path for path in MANIFESTS[name]]
        self.old, self.new = [path.read_bytes() for path in self.manifests], list(changed(name))
        self.names = self.files()
        self.usual, _ = self.run("REFUSE_AT", 0)

    def files(self):
        """The files of the folder."""
        return sorted(path for path in self.here.rglob("*") if path.is_file())

    def reset(self):
        """Gives the manifests their old texts."""
        for path, text in zip(self.manifests, self.old):
            path.write_bytes(text)

    def run(self, what, number):
        """A run in which one request or call is refused: its status and what it printed, and the name of the call that was
        refused, empty where no call was."""
        seen = self.here.parent / "seen"
        seen.unlink(missing_ok=True)
        environment = {"LD_PRELOAD": self.library, what: str(number), "REFUSE_SEEN": str(seen),
                       "HOME": str(self.here.parent / "home")}
        done = subprocess.run([self.program, *self.args], capture_output=True, check=False, timeout=60, env=environment)
        return (done.returncode, done.stdout.replace(os.fsencode(self.here), b""), done.stderr.replace(
            os.fsencode(self.here), b"")), seen.read_text() if seen.exists() else ""

    def raised(self):
        """How many manifests are raised, if these are the first ones and the others are as they were; else None."""
        texts = [path.read_bytes() for path in self.manifests]
        counts = [n for n in range(len(texts) + 1) if texts == self.new[:n] + self.old[n:]]
        return max(counts, default=None)

    def is_front(self, out, err):
        """Whether a run printed a prefix of the output of an undisturbed one."""
        return self.usual[1].startswith(out) and self.usual[2].startswith(err)


def lacked(place, number):
    """What is wrong with a run in which a request is refused, whether the run reported it, and whether one was refused."""
    place.reset()
    answer, seen = place.run("REFUSE_AT", number)
    (status, out, err), raised = answer, place.raised()
    if raised is None or place.files() != place.names:
        return f"{raised} manifests raised, files {place.files()}", False, seen
    if answer == place.usual and status == 0 and raised == len(place.new):
        return "", False, seen
    front, lack, rest = err.partition(LACK)
    if status == 1 and lack and place.is_front(out, front) and (not rest or rest.startswith(b"  at ")):
        return "", True, seen
    return f"status {status}, {raised} manifests raised, {out!r} {err!r}", False, seen


def in_turn(program, library, name, tried):
    """How many requests or calls of a run over an example were refused in turn, and how many runs reported it; the
    first wrong run ends the whole."""
    reported = 0
    with tempfile.TemporaryDirectory() as folder, ThreadPoolExecutor(AT_ONCE) as pool:
        rooms = [pathlib.Path(folder) / str(number) for number in range(AT_ONCE)]
        for room in rooms:
            room.mkdir()
        places = [Place(program, library, name, room) for room in rooms]
        for first in itertools.count(1, AT_ONCE):
            runs = pool.map(tried, places, range(first, first + AT_ONCE))
            for number, (wrong, reports, seen) in enumerate(runs, first):
                if wrong or (reports and not seen):
                    sys.exit(f"examples/{name}, number {number}: {wrong or 'it was not refused'}")
                reported += reports
                if not seen:
                    return (number - 1, reported) if reported else sys.exit(f"examples/{name}: no run reported an error")


def whole(program, library):
    """Refuses each request of both commands over three members that change: an error leaves all of them old, since no memory is
    asked for once the first manifest is moved."""
    with tempfile.TemporaryDirectory() as room:
        workspace = Workspace(program, room)
        for args, new in ((workspace.upgrade(), workspace.raised()), (workspace.set_version("0.2.0"), workspace.bumped())):
            seen, counts = pathlib.Path(room) / "seen", collections.Counter()
            for number in itertools.count(1):
                workspace.reset()
                seen.unlink(missing_ok=True)
                environment = {"LD_PRELOAD": library, "REFUSE_AT": str(number), "REFUSE_SEEN": str(seen), "HOME": "/nonexistent"}
                done = run(args, env=environment)
                state = workspace.state(workspace.old, new)
                if not seen.exists():
                    break
                counts[done.returncode, state] += 1
                seen.unlink()
                if workspace.left() or (done.returncode, state) not in ((0, "111"), (1, "000")):
                    yield f"{args[1]}, request {number}: status {done.returncode}, {state}, {done.stderr!r}, left {workspace.left()}"
            print(f"{args[1]} over three members: {dict(counts)}")


def main():
    library, program = (str(pathlib.Path(arg).resolve()) for arg in sys.argv[1:3])
    wrong = list(whole(program, library))
    if wrong:
        sys.exit("\n".join(wrong[:20] + [f"{len(wrong)} faults"]))
    for name in ARGUMENTS:
        requests, reported = in_turn(program, library, name, lacked)
        print(f"examples/{name}: {requests} requests for memory refused in turn, of which {reported} are reported")


if __name__ == "__main__":
    main()
