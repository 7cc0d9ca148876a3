#!/usr/bin/env python3
"""killed.py PROGRAM [KILLS]: the program is killed 100 times (or KILLS times) at varying moments while it writes the 30
manifests of a workspace, and what it leaves stays. Each manifest is always the old or the new text whole (one may have been
moved aside that moment, and a dry run gives it back), those that are new are the first ones in their order, and most kills
leave all old or all new; files of killed runs do not pile up. An undisturbed run then ends as ever, and never writes in
place."""

import json
import os
import pathlib
import random
import subprocess
import sys
import tempfile
import time

MOST_LEFT, MEMBERS = 4, 30
HEAD = b'[dependencies]\na = "1.0"\n'
LINES = b'{"name":"a","vers":"1.0.0"}\n{"name":"a","vers":"1.5.0"}\n'


class Manifests:
    """The manifests of a workspace, in folders of their own, and the arguments of a run."""

    def __init__(self, program, room):
        self.room = pathlib.Path(room)
        self.old = HEAD + (b"# " + b"x" * 98 + b"\n") * 600
        self.new = self.old.replace(b'a = "1.0"', b'a = "1.5"')
        self.paths = [self.room / f"m{number}" / "Cargo.toml" for number in range(MEMBERS)]
        (self.room / "index.json").write_bytes(LINES)
        for path in self.paths:
            path.parent.mkdir()
        (self.room / "metadata.json").write_text(json.dumps(self.metadata()))
        self.args = [program, "upgrade", "--metadata-json", str(self.room / "metadata.json"), "--index-file",
                      str(self.room / "index.json")]
        self.reset()
        self.own = self.names()

    def metadata(self):
        """The output of `cargo metadata` for a workspace of these manifests, the first of them at its root."""
        packages = [{"name": f"m{number}", "id": f"m{number}", "version": "0.1.0", "manifest_path": str(path)}
                    for number, path in enumerate(self.paths)]
        return {"workspace_root": str(self.paths[0].parent), "packages": packages,
                "workspace_members": [package["id"] for package in packages]}

    def reset(self):
        for path in self.paths:
            path.write_bytes(self.old)

    def names(self):
        """All files of the folders."""
        return {str(path) for path in self.room.rglob("*")}

    def left(self):
        """How many files are not the run's own."""
        return len(self.names() - self.own)

    def most_left(self):
        """The greatest number of such files in one folder."""
        folders = [os.path.dirname(name) for name in self.names() - self.own]
        return max(map(folders.count, folders), default=0)

    def hold(self, *texts):
        """Whether each manifest is one of these texts."""
        return all(path.read_bytes() in texts for path in self.paths)

    def raised(self):
        """How many manifests are new, if these are the first ones and the others are old; else None."""
        texts = [path.read_bytes() for path in self.paths]
        front = next((at for at, text in enumerate(texts) if text != self.new), len(texts))
        return front if all(text == self.old for text in texts[front:]) else None

    def given_back(self):
        """Whether all manifests are there, at the latest behind a dry run, where one had been moved aside."""
        if any(not path.exists() for path in self.paths):
            subprocess.run([*self.args, "--dry-run"], capture_output=True, check=False)
        return all(path.exists() for path in self.paths)

    def start(self):
        return subprocess.Popen(self.args, stdout=subprocess.DEVNULL, stderr=subprocess.DEVNULL)

    def is_raised(self):
        """Whether an undisturbed run raises each manifest."""
        return self.start().wait() == 0 and self.hold(self.new)


def kill(manifests, usual):
    """Kills one run at any moment. Returns whether it had not ended before."""
    run = manifests.start()
    time.sleep(random.uniform(0, usual))
    ended = run.poll() is not None
    run.kill()
    run.wait()
    return not ended


def kills(manifests, usual, wanted):
    """Kills runs until as many as wanted were; what is wrong with what they leave."""
    killed = most = partly = 0
    for turn in range(4 * wanted):
        if killed == wanted:
            break
        manifests.reset()
        killed += kill(manifests, usual)
        if not manifests.given_back():
            yield f"kill {turn}: a manifest is missing"
            return
        raised = manifests.raised()
        if raised is None:
            yield f"kill {turn}: a manifest is cut, or new before another one"
        most = max(most, manifests.most_left())
        partly += raised not in (None, 0, MEMBERS)
    if killed < wanted:
        yield f"{killed} runs were killed, of {4 * wanted}"
    if most == 0:
        yield "no run was killed in its write"
    if 2 * partly > killed:
        yield f"{partly} kills left a part of the manifests new"
    if most > MOST_LEFT:
        yield f"{most} files were left"
    print(f"{killed} runs over {len(manifests.paths)} manifests killed; at most {most} files left in a folder at a time; "
          f"{partly} times a part of the manifests was new")


def parted(manifests):
    """A last run, where a manifest has a second name, which parts where it is not written in place; what is wrong behind it."""
    folder = manifests.paths[0].parent
    manifests.reset()
    os.link(manifests.paths[0], folder / "same")
    if not manifests.is_raised() or (folder / "same").read_bytes() != manifests.old:
        yield "the manifest is written in place"


def faults(program, room, wanted):
    """What is wrong with the runs, of which as many as wanted are killed."""
    manifests = Manifests(program, room)
    usual = []
    for _ in range(5):
        manifests.reset()
        began = time.monotonic()
        if not manifests.is_raised():
            yield "an undisturbed run does not raise the manifests"
            return
        usual.append(time.monotonic() - began)
    yield from kills(manifests, min(usual), wanted)
    manifests.reset()
    if not manifests.is_raised():
        yield "the last run does not raise the manifests"
    if manifests.left():
        yield f"{manifests.left()} files are left"
    yield from parted(manifests)


def main():
    random.seed(10)
    with tempfile.TemporaryDirectory() as room:
        wrong = list(faults(sys.argv[1], room, int(sys.argv[2]) if len(sys.argv) > 2 else 100))
    print("\n".join(wrong), end="\n" if wrong else "")
    sys.exit(1 if wrong else 0)


if __name__ == "__main__":
    main()
