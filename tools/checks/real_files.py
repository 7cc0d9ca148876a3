#!/usr/bin/env python3
"""real_files.py PROGRAM: files of this machine that the built program PROGRAM reads and writes in turn:
permissions, links, writing in place, and the new file beside the old one. Prints how many steps had the expected result."""

import itertools
import json
import os
import pathlib
import re
import subprocess
import sys
import tempfile

REFUSE = pathlib.Path(__file__).resolve().parents[1] / "refuse.c"

# A name, a call of the program or of the machine, a path below the folder, an argument, and the expected result.
STEPS = [
    ("no file yet", "kind", "/a", "", "absent"),
    ("no text yet", "read", "/a", "", "none"),
    ("the folder", "kind", "", "", "folder"),
    ("a folder has no text", "read", "", "", "none"),
    ("a new file", "write", "/a", "one", "written"),
    ("it stands", "kind", "/a", "", "file"),
    ("its text", "read", "/a", "", "one"),
    ("a file with permissions", "put", "/b", "one", "done"),
    ("not for all", "set mode", "/b", "640", "done"),
    ("a new text", "write", "/b", "two", "written"),
    ("it is there", "read", "/b", "", "two"),
    ("the permissions stay", "mode", "/b", "", "640"),
    ("no file beside", "left", "/b", "", "a b"),
    ("for reading alone", "set mode", "/b", "444", "done"),
    ("may not be written", "write", "/b", "three", "3 Failed to write updated Cargo.toml"),
    ("the text stays", "read", "/b", "", "two"),
    ("a linked file", "put", "/c", "one", "done"),
    ("a link", "link", "/c", "", "done"),
    ("through the link", "write", "/c.link", "two", "written"),
    ("the linked file", "read", "/c", "", "two"),
    ("the link stays", "is link", "/c.link", "", "true"),
    ("a folder", "folder", "/d", "", "done"),
    ("a file in it", "put", "/d/e", "one", "done"),
    ("no file can be made in it", "set mode", "/d", "555", "done"),
    ("written in place", "write", "/d/e", "two", "written"),
    ("as before", "set mode", "/d", "755", "done"),
    ("the text in place", "read", "/d/e", "", "two"),
    ("what a killed run left", "leave", "/d/e", "", "done"),
    ("written beside", "write", "/d/e", "three", "written"),
    ("the new text", "read", "/d/e", "", "three"),
    ("what was left is gone", "left", "/d/e", "", "e"),
    ("a second name", "same", "/d/e", "", "done"),
    ("not in place", "write", "/d/e", "four", "written"),
    ("the newer text", "read", "/d/e", "", "four"),
    ("the second name parts", "read", "/d/e.same", "", "three"),
    ("no further file", "left", "/d/e", "", "e e.same"),
]

# The steps where the new file beside cannot be moved over the old one.
UNMOVED = [
    ("an old file", "put", "/a", "old", "done"),
    ("the new one is not moved", "write", "/a", "new", "3 Failed to write updated Cargo.toml"),
    ("the old text", "read", "/a", "", "old"),
    ("no file beside", "left", "/a", "", "a"),
]

# The labels of texts: each is a manifest with a greater version than the one before it.
LABELS = ("old", "new", "one", "two", "three", "four")

# The calls of `cargo update` for a locked package whose name is a label.
CALLS = re.compile(r"cargo\nupdate\n.*\n--package\n(\w+)@1\.0\.0\n--offline\n\n", re.DOTALL)


def manifest(label, name="a"):
    """The text of the manifest of a label."""
    return f'[dependencies]\n{name} = "1.0.{LABELS.index(label)}"\n'


def line(label, name="a"):
    """The line of an index that has the version of that manifest."""
    return json.dumps({"name": name, "vers": f"1.0.{LABELS.index(label)}"}) + "\n"


def label_of(text):
    """The label of a text, or the text itself where it has none."""
    calls = CALLS.fullmatch(text)
    if calls:
        return calls[1]
    return next((label for label in LABELS if text == manifest(label)), text)


class Files:
    """A folder with files, and the program that writes them, under variables; beside it the folder of what
    the program is given to read."""

    def __init__(self, program, room, variables):
        self.program, self.variables = program, variables
        self.folder, self.given = room + "/files", pathlib.Path(room, "given")
        os.mkdir(self.folder)
        self.given.mkdir()

    def run(self, *args, **variables):
        """The program's error message; None where it succeeds."""
        done = subprocess.run([self.program, *args], cwd=self.given, env=variables, text=True, timeout=60,
                              stdin=subprocess.DEVNULL, capture_output=True, check=False)
        if not done.returncode:
            return None
        errors = [error for error in done.stderr.splitlines() if error.startswith("Error: ")]
        return errors[0].removeprefix("Error: ") if errors else f"status {done.returncode}"

    def give(self, label, name="a"):
        """Writes a manifest, an index that has the label's version, and metadata with a locked package."""
        at = str(self.given)
        member = {"name": "p", "id": "p", "version": "1.0.0", "manifest_path": at + "/Cargo.toml"}
        package = {"name": name, "id": "q", "version": "1.0.0", "manifest_path": at + "/q/Cargo.toml",
                   "source": "registry+file:///idx"}
        metadata = {"workspace_root": at, "workspace_members": ["p"], "packages": [member, package]}
        (self.given / "metadata.json").write_text(json.dumps(metadata))
        (self.given / "Cargo.toml").write_text(manifest("old", name))
        (self.given / "index.json").write_text(line(label, name))

    def kind(self, path, _argument):
        """The kind of file at a path, by the program's message for it as a manifest."""
        self.give("one")
        error = self.run("upgrade", "--dry-run", "--manifest-path", path, "--index-file", "index.json")
        if error == "Failed to get cargo file metadata":
            return "absent"
        return "folder" if error == "Unable to find Cargo.toml for " + path else "file"

    def read(self, path, _argument):
        """The label of a file, where the program reads it as an index."""
        self.give("one")
        error = self.run("upgrade", "--dry-run", "--manifest-path", "Cargo.toml", "--index-file", path)
        if error == "Failed to get cargo file metadata":
            return "none"
        return label_of(pathlib.Path(path).read_text()) if os.path.isfile(path) else "read, and no file"

    def write(self, path, label):
        """What becomes of the manifest at a path that is raised to the label's; or, where there is no file, of
        the calls of `cargo update` that are written there."""
        if os.path.exists(path):
            self.give(label)
            args = ["--manifest-path", path]
        else:
            self.give(label, label)
            args = ["--metadata-json", "metadata.json", "--update-calls", path]
        error = self.run("upgrade", *args, "--index-file", "index.json", **self.variables)
        number = 3 if error == "Failed to write updated Cargo.toml" else "?"
        return "written" if error is None else f"{number} {error}"


def leave(path):
    """Makes beside a file what killed runs leave: an empty new file, and a filled one with its own number."""
    folder = pathlib.Path(path).parent
    (folder / ".cargo-edit.999999-0.new").write_text("")
    filled = folder / "filled"
    filled.write_text("half")
    filled.rename(folder / f".cargo-edit.999999-{filled.stat().st_ino}.tmp")


# What a row changes on the machine, and what it shows of the machine.
CHANGES = {"put": lambda path, label: pathlib.Path(path).write_text(manifest(label)),
           "folder": lambda path, _: os.mkdir(path),
           "set mode": lambda path, digits: os.chmod(path, int(digits, 8)),
           "link": lambda path, _: os.symlink(path, path + ".link"),
           "leave": lambda path, _: leave(path),
           "same": lambda path, _: os.link(path, path + ".same")}
SHOWN = {"left": lambda path: " ".join(sorted(os.listdir(os.path.dirname(path)))),
         "mode": lambda path: f"{os.stat(path).st_mode & 0o777:o}",
         "is link": lambda path: str(os.path.islink(path)).lower()}


def step(files, call, path, argument):
    """What a step shows; None if it only changes the machine."""
    if call in CHANGES:
        CHANGES[call](path, argument)
        return None
    return SHOWN[call](path) if call in SHOWN else getattr(files, call)(path, argument)


def steps(program, table, variables):
    """Takes the steps of a table in turn, in a new folder: how many had the expected result, and how many had not."""
    held, failed = 0, 0
    with tempfile.TemporaryDirectory() as room:
        files = Files(program, os.path.realpath(room), variables)
        for name, call, path, argument, wanted in table:
            came = step(files, call, files.folder + path, argument)
            if came is None:
                continue
            held += came == wanted
            failed += came != wanted
            if came != wanted:
                print(f"{name}: {call} {path}\n    came:   {came!r}\n    wanted: {wanted!r}")
    return held, failed


def unmoved(program, library, room):
    """The variables with which the call of a run that moves a file fails, by its number among the calls."""
    for number in itertools.count(1):
        seen = pathlib.Path(room, str(number))
        variables = {"LD_PRELOAD": library, "FAIL_AT": str(number), "REFUSE_SEEN": str(seen)}
        # (in a folder as deep as that of the steps, since configurations are searched for upwards)
        with tempfile.TemporaryDirectory() as own:
            files = Files(program, os.path.realpath(own), variables)
            CHANGES["put"](files.folder + "/a", "old")
            files.write(files.folder + "/a", "new")
        if not seen.exists():
            raise LookupError("no call moves a file")
        if seen.read_text() == "rename":
            return variables


def main():
    """Takes the steps of both tables."""
    program = os.path.abspath(sys.argv[1])
    counts = [steps(program, STEPS, {})]
    with tempfile.TemporaryDirectory() as room:
        library = room + "/refuse.so"
        subprocess.run(["cc", "-shared", "-fPIC", "-O1", "-o", library, str(REFUSE), "-ldl"], check=True)
        counts.append(steps(program, UNMOVED, unmoved(program, library, room)))
    for held, failed in counts:
        print(f"files of this machine: {held} steps as wanted, {failed} not")
    return 1 if any(failed or not held for held, failed in counts) else 0


if __name__ == "__main__":
    sys.exit(main())
