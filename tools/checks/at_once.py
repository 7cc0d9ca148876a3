#!/usr/bin/env python3
"""at_once.py PROGRAM: runs at once over one workspace, an editor that appends beside a run, and an attacker who swaps a
run's temporary file. Each of two runs ends with status 0, the later one reports that it waits, and all manifests are from
the one that wrote last; what an editor appends stays, whether the run ends well or with an error that names the file; no
file outside of the workspace changes its owner or its text."""

import collections
import os
import pathlib
import random
import subprocess
import sys
import tempfile
import threading
import time

from workspaces import MADE, Workspace, run

PAIRS, EDITS, MEMBERS = 200, 200, 10
LINE = b'# an edit\n'


def start(args):
    return subprocess.Popen(args, stdout=subprocess.DEVNULL, stderr=subprocess.PIPE)


def pairs(workspace, counts):
    """Runs pairs that set two versions. Yields what is wrong with the manifests that they leave."""
    # (the same `=` requirement of each version: one that is set later replaces it)
    two, three = workspace.bumped("0.2.0"), workspace.bumped("0.3.0")
    for number in range(PAIRS):
        workspace.reset()
        runs = [start(workspace.set_version(version)) for version in ("0.2.0", "0.3.0")]
        output = [one.communicate()[1] for one in runs]
        state = workspace.state(two, three)
        waited = sum(b"Blocking waiting for file lock on " in text for text in output)
        counts["pairs", state[0], f"{waited} waited"] += 1
        # (0.2.0 after 0.3.0 is an error, since `set-version` sets no lower version)
        statuses = sorted(one.returncode for one in runs)
        if len(set(state)) != 1 or state[0] == "x" or statuses not in ([0, 0], [0, 1]):
            yield f"pair {number}: statuses {statuses}, {state}, {output}"
        if statuses == [0, 1] and not any(b"Cannot downgrade" in text for text in output):
            yield f"pair {number}: {output}"
        if workspace.left():
            yield f"pair {number}: left are {workspace.left()}"


def edits(workspace, usual, counts):
    """Runs an editor that appends a line to a manifest at any moment of a run. Yields what is wrong with the result."""
    new = workspace.raised()
    for number in range(EDITS):
        workspace.reset()
        at = random.randrange(MEMBERS)
        path = workspace.paths[at]
        done = start(workspace.upgrade())
        time.sleep(random.uniform(0, 1.2 * usual))
        with open(path, "ab", buffering=0) as file:
            file.write(LINE)
        output = done.communicate()[1]
        text = path.read_bytes()
        counts["edits", done.returncode] += 1
        if not text.endswith(LINE):
            yield f"edit {number}: status {done.returncode}, the line is lost: {output!r}"
        if done.returncode == 1 and (str(path).encode() not in output or b"was changed" not in output):
            yield f"edit {number}: {output!r}"
        if text.removesuffix(LINE) not in (workspace.old[at], new[at]):
            yield f"edit {number}: the manifest is {text!r}"
        rest = workspace.state(workspace.old, new)
        rest = rest[:at] + rest[at + 1:]
        if len(set(rest)) != 1 or rest[0] != "01"[done.returncode == 0]:
            yield f"edit {number}: status {done.returncode}, {rest}, {output!r}"
        if workspace.left():
            yield f"edit {number}: left are {workspace.left()}"


def swap(folder, victim, stop, swapped):
    """The attacker, who owns a folder and replaces each temporary file with a link."""
    while not stop.is_set():
        for name in os.listdir(folder):
            if name.startswith(MADE):
                try:
                    os.rename(folder / name, folder / "away")
                    os.symlink(victim, folder / name)
                    swapped.append(name)
                except OSError:
                    pass


def attacks(program, room, counts):
    """Runs of root in a folder of an attacker, held at each call that gives a file to another owner or another mode."""
    if os.getuid():
        counts["attacks", "none but for root"] += 1
        return
    room = pathlib.Path(room)
    victim, folder = room / "victim", room / "in"
    victim.write_text("secret")
    victim.chmod(0o600)
    folder.mkdir()
    (room / "index.json").write_text('{"name":"a","vers":"1.5.0"}\n')
    for held in ("fchown", "fchmod", "fsync", "rename,renameat,renameat2"):
        for name in os.listdir(folder):
            (folder / name).unlink()
        (folder / "Cargo.toml").write_text('[dependencies]\na = "1.0"\n')
        os.chown(folder / "Cargo.toml", 1234, 1234)
        os.chown(folder, 1234, 1234)
        stop, swapped = threading.Event(), []
        attacker = threading.Thread(target=swap, args=(folder, victim, stop, swapped))
        attacker.start()
        args = [program, "upgrade", "--manifest-path", str(folder / "Cargo.toml"), "--index-file", str(room / "index.json")]
        run(["strace", "-f", "-o", "/dev/null", "-e", f"inject={held}:delay_enter=300000", *args])
        stop.set()
        attacker.join()
        seen = victim.stat()
        counts["attacks", held, f"{bool(swapped)}"] += 1
        if not swapped:
            yield f"{held}: the attacker had no chance"
        if (seen.st_uid, seen.st_gid, seen.st_mode & 0o7777) != (0, 0, 0o600) or victim.read_text() != "secret":
            yield f"{held}: the victim is {seen.st_uid}:{seen.st_gid} {seen.st_mode:o} {victim.read_text()!r}"


def main():
    counts, wrong = collections.Counter(), []
    with tempfile.TemporaryDirectory() as room:
        wrong += pairs(Workspace(sys.argv[1], room, MEMBERS), counts)
    with tempfile.TemporaryDirectory() as room:
        workspace = Workspace(sys.argv[1], room, MEMBERS)
        begin = time.monotonic()
        run(workspace.upgrade())
        wrong += edits(workspace, time.monotonic() - begin, counts)
    with tempfile.TemporaryDirectory() as room:
        os.chmod(room, 0o755)
        wrong += attacks(sys.argv[1], room, counts)
    for what, count in sorted(counts.items(), key=str):
        print(count, *what)
    print("\n".join(wrong[:20] + [f"{len(wrong)} faults"]))
    sys.exit(bool(wrong))


if __name__ == "__main__":
    main()
