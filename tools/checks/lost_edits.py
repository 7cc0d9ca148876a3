#!/usr/bin/env python3
"""lost_edits.py PROGRAM: no edit is lost with status 0. Editors replace manifests, as `sed -i` and `git checkout` do, at any
moment of a run over a workspace of 300, and at each call of a run that moves a file and is held there. A member is upgraded
by its path beside a run over its workspace: both changes stay. A run that is killed at any of those calls leaves each
manifest whole, or under a name beside it, from which the next run of any kind gives it back."""

import collections
import json
import os
import pathlib
import random
import re
import subprocess
import sys
import tempfile
import time

from workspaces import Workspace, run

EDITS, MANY, PAIRS = 200, 300, 200
LINE = b"# an edit\n"
MOVES = ("rename", "link", "unlink")


def start(args):
    return subprocess.Popen(args, stdout=subprocess.DEVNULL, stderr=subprocess.PIPE)


def replace(path, text):
    """Replaces a file as an editor does."""
    beside = path.with_name("editor")
    beside.write_bytes(text)
    os.replace(beside, path)


def edit_faults(what, workspace, at, done, output):
    """What is wrong after a run during which a line was added to a manifest by a file that replaced it."""
    text, new = workspace.paths[at].read_bytes(), workspace.raised()
    if not text.endswith(LINE):
        yield f"{what}: status {done}, the line is lost"
    if text.removesuffix(LINE) not in (workspace.old[at], new[at]):
        yield f"{what}: the manifest is {text!r}"
    if done == 1 and (str(workspace.paths[at]).encode() not in output or b"was changed" not in output):
        yield f"{what}: {output!r}"
    rest = workspace.state(workspace.old, new)
    if set(rest[:at] + rest[at + 1:]) != {"01"[done == 0]}:
        yield f"{what}: status {done}, {rest}"
    if workspace.left():
        yield f"{what}: left are {workspace.left()}"


def edits(program, room, counts):
    """Editors at random moments of runs over a workspace of 300."""
    workspace = Workspace(program, room, MANY)
    begin = time.monotonic()
    run(workspace.upgrade())
    usual = time.monotonic() - begin
    for number in range(EDITS):
        workspace.reset()
        at = random.randrange(MANY)
        path = workspace.paths[at]
        done = start(workspace.upgrade())
        time.sleep(random.uniform(0.2 * usual, usual))
        try:
            replace(path, path.read_bytes() + LINE)
        except FileNotFoundError:
            # (the moment in which the manifest has no file: an editor sees that, and has lost nothing)
            counts["edits", "while it was moved"] += 1
            done.communicate()
            continue
        output = done.communicate()[1]
        counts["edits", f"status {done.returncode}"] += 1
        yield from edit_faults(f"edit {number}", workspace, at, done.returncode, output)


def moves(workspace, args):
    """The calls of a run that move a file, each with its number among those of its name, from 1."""
    traced = run(["strace", "-f", "-e", f"trace={','.join(MOVES)}", "-o", "/dev/stdout", *args]).stdout.decode()
    workspace.reset()
    seen = collections.Counter()
    for line in traced.splitlines():
        if found := re.match(r"\d+\s+(\w+)\(", line):
            seen[found[1]] += 1
            yield found[1], seen[found[1]]


def held(program, room, counts):
    """An editor that replaces a manifest while the run is held at each call that moves a file."""
    workspace = Workspace(program, room)
    for call, number in list(moves(workspace, workspace.upgrade())):
        for at in range(len(workspace.paths)):
            workspace.reset()
            trace = pathlib.Path(room) / "trace"
            trace.write_text("")
            hold = f"inject={call}:delay_enter=400000:when={number}"
            done = start(["strace", "-f", "-o", str(trace), "-e", f"trace={','.join(MOVES)}", "-e", hold, *workspace.upgrade()])
            # (strace writes a call when it begins)
            while done.poll() is None and trace.read_text().count(f" {call}(") < number:
                time.sleep(0.005)
            edited = True
            try:
                replace(workspace.paths[at], workspace.paths[at].read_bytes() + LINE)
            except FileNotFoundError:
                edited = False
            output = done.communicate()[1]
            trace.unlink()
            counts["held", call, f"status {done.returncode}", "edited" if edited else "moved aside"] += 1
            if edited:
                yield from edit_faults(f"held at {call} {number}, member {at}", workspace, at, done.returncode, output)


def pairs(program, room, counts):
    """A member is upgraded by its path while its workspace is: each changes another requirement, and both changes stay."""
    workspace = Workspace(program, room)
    workspace.metadata["workspace_root"] = str(workspace.room)
    (workspace.room / "Cargo.toml").write_text('[workspace]\nmembers = ["m0", "m1", "m2"]\n')
    (workspace.room / "metadata.json").write_text(json.dumps(workspace.metadata))
    (workspace.room / "other.json").write_text('{"name":"b","vers":"1.7.0"}\n')
    workspace.own = workspace.names()
    path = workspace.paths[1]
    by_path = [program, "upgrade", "--manifest-path", str(path), "--index-file", str(workspace.room / "other.json")]
    for number in range(PAIRS):
        workspace.reset()
        path.write_bytes(workspace.old[1] + b'b = "1.0"\n')
        order = [workspace.upgrade(), by_path][:: 1 if number % 2 else -1]
        runs = [start(args) for args in order]
        output = [one.communicate(timeout=60)[1] for one in runs]
        text = path.read_bytes()
        statuses = [one.returncode for one in runs]
        counts["pairs", f"{sum(b'Blocking' in text for text in output)} waited"] += 1
        if statuses != [0, 0] or b'a = "1.5"' not in text or b'b = "1.7"' not in text:
            yield f"pair {number}: statuses {statuses}, {text!r}, {output}"
        if workspace.left():
            yield f"pair {number}: left are {workspace.left()}"


def ring(program, room, counts):
    """Two workspaces with members that each has in common, in opposite orders: no two runs wait for each other."""
    workspace = Workspace(program, room, 4)
    files = []
    for name, order in (("one", (0, 1, 2, 3)), ("two", (3, 2, 1, 0))):
        root = workspace.room / name
        root.mkdir()
        packages = [workspace.metadata["packages"][at] for at in order]
        metadata = {**workspace.metadata, "workspace_root": str(root), "packages": packages}
        (root / "Cargo.toml").write_text("[workspace]\n")
        (root / "metadata.json").write_text(json.dumps(metadata))
        files.append(root / "metadata.json")
    for number in range(50):
        runs = [start([program, "upgrade", "--metadata-json", str(file), "--index-file", str(workspace.room / "index.json")])
                for file in files]
        try:
            statuses = [one.wait(timeout=20) for one in runs]
        except subprocess.TimeoutExpired:
            for one in runs:
                one.kill()
            yield f"ring {number}: the runs wait for each other"
            return
        counts["rings", f"statuses {statuses}"] += 1
        if statuses != [0, 0]:
            yield f"ring {number}: {statuses}"
        workspace.reset()


def killed(program, room, counts):
    """A run that is killed at each call that moves a file; then a dry run, and a run."""
    workspace = Workspace(program, room)
    new = workspace.raised()
    for call, number in list(moves(workspace, workspace.upgrade())):
        workspace.reset()
        run(["strace", "-f", "-o", "/dev/null", "-e", f"inject={call}:signal=KILL:when={number}", *workspace.upgrade()])
        counts["killed", call, f"{len(workspace.missing())} moved aside"] += 1
        yield from (f"a kill at {call} {number}: {text}" for text in workspace.given_back())
        if workspace.missing():
            continue
        if "x" in workspace.state(workspace.old, new):
            yield f"a kill at {call} {number}: {workspace.state(workspace.old, new)}"
        last = run(workspace.upgrade())
        if last.returncode or workspace.state(new) != "000" or workspace.left():
            yield f"after a kill at {call} {number}: {last.stderr!r}, left {workspace.left()}"


def lacking(program, room, counts):
    """A call that moves a file fails since the machine has no memory: where a part of the manifests is new, the error says
    which, as for any other failure."""
    workspace = Workspace(program, room)
    new = workspace.raised()
    for call, number in list(moves(workspace, workspace.upgrade())):
        workspace.reset()
        done = run(["strace", "-f", "-o", "/dev/null", "-e", f"inject={call}:error=ENOMEM:when={number}", *workspace.upgrade()])
        state = workspace.state(workspace.old, new)
        counts["no memory", call, f"status {done.returncode}", state] += 1
        count = state.count("1")
        if re.fullmatch("1*0*", state) is None or (done.returncode == 0) != (count == 3):
            yield f"ENOMEM of {call} {number}: status {done.returncode}, {state}"
        if 0 < count < 3 and f"{count} of 3 files were written: ".encode() not in done.stderr:
            yield f"ENOMEM of {call} {number}: {state}, {done.stderr!r}"
        last = run(workspace.upgrade())
        if last.returncode or workspace.left():
            yield f"after ENOMEM of {call} {number}: {last.stderr!r}, left {workspace.left()}"


def main():
    counts, wrong = collections.Counter(), []
    kinds = [edits, pairs, ring]
    if run(["strace", "-o", "/dev/null", "true"]).returncode == 0:
        kinds += [held, killed, lacking]
    else:
        print("no process can be traced here: no run was held or killed at a call")
    # (300 manifests are flushed 200 times: in memory, if there is such a folder)
    memory = "/dev/shm" if os.access("/dev/shm", os.W_OK) else None
    for kind in kinds:
        with tempfile.TemporaryDirectory(dir=memory if kind is edits else None) as room:
            wrong += kind(program=sys.argv[1], room=room, counts=counts)
    for what, count in sorted(counts.items(), key=str):
        print(count, *what)
    print("\n".join(wrong[:20] + [f"{len(wrong)} faults"]))
    sys.exit(bool(wrong))


if __name__ == "__main__":
    main()
