#!/usr/bin/env python3
"""in_place.py SWAP PROGRAM: where a manifest is overwritten in place, nothing but the file that was read is written. The owner
of a folder that a group shares exchanges the manifest with a link to a file of the runner in a loop (SWAP), over 500 runs:
that file stays. An editor appends to the manifest while the run is held at each call that opens, reads or writes a file: what
it appended stays, or the run has status 1. What a killed run left in the folder for temporary files goes with the next run.
For root alone, who can be two users."""

import collections
import os
import pathlib
import re
import subprocess
import sys
import tempfile
import time

from workspaces import MADE, run

RUNS, BATCH, GROUP = 500, 100, 2345
ALICE, BOB = (["setpriv", f"--reuid={uid}", f"--regid={uid}", f"--groups={GROUP}"] for uid in (1234, 65534))
OLD, SECRET, LINE = b'[dependencies]\na = "1.0"\n', b"a secret\n" * 9, b"# an edit\n"


class Shared:
    """A folder of one user and a group, with a manifest that a member of the group upgrades."""

    def __init__(self, program, room):
        self.program, self.room = program, pathlib.Path(room).resolve()
        self.room.chmod(0o755)
        self.folder, self.elsewhere = self.room / "in", self.room / "elsewhere"
        self.manifest, self.victim = self.folder / "Cargo.toml", self.room / "victim"
        for folder, mode in ((self.folder, 0o775), (self.elsewhere, 0o777)):
            folder.mkdir()
            folder.chmod(mode)
        os.chown(self.folder, 1234, GROUP)
        (self.room / "index.json").write_text('{"name":"a","vers":"1.5.0"}\n')
        self.victim.write_bytes(SECRET)
        os.chown(self.victim, 65534, 65534)
        self.victim.chmod(0o600)
        self.args = [program, "upgrade", "--manifest-path", str(self.manifest), "--index-file", str(self.room / "index.json")]
        self.environment = {"HOME": "/nonexistent", "PATH": os.environ["PATH"], "TMPDIR": str(self.elsewhere)}

    def reset(self):
        for path in self.folder.iterdir():
            path.unlink()
        self.manifest.write_bytes(OLD)
        os.chown(self.manifest, 1234, GROUP)
        self.manifest.chmod(0o664)

    def run(self, by, *before):
        return run([*before, *self.args], by, env=self.environment)


def attacked(shared, swap, counts):
    """The victim is never written, whatever the manifest leads to at any moment."""
    for batch in range(0, RUNS, BATCH):
        shared.reset()
        (shared.folder / "x").symlink_to(shared.victim)
        attacker = subprocess.Popen([*ALICE, swap, "60", str(shared.manifest), str(shared.folder / "x")], stdout=subprocess.PIPE)
        for number in range(batch, batch + BATCH):
            done = shared.run(BOB)
            counts["attacked", f"status {done.returncode}"] += 1
            if shared.victim.read_bytes() != SECRET:
                yield f"run {number}: status {done.returncode}, the victim is {shared.victim.read_bytes()!r}"
                shared.victim.write_bytes(SECRET)
        attacker.kill()
        attacker.wait()


def held(shared, counts):
    """An editor appends a line while the run is held at each of its calls for the manifest."""
    shared.reset()
    trace = shared.elsewhere / "trace"
    shared.run(BOB, "strace", "-f", "-y", "-o", str(trace))
    traced = trace.read_text(errors="replace")
    trace.unlink()
    seen, calls = collections.Counter(), []
    for line in traced.splitlines():
        if found := re.match(r"\d+\s+(\w+)\(", line):
            seen[found[1]] += 1
            if "in/Cargo.toml" in line and found[1] in ("openat", "read", "write", "lseek", "fsync", "statx"):
                calls.append((found[1], seen[found[1]]))
    for call, number in calls:
        shared.reset()
        hold = f"inject={call}:delay_enter=300000:when={number}"
        args = [*BOB, "strace", "-f", "-o", "/dev/null", "-e", hold, *shared.args]
        done = subprocess.Popen(args, stdout=subprocess.DEVNULL, stderr=subprocess.PIPE, env=shared.environment)
        time.sleep(0.2)
        text = shared.manifest.read_bytes()
        with open(shared.manifest, "ab", buffering=0) as file:
            file.write(LINE)
        output = done.communicate()[1]
        kept = LINE in shared.manifest.read_bytes()
        counts["held", call, f"status {done.returncode}", "kept" if kept else "lost"] += 1
        # (between the comparison and the first write no call reads: an edit that is made at the very write is lost, as it
        # would be beside any program that writes in place)
        if not kept and done.returncode == 0 and call not in ("write", "lseek") and text == OLD:
            yield f"held at {call} {number}: the line is lost, {output!r}"


def leavings(shared, counts):
    """What a kill leaves in the folder for temporary files goes with the next run."""
    shared.reset()
    os.chown(shared.folder, 1234, 1234)
    shared.folder.chmod(0o755)
    for number in range(1, 12):
        shared.manifest.write_bytes(OLD)
        shared.run(BOB, "strace", "-f", "-o", "/dev/null", "-e", f"inject=rename:signal=KILL:when={number}")
        left = [name for name in os.listdir(shared.elsewhere) if name.startswith(MADE) and name.endswith(".new")]
        shared.manifest.write_bytes(OLD)
        done = shared.run(BOB)
        counts["killed", f"{len(left)} left"] += 1
        still = [name for name in os.listdir(shared.elsewhere) if name.startswith(MADE) and not name.endswith(".old")]
        if done.returncode or still:
            yield f"after a kill: {done.stderr!r}, {still} are left"
        if not left:
            break


def main():
    counts, wrong = collections.Counter(), []
    if os.getuid() or run([*BOB, "true"]).returncode:
        print("no other users: nothing was tried")
        return
    with tempfile.TemporaryDirectory() as room:
        shared = Shared(sys.argv[2], room)
        wrong += attacked(shared, sys.argv[1], counts)
        if run(["strace", "-o", "/dev/null", "true"]).returncode == 0:
            wrong += held(shared, counts)
            wrong += leavings(shared, counts)
        else:
            print("no process can be traced here: no run was held or killed")
    for what, count in sorted(counts.items(), key=str):
        print(count, *what)
    print("\n".join(wrong[:20] + [f"{len(wrong)} faults"]))
    sys.exit(bool(wrong))


if __name__ == "__main__":
    main()
