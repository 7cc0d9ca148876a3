"""The properties that each run must have, whatever its case, and those of the runs of a case compared with each
other."""

import os
import re
import shutil
import subprocess
import tempfile

import hunks
import messages
from confined import changes

ERROR = re.compile(rb"^Error: ", re.MULTILINE)
# (names that no entry has are reported after the write)
MISSING = re.compile(rb"^Error: (dependency .* doesn't|dependencies .* don't) exist$", re.MULTILINE)
ABORTED = re.compile(rb"^warning: aborting (upgrade|set-version) due to dry run\n", re.MULTILINE)
CALLS = re.compile(rb"^ +Run .*\n", re.MULTILINE)
GIT = ["git", "apply", "--whitespace=nowarn"]
PATCH = ["patch", "-p1", "-s", "--binary", "--no-backup-if-mismatch"]
DRY = {"-n", "--dry-run", "--check"}


def changed_files(room, run):
    """The names of files that a run made, changed or took away."""
    return sorted(name for name in room.begin.keys() | run.files.keys()
                  if room.begin.get(name) != run.files.get(name))


def shown(run):
    """The result of a run, for the line of a fault."""
    return f"status {run.status}, {run.out[-300:]!r}, {run.err[-600:]!r}"


def general(room, run, may_check=False, may_write=True):
    """What is wrong with any run: its status, its messages about it, its time, and what it wrote."""
    error, missing = ERROR.search(run.err), MISSING.search(run.err)
    changed = changed_files(room, run)
    if run.status < 0:
        yield f"ended by signal {-run.status}" if run.status > -1000 else "no end within 30 seconds"
    elif run.status not in (0, 1, 2):
        yield f"a status that is none: {shown(run)}"
    if run.status == 1 and not error and not may_check:
        yield f"status 1 without an error: {shown(run)}"
    if run.status != 1 and error:
        yield f"an error, and not status 1: {shown(run)}"
    if run.status == 2 and not re.search(rb"^error: |^Usage:", run.err, re.MULTILINE):
        yield f"status 2 without a usage error: {shown(run)}"
    if run.err.count(b"Error: ") > 1:
        yield f"two errors: {shown(run)}"
    if changed and not may_write:
        yield f"files changed where none may: {changed}"
    elif changed and run.status and not missing:
        yield f"files changed by a run that failed: {changed}: {shown(run)}"
    if run.seconds > room.bound():
        yield f"took {run.seconds:.2f} s of a processor, where {room.bound():.2f} s are allowed"


def same_report(one, other, what):
    """What is wrong where two runs should print the same, but for the note of a dry run and the calls of a
    real one."""
    def bare(run):
        return run.out, ABORTED.sub(b"", CALLS.sub(b"", run.err))
    if bare(one) != bare(other):
        yield f"{what} prints something else: {shown(one)}; {shown(other)}"


def dry_runs(room, args, real, changed):
    """What is wrong with the dry run and the check of a run that wrote; `changed` has the files that it set
    something in."""
    dry, check = room.run([*args, "-n"]), room.run([*args, "--check"])
    yield from general(room, dry, may_write=False)
    yield from general(room, check, may_check=bool(changed), may_write=False)
    yield from same_report(real, dry, "a dry run")
    yield from same_report(dry, check, "a check")
    if dry.status != real.status:
        yield f"a dry run ends otherwise: {shown(dry)}"
    if real.status == 0 and check.status != (1 if changed else 0):
        yield f"a check of a run that changes {changed}: {shown(check)}"
    if real.status == 0 and not ABORTED.search(dry.err):
        yield f"a dry run without its note: {shown(dry)}"


def confined_changes(room, run, allowed):
    """What is wrong with what a run wrote; `allowed` says of a manifest which places may change."""
    for name in changed_files(room, run):
        if name not in room.begin or name not in run.files or not name.endswith("Cargo.toml"):
            yield f"a file that is no output: {name}"
            continue
        found, faults = changes(room.begin[name], run.files[name])
        yield from (f"{name}: {fault}" for fault in faults)
        for place in found.keys() - allowed(room.begin[name]):
            yield f"{name}: a place changed that is no requirement and no version: {place}"


def applied(room, diff, by_git):
    """The manifests after a diff is applied, and what the tool printed where it failed."""
    folder = tempfile.mkdtemp(prefix="fuzz-", dir=os.path.dirname(room.path))
    try:
        for name, text in room.begin.items():
            os.makedirs(os.path.dirname(os.path.join(folder, name)), exist_ok=True)
            with open(os.path.join(folder, name), "wb") as file:
                file.write(text)
        command = GIT if by_git else PATCH
        # (no configuration of git's but its own defaults)
        environment = {**os.environ, "GIT_CEILING_DIRECTORIES": os.path.dirname(folder),
                       "GIT_CONFIG_NOSYSTEM": "1", "GIT_CONFIG_GLOBAL": os.devnull}
        done = subprocess.run(command, cwd=os.path.join(folder, "ws"), input=diff, capture_output=True,
                              check=False, env=environment)
        files = {}
        for name in room.begin:
            with open(os.path.join(folder, name), "rb") as file:
                files[name] = file.read()
        output = f"{command[0]}: {done.stdout[-200:]!r} {done.stderr[-200:]!r}"
        return files, output if done.returncode else ""
    finally:
        shutil.rmtree(folder, ignore_errors=True)


def diffs(room, args, real, choose):
    """What is wrong with the diff of a run that wrote. It is applied by one tool, or by both where all checks
    are made."""
    run = room.run([*args, "--diff", "-n"])
    yield from general(room, run, may_write=False)
    if real.status:
        return
    start = re.search(rb"^--- ", run.out, re.MULTILINE)
    if bool(start) != bool(changed_files(room, real)):
        yield f"a diff where nothing changes, or none where something does: {shown(run)}"
    if run.out[:start.start() if start else None] != real.out:
        yield f"a diff's run prints another table: {shown(run)}"
    if start:
        yield from hunks.faults(run.out[start.start():], room.begin, real.files)
    by_git = choose(0.3)
    for git in {by_git, by_git and not choose(0)} if start else ():
        files, fault = applied(room, run.out[start.start():], git)
        if fault:
            yield f"the diff does not apply: {fault} {run.out!r}"
        elif files != real.files:
            names = [name for name in files if files[name] != real.files.get(name)]
            yield f"the diff gives other files: {names} {run.out!r}"


def read_messages(room, args, real, command):
    """The messages of a run, and what is wrong with them."""
    run = room.run([*args, "--message-format", "json", "-n"])
    faults = list(general(room, run, may_write=False))
    if run.status != real.status:
        faults.append(f"with messages a run ends otherwise: {shown(run)}")
    try:
        read = messages.read(run.out)
    except ValueError as error:
        return [], [*faults, f"messages that are no JSON: {error} {run.out!r}"]
    if run.status == 0:
        faults += messages.faults(command, read)
    elif run.status == 1:
        faults += messages.error_faults(read, re.search(rb"^Error: ", run.err, re.M) is not None)
    return read, faults
