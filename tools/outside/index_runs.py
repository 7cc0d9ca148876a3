"""Runs of the program over index files, and what they should report."""

import datetime
import json
import os
import re
import signal
import subprocess

import oracle
import semver

# The Rust versions and the bounds of time of the runs.
RUST = ("1.31", "1.56", "1.60", "1.64", "1.65", "1.70", "1.75", "2.0")
BOUNDS = ("2018-01-01T00:00:00Z", "2022-06-15T12:00:00Z")
OPTIONS = ((None, None), *((rust, None) for rust in RUST), *((None, bound) for bound in BOUNDS))
NAME = re.compile("[A-Za-z0-9_-]{1,64}")
TIME = re.compile("[0-9]{4}-[0-9]{2}-[0-9]{2}T[0-9]{2}:[0-9]{2}:[0-9]{2}Z")
SECONDS = 60


def is_seen(members):
    """Whether a report shows the members of a line."""
    return bool(members and NAME.fullmatch(members["name"]) and semver.read_version(members["vers"]))


def is_usual_time(text):
    """Whether a text is a time in the usual form. (What others are is up to the reader of times.)"""
    try:
        return bool(TIME.fullmatch(text) and datetime.datetime.fromisoformat(text[:-1]))
    except ValueError:
        return False


class Entry:
    """A version of a crate, by the members of its line."""

    def __init__(self, members):
        self.version = semver.read_version(members["vers"])
        self.yanked = members["yanked"]
        self.rust = oracle.rust_numbers(members["rust_version"])
        self.time = members["pubtime"]
        self.has_odd_time = self.time is not None and not is_usual_time(self.time)

    def counts(self, rust, bound):
        """Whether it counts, with a Rust version and a bound of time, if there are any."""
        return (self.version is not None and not self.yanked
                and (rust is None or self.rust is None or self.rust <= oracle.rust_numbers(rust))
                and (bound is None or self.time is not None and self.time <= bound))


def wanted_report(entries, rust, bound):
    """What a report should have of a crate with these entries: the newest version that counts, and whether
    versions of unknown time and younger ones were held back."""
    versions = [entry.version for entry in entries if entry.counts(rust, bound)]
    newest = max(versions, key=semver.Version.key).plain() if versions else None
    times = [entry.time for entry in entries if not entry.yanked] if bound else []
    return newest, None in times, any(time is not None and time > bound for time in times)


class Runs:
    """Runs the program in a folder."""

    def __init__(self, program, folder):
        self.program, self.child = program, None
        self.index, self.manifest, self.bare = (
            f"{folder}/{name}" for name in ("index.json", "Cargo.toml", "bare/Cargo.toml"))
        os.mkdir(f"{folder}/bare")
        self.write(self.bare, b"")
        self.errors = os.open(f"{folder}/errors", os.O_RDWR | os.O_CREAT)
        signal.signal(signal.SIGALRM, lambda *_: os.kill(self.child, signal.SIGKILL))

    def write(self, path, text):
        with open(path, "wb") as file:
            file.write(text)

    def arguments(self, manifest, *more):
        return [self.program, "upgrade", "--dry-run", "--manifest-path", manifest,
                "--index-file", self.index, *more]

    def outcome(self, index, bound):
        """The status of a run over an index, for a manifest without entries, and its standard error."""
        self.write(self.index, index)
        os.ftruncate(self.errors, 0)
        os.lseek(self.errors, 0, os.SEEK_SET)
        arguments = self.arguments(self.bare, *(("--published-before", bound) if bound else ()))
        # (a third of what `subprocess.run` costs)
        self.child = os.posix_spawn(self.program, arguments, {}, file_actions=[
            (os.POSIX_SPAWN_OPEN, 0, os.devnull, os.O_RDONLY, 0),
            (os.POSIX_SPAWN_OPEN, 1, os.devnull, os.O_WRONLY, 0),
            (os.POSIX_SPAWN_DUP2, self.errors, 2)])
        signal.alarm(SECONDS)
        _, status = os.waitpid(self.child, 0)
        signal.alarm(0)
        return os.waitstatus_to_exitcode(status), os.pread(self.errors, 1 << 16, 0)

    def bad_line(self, index, bound):
        """The number of the line that is refused, none where no line is; a text if the run ends otherwise."""
        status, said = self.outcome(index, bound)
        if status == 0:
            return None
        match = re.fullmatch(rb"Error: Invalid index line (\d+)\n  at (.*):(\d+)\n", said)
        if status == 1 and match and match[1] == match[3] and match[2].decode() == self.index:
            return int(match[1])
        return f"status {status}, {said!r}"

    def report(self, options):
        """What a report has of each crate in the manifest, as `wanted_report` has it; or what the run prints
        where it fails, or does not find a crate."""
        arguments = self.arguments(self.manifest, "--message-format", "json", "-vv", "--incompatible", "allow")
        done = subprocess.run([*arguments, *options], stdin=subprocess.DEVNULL, capture_output=True, env={},
                              timeout=SECONDS, check=False)
        if done.returncode or b"no index entry was found" in done.stderr:
            return f"status {done.returncode}, {done.stderr[-500:]!r}"
        newest, held = {}, {"undated": (), "younger": ()}
        for message in map(json.loads, done.stdout.splitlines()):
            if message["reason"] == "upgrade-row":
                newest[message["name"]] = message["latest"]
            elif message["reason"] == "upgrade-held-back":
                held = message
        undated, younger = set(held["undated"]), set(held["younger"])
        return {name: (version, name in undated, name in younger) for name, version in newest.items()}


def wrong_names(runs, index, members):
    """The crates of an index, of whose lines these are the members, of which a run reports something else:
    the name, what is wrong, and what was reported."""
    crates = {}
    for one in members:
        if one and NAME.fullmatch(one["name"]):
            crates.setdefault(one["name"], []).append(Entry(one))
    # (pre-releases count for a requirement that has one)
    manifest = "".join(["[dependencies]\n", *(f'"{name}" = "0.0.1-0"\n' for name in crates)])
    runs.write(runs.index, index)
    runs.write(runs.manifest, manifest.encode())
    for rust, bound in OPTIONS:
        options = ["--rust-version", rust] if rust else ["--published-before", bound] if bound else []
        came = runs.report(options)
        if isinstance(came, str):
            yield None, "a report fails", f"{options}, {came}"
            continue
        for name, entries in list(crates.items()):
            wanted = wanted_report(entries, rust, bound)
            if came.get(name) != wanted and not (bound and any(entry.has_odd_time for entry in entries)):
                del crates[name]
                yield name, "other members", f"{options}, {came.get(name)} in place of {wanted}"
