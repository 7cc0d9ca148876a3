"""The steps of `cargo upgrade` before and after curl, over a cache that is up to date: `fetch-plan`, and `fetch-store`, for
which each transfer was answered with 304."""

import hashlib
import os
import re
import shutil
import subprocess

import manifests
import registry
from jobs import Result, size_text, workspace
from measure import Failed, Job


def text_of(crate):
    """The index file of a crate."""
    return "".join(registry.lines(crate))


def fill(cache, lookups, found):
    """Writes the index files of lookups into a cache, each with its ETag in the first line; the bytes of the index files."""
    crates, length = {crate.name: crate for crate in found}, 0
    for address, name, path in lookups:
        text = text_of(crates[name])
        entry = os.path.join(cache, address.replace("%", "%25").replace("/", "%2F"), path)
        etag = hashlib.md5(text.encode()).hexdigest()
        manifests.write(entry, f'ETag: "{etag}"\n{text}')
        length += len(text)
    return length


def lookups_of(room, made):
    """The lookups of an upgrade: address, name and path of each."""
    done = subprocess.run([room.programs["program"], "looks", "--metadata-json", made.metadata], cwd=made.folder,
                          capture_output=True, text=True, env={"HOME": "/nonexistent"}, check=False)
    if done.returncode != 0:
        raise Failed(f"looks ended with status {done.returncode}: {done.stderr[-500:]}")
    return [line.split("\t") for line in done.stdout.splitlines()]


def system_calls(room, job):
    """The number of system calls of one run, as a text; nothing where they cannot be counted."""
    if not shutil.which("strace"):
        return ""
    job.restore()
    done = subprocess.run(["strace", "-f", "-c", "-o", "/dev/stdout", room.programs["program"], *job.arguments["program"]],
                          cwd=job.folder, capture_output=True, text=True, env={"HOME": "/nonexistent"}, check=False)
    found = re.search(r"^100\.00 +\S+ +\S* +(\d+) ", done.stdout, re.MULTILINE)
    return f"{int(found[1]):,} system calls" if found and done.returncode == 0 else ""


def fetching(step):
    """The millions of instructions of a step over a cache that is up to date."""
    def measure(room, size):
        members, count, least, most = size
        folder = room.clear()
        found = registry.crates(count, least, most)
        made = workspace(folder, members, found)
        cache, own = os.path.join(folder, "cache"), os.path.join(folder, "room")
        lookups = lookups_of(room, made)
        length = fill(cache, lookups, found)
        os.mkdir(own)
        answers = "".join(f"{number}\t304\t0\t0\t\n" for number in range(1, len(lookups) + 1))
        before = {os.path.join(own, "answers"): answers,
                  os.path.join(own, "lookups"): "".join("\t".join(one) + "\n" for one in lookups)}
        arguments = [step, "--cache", cache, "--room", own, "--", "--metadata-json", made.metadata]
        job = Job(made.folder, {"program": arguments}, before)
        result = Result(f"{len(lookups)} crates, {size_text(length)}", room.costs(job), job)
        counted = room.instructions("program", job)
        result.figure, result.note = counted and counted / 1e6, system_calls(room, job)
        return result
    return measure
