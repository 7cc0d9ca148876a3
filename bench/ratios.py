"""Runs that are compared with another run of the same program, by instructions: an upgrade with a bound on the time of
publication and one without, and `plan` and `upgrade` over the same files."""

import json
import os

import manifests
import registry
from jobs import Result, size_text, workspace
from measure import Job

PUBLISHED = ',"pubtime":"2024-05-01T12:00:00Z"}\n'


def ratio(room, size, job, other):
    """The instructions of a job as a multiple of those of another one."""
    result = Result(size, room.costs(job), job)
    counted, beside = (room.instructions("program", one) for one in (job, other))
    result.figure = counted and beside and counted / beside
    result.note = f"{counted / 1e6:,.0f} and {beside / 1e6:,.0f} M instructions" if result.figure else "needs valgrind"
    return result


def with_bound(room, size):
    """An upgrade to what was published by a time, over index lines that all have an earlier one."""
    folder, (count, each) = room.clear(), size
    found = registry.crates(count, each, each)
    lines = [line.rstrip()[:-1] + PUBLISHED for crate in found for line in registry.lines(crate)]
    index, path = (os.path.join(folder, name) for name in ("index.json", "Cargo.toml"))
    manifests.write(index, "".join(lines))
    before, after = manifests.manifest(found, "string")
    whole = Job(folder, {"program": ["upgrade", "--manifest-path", path, "--index-file", index]}, {path: before}, {path: after})
    args = [*whole.arguments["program"], "--published-before", "2024-05-02T00:00:00Z"]
    bounded = Job(folder, {"program": args}, {path: before}, {path: after})
    return ratio(room, f"{count:,} entries, {len(lines):,} lines, {size_text(os.path.getsize(index))}", bounded, whole)


def plan_beside_upgrade(room, members):
    """`plan` for a request with the files of a workspace, beside a dry run over these files."""
    folder = room.clear()
    found = registry.crates(300, 2, 3)
    made = workspace(folder, members, found)
    index, request = (os.path.join(folder, name) for name in ("index.json", "request.json"))
    registry.write_lines(index, found)
    with open(made.metadata, encoding="utf-8") as file:
        metadata = json.load(file)
    with open(index, encoding="utf-8") as file:
        lines = file.read()
    manifests.write(request, json.dumps({"version": 1, "command": "upgrade", "manifests": made.before, "index": lines,
                                         "metadata": metadata, "options": {"incompatible": True}}))
    dry = Job(made.folder, {"program": ["upgrade", "-i", "-n", "--metadata-json", made.metadata, "--index-file", index]},
              made.before)
    plan = Job(made.folder, {"program": ["plan"]}, source=request)
    return ratio(room, f"{members} members, {size_text(os.path.getsize(request))}", plan, dry)
