"""The work that rows measure: its inputs, the arguments of each program, and the figure that comes of it."""

import os
import shutil
import time
from dataclasses import dataclass, field

import manifests
import registry
from measure import Job, new_folder
from workspaces import Workspace

# What the program takes by itself, in megabytes.
OWN_MEMORY = 2.7
READS_METADATA = "edit_metadata::workspace::Workspace::read"


@dataclass
class Result:
    """What was measured: the size of the input as a text, the cost of each program, the job, and the figure
    that is compared with what is wanted, with its unit where that is not the row's."""
    size: str
    costs: dict = field(default_factory=dict)
    job: Job | None = None
    figure: float | None = None
    note: str = ""
    unit: str = ""


def size_text(count):
    """A number of bytes as a text."""
    return f"{count / 1e6:.3g} MB" if count >= 1e5 else f"{count / 1e3:.3g} kB"


def compare(size, room, job, *others):
    """Measures a job with all programs; the figure is the time of the program as a multiple of the peer's."""
    costs = room.costs(job, *others)
    peer = costs.get("peer")
    return Result(size, costs, job, peer and costs["program"].seconds / peer.seconds)


def upgrade_job(folder, before, after, index):
    """The upgrade of one manifest by an index file."""
    path = os.path.join(folder, "Cargo.toml")
    return Job(folder, {"program": ["upgrade", "--manifest-path", path, "--index-file", index],
                        "peer": [path, index], "limit": [path, index]}, {path: before}, {path: after})


def real_lines(room, size):
    """An upgrade of entries with index lines as registries have them."""
    folder = room.clear()
    index, (count, each) = os.path.join(folder, "index.json"), size
    found = registry.crates(count, each, each)
    length = registry.write_lines(index, found)
    return compare(f"{count:,} entries, {count * each:,} lines, {size_text(length)}", room,
                       upgrade_job(folder, *manifests.manifest(found, "string"), index))


def short_lines(form):
    """An upgrade of entries of a form with one short line each."""
    def measure(room, count):
        folder = room.clear()
        before, after, lines = manifests.short_entries(count, form)
        index = os.path.join(folder, "index.json")
        manifests.write(index, lines)
        return compare(f"{count:,} entries", room, upgrade_job(folder, before, after, index))
    return measure


def one_line(room, text):
    """A job over a manifest that stays as it is, with an index of one line."""
    folder = room.clear()
    index = os.path.join(folder, "index.json")
    manifests.write(index, registry.short_line("serde", (1, 0, 0)))
    job = upgrade_job(folder, text, text, index)
    del job.arguments["limit"]
    return job


def long_text(size):
    """Manifests joined to a text of this size, and how many they are of."""
    real = manifests.read_packages()
    texts = real or list(manifests.generate())
    text = manifests.join(texts, size)
    return text, f"{size_text(len(text.encode()))} of {len(texts)} {'' if real else 'generated '}manifests"


def start(room, _):
    """An upgrade of a manifest without entries."""
    return compare("a tiny manifest", room, one_line(room, manifests.HEAD % "bench"))


def long_manifest(room, size):
    """An upgrade of long manifests without entries to raise."""
    text, length = long_text(size)
    return compare(length, room, one_line(room, text))


def memory(make):
    """The peak memory for a manifest, in multiples of its text."""
    def measure(room, size):
        made = make(size)
        text, length = made if isinstance(made, tuple) else (made, size_text(len(made)))
        job = one_line(room, text)
        costs = room.costs(job, rounds=1)
        own = costs["program"].kilobytes * 1024 - OWN_MEMORY * 1e6
        return Result(length, costs, job, own / len(text.encode()))
    return measure


def collisions(room, count):
    """An upgrade of a manifest with keys that collide."""
    text = manifests.colliding_keys(count)
    return compare(f"{count:,} keys, {size_text(len(text))}", room, one_line(room, text))


def blank_lines(room, size):
    """An index file of which nearly each line is blank."""
    folder = room.clear()
    index, text = os.path.join(folder, "index.json"), manifests.HEAD % "bench"
    manifests.write(index, "\n" * size + registry.short_line("serde", (1, 0, 0)))
    return compare(size_text(size), room, upgrade_job(folder, text, text, index))


def workspace(folder, members, found=None):
    """A workspace whose members depend on 33 crates each."""
    return Workspace(os.path.join(folder, "workspace"), members, found or registry.crates(300, 2, 3), 33)


def local_registry(made, found):
    """Writes index files of crates into a folder, and a configuration that leads to it."""
    folder = os.path.join(made.folder, "registry")
    for crate in found:
        path = os.path.join(folder, crate.name[:2], crate.name[2:4], crate.name)
        manifests.write(path, "".join(registry.lines(crate)))
    os.symlink(".", os.path.join(folder, "index"))
    manifests.write(os.path.join(made.folder, ".cargo", "config.toml"),
                    '[source.crates-io]\nreplace-with = "local"\n\n'
                    f'[source.local]\nregistry = "file://{folder}"\n')


def original_job(room, made):
    """The dry run of an upgrade by cargo-edit 0.13.14 itself, with a cargo that only prints the metadata."""
    manifest = os.path.join(made.folder, "Cargo.toml")
    return Job(made.folder, {"original": ["upgrade", "-i", "--dry-run", "--manifest-path", manifest]},
               variables={"CARGO": room.stub_cargo(), "METADATA": made.metadata})


def whole_upgrade(room, size):
    """A dry run of an upgrade of a workspace to the newest versions; once for each program, a run that
    writes. The index is a folder for the program, as `cargo upgrade` makes it, and a file for its peers."""
    members, count, least, most = size
    found = registry.crates(count, least, most)
    folder = room.clear()
    made = workspace(folder, members, found)
    local_registry(made, found)
    index = os.path.join(folder, "index.json")
    length = registry.write_lines(index, found)
    arguments = {"program": ["upgrade", "-i", "--metadata-json", made.metadata],
                 "peer": ["-i", "--metadata", made.metadata, index], "limit": ["-i", *made.before, index]}
    room.costs(Job(made.folder, arguments, made.before, made.after), rounds=1)
    made.restore()
    dry = Job(made.folder, {name: [*args[:1], "-n", *args[1:]] for name, args in arguments.items()})
    lines = sum(len(crate.versions) for crate in found)
    size = f"{members} members, {count} crates, {lines:,} lines, {size_text(length)}"
    result = compare(size, room, dry, original_job(room, made))
    if "original" in result.costs:
        original = result.costs["original"].seconds
        result.note = f"cargo-edit 0.13.14 {original:.3f} s"
        result.figure, result.unit = result.costs["program"].seconds / original, "original"
    return result


SET_VERSION = ["set-version", "--bump", "minor", "--workspace"]


def share(args):
    """The share of the instructions that the metadata take, in percent."""
    def measure(room, members):
        made = workspace(room.clear(), members)
        job = Job(made.folder, {"program": [*args, "--metadata-json", made.metadata]})
        size = f"{members} members, metadata of {size_text(os.path.getsize(made.metadata))}"
        found = Result(size, room.costs(job), job)
        whole, part = (room.instructions("program", job, function) for function in (None, READS_METADATA))
        if not whole or not part:
            found.note = "needs valgrind, and a program with symbols"
            return found
        found.figure = 100 * part / whole
        found.note = f"{part / 1e6:,.1f} of {whole / 1e6:,.1f} M instructions"
        return found
    return measure


def write_plainly(texts):
    """Writes files one by one, each beside its place, flushed and renamed; the seconds by the clock."""
    begin = time.perf_counter()
    for path, text in texts.items():
        with open(path + ".new", "w", encoding="utf-8") as file:
            file.write(text)
            file.flush()
            os.fsync(file.fileno())
        os.replace(path + ".new", path)
    return time.perf_counter() - begin


def compare_writing(room, made):
    """The cost of setting new versions, that of a dry run, and the seconds of plain writes of the same
    files."""
    args, after = [*SET_VERSION, "--metadata-json", made.metadata], made.with_next_minor()
    real = Job(made.folder, {"program": args}, made.before, after)
    dry = Job(made.folder, {"program": [*args, "-n"]})
    changed = {path: text for path, text in after.items() if text != made.before[path]}
    rounds = []
    for _ in range(room.rounds):
        made.restore()
        rounds.append((room.run("program", dry), room.run("program", real), write_plainly(changed)))
    least_dry, least_real = (min((one[at] for one in rounds), key=lambda cost: cost.wall) for at in (0, 1))
    return least_dry, least_real, min(one[2] for one in rounds), len(changed)


def writing(parent):
    """What writing takes beyond a dry run in a folder below `parent`, by the clock, as a multiple of plain
    writes."""
    def measure(room, members):
        room.clear()
        folder = new_folder(parent)
        try:
            dry, real, plain, count = compare_writing(room, workspace(folder, members))
        finally:
            shutil.rmtree(folder, ignore_errors=True)
        note = f"{real.wall:.3f} s, dry {dry.wall:.3f} s, plain writes {plain:.3f} s by the clock"
        return Result(f"{count} manifests", {"program": real}, None, (real.wall - dry.wall) / plain, note)
    return measure
