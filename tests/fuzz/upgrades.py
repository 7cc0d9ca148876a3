"""What is wrong with the upgrade of a case: by the properties of its runs, and by the oracle."""

import json
import os
import re

import command_lines
import oracle
from confined import NoTree, leaves, tree_of
from properties import (MISSING, changed_files, confined_changes, diffs, dry_runs, general, read_messages,
                        same_report, shown)

CRATE_NAME = re.compile(r"[A-Za-z0-9_-]+")


def inputs(room, args):
    """The manifests that an upgrade reads, each with the Rust version of its package as the metadata or it
    have it."""
    if "--metadata-json" not in args:
        return {"ws/Cargo.toml": None}
    packages = json.loads(room.begin["metadata.json"])["packages"]
    base, found = room.path + "/", {}
    for package in packages:
        if package["manifest_path"].startswith(base):
            path = package["manifest_path"].removeprefix(base)
            found[path] = oracle.rust_numbers(package.get("rust_version"))
    if "ws/Cargo.toml" not in found:
        found["ws/Cargo.toml"] = min((rust for rust in found.values() if rust), default=None)
    return found


def own_rust(tree):
    """The Rust version of a manifest's package."""
    package = tree.get("package")
    return oracle.rust_numbers(package.get("rust-version")) if isinstance(package, dict) else None


def may_change(data):
    """The places of requirements in a manifest."""
    try:
        return {entry.place for entry in oracle.entries(tree_of(data)) if entry.old is not None}
    except NoTree:
        return set()


def configured(room):
    """The names of registries that configurations define; none where one of them is no configuration."""
    found = set()
    for name, text in room.begin.items():
        if ".cargo/" in name:
            try:
                settings = tree_of(text)
            except NoTree:
                return None
            registries, sources = settings.get("registries", {}), settings.get("source", {})
            if not isinstance(registries, dict) or not all(map(names_index, registries.values())):
                return None
            if sources:
                return None if any(not isinstance(one.get("replace-with", ""), str)
                                   for one in sources.values()) else set()
            found |= registries.keys()
    return found


def names_index(registry):
    """Whether a registry of a configuration is a table, with a text as its index."""
    return isinstance(registry, dict) and isinstance(registry.get("index", ""), str)


def fails(room, trees, options):
    """Whether an upgrade has to fail by its configurations, or by the names and registries of its entries.
    (The documents do not say whether an entry that is left out is checked.)"""
    known = configured(room)
    if known is None:
        return True
    for tree in trees:
        for entry in oracle.entries(tree):
            bad_name = entry.registry and (not CRATE_NAME.fullmatch(entry.name) or len(entry.name) > 64)
            if bad_name or entry.named_registry is not None and entry.named_registry not in known:
                if oracle.is_left_out(options, entry):
                    raise oracle.Unknown("an entry with a fault that is left out")
                return True
    return False


def expected(room, args):
    """What an upgrade should leave: for each manifest the places that change. None where it has to fail."""
    options = command_lines.upgrade_meaning(args[1:])
    trees = {}
    for name in inputs(room, args):
        try:
            trees[name] = tree_of(room.begin[name])
        except NoTree as error:
            # (`tomllib` wants dates that the calendar has)
            if "date" in str(error) or "time" in str(error) or "digits" in str(error):
                raise oracle.Unknown("a date that is none") from None
            return None
    if fails(room, trees.values(), options):
        return None
    try:
        offers = oracle.read_index(room.begin["index.json"])
    except ValueError:
        return None
    found = {}
    for name, rust in inputs(room, args).items():
        rust = options.rust_version or (None if options.ignore_rust_version else
                                        rust if "--metadata-json" in args else own_rust(trees[name]))
        found[name] = oracle.expected(trees[name], options, offers, rust)
    return found


def by_oracle(room, args, run):
    """Yields how a run differs from the expectation of the oracle."""
    try:
        wanted = expected(room, args)
    except oracle.Unknown:
        return
    if wanted is None:
        if run.status != 1:
            yield f"the oracle wants an error: {shown(run)}"
        return
    if run.status and not MISSING.search(run.err):
        yield f"the oracle wants no error: {shown(run)}"
        return
    for name, changed in wanted.items():
        try:
            old, new = leaves(tree_of(room.begin[name])), leaves(tree_of(run.files[name]))
        except NoTree as error:
            yield f"{name}: no TOML afterwards: {error}"
            continue
        for place in old.keys() | changed.keys():
            want = changed.get(place, old.get(place))
            if new.get(place) != want:
                yield f"{name}: the oracle wants {want!r} at {place}, not {new.get(place)!r}: {shown(run)}"


def set_places(room, args):
    """The places by their manifests where a requirement is set to the text that stands there already. An
    entry's old requirement is its text before the first plus, so that one given as `NAME@1.0.0+b` is another
    one, also where `1.0.0+b` is what stands there."""
    try:
        wanted = expected(room, args) or {}
    except oracle.Unknown:
        wanted = {}
    found = {}
    for name, changed in wanted.items():
        old = leaves(tree_of(room.begin[name]))
        found[name] = {place for place, new in changed.items() if old.get(place) == new}
    return found


def set_files(room, args, run):
    """The names of files that a run changed, or in which it set a requirement to the text that stood
    there."""
    ended_well = not run.status or MISSING.search(run.err)
    return sorted({*changed_files(room, run), *(name for name, places in set_places(room, args).items()
                                                if places and ended_well)})


def without_version(place):
    """The place of an entry, from that of its requirement."""
    return place[:-1] if place[-1] == "version" and len(place) > 2 else place


def rows_agree(room, args, real, read):
    """What is wrong where the messages' rows report other changes than those that were written."""
    written, reported = {}, {}
    for name, places in set_places(room, args).items():
        written.update({(name, without_version(place)): None for place in places})
    for name in changed_files(room, real):
        old, new = leaves(tree_of(room.begin[name])), leaves(tree_of(real.files[name]))
        for place in old:
            if old[place] != new.get(place):
                written[name, without_version(place)] = new.get(place)
    for row in (one for one in read if one["reason"] == "upgrade-row" and one["change"] is not None):
        place = tuple(row["place"])
        name = os.path.relpath(row["manifest_path"], room.path)
        tree = leaves(tree_of(real.files[name]))
        reported[name, place] = tree.get((*place, "version"), tree.get(place))
        if row["new"] != reported[name, place]:
            yield f"a row has {row['new']!r} where {reported[name, place]!r} stands: {row}"
    # (an entry of the key `version` has a place that ends as a member does)
    if {key for key in reported if key[1][-1] != "version"} != {key for key in written
                                                                if key[1][-1] != "version"}:
        yield f"rows report the changes {sorted(reported)}, and {sorted(written)} were written"
    files = sorted(os.path.relpath(one["manifest_path"], room.path) for one in read
                   if one["reason"] == "upgrade-file")
    if files != set_files(room, args, real):
        yield f"messages report the files {files}, and {set_files(room, args, real)} changed"


def locked_run(room, args, real):
    """What is wrong with a run that may change nothing."""
    run = room.run([*args, "--locked"])
    changed = set_files(room, args, real)
    yield from general(room, run, may_write=False)
    refused = b"Error: cannot upgrade due to `--locked`" in run.err
    if (real.status == 0 or MISSING.search(real.err)) and refused != bool(changed):
        yield f"--locked, where a run changes {changed}: {shown(run)}"


def second_run(room, args, real):
    """What is wrong with a second run, which has to find nothing to raise (but a requirement that was
    given)."""
    if real.status or any("@" in arg and "@HERE@" not in arg for arg in args):
        return
    again = room.run(args, again=True)
    if again.status:
        yield f"a second run fails: {shown(again)}"
    for name in real.files.keys() | again.files.keys():
        if real.files.get(name) != again.files.get(name):
            yield f"a second run changes {name}: {real.files.get(name)!r}, {again.files.get(name)!r}"


def calls_file(room, args, real):
    """What is wrong with the calls of `cargo update` that a run writes."""
    run = room.run([*args, "--update-calls", "@HERE@/calls"])
    text = run.files.pop("calls", None)
    yield from general(room, run)
    yield from same_report(real, run, "a run with --update-calls")
    if run.files != real.files:
        yield "a run with --update-calls writes other manifests"
    if (text is None) != bool(real.status and not MISSING.search(real.err)):
        yield f"a file of calls where none is wanted, or none: {shown(run)}"
    calls = [" ".join(call.split("\n")) for call in (text or b"").decode().split("\n\n") if call]
    printed = re.findall(r"^ +Run `?(.*?)`?$", run.err.decode(errors="replace"), re.MULTILINE)
    if calls != printed and text is not None and not real.status:
        yield f"the calls {calls} are written, and {printed} printed"


def by_folder(room, args, real):
    """What is wrong where an index in a folder, laid out as `looks` prints, gives another upgrade than one in a
    file."""
    lookups = room.run(["looks", *args[1:]])
    yield from general(room, lookups, may_write=False)
    # (an index that cannot be read fails both, and not in the same place)
    try:
        oracle.read_index(room.begin["index.json"])
    except ValueError:
        return
    if bool(lookups.status) != bool(real.status and not MISSING.search(real.err)) and not real.status:
        yield f"`looks` ends otherwise than an upgrade: {shown(lookups)}, {shown(real)}"
    if lookups.status:
        return
    lines = [line for line in room.begin["index.json"].split(b"\n") if line.strip()]
    added = {"dir/README": b""} # (an index folder that is not there is a usage error)
    for line in lookups.out.decode().split("\n")[:-1]:
        address, name, path = line.split("\t")
        own = [line for line in lines if oracle.read_line(line)["name"] == name]
        if own:
            added[f"dir/{address.replace('%', '%25').replace('/', '%2F')}/{path}"] = b"\n".join(own)
    begin = room.begin
    try:
        room.begin = {**begin, **added}
        at = args.index("--index-file")
        run = room.run([*args[:at], "--index-dir", "@HERE@/dir", *args[at + 2:]])
        left = {name: text for name, text in run.files.items() if name not in added}
    finally:
        room.begin = begin
    yield from same_report(real, run, "an index in a folder")
    if left != real.files or run.status != real.status:
        yield f"an index in a folder gives another upgrade: {shown(real)}, {shown(run)}"


def faults(room, case, choose):
    """All that is wrong with an upgrade; `choose` says which of the more expensive runs are made."""
    args = case.args
    real = room.run(args)
    yield from general(room, real)
    yield from confined_changes(room, real, may_change)
    yield from second_run(room, args, real)
    if case.sure or real.status != 2:
        yield from by_oracle(room, args, real)
    yield from dry_runs(room, args, real, set_files(room, args, real))
    if choose(0.3):
        yield from diffs(room, args, real, choose)
    if choose(0.3):
        read, wrong = read_messages(room, args, real, "upgrade")
        yield from wrong
        if not wrong and real.status == 0:
            yield from rows_agree(room, args, real, read)
    if choose(0.2):
        yield from locked_run(room, args, real)
    if choose(0.15):
        yield from calls_file(room, args, real)
    if choose(0.2) and "--index-file" in args:
        yield from by_folder(room, args, real)
