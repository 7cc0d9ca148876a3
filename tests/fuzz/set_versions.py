"""What is wrong with the new versions of a case: by the properties of its runs."""

import oracle
import set_version_oracle
from confined import NoTree, leaves, tree_of
from properties import changed_files, confined_changes, diffs, dry_runs, general, read_messages, shown


def may_change(data):
    """The places of versions and of path dependencies' requirements in a manifest."""
    try:
        tree = tree_of(data)
    except NoTree:
        return set()
    found = {("package", "version"), ("workspace", "package", "version")}
    for place, table in oracle.tables(tree):
        found |= {(*place, key, "version") for key, value in table.items()
                  if isinstance(value, dict) and "path" in value}
    return found


def expected(room, args):
    """The expectation of the oracle; None where it has no opinion."""
    try:
        return set_version_oracle.expected(args[1:], room.begin, room.path)
    except oracle.Unknown:
        return {}, None


def by_oracle(room, run, wanted):
    """Yields how a run differs from the expectation of the oracle."""
    if wanted is None and run.status != 1:
        yield f"the oracle wants an error: {shown(run)}"
    if wanted and run.status:
        yield f"the oracle wants no error: {shown(run)}"
        return
    for name, changed in (wanted or {}).items():
        old, new = leaves(tree_of(room.begin[name])), leaves(tree_of(run.files[name]))
        for place in old.keys() | changed.keys():
            want = changed.get(place, old.get(place))
            if new.get(place) != want:
                yield f"{name}: the oracle wants {want!r} at {place}, not {new.get(place)!r}: {shown(run)}"


def requirement_counts(read, count):
    """What is wrong where other messages report changed requirements than so many, as texts or by their parts."""
    texts = sum(one["reason"] == "set-version-change" and one["action"] == "Updating" for one in read)
    parts = sum(one["reason"] == "set-version-requirement" for one in read)
    if (texts, parts) != (count, count):
        yield f"{texts} and {parts} messages of requirements, where {count} change"


def faults(room, case, choose):
    """All that is wrong with new versions."""
    real = room.run(case.args)
    yield from general(room, real)
    yield from confined_changes(room, real, may_change)
    wanted, count = expected(room, case.args)
    if case.sure or real.status != 2:
        yield from by_oracle(room, real, wanted)
    yield from dry_runs(room, case.args, real, changed_files(room, real))
    if choose(0.3):
        yield from diffs(room, case.args, real, choose)
    if choose(0.3):
        read, wrong = read_messages(room, case.args, real, "set-version")
        yield from wrong
        if not wrong and real.status == 0 and count is not None:
            yield from requirement_counts(read, count)
