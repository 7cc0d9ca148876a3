#!/usr/bin/env python3
"""edits.py CALLS: edits at random places of two manifests, each made by the program edit_calls (CALLS) and by Python on
the tree that tomllib reads. Each must leave a text that reads as the old tree except at that place, and an insertion must
leave all bytes around the new entry as they were. The places come from a fixed seed, so a failure can be repeated."""

import copy
import pathlib
import random
import subprocess
import sys
import tempfile
import tomllib

HERE = pathlib.Path(__file__).resolve().parent
TEXTS = [HERE.parent.parent / "examples/first/Cargo.toml", HERE / "everything.toml"]
NAMES = ["new", "a-b", "two words", "", "é", "dotted.name", 'quote"d']
VALUES = ["1.0", 'a "quoted" text', "line\nend", True, False, [], ["one"], ["a", "b\\c"]]
ENTRIES = VALUES + [
    {"members": [], "dotted": False},
    {"members": [["version", "1.0"], ["features", ["std", "a b"]], ["optional", True]], "dotted": False},
    {"members": [["workspace", True]], "dotted": True},
]
EDITS = {"insert": 120, "remove": 200, "set_value": 80, "replace_entry": 80}


def places(tree, here=()):
    """Each place of a tree, the root first."""
    yield list(here)
    if isinstance(tree, dict):
        for name, part in tree.items():
            yield from places(part, (*here, name))
    elif isinstance(tree, list):
        for number, part in enumerate(tree):
            yield from places(part, (*here, number))


def steps(place):
    """The arguments that name a place."""
    return ["#%d" % step if isinstance(step, int) else "." + step for step in place] + ["="]


def args_of(value):
    """The arguments that name a value or an entry."""
    if isinstance(value, bool):
        return ["truth", "true" if value else "false"]
    if isinstance(value, str):
        # (no argument of a program may hold a byte 0)
        return ["zeros", value.replace("\0", "\u2400")] if "\0" in value else ["text", value]
    if isinstance(value, list):
        return ["list", str(len(value)), *value]
    if value["dotted"]:
        return ["dotted"]
    members = value["members"]
    return ["table", str(len(members)), *(arg for name, member in members for arg in (name, *args_of(member)))]


def at(tree, place):
    """The value at a place."""
    for step in place:
        tree = tree[step]
    return tree


def has(tree, place):
    """Whether there is a value at a place."""
    try:
        at(tree, place)
    except (KeyError, IndexError, TypeError):
        return False
    return True


def entry_tree(entry):
    """The tree of a new entry."""
    return dict(entry["members"]) if isinstance(entry, dict) else entry


def removed(tree, place, left):
    """The tree without a place, and without the tables and arrays around it that became empty and are gone from `left`."""
    del at(tree, place[:-1])[place[-1]]
    for length in range(len(place) - 1, 0, -1):
        around = place[:length]
        if at(tree, around) not in ({}, []) or has(left, around):
            break
        del at(tree, around[:-1])[around[-1]]
    return tree


def common(old, new):
    """The length of the common prefix and suffix of two texts, each byte counted once."""
    short = min(len(old), len(new))
    front = next((i for i in range(short) if old[i] != new[i]), short)
    rest = short - front
    back = next((i for i in range(rest) if old[-1 - i] != new[-1 - i]), rest)
    return front + back


def choose(chance, call, tree):
    """A place for an edit, its other arguments, and the expected tree (except for a removal)."""
    found = list(places(tree))
    meant = copy.deepcopy(tree)
    if call == "insert":
        place = chance.choice([path for path in found if isinstance(at(tree, path), dict)])
        name = chance.choice([name for name in NAMES if name not in at(tree, place)])
        value = chance.choice(VALUES)
        at(meant, place)[name] = value
        return place, [name, *args_of(value)], meant
    place = chance.choice(found[1:])
    if call == "remove":
        return place, [], meant
    value = chance.choice(VALUES if call == "set_value" else ENTRIES)
    at(meant, place[:-1])[place[-1]] = entry_tree(value)
    return place, args_of(value), meant


def main():
    calls = sys.argv[1]
    chance = random.Random(20261123)
    counts = {}
    with tempfile.TemporaryDirectory() as room:
        path = pathlib.Path(room) / "Cargo.toml"
        for source in TEXTS:
            old = source.read_bytes()
            tree = tomllib.loads(old.decode())
            path.write_bytes(old)
            for call, count in EDITS.items():
                for _ in range(count):
                    place, args, meant = choose(chance, call, tree)
                    command = [calls, str(path), call, *steps(place), *args]
                    run = subprocess.run(command, capture_output=True, check=False)
                    answer, _, new = run.stdout.partition(b"\n")
                    counts[call, answer] = counts.get((call, answer), 0) + 1
                    judge(command[2:], answer, tree, meant, place, old, new)
    for (call, answer), count in sorted(counts.items()):
        print(f"{call}: {answer.decode()}: {count}")
    done = sum(count for (_, answer), count in counts.items() if answer == b"done")
    assert done >= 400, f"{done} edits were made"


def judge(command, answer, tree, meant, place, old, new):
    """Exits with a message where an edit did anything other than requested."""
    call = command[0]
    if answer == b"no such place" and call in ("set_value", "replace_entry"):
        assert new == old, command
        return
    assert answer == b"done", (command, answer)
    read = tomllib.loads(new.decode())
    if call == "remove":
        assert read == removed(meant, place, read), command
        return
    assert read == meant, (command, new.decode())
    if call == "insert":
        # (an empty inline table's white space gives way to one space on each side)
        assert common(old, new) >= len(old) - (2 if at(tree, place) == {} else 0), command


if __name__ == "__main__":
    main()
