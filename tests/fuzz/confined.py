"""What a run changed in a manifest: whether only string literals did, and which."""

import tomllib

from toml_pieces import literals_and_rest, plain


class NoTree(Exception):
    """A manifest that is no TOML; its text says why."""


def tree_of(data):
    """The tree of a manifest."""
    try:
        return tomllib.loads(plain(data.decode()))
    except (UnicodeDecodeError, tomllib.TOMLDecodeError, ValueError, RecursionError) as error:
        raise NoTree(str(error)) from error


def leaves(value, place=()):
    """The leaves of a tree, each with its place. (As text, since what is no number is not equal to
    itself.)"""
    if isinstance(value, dict) and value:
        parts = value.items()
    elif isinstance(value, list) and value:
        parts = enumerate(value)
    else:
        return {place: value if isinstance(value, str) else repr(value)}
    return {found: leaf for key, part in parts for found, leaf in leaves(part, (*place, key)).items()}


def changed_leaves(before, after):
    """The places where two trees differ, each with what stands there afterwards."""
    old, new = leaves(before), leaves(after)
    return {place: new.get(place) for place in old.keys() | new.keys() if old.get(place) != new.get(place)}


def value_of(literal):
    """The text of a string literal."""
    return tomllib.loads(plain(f"x = {literal}"))["x"]


def is_written_anew(before, after):
    """Whether a literal was replaced by one with the same text, which has build metadata: a requirement counts without
    them, so that an explicit one with the same metadata is another one."""
    return before != after and "+" in value_of(after) and value_of(before) == value_of(after)


def changes(before, after):
    """The places that changed in a manifest with what stands there now, and the faults of that change."""
    faults = []
    try:
        old_literals, old_rest = literals_and_rest(before.decode())
        new_literals, new_rest = literals_and_rest(after.decode())
        found = changed_leaves(tree_of(before), tree_of(after))
    except (UnicodeDecodeError, NoTree) as error:
        return {}, [f"a changed manifest that is no TOML: {error}"]
    if old_rest != new_rest:
        at = next((at for at, (a, b) in enumerate(zip(old_rest, new_rest)) if a != b),
                  min(len(old_rest), len(new_rest)))
        faults.append(f"a byte changed outside of string literals: {old_rest[max(0, at - 20):at + 20]!r}, "
                      f"{new_rest[max(0, at - 20):at + 20]!r}")
    count = sum(a != b and not is_written_anew(a, b) for a, b in zip(old_literals, new_literals))
    if len(old_literals) != len(new_literals) or count != len(found):
        faults.append(f"{count} literals changed, and {len(found)} places")
    return found, faults
