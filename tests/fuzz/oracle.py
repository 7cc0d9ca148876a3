"""What an upgrade should leave of a manifest, worked out from the documents (docs/UPGRADE.md, docs/SELECTION.md) apart
from the program.
It works on the tree that `tomllib` reads, and not of bytes. `Unknown` where it has no opinion."""

import json
from dataclasses import dataclass, field

import semver

KINDS = ("dependencies", "dev-dependencies", "build-dependencies")
PINS = {"=", "<", "<=", "*"}
# the number of numbers that each level keeps
KEPT = {"patch": 2, "minor": 1, "major": 0}


class Unknown(Exception):
    """The oracle has no opinion on this case."""


@dataclass
class Options:
    """What an upgrade may do, as its command line says it."""
    compatible: bool = True
    incompatible: bool = False
    pinned: bool = False
    never_lower: bool = False
    level: str = "major"
    ignore_rust_version: bool = False
    rust_version: tuple | None = None
    packages: dict = field(default_factory=dict)
    named: bool = False
    excluded: set = field(default_factory=set)


@dataclass(frozen=True)
class Entry:
    """An entry of a dependency table: where its requirement stands, its crate, and what it says."""
    place: tuple
    name: str
    renamed: bool
    old: str | None
    registry: bool
    named_registry: str | None


# ---- manifests

def tables(tree):
    """The dependency tables of a manifest, each with its place."""
    shared = tree.get("workspace")
    targets = tree.get("target")
    places = [(kind,) for kind in KINDS]
    if isinstance(shared, dict):
        places.append(("workspace", "dependencies"))
    if isinstance(targets, dict):
        places += [("target", key, kind) for key, target in targets.items() if isinstance(target, dict)
                   for kind in KINDS]
    for place in places:
        table = at(tree, place)
        if isinstance(table, dict):
            yield place, table


def at(tree, place):
    """The value at a place."""
    for step in place:
        if not isinstance(tree, dict):
            return None
        tree = tree.get(step)
    return tree


def texts_fine(value, names):
    """Whether the members of these names are texts where they are there."""
    return all(isinstance(value.get(name, ""), str) for name in names)


def readable(value):
    """Whether an entry that is a table is one that can be read."""
    if not texts_fine(value, ("package", "registry")) or "default_features" in value:
        return False
    features = value.get("features", [])
    if not isinstance(features, list) or not all(isinstance(one, str) for one in features):
        return False
    if "git" in value:
        return texts_fine(value, ("git", "branch", "tag", "rev", "version"))
    if "path" in value:
        return texts_fine(value, ("path", "version"))
    return isinstance(value.get("version"), str)


def entry_of(place, key, value):
    """The entry at a key; None where it is skipped."""
    if isinstance(value, str):
        return Entry(place, key, False, value.split("+")[0], True, None)
    if not isinstance(value, dict) or not readable(value):
        return None
    version = value.get("version")
    old = None if version is None else version.split("+")[0]
    registry = "git" not in value and "path" not in value
    return Entry((*place, "version"), value.get("package", key), "package" in value, old, registry,
                 value.get("registry") if registry else None)


def entries(tree):
    """The entries of a manifest that are seen and have a requirement."""
    for place, table in tables(tree):
        for key, value in table.items():
            entry = entry_of((*place, key), key, value)
            if entry is not None:
                yield entry


# ---- index lines

@dataclass(frozen=True)
class Offer:
    """A version of a crate that is not yanked."""
    version: semver.Version
    rust: tuple | None


def rust_numbers(text):
    """The Rust version that a text names, else none."""
    read = semver.read_requirement(text) if isinstance(text, str) else None
    if not read or len(read) != 1 or read[0].op != "^" or read[0].pre:
        return None
    return tuple([*read[0].numbers, 0, 0][:3])


def finite(text):
    """The number that a text is, where a float can hold it."""
    number = float(text)
    if number in (float("inf"), float("-inf")):
        raise ValueError("a number past the range of a float")
    return number


def no_constant(text):
    """NaN and Infinity are no JSON."""
    raise ValueError(text)


def read_line(line):
    """The object of an index line; a ValueError where it is none."""
    record = json.loads(line.decode(), parse_float=finite, parse_constant=no_constant)
    # (half of a pair of surrogates is no character)
    json.dumps(record, ensure_ascii=False).encode()
    if not isinstance(record, dict):
        raise ValueError("no object")
    texts = isinstance(record.get("name"), str) and isinstance(record.get("vers"), str)
    if not texts or not isinstance(record.get("yanked", False), bool):
        raise ValueError("no line of an index")
    if not isinstance(record.get("rust_version", ""), str | None):
        raise ValueError("a Rust version that is no text")
    return record


def read_index(text):
    """The versions that may be taken, by the crate's name; a line that is none of an index is a
    ValueError."""
    offers = {}
    for line in text.split(b"\n"):
        if not line.strip(b" \t\r"):
            continue
        record = read_line(line)
        version = semver.read_version(record["vers"])
        if version and not record.get("yanked", False):
            offers.setdefault(record["name"], []).append(Offer(version, rust_numbers(record.get("rust_version"))))
    return offers


# ---- the decision

def greatest(offers, wanted):
    """The greatest of these versions that are wanted."""
    return max((offer.version for offer in offers if wanted(offer.version)), key=semver.Version.key,
               default=None)


def below_floor(comparators, version):
    """Whether a comparator other than < and <= names a later version."""
    return any(version.key()[:3] < ((*one.numbers, 0, 0)[:3], not one.pre, semver.identifiers(one.pre))
               for one in comparators if one.op not in ("<", "<="))


def floor_numbers(comparators):
    """The numbers of the greatest version that a comparator other than < and <= names; none without one."""
    named = [(*one.numbers, 0, 0)[:3] for one in comparators if one.op not in ("<", "<=")]
    return max(named, default=None)


def is_within(level, comparators, version):
    """Whether a version has the numbers of the floor that a level keeps."""
    floor = floor_numbers(comparators)
    return floor is None or version.numbers[:KEPT[level]] == floor[:KEPT[level]]


def latest_text(options, old, comparators, latest, compatible):
    """The text for the latest version, where it is another one than the compatible one."""
    if latest is None or (compatible and latest.plain() == compatible.plain()):
        return None
    if options.never_lower and below_floor(comparators, latest):
        return None
    text = semver.raised(old, latest)
    return latest.plain() if text is None else (None if text == old else text)


def compatible_text(old, compatible):
    """The text for the greatest compatible version; the old one where that cannot be raised."""
    if compatible is None:
        return None
    return semver.raised(old, compatible) or old


def is_left_out(options, entry):
    """Whether an entry is not to be upgraded."""
    return options.named and entry.name not in options.packages or entry.name in options.excluded


def decided(options, entry, offers, rust):
    """The requirement that an entry has afterwards."""
    if is_left_out(options, entry):
        return entry.old
    comparators = semver.read_requirement(entry.old)
    pinned = entry.renamed or any(one.op in PINS for one in comparators or [])
    given = options.packages.get(entry.name)
    if given is not None and (not pinned or options.pinned):
        return given
    if comparators is None:
        return entry.old
    own = offers.get(entry.name, []) if entry.registry else []
    fine = [offer for offer in own if (rust is None or offer.rust is None or offer.rust <= rust)
            and is_within(options.level, comparators, offer.version)]
    latest = greatest(fine, lambda version: "-" in entry.old or not version.pre)
    compatible = greatest(fine, lambda version: semver.admits(comparators, version))
    far = latest_text(options, entry.old, comparators, latest, compatible)
    if far is not None and (options.pinned if pinned else options.incompatible):
        return far
    near = compatible_text(entry.old, compatible)
    return near if near is not None and options.compatible else entry.old


def expected(tree, options, offers, rust):
    """The requirements that change: the place of each, with its new text."""
    changed = {}
    for entry in entries(tree):
        if entry.old is not None:
            new = decided(options, entry, offers, rust)
            if new != entry.old:
                changed[entry.place] = new
    return changed
