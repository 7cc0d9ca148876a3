"""What `set-version` should leave, worked out from the documents (docs/SET-VERSION.md) apart from the
program."""

import json
import posixpath
from dataclasses import dataclass, field, replace

import semver
from confined import NoTree, tree_of
from oracle import Unknown, tables

PHASES = ("alpha", "beta", "rc")
LEVELS = ("major", "minor", "patch", "release", *PHASES)


class Fails(Exception):
    """The run has to end with an error; its text says why."""


@dataclass
class Options:
    """The options of a command line of `set-version`."""
    level: str = "release"
    target: semver.Version | None = None
    build: str | None = None
    packages: list = field(default_factory=list)
    excluded: list = field(default_factory=list)
    every: bool = False


@dataclass
class Member:
    """A member of the workspace: its version as the metadata have it, its manifest, and whether it inherits
    its version."""
    name: str
    version: semver.Version
    path: str
    inherits: bool


def options_of(args):
    """The options of these arguments; Unknown where they have a form that no case has."""
    options, at, seen = Options(), 0, set()
    while at < len(args):
        arg, value = args[at], None
        at += 1
        if arg[:2] in ("-p", "-m") and len(arg) > 2:
            arg, value = arg[:2], arg[2:]
        elif arg.startswith("--") and "=" in arg:
            arg, value = arg.split("=", 1)
        elif arg in ("--bump", "-p", "--package", "-m", "--metadata", "--exclude", "--metadata-json"):
            if at == len(args) or args[at].startswith("-"):
                raise Unknown("an option without its value")
            value, at = args[at], at + 1
        if value == "" or arg in seen and arg not in ("-p", "--package", "--exclude"):
            raise Unknown("an option twice, or with an empty value")
        seen.add(arg)
        take(options, arg, value)
    selections = ({"--workspace"} & seen, {"--all"} & seen, options.packages)
    if sum(map(bool, selections)) > 1 or options.target and "--bump" in seen:
        raise Unknown("options that exclude each other")
    return options


def take(options, arg, value):
    """Takes one argument."""
    if arg == "--bump" and value in LEVELS:
        options.level = value
    elif arg in ("-m", "--metadata"):
        options.build = value
    elif arg in ("-p", "--package"):
        options.packages.append(value)
    elif arg == "--exclude":
        options.excluded.append(value)
    elif arg in ("--workspace", "--all"):
        options.every = True
    elif arg == "--metadata-json":
        pass
    elif not arg.startswith("-") and not options.target and semver.read_version(arg):
        options.target = semver.read_version(arg)
    else:
        raise Unknown(f"the argument {arg}")


# ---- versions

def next_phase(phase, version):
    """The next pre-release of a phase."""
    if not version.pre:
        major, minor, patch = version.numbers
        return semver.Version((major, minor, patch + 1), f"{phase}.1")
    arg, _, number = version.pre.partition(".")
    if number and not number.isdigit() or arg in PHASES and PHASES.index(arg) > PHASES.index(phase):
        raise Fails("a pre-release that has no next one")
    return replace(version, pre=f"{phase}.{int(number or 0) + 1 if arg == phase else 1}")


def by_level(level, version):
    """The version of the next level."""
    major, minor, patch = version.numbers
    if level in PHASES:
        return next_phase(level, version)
    if level == "release" or level == "patch" and version.pre:
        return replace(version, pre="")
    return semver.Version({"major": (major + 1, 0, 0), "minor": (major, minor + 1, 0),
                           "patch": (major, minor, patch + 1)}[level])


def bumped(options, version):
    """The next version; none where it stays."""
    if options.build is not None and semver.read_version(f"1.0.0+{options.build}") is None:
        raise (Unknown if options.target else Fails)("build metadata that are none")
    if options.target:
        if options.target.key() < version.key():
            raise Fails("a lower version")
        if options.target.key() == version.key():
            return None
        other = version.build if options.build is None else options.build
        return replace(options.target, build=options.target.build or other)
    made = by_level(options.level, version)
    made = made if options.build is None else replace(made, build=options.build)
    return None if made == version else made


# ---- the workspace

def inherits(tree):
    """Whether a package inherits its version; Unknown where it has none that can be read."""
    package = tree.get("package")
    version = package.get("version") if isinstance(package, dict) else None
    if version == {"workspace": True}:
        return True
    if not isinstance(version, str):
        raise Unknown("a package without a version")
    return False


def read_members(files, here):
    """The members, in the order of the metadata's packages, with the trees of all manifests."""
    listed = json.loads(files["metadata.json"])
    trees, members = {"ws/Cargo.toml": tree_of(files["ws/Cargo.toml"])}, []
    for package in listed["packages"]:
        if package["id"] in listed["workspace_members"]:
            path = package["manifest_path"].removeprefix(here + "/")
            trees[path] = tree_of(files[path])
            members.append(Member(package["name"], semver.read_version(package["version"]), path,
                                  inherits(trees[path])))
    return members, trees


def chosen(options, members):
    """The members that get a new version."""
    every = options.every or not options.packages
    if set(options.packages) - {member.name for member in members}:
        raise Fails("a name that no member has")
    mine = [one for one in members
            if (one.name not in options.excluded if every else one.name in options.packages)]
    sharing = any(one.inherits for one in mine)
    added = [one for one in members if sharing and one.inherits and one not in mine]
    if any(one.name in options.excluded for one in added):
        raise Fails("an excluded member that inherits")
    return mine + added, sharing or every and not options.excluded


def followers(path, tree, nexts):
    """The requirements of a manifest that follow the new versions, by their places."""
    for place, table in tables(tree):
        for key, entry in table.items():
            texts = [entry.get("path"), entry.get("version")] if isinstance(entry, dict) else [None]
            if all(isinstance(text, str) for text in texts):
                folder = posixpath.normpath(posixpath.join(posixpath.dirname(path), entry["path"]))
                if folder in nexts:
                    text = entry["version"]
                    new = semver.raised(text, nexts[folder])
                    if new is None or semver.read_requirement(text) is None:
                        raise Fails("a requirement that cannot be raised")
                    yield (*place, key, "version"), text, new


def expected(args, files, here):
    """For each manifest the places that change, with what stands there then, and how many of them are
    requirements; none where the run has to fail."""
    options = options_of(args)
    try:
        return planned(options, files, here)
    except (NoTree, Fails):
        return None, 0


def planned(options, files, here):
    """The same, where it does not fail."""
    members, trees = read_members(files, here)
    mine, shared = chosen(options, members)
    nexts, wanted = {}, {path: {} for path in trees}
    for one in mine:
        new = bumped(options, one.version)
        if new:
            nexts[posixpath.dirname(one.path)] = new
            if not one.inherits:
                wanted[one.path]["package", "version"] = str(new)
    package = trees["ws/Cargo.toml"].get("workspace", {}).get("package", {})
    current = package.get("version")
    current = semver.read_version(current) if isinstance(current, str) else None
    if current is None and (shared or any(one.inherits for one in members)):
        raise Unknown("a workspace without a version")
    if shared and bumped(options, current):
        wanted["ws/Cargo.toml"]["workspace", "package", "version"] = str(bumped(options, current))
    count = 0
    for path, tree in trees.items():
        for place, text, new in followers(path, tree, nexts):
            if new != text:
                wanted[path][place], count = new, count + 1
    return wanted, count
