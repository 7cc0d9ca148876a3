"""Families of inputs, each of which can be made at any size: what it is, its largest size, and how one of a
size is made. The exponent of a family is that of its work to the bytes of its input."""

import json
from dataclasses import dataclass
from typing import Callable

HERE = "@HERE@"
INDEX = ["--index-file", f"{HERE}/index.json"]
PACKAGE = b'[package]\nname="m"\n[dependencies]\n'
COMPARATORS = b", ".join(b">=0.%d" % number for number in range(31)) + b", <1.0.0"


@dataclass
class Family:
    """What it is, its largest size, and how the files and arguments of a size are made. `known` says which of
    its exponents are not linear yet: these are printed, and no failure."""
    what: str
    largest: int
    make: Callable[[int], tuple]
    known: tuple = ()
    status: int = 0


def numbered(count, line):
    """A line for each number."""
    return b"".join(line % number for number in range(count))


def lines(count):
    """An index line for each of so many crates."""
    return numbered(count, b'{"name":"c%d","vers":"1.5.0"}\n')


def versions(count):
    """So many versions of one crate."""
    return numbered(count, b'{"name":"x","vers":"1.%d.0"}\n')


def entries(count, line=b'c%d = "1.0"\n'):
    """A dependency table with so many entries."""
    return b"[dependencies]\n" + numbered(count, line)


def option(name, count, value):
    """An option so many times, each time with another value."""
    return [arg for number in range(count) for arg in (name, value % number)]


def single(manifest, index, args=(), config=None):
    """An upgrade of one manifest."""
    files = {"Cargo.toml": manifest, "index.json": index}
    if config is not None:
        files[".cargo/config.toml"] = config
    return files, ["upgrade", "--manifest-path", f"{HERE}/Cargo.toml", *INDEX, "-n", *args]


def package(number):
    """A package of the registry, as metadata have it."""
    return {"name": f"c{number}", "id": f"c{number}", "version": "1.0.0",
            "source": "registry+https://example.org/index",
            "manifest_path": f"/r/c{number}/Cargo.toml"}


def members(manifests, args, index=None, packages=(), config=None, root=b"[workspace]\n", deep=""):
    """A command over a workspace with these manifests."""
    files, listed = {"Cargo.toml": root}, []
    for number, text in enumerate(manifests):
        files[f"{deep}m{number}/Cargo.toml"] = text
        listed.append({"name": f"m{number}", "id": f"m{number}", "version": "0.1.0",
                     "manifest_path": f"{HERE}/{deep}m{number}/Cargo.toml"})
    ids = [one["id"] for one in listed]
    files["metadata.json"] = json.dumps({"workspace_root": HERE, "workspace_members": ids,
                                         "packages": listed + list(packages)}).encode()
    if index is not None:
        files["index.json"] = index
    if config is not None:
        files[".cargo/config.toml"] = config
    return files, [args[0], "--metadata-json", f"{HERE}/metadata.json",
                   *(INDEX if index is not None else []), "-n", *args[1:]]


def upgrade(manifests, index, **more):
    """An upgrade of a workspace."""
    return members(manifests, ["upgrade"], index, **more)


def bump(manifests, *args):
    """New versions for a workspace."""
    return members(manifests, ["set-version", "--bump", "minor", *(args or ["--workspace"])])


def own(number, rest=b""):
    """The manifest of a member with a version."""
    return b'[package]\nname="m%d"\nversion="0.1.0"\n' % number + rest


def on_path(number):
    """An entry of a path dependency on another member."""
    return b'm%d={path="../m%d",version="0.1"}\n' % (number, number)


def nested(count):
    """Metadata whose package has so many arrays, each 120 deep."""
    files, args = upgrade([entries(1)], lines(1))
    metadata = json.loads(files["metadata.json"])
    metadata["packages"][0]["metadata"] = "@ARRAYS@"
    arrays = ",".join(["[" * 120 + "]" * 120] * count)
    files["metadata.json"] = json.dumps(metadata).replace('"@ARRAYS@"', f"[{arrays}]").encode()
    return files, args


def one_package(count):
    """Metadata that name one package as member so many times."""
    files, args = upgrade([entries(1)], lines(1))
    metadata = json.loads(files["metadata.json"])
    metadata["workspace_members"] = ["m0"] * count
    files["metadata.json"] = json.dumps(metadata).encode()
    return files, args


def registries(count, address=b"file:///r"):
    """A configuration with so many registries."""
    return b"".join(b'registries.r%d.index="%s%d"\n' % (number, address, number) for number in range(count))


def rows():
    """Reports of an upgrade."""
    yield Family("entries that are raised", 10000, lambda n: single(entries(n), lines(n)))
    yield Family("entries that are raised, with --diff", 10000,
                 lambda n: single(entries(n), lines(n), ["--diff"]))
    yield Family("entries that are raised, as JSON", 10000,
                 lambda n: single(entries(n), lines(n), ["--message-format", "json"]))
    yield Family("entries that are raised, as a Markdown table", 10000,
                 lambda n: single(entries(n), lines(n), ["--message-format", "markdown"]))
    yield Family("entries that are raised, as annotations", 10000,
                 lambda n: single(entries(n), lines(n), ["--message-format", "github"]))
    yield Family("members with an annotation", 2000, lambda n: members(
        [entries(1)] * n, ["upgrade", "--message-format", "github"], lines(1)))
    yield Family("members of one row of a Markdown table", 2000, lambda n: members(
        [entries(1)] * n, ["upgrade", "--message-format", "markdown"], lines(1)))
    yield Family("warnings of unreadable requirements", 10000,
                 lambda n: single(entries(n, b'c%d = "x"\n'), b""))
    yield Family("warnings, as JSON", 10000, lambda n: single(entries(n, b'c%d = "x"\n'), b"",
                                                              ["--message-format", "json"]))
    yield Family("a table of n rows with a key of 4 n bytes", 2000, lambda n: single(
        entries(n) + b'"%s" = { package = "c0", version = "1.0" }\n' % (b"k" * n * 4), lines(n)))
    yield Family("rows that are not raised, with -vv", 10000,
                 lambda n: single(entries(n, b'c%d = "1.5.0"\n'), lines(n), ["-vv"]))
    yield Family("notes on rows that are not shown", 10000,
                 lambda n: single(entries(n, b'c%d = "1.5.0"\n'), lines(n)))
    yield Family("hunks of a diff", 8000, lambda n: single(
        b"[dependencies]\n" + b"".join(b'c%d = "1.0"\n' % at + b"# c\n" * 9 for at in range(n)), lines(n),
                                                           ["--diff"]))
    yield Family("--rows with the number of each row", 10000, lambda n: single(entries(n), lines(n), [
        "--rows", ",".join(str(number + 1) for number in range(n))]))
    yield Family("--rows with the name of each row", 8000, lambda n: single(entries(n), lines(n), [
        "--rows", ",".join(f"c{number}" for number in range(n))]))
    yield Family("--rows with ranges that overlap", 8000, lambda n: single(entries(n), lines(n), [
        "--rows", ",".join(f"{number + 1}-{n}" for number in range(n))]))
    yield Family("looks", 10000, lambda n: ({"Cargo.toml": entries(n)},
                                            ["looks", "--manifest-path", f"{HERE}/Cargo.toml"]))


def arguments():
    """Many arguments."""
    yield Family("-p for each entry", 10000, lambda n: single(entries(n), lines(n), option("-p", n, "c%d")))
    yield Family("-p NAME@REQ for each entry", 10000,
                 lambda n: single(entries(n), lines(n), option("-p", n, "c%d@1.1")))
    yield Family("one -p again and again", 10000, lambda n: single(entries(n), lines(n), ["-p", "c0"] * n))
    yield Family("-p of names that no entry has", 10000,
                 lambda n: single(entries(n), lines(n), option("-p", n, "w%d")), status=1)
    yield Family("--exclude for each entry", 10000,
                 lambda n: single(entries(n), lines(n), option("--exclude", n, "c%d")))
    yield Family("-v again and again", 20000, lambda n: single(entries(10), lines(10), ["-v"] * n))


def choices():
    """Requirements and versions."""
    yield Family("entries of one crate and its versions, none of which is admitted", 2000, lambda n: single(
        entries(n, b'c%d = { package = "x", version = "^0.1" }\n'), versions(n)))
    yield Family("the same with requirements of 32 comparators", 1000, lambda n: single(
        entries(n, b'c%%d = { package = "x", version = "%s" }\n' % COMPARATORS), versions(n)))
    yield Family("entries of one crate, all of whose versions are pre-releases", 4000, lambda n: single(
        entries(n, b'c%d = { package = "x", version = "1" }\n'),
        numbered(n, b'{"name":"x","vers":"1.0.0-a.%d"}\n')))
    yield Family("entries of one crate with requirements of their own, none of which admits a version", 2000,
                 lambda n: single(b"[dependencies]\n" + b"".join(
        b'c%d = { package = "x", version = "^0.%d" }\n' % (at, at) for at in range(n)), versions(n)), ("work",))
    yield Family("one requirement of 32 comparators over versions", 40000, lambda n: single(
        b'[dependencies]\nx = "%s"\n' % COMPARATORS, versions(n)))
    yield Family("versions that differ in build metadata alone", 40000, lambda n: single(
        b'[dependencies]\nx = "1"\n', numbered(n, b'{"name":"x","vers":"1.0.0+%d"}\n')))
    yield Family("50 pre-releases of many parts", 20000,
                 lambda n: single(b'[dependencies]\nx = "1"\n', b"".join(
        b'{"name":"x","vers":"1.0.0-%s.%d"}\n' % (b"a." * n + b"a", number) for number in range(50))))
    yield Family("targets, one crate", 10000, lambda n: single(
        numbered(n, b'[target.t%d.dependencies]\nx = "1.0"\n'), versions(50)))
    yield Family("features in [features] and in an entry", 40000, lambda n: single(
        b'[dependencies]\nx = { version = "1.0", features = [' + numbered(n, b'"f%d",') + b"] }\n[features]\n"
        + b"".join(b'g%d=["x/f%d"]\n' % (number, number) for number in range(n)), versions(5)))
    yield Family("features in an index line", 40000,
                 lambda n: single(b'[dependencies]\nx = "1.0"\n', b'{"name":"x","vers":"1.5.0",'
                 b'"features":{' + b",".join(b'"f%d":["f%d"]' % (number, number + 1)
                                             for number in range(n)) + b"}}\n"))


def workspaces():
    """Workspaces under an upgrade."""
    yield Family("members", 2000, lambda n: upgrade([PACKAGE + b'x="1.0"\n'] * n, versions(5)))
    yield Family("members and registries", 1000, lambda n: upgrade(
        [PACKAGE + b'x={version="1.0",registry="r%d"}\n' % number for number in range(n)], versions(5),
                                                                   config=registries(n)))
    yield Family("members, and registries with addresses of 1 kB", 500, lambda n: upgrade(
        [PACKAGE + b'x="1.0"\n'] * n, versions(5), config=registries(n, b"file:///" + b"r" * 990)))
    yield Family("members in folders that lie deeper", 1000, lambda n: upgrade(
        [PACKAGE + b'x="1.0"\n'] * n, versions(5), deep="d/" * (n // 10)))
    yield Family("calls of cargo update: packages of one member", 10000, lambda n: upgrade(
        [entries(n)], lines(n), packages=map(package, range(n))))
    yield Family("calls of cargo update: packages of many members", 1000, lambda n: upgrade(
        [PACKAGE + b'c%d="1.0"\n' % number for number in range(n)], lines(n),
        packages=map(package, range(n))))
    yield Family("calls of cargo update: git entries", 4000, lambda n: upgrade(
        [entries(n, b'c%d = { git = "https://e/x" }\n') + b'[dev-dependencies]\nc0="1.0"\n'], lines(n),
        packages=({**package(number), "source": "git+https://e/x#1"} for number in range(n))))
    yield Family("inheritance: each member each entry of the workspace", 400, lambda n: upgrade(
        [entries(n, b"c%d.workspace = true\n")] * n, lines(n),
        root=b"[workspace]\n[workspace.dependencies]\n" + numbered(n, b'c%d = "1.0"\n')))
    yield Family("metadata with arrays 120 deep", 8000, nested)
    yield Family("metadata that name one package again and again", 40000, one_package)
    yield Family("a policy that holds each crate", 6000, lambda n: upgrade(
        [entries(n)], lines(n), root=b"[workspace]\n[workspace.metadata.cargo-edit]\n"
        + numbered(n, b'crates.c%d.hold = "<2"\n')))
    yield Family("a configuration with keys of 80 parts", 4000, lambda n: upgrade(
        [PACKAGE + b'x="1.0"\n'], versions(5),
        config=numbered(n, b"a%d." + b".".join([b"a"] * 79) + b"=1\n")))
    yield Family("metadata of packages that are no members", 40000, lambda n: upgrade(
        [entries(1)], lines(1), packages=map(package, range(n))))


def new_versions():
    """New versions."""
    yield Family("set-version: members", 2000, lambda n: bump([own(number) for number in range(n)]))
    yield Family("set-version: each member on the one before", 2000, lambda n: bump(
        [own(number, b"[dependencies]\n" + (on_path(number - 1) if number else b"")) for number in range(n)]))
    yield Family("set-version: each member on all before", 240, lambda n: bump(
        [own(number, b"[dependencies]\n" + b"".join(map(on_path, range(number)))) for number in range(n)]))
    yield Family("set-version: -p for each member", 2000, lambda n: bump(
        [own(number) for number in range(n)], *option("-p", n, "m%d")))
    yield Family("set-version: -p of names that no member has", 10000,
                 lambda n: bump([own(0)], *option("-p", n, "w%d")), status=1)
    yield Family("set-version: --exclude for each member", 2000, lambda n: bump(
        [own(number) for number in range(n)], "--workspace", *option("--exclude", n, "m%d")))
    yield Family("set-version: requirements in one manifest", 10000, lambda n: bump(
        [own(0), own(1, b"[dependencies]\n" + numbered(n,
                                                       b'k%d={path="../m0",package="m0",version="0.1"}\n'))]))


def families():
    """All families."""
    for part in (rows, arguments, choices, workspaces, new_versions):
        yield from part()
