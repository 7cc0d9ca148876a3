"""The case of a seed and a number: always the same one."""

import random

from cases import HERE, Case
from command_lines import any_options, set_version_options, upgrade_options
from inputs import configuration, index, metadata, registry_package
from manifests import manifest, mutated

NAMES = ("serde", "log", "a", "ab", "abc", "foo_bar", "tokio-util", "Inflector", "x1", "serde_json", "r-2")
REGISTRIES = ("r", "my-registry", "R_2")
VERSIONS = ("0.1.0", "0.2.3", "1.0.0", "1.2.3", "1.0.0-alpha.1", "1.0.0-beta", "2.0.0-rc.3", "0.0.1",
            "1.0.0+b", "10.20.30")
RUST = ("1.56", "1.60.0", "1.65", "1.70", "2")
INDEX = ["--index-file", f"{HERE}/index.json"]
METADATA = ["--metadata-json", f"{HERE}/metadata.json"]


def names_for(rng):
    """The names of crates in a case; rarely one that no crate may have."""
    names = rng.sample(NAMES, rng.choice((2, 4, 6)))
    return names + (["\u00e9"] if rng.random() < 0.01 else [])


def registries_for(rng, files):
    """The names of registries, and the configuration that defines them (rarely not all of them)."""
    if rng.random() < 0.7:
        return ()
    names = rng.sample(REGISTRIES, rng.choice((1, 2)))
    known = names[:1] if rng.random() < 0.04 else names
    where = rng.choice(("ws/.cargo/config.toml", "ws/.cargo/config", ".cargo/config.toml",
                        "home/.cargo/config.toml"))
    files[where] = configuration(rng, known)
    return names


def spoilt(rng, text, share=0.1):
    """A manifest's bytes, rarely with a few of them changed."""
    data = text.encode()
    return mutated(rng, data) if rng.random() < share else data


def package_members(rng, rust=True):
    """Members of the table of a package, beside its name."""
    members = [(["version"], lambda w: w.string("0.1.0")), (["edition"], lambda w: w.string("2021"))]
    if rust and rng.random() < 0.3:
        number = rng.choice(RUST)
        members.append((["rust-version"], lambda w: w.string(number)))
    return members


def one_manifest(rng):
    """An upgrade of one manifest."""
    files, names = {}, names_for(rng)
    registries = registries_for(rng, files)
    package = ("p", package_members(rng)) if rng.random() < 0.8 else None
    files["ws/Cargo.toml"] = spoilt(rng, manifest(rng, names, registries, package, rng.random() < 0.2).text())
    files["index.json"] = index(rng, names)
    where = rng.choice(([], ["--manifest-path", f"{HERE}/ws/Cargo.toml"], ["--manifest-path", f"{HERE}/ws"],
                        ["--manifest-path", "Cargo.toml"]))
    return Case(files, ["upgrade", *where, *INDEX, *upgrade_options(rng, names)])


def members_of(rng):
    """The members of a workspace: the name of each, its version, its folder, and what its package has
    further."""
    members = []
    for number in range(rng.choice((1, 2, 3, 5))):
        folder = rng.choice((f"m{number}", f"crates/m{number}", f"\u00e9{number}", f"m {number}"))
        further = {"rust_version": rng.choice(RUST)} if rng.random() < 0.3 else {}
        members.append((f"m{number}", rng.choice(VERSIONS), folder, further))
    if rng.random() < 0.3:
        members.append(("root", rng.choice(VERSIONS), "", {}))
    return members


def path_of(folder):
    """The path of the manifest in a folder of the workspace."""
    return "/".join(part for part in ("ws", folder, "Cargo.toml") if part)


def workspace(rng):
    """An upgrade of a workspace."""
    files, names = {}, names_for(rng)
    registries = registries_for(rng, files)
    members = members_of(rng)
    files["ws/Cargo.toml"] = manifest(rng, names, registries, None, True).text().encode()
    for name, _, folder, _ in members:
        made = manifest(rng, names, registries, (name, package_members(rng, False)), not folder)
        files[path_of(folder)] = spoilt(rng, made.text(), 0.03)
    files["index.json"] = index(rng, names)
    others = [registry_package(name, rng.choice(VERSIONS)) for name in names if rng.random() < 0.5]
    files["metadata.json"] = metadata(rng, members, others)
    return Case(files, ["upgrade", *METADATA, *INDEX, *upgrade_options(rng, names)])


def relative(folder, other):
    """The path from one folder of the workspace to another."""
    up = "/".join([".."] * len([part for part in folder.split("/") if part]))
    return "/".join(part for part in (up, other) if part) or "."


def requirement_on(rng, number):
    """A requirement on a version, which admits it mostly."""
    release = number.split("+")[0]
    parts = release.split("-")[0].split(".")
    kind = rng.random()
    if kind < 0.5:
        return rng.choice(("", "^", "~", "=")) + release
    if kind < 0.95 and "-" not in release:
        return rng.choice(("", "^", "~")) + ".".join(parts[:rng.choice((1, 2))])
    return rng.choice(("*", "0.1", ">=0.1", "1.*", "x y"))


def depend(rng, made, folder, members, place):
    """Adds a table with path dependencies on other members."""
    entries = []
    for name, number, other, _ in members:
        if rng.random() < 0.5 and (other or folder):
            text, path = requirement_on(rng, number), relative(folder, other)
            pairs = [(["path"], lambda w, path=path: w.string(path))]
            if rng.random() < 0.85:
                pairs.append((["version"], lambda w, text=text: w.string(text)))
            key = name
            if rng.random() < 0.15:
                key = name + "-renamed"
                pairs.append((["package"], lambda w, name=name: w.string(name)))
            rng.shuffle(pairs)
            entries.append((key, pairs))
    if entries:
        made.add_table(place, entries)


def set_version(rng):
    """New versions for members of a workspace. (A member that inherits a version which the root does not have
    is left out, and so is one without any version: the one is reported as bumped, and is not, and the other has a
    row of its own.)"""
    files, members = {}, members_of(rng)
    shared = rng.choice(VERSIONS)
    inherits = rng.random() < 0.4
    members = [(name, shared if inherits and rng.random() < 0.5 else number, folder, further)
               for name, number, folder, further in members]
    written = {}
    for name, number, folder, _ in members:
        own = [(["version", "workspace"], lambda w: "true")] if inherits and number == shared else \
            [(["version"], lambda w, number=number: w.string(number))]
        place = rng.choice((["dependencies"], ["dependencies"], ["dev-dependencies"],
                            ["target", "cfg(x)", "dependencies"]))
        made = manifest(rng, ("serde", "log"), (), (name, own), False, place)
        depend(rng, made, folder, members, place)
        written[folder] = made
    root = written.get("") or manifest(rng, ("serde", "log"), (), None, False)
    header, value = root.w.header(["workspace", "package"]), root.w.string(shared)
    root.sections.append(header + root.w.pair(["version"], value))
    depend(rng, root, "", members, ["workspace", "dependencies"])
    written[""] = root
    for folder, made in written.items():
        files[path_of(folder)] = spoilt(rng, made.text(), 0.03)
    files["metadata.json"] = metadata(rng, members)
    return Case(files, ["set-version", *METADATA, *set_version_options(rng, [name for name, *_ in members])])


def command_line(rng):
    """Arguments of every kind, over files that any of them may name."""
    case = workspace(rng) if rng.random() < 0.5 else set_version(rng)
    case.files.setdefault("index.json", b'{"name":"serde","vers":"1.5.0"}\n')
    command = rng.choice(("upgrade", "upgrade", "set-version", "set-version", "looks", "add", "rm", "", "x"))
    args = [command] if command else []
    if rng.random() < 0.9:
        args += METADATA
    if rng.random() < 0.7 and command in ("upgrade", "looks"):
        args += INDEX
    return Case(case.files, args + any_options(rng), False)


def case_of(seed, number):
    """The case of a seed and a number."""
    rng = random.Random(f"{seed}/{number}")
    kinds = (one_manifest, one_manifest, one_manifest, workspace, workspace, set_version, set_version,
             command_line)
    return rng.choice(kinds)(rng)
