"""errors.py PROGRAM: provokes each error of the program in a workspace of three members, of which one is wrong, and
searches standard error for the wrong file, the entry or line, and the help. Each run has to leave every file as it was."""

import json
import os
import shutil
import subprocess
import sys
import tempfile

PROGRAM = os.path.abspath(sys.argv[1])
ROOM = os.path.realpath(tempfile.mkdtemp())
WORKSPACE = ROOM + "/ws"
PACKAGE = '[package]\nname = "m%d"\nversion = "%s"\n'
INDEX = '{"name":"q","vers":"1.5.0"}\n'
REGISTRY = '[registries.r]\nindex = "file://%s/registry"\n' % ROOM

# Errors that no run of the program ends with.
NOT_SHOWN = {
    4: "the program makes each path absolute first",
    8: "of Manifest::remove_from_table, which no command calls",
    9: "of Manifest::remove_from_table, which no command calls",
    10: "of get_dep_version, which no command calls",
    11: "of get_dep_version, which no command calls",
    12: "of get_dep_version and set_dep_version, which no command calls",
    21: "an entry that is not read is a warning of `upgrade`",
    22: "an entry that is not read is a warning of `upgrade`",
    23: "an entry that is not read is a warning of `upgrade`",
    24: "an entry that is not read is a warning of `upgrade`",
    25: "an entry that is not read is a warning of `upgrade`",
    26: "`--rust-version` is refused as a usage error",
    38: "of manifest_from_pkgid, which no command calls",
    47: "usage errors print clap's own text",
    48: "of the arguments, which a machine that runs the program has",
    49: "an edit of a plan replaces literals alone, which is never refused",
}
# The system's error for a link to itself.
LOOP = "  cause: Too many levels of symbolic links"
# Errors that concern no file: of the command line, of a stream, or of memory.
NO_FILE = {19, 20, 39, 43, 44, 45, 46}

failures = []
seen = set()


def put(path, text):
    os.makedirs(os.path.dirname(path), exist_ok=True)
    with open(path, "wb") as file:
        file.write(text if isinstance(text, bytes) else text.encode())


def all_files():
    """Each file of the workspace with its bytes; a link with where it leads."""
    found = {}
    for folder, _, names in os.walk(ROOM):
        for name in names:
            path = folder + "/" + name
            if os.path.islink(path):
                found[path] = os.readlink(path)
            elif os.path.isfile(path):
                with open(path, "rb") as file:
                    found[path] = file.read()
    return found


def workspace(third=PACKAGE % (2, "0.1.0"), version="0.1.0", root="[workspace]\n", config=None):
    """Three members: two that are right, and a third one with this text and this version in the metadata."""
    shutil.rmtree(WORKSPACE, ignore_errors=True)
    shutil.rmtree(ROOM + "/registry", ignore_errors=True)
    put(WORKSPACE + "/Cargo.toml", root)
    for number, text in ((0, PACKAGE % (0, "0.1.0")), (1, PACKAGE % (1, "0.1.0")), (2, third)):
        if text is not None:
            put("%s/m%d/Cargo.toml" % (WORKSPACE, number), text)
    packages = [
        {"name": "m%d" % i, "id": "m%d" % i, "version": v, "manifest_path": "%s/m%d/Cargo.toml" % (WORKSPACE, i)}
        for i, v in ((0, "0.1.0"), (1, "0.1.0"), (2, version))
    ]
    metadata = {"workspace_root": WORKSPACE, "workspace_members": [p["id"] for p in packages], "packages": packages}
    put(WORKSPACE + "/m.json", json.dumps(metadata))
    put(WORKSPACE + "/ix", INDEX)
    if config is not None:
        put(WORKSPACE + "/.cargo/config.toml", config)
    return metadata


def entries(text):
    return PACKAGE % (2, "0.1.0") + "\n[dependencies]\n" + text


def check(number, args, first, *parts, status=1, env=None, limit=None, stdout=subprocess.PIPE):
    """Runs the program, and compares the first line of standard error and searches it for the parts."""
    before = all_files()
    command = [PROGRAM, *args]
    if limit is not None:
        command = ["sh", "-c", 'ulimit -v %d; exec "$@"' % limit, "", *command]
    ran = subprocess.run(
        command, stdout=stdout, stderr=subprocess.PIPE, cwd=WORKSPACE, env={"HOME": ROOM + "/home", **(env or {})}, timeout=60
    )
    output = ran.stderr.decode(errors="replace")
    lines = output.split("\n")
    wrong = []
    if ran.returncode != status:
        wrong.append("status %d and not %d" % (ran.returncode, status))
    if first not in lines:
        wrong.append("no line %r" % first)
    for part in parts:
        part = part.replace("@", WORKSPACE)
        if part not in output:
            wrong.append("no %r" % part)
    if number not in NO_FILE and ROOM not in output:
        wrong.append("no path")
    if all_files() != before:
        wrong.append("files changed")
    if wrong:
        failures.append("%d, %s: %s\n%s" % (number, " ".join(args), "; ".join(wrong), output))
    seen.add(number)


def upgrade(number, first, *parts, args=("--index-file", "ix"), **more):
    check(number, ["upgrade", "--metadata-json", "m.json", *args], first, *parts, **more)


def set_version(number, args, first, *parts, **more):
    check(number, ["set-version", "--metadata-json", "m.json", *args], first, *parts, **more)


def manifests():
    """Manifests that are no TOML, not UTF-8, missing, or unreadable."""
    line = 'q = "1.0'
    workspace(entries(line + "\n"))
    shown = "  at @/m2/Cargo.toml:6:5\n      |\n    6 | %s\n      |     ^\n  cause: " % line
    upgrade(1, "Error: Unable to parse Cargo.toml", shown)
    set_version(1, ["--bump", "minor"], "Error: Unable to parse Cargo.toml", shown)
    check(1, ["upgrade", "--manifest-path", "m2"], "Error: Unable to parse Cargo.toml", shown)
    workspace(entries('q = "\x1b[2J\u202e\n'))
    upgrade(1, "Error: Unable to parse Cargo.toml", ' 6 | q = "\\u{1b}[2J\\u{202e}\n')
    workspace(b"[package]\nname = '\xff'\n")
    upgrade(2, "Error: Failed to read manifest contents", "  at @/m2/Cargo.toml\n")
    set_version(2, ["--bump", "minor"], "Error: Failed to read manifest contents", "  at @/m2/Cargo.toml\n")
    workspace(None)
    upgrade(5, "Error: Failed to read manifest contents", "  at @/m2/Cargo.toml\n")
    set_version(5, ["--bump", "minor"], "Error: Failed to read manifest contents", "  at @/m2/Cargo.toml\n")
    os.makedirs(WORKSPACE + "/m2")
    os.symlink("Cargo.toml", WORKSPACE + "/m2/Cargo.toml")
    upgrade(3, "Error: Failed to read a file", "  at @/m2/Cargo.toml\n", LOOP)
    set_version(3, ["--bump", "minor"], "Error: Failed to read a file", "  at @/m2/Cargo.toml\n", LOOP)
    check(3, ["upgrade", "--manifest-path", "m2"], "Error: Failed to look at a path", "  at @/m2\n", LOOP)
    workspace()
    check(6, ["upgrade", "--metadata-json", "none.json"], "Error: Failed to get cargo file metadata", "  at @/none.json\n")
    upgrade(6, "Error: Failed to get cargo file metadata", "  at @/none\n", args=["--index-file", "none"])
    check(6, ["upgrade", "--manifest-path", "none"], "Error: Failed to get cargo file metadata", "  at @/none\n")
    os.remove(WORKSPACE + "/Cargo.toml")
    check(7, ["upgrade", "--manifest-path", "."], "Error: Unable to find Cargo.toml for %s" % WORKSPACE)
    workspace()
    os.makedirs(WORKSPACE + "/.cargo")
    os.symlink("config.toml", WORKSPACE + "/.cargo/config.toml")
    upgrade(3, "Error: Failed to read a file", "  at @/.cargo/config.toml\n", LOOP)


def versions():
    """Versions that are missing or cannot be raised, and requirements that cannot follow."""
    all_of = ["--bump", "minor", "--workspace"]
    workspace('[package]\nname = "m2"\n')
    help_line = "  help: leave this package out by `--exclude m2`\n"
    set_version(13, all_of, "Error: No version literal to set", "  at @/m2/Cargo.toml\n", help_line)
    workspace(entries('m0 = { path = "../m0", version = "x y" }\n'))
    set_version(
        14, all_of, "Error: Invalid version requirement `x y`", "  at @/m2/Cargo.toml:6:34\n", "`m0`", "  help: "
    )
    workspace(entries('[dependencies.m0]\npath = "../m0"\nversion = ">=0.1"\n'))
    set_version(
        15, all_of, "Error: Support for modifying >=0.1 is currently unsupported", "  at @/m2/Cargo.toml:8:11\n", "`m0`"
    )
    text = "1.0.0-rc.1"
    workspace(PACKAGE % (2, text), text)
    place = "  at @/m2/Cargo.toml:3:11\n"
    first = "Error: Cannot increment the alpha field for 1.0.0-rc.1"
    set_version(16, ["--bump", "alpha", "--workspace"], first, place, "`m2` has the version 1.0.0-rc.1", help_line)
    text = "1.0.0-rc.x"
    workspace(PACKAGE % (2, text), text)
    first = "Error: This version scheme is not supported. Use format like `pre`, `dev` or `alpha.1` for prerelease symbol"
    set_version(17, ["--bump", "rc", "--workspace"], first, place, help_line)
    text = "0.18446744073709551615.0"
    workspace(PACKAGE % (2, text), text)
    set_version(18, all_of, "Error: A number of %s is at its end" % text, place, help_line)
    workspace(PACKAGE % (2, "5.0.0"), "5.0.0")
    set_version(41, ["2.0.0"], "Error: Cannot downgrade from 5.0.0 to 2.0.0", place, help_line)
    workspace()
    set_version(19, ["--bump", "minor", "-m", "\u00e9"], "Error: Invalid build metadata `\u00e9`")
    set_version(39, ["--bump", "minor", "-p", "mm2"], "Error: package mm2 doesn't exist", "`m2`")
    root = '[workspace.package]\nversion = "0.1.0"\n'
    workspace('[package]\nname = "m2"\nversion.workspace = true\n', root=root)
    put(WORKSPACE + "/m1/Cargo.toml", '[package]\nname = "m1"\nversion.workspace = true\n')
    first = "Error: Cannot exclude m2 package(s) when m1 package(s) modify `workspace.package.version`"
    set_version(40, [*all_of, "--exclude", "m2"], first, "  at @/Cargo.toml\n", "  help: ")
    root = '[workspace.package]\nversion = "5.0.0"\n'
    workspace('[package]\nname = "m2"\nversion.workspace = true\n', version="5.0.0", root=root)
    set_version(41, ["2.0.0"], "Error: Cannot downgrade from 5.0.0 to 2.0.0", "  at @/Cargo.toml:2:11\n")


def registries():
    """Registries that are not defined, or whose index cannot be read."""
    workspace(entries('q = "1.0"\n'))
    first = "Error: Registry scheme `sparse+https` is not supported"
    upgrade(27, first, "  at @/m2/Cargo.toml:6:5\n", "--index-file", "--index-dir", "cargo upgrade", args=[])
    used = entries('q = { version = "1", registry = "r" }\n')
    place = "  at @/m2/Cargo.toml:6:5\n"
    workspace(used, config='[registries.r]\nindex = "file:///%ff"\n')
    upgrade(28, "Error: invalid file path file:///%ff", place, "@/.cargo/config.toml", args=[])
    workspace(entries('ok = "1"\n"\u00e9" = "1.0"\n'))
    upgrade(29, "Error: Invalid crate name `\u00e9`", "  at @/m2/Cargo.toml:7:7\n", "  cause: ")
    workspace(used)
    upgrade(32, "Error: The registry 'r' could not be found", place, "`q`", "  help: define `registries.r.index`")
    workspace(entries('q = { version = "1", registry = "crates-io" }\n'))
    upgrade(32, "Error: The registry 'crates-io' could not be found", place, "  help: leave out `registry")
    workspace(used, config='[source.r]\nreplace-with = "zz"\n')
    upgrade(33, "Error: The source 'zz' could not be found", place, "`source.r` in @/.cargo/config.toml", "`q`")
    config = '[source.crates-io]\nreplace-with = "v"\n[source.v]\ndirectory = "vendor"\n'
    workspace(entries('q = "1"\n'), config=config)
    upgrade(34, "Error: missing `registry`", place, "`source.v` in @/.cargo/config.toml", "  help: ")
    workspace(used, config='[registries.r]\nindex = "::"\n')
    upgrade(35, "Error: invalid `registry` field", place, "`r` in @/.cargo/config.toml", "  help: ")
    workspace(entries('q = "1"\n'), config="a = 1\nb = 2\nc = \n")
    first = "Error: invalid cargo config at %s/.cargo/config.toml" % WORKSPACE
    upgrade(31, first, "  at @/.cargo/config.toml:3:5\n", " 3 | c = \n", "  cause: ")
    workspace(entries('q = "1"\n'), config="[registries]\nr = 1\n")
    upgrade(31, first, "  at @/.cargo/config.toml\n", "  cause: `registries`")


def index_entries():
    """Lines that are no index lines, in each kind of index, and an entry that cannot be read."""
    bad = INDEX + '{"name":"q"}\n'
    workspace(entries('q = "1.0"\n'))
    put(WORKSPACE + "/ix", bad)
    upgrade(30, "Error: Invalid index line 2", "  at @/ix:2\n")
    registry = "sparse+https:%2F%2Findex.crates.io%2F"
    put("%s/dir/%s/1/q" % (WORKSPACE, registry), bad)
    upgrade(30, "Error: Invalid index line 2", "  at @/dir/%s/1/q:2\n" % registry, "  cause: ", args=["--index-dir", "dir"])
    os.remove("%s/dir/%s/1/q" % (WORKSPACE, registry))
    os.symlink("q", "%s/dir/%s/1/q" % (WORKSPACE, registry))
    upgrade(3, "Error: Failed to read a file", "  at @/dir/%s/1/q\n" % registry, LOOP, args=["--index-dir", "dir"])
    workspace(entries('q = { version = "1", registry = "r" }\n'), config=REGISTRY)
    put(ROOM + "/registry/1/q", bad)
    upgrade(30, "Error: Invalid index line 2", "  at %s/registry/1/q:2\n" % ROOM, "  cause: ", args=[])


def metadata():
    """Metadata that are no JSON, lack a member, or name a folder twice."""
    first = "Error: Invalid workspace metadata"
    help_line = "  help: the file has to be what `cargo metadata --format-version 1` prints\n"
    workspace()
    put(WORKSPACE + "/m.json", '{"workspace_root":\n  nothing}')
    upgrade(36, first, "  at @/m.json:2:", "  cause: ", help_line)
    changed = workspace()
    del changed["packages"][2]["manifest_path"]
    put(WORKSPACE + "/m.json", json.dumps(changed))
    upgrade(36, first, "  at @/m.json\n", '  cause: `manifest_path` is not an absolute path in the package "m2"\n', help_line)
    changed = workspace()
    changed["packages"][2]["version"] = "1"
    put(WORKSPACE + "/m.json", json.dumps(changed))
    set_version(36, ["--bump", "minor"], first, "  at @/m.json\n", '`version` is not a version in the package "m2"')
    changed = workspace()
    changed["workspace_root"] = WORKSPACE + "\n--config\nother.toml"
    put(WORKSPACE + "/m.json", json.dumps(changed))
    upgrade(36, first, "  at @/m.json\n", "  cause: `workspace_root` has a line end\n", help_line)
    changed = workspace()
    changed["packages"][2]["manifest_path"] = WORKSPACE + "/m1/other.toml"
    put(WORKSPACE + "/m.json", json.dumps(changed))
    upgrade(37, "Error: Two members share the folder %s/m1" % WORKSPACE, "  at @/m.json\n")


def policies():
    """Policies with an unknown key, or with a value that is not what its key has to be."""
    table = "[workspace.metadata.cargo-edit]\n"
    first = "Error: Invalid policy"
    workspace(root=table + "pinned = true\n")
    cause = '  cause: `workspace.metadata.cargo-edit.pinned` has to be "allow" or "ignore"\n'
    upgrade(50, first, "  at @/Cargo.toml:2:10\n", cause, "  help: `--no-policy` ignores the policy\n")
    workspace(root=table + "never_lower = true\n")
    cause = "  cause: `workspace.metadata.cargo-edit.never_lower` is not a key of a policy\n"
    upgrade(50, first, "  at @/Cargo.toml:2:15\n", cause, "  help: a policy has the keys ")


def deliveries():
    """Plans that are made but not applied."""
    workspace(entries('q = "1.0"\n'))
    held = ["--index-file", "ix", "--locked"]
    upgrade(42, "Error: cannot upgrade due to `--locked`", "  at @/m2/Cargo.toml\n", "  help: ", args=held)
    workspace(entries('serde_json = "1.0"\n'))
    near = ["--index-file", "ix", "-n", "-p", "serde-json"]
    upgrade(43, "Error: dependency serde-json doesn't exist", "`serde_json`", args=near)
    upgrade(20, "Error: Invalid name `a/b`: /", args=["--index-file", "ix", "-p", "a/b"])
    for command in ("add", "rm"):
        check(44, [command], "Error: `cargo %s` has been merged into cargo %s+ as of cargo-edit %s, either" % {
            "add": ("add", "1.62", "0.10"), "rm": ("rm", "1.66", "0.12")
        }[command])
    with open("/dev/full", "wb") as full:
        upgrade(45, "Error: Failed to write message", "\n  at standard output\n", args=["--index-file", "ix", "-n", "--message-format", "json"], stdout=full)
        with tempfile.TemporaryDirectory() as room:
            check(45, ["fetch-plan", "--cache", room + "/cache", "--room", room, "--", "--metadata-json", "m.json"],
                  "Error: Failed to write message", "\n  at standard output\n", stdout=full)
    put(WORKSPACE + "/ix", INDEX * 400000)
    upgrade(46, "Error: out of memory", limit=30000)


for part in (manifests, versions, registries, index_entries, metadata, policies, deliveries):
    part()
missing = sorted(set(range(1, 51)) - seen - set(NOT_SHOWN))
if missing:
    failures.append("errors that nothing provokes: %s" % missing)
shutil.rmtree(ROOM)
for failure in failures:
    print(failure)
print("%d errors provoked, %d that no run shows, %d failures" % (len(seen), len(NOT_SHOWN), len(failures)))
sys.exit(1 if failures else 0)
