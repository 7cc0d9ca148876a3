"""Faults in the actions of the program: each runs it with other arguments or another index, or spoils the files
that it wrote."""

import pathlib
import re
import subprocess

from planted_run import edit, fault, without


@fault
def comment_changed(run):
    run.go()
    for path in run.written():
        edit(path, rb"# keep", b"# Keep")


@fault
def blank_lost(run):
    run.go()
    for path in run.written():
        edit(path, rb"[ \t]+(\r?)$", rb"\1")


@fault
def line_ends_changed(run):
    run.go()
    for path in run.written():
        edit(path, rb"\r\n", b"\n", 0)


@fault
def byte_order_mark_lost(run):
    run.go()
    for path in run.written():
        edit(path, rb"\A\xef\xbb\xbf", b"")


@fault
def other_literal_rewritten(run):
    run.go()
    for path in run.written():
        edit(path, rb"= *'2021'", b'= "2021"')
        edit(path, rb"'main'", b'"main"')


@fault
def feature_changed(run):
    run.go()
    for path in run.written():
        edit(path, rb'"std"', b'"sdt"')


@fault
def patch_table_raised(run):
    run.go()
    for path in run.written():
        edit(path, rb"(crates-io['\"]?[ \t]*\][^\[]*?)(['\"])1\.0\2", rb"\g<1>\g<2>1.5\2")


@fault
def never_lower_ignored(run):
    run.go(without(run.args, "--never-lower"))


@fault
def level_ignored(run):
    run.go(without(run.args, "--level"))


@fault
def exclude_ignored(run):
    run.go(without(run.args, "--exclude"))


@fault
def pinned_ignored(run):
    run.go([arg for arg in run.args if arg != "--pinned"])


@fault
def rust_version_ignored(run):
    if run.has("--rust-version"):
        run.go([*without(run.args, "--rust-version"), "--ignore-rust-version"])
    else:
        run.go()


@fault
def own_rust_version_ignored(run):
    run.go(run.args if run.has("--rust-version", "--ignore-rust-version", "set-version", "add", "rm")
           or run.args[:1] != ["upgrade"] else [*run.args, "--ignore-rust-version"])


@fault
def compatible_ignored(run):
    run.go([re.sub("^--compatible=(ignore|false)$", "--compatible", arg) for arg in run.args])


@fault
def yanked_taken(run):
    for path in pathlib.Path("..").glob("index.json"):
        path.write_bytes(re.sub(rb'("yanked"\s*:\s*)true', rb"\1false", old := path.read_bytes()))
        run.go()
        path.write_bytes(old)
        return
    run.go()


@fault
def first_version_lost(run):
    for path in pathlib.Path("..").glob("index.json"):
        path.write_bytes(b"\n".join((old := path.read_bytes()).split(b"\n")[1:]))
        run.go()
        path.write_bytes(old)
        return
    run.go()


@fault
def written_at_a_dry_run(run):
    run.go()
    if run.has("-n", "--dry-run"):
        subprocess.run([run.program, *without(run.args, "-n", "--dry-run", "--diff")], capture_output=True,
                       check=False)


@fault
def written_at_a_check(run):
    run.go()
    if run.has("--check"):
        subprocess.run([run.program, *without(run.args, "--check")], capture_output=True, check=False)


@fault
def locked_ignored(run):
    run.go(without(run.args, "--locked"))


@fault
def file_left(run):
    run.go()
    if run.written():
        pathlib.Path("cargo-edit.new-0").write_bytes(b"")


@fault
def changed_by_an_error(run):
    run.go()
    if b"Error: " in run.err and run.before:
        path = next(iter(run.before))
        path.write_bytes(run.before[path] + b"\n")


@fault
def half_a_manifest(run):
    run.go()
    for path in run.written()[:1]:
        path.write_bytes(path.read_bytes()[:-5])


@fault
def second_run_changes(run):
    run.go()
    if not run.written() and run.status == 0 and not run.has("-n", "--check", "--locked", "looks"):
        for path in run.before:
            edit(path, rb'"(\d+)\.(\d+)"', rb'"\1.\2.0"')


@fault
def patch_for_minor(run):
    run.go([{"minor": "patch", "--bump=minor": "--bump=patch"}.get(arg, arg) for arg in run.args])


@fault
def build_metadata_lost(run):
    run.go([arg for arg in run.args if not arg.startswith("--metadata=")])


@fault
def dependents_left(run):
    run.go()
    if run.args[:1] == ["set-version"]:
        for path in run.written():
            old = run.before[path]
            new = re.sub(rb'((?:path|version)\s*=\s*)"\^', rb'\1"^', path.read_bytes())
            if b"path" in old and new.count(b"\n") == old.count(b"\n"):
                lines = [a if b"path" in a else b for a, b in zip(old.split(b"\n"), new.split(b"\n"))]
                path.write_bytes(b"\n".join(lines))
