#!/usr/bin/env python3
"""diffs.py PROGRAM   what `--diff` prints is taken by git and patch: see diffs.sh. Prints each case that fails."""
import json
import os
import shutil
import subprocess
import sys
import tempfile

PROGRAM = sys.argv[1]
OLD = '[package]\nname = "%s"\nversion = "0.1.0"\n\n[dependencies]\nserde = "1.0"\n'
INDEX = '{"name":"serde","vers":"1.2.3"}\n'
# Names of a member's folder.
NAMES = ["m", "a b", " a", "a ", "a\tb", "a\nb", 'a"b', "a\\b", "a'b", "\x01\x1f\x7f", "\u00e9", 'a b"\u00e9', "x\u202ey", "a/b c/d"]
WAYS = [["git", "apply"], ["patch", "-p1"]]
failed = []


def put(path, text):
    os.makedirs(os.path.dirname(path), exist_ok=True)
    with open(path, "w", encoding="utf-8", newline="") as file:
        file.write(text)


def workspace(root, name):
    """A workspace in its own repository of git: a member at its root, and one in a folder of this name. Returns the paths
    of their manifests below the root."""
    os.makedirs(root)
    subprocess.run(["git", "init", "-q", root], check=True)
    paths = ["Cargo.toml", name + "/Cargo.toml"]
    for i, path in enumerate(paths):
        put(f"{root}/{path}", OLD % f"m{i}")
    packages = [{"name": f"m{i}", "id": f"m{i}", "version": "0.1.0", "manifest_path": f"{root}/{path}"}
                for i, path in enumerate(paths)]
    put(f"{root}/m.json", json.dumps({"workspace_root": root, "workspace_members": ["m0", "m1"], "packages": packages}))
    put(f"{root}/ix", INDEX)
    return paths


def texts(root, paths):
    found = []
    for path in paths:
        with open(f"{root}/{path}", encoding="utf-8", newline="") as file:
            found.append(file.read())
    return found


def run(root, current, args):
    return subprocess.run([PROGRAM, *args, "--metadata-json", f"{root}/m.json"], cwd=current, capture_output=True, timeout=10)


def case(top, number, name, args, folder):
    """The diff of a dry run, taken at the root, leaves what a run writes. The run is in this folder of the workspace."""
    what = f"{args[0]} in {folder!r} of {name!r}"
    root = f"{top}/{number}"
    paths = workspace(root, name)
    if args[0] == "upgrade":
        args = [*args, "--index-file", f"{root}/ix"]
    shown = run(root, f"{root}/{folder}", [*args, "--dry-run", "--diff"])
    before = texts(root, paths)
    done = run(root, f"{root}/{folder}", args)
    wanted = texts(root, paths)
    if shown.returncode or done.returncode or wanted == before:
        failed.append(f"{what}: no run\n{shown.stderr.decode()}{done.stderr.decode()}")
        return
    for way in WAYS:
        for path, text in zip(paths, before):
            put(f"{root}/{path}", text)
        taken = subprocess.run(way, cwd=root, input=shown.stdout, capture_output=True, timeout=10)
        if taken.returncode or texts(root, paths) != wanted:
            failed.append(f"{what}, {way[0]}: status {taken.returncode}\n{(taken.stdout + taken.stderr).decode()}\n"
                          f"{shown.stdout.decode()}")
    shutil.rmtree(root)


def alone(top):
    """Without metadata the names are those from the current folder."""
    root = f"{top}/alone"
    put(f"{root}/a b/Cargo.toml", OLD % "m")
    put(f"{root}/ix", INDEX)
    args = [PROGRAM, "upgrade", "--manifest-path", "a b/Cargo.toml", "--index-file", "ix", "--dry-run", "--diff"]
    shown = subprocess.run(args, cwd=root, capture_output=True, timeout=10).stdout
    if b"--- a/a b/Cargo.toml\t\n+++ b/a b/Cargo.toml\t\n" not in shown:
        failed.append(f"names from the current folder\n{shown.decode()}")


def main():
    top = os.path.realpath(tempfile.mkdtemp())
    try:
        number = 0
        for name in NAMES:
            for args in [["upgrade"], ["set-version", "--bump", "minor"]]:
                for folder in [".", name]:
                    number += 1
                    case(top, number, name, args, folder)
        alone(top)
    finally:
        shutil.rmtree(top)
    for text in failed:
        print(text)
    if failed:
        sys.exit(f"{len(failed)} cases failed")
    print(f"diffs: {number} cases")


main()
