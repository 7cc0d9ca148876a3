#!/usr/bin/env python3
"""Runs the program on manifests from outside this repository.

    accepts.py PROGRAM manifests FOLDER   each Cargo.toml below FOLDER is accepted, and a plan over an empty index
                                          changes no byte of it
    accepts.py PROGRAM suite FOLDER       FOLDER holds a conformance suite for TOML as toml-test lays it out: each
                                          text below valid/ is accepted and stays, each below invalid/ is refused;
                                          the differences are those that tools/outside/differences.txt lists

Both are found in Debian: `apt-get download` of some librust-*-dev packages, or of golang-github-burntsushi-toml-dev,
then `dpkg -x PACKAGE FOLDER`. A package's Cargo.toml is the normal form that cargo publishes; Cargo.toml.orig, where
it lies beside, is the one that its author wrote, and is run too.
"""
import os
import subprocess
import sys
import tempfile


def verdict(program, room, text):
    """The verdict of the program on a manifest, as a text: whether it accepts it and leaves it as it is."""
    target = os.path.join(room, "Cargo.toml")
    with open(target, "wb") as file:
        file.write(text)
    done = subprocess.run(
        [program, "upgrade", "--manifest-path", target, "--index-file", os.path.join(room, "index.json")],
        stdout=subprocess.PIPE, stderr=subprocess.STDOUT, timeout=10)
    with open(target, "rb") as file:
        after = file.read()
    if after != text:
        return "changed"
    if done.returncode == 0:
        return "accepted"
    outcome = done.stdout.decode().strip()
    errors = ("Error: Unable to parse Cargo.toml", "Error: Failed to read manifest contents")
    return "refused" if done.returncode == 1 and outcome.startswith(errors) else "failed: " + outcome


def texts_below(folder, is_wanted):
    for place, folders, files in os.walk(folder):
        folders.sort()
        for name in sorted(files):
            if is_wanted(name):
                path = os.path.join(place, name)
                with open(path, "rb") as file:
                    yield os.path.relpath(path, folder), file.read()


def manifests(program, room, folder):
    count, others = 0, []
    for name, text in texts_below(folder, lambda name: name in ("Cargo.toml", "Cargo.toml.orig")):
        count += 1
        outcome = verdict(program, room, text)
        if outcome != "accepted":
            others.append("%s: %s" % (name, outcome))
    print("\n".join(others + ["%d manifests, %d not accepted or changed" % (count, len(others))]))
    return count > 0 and not others


def explained():
    """The names of the suite's texts that are judged otherwise, each with the verdict that is listed for it."""
    found = {}
    with open(os.path.join(os.path.dirname(os.path.abspath(__file__)), "differences.txt")) as file:
        for line in file:
            if line.strip() and not line.startswith("#"):
                name, outcome = line.split(None, 1)
                found[name] = outcome.strip().split(":")[0]
    return found


def suite(program, room, folder):
    count, differ = 0, {}
    for name, text in texts_below(folder, lambda name: name.endswith(".toml")):
        wanted = {"valid": "accepted", "invalid": "refused"}.get(name.split(os.sep)[0])
        if wanted:
            count += 1
            outcome = verdict(program, room, text)
            if outcome != wanted:
                differ[name] = outcome
    known = explained()
    wrong = sorted(name for name in set(differ) | set(known) if differ.get(name) != known.get(name))
    for name in wrong:
        print("%s: %s, explained: %s" % (name, differ.get(name, "as the suite says"), known.get(name, "no")))
    print("%d texts, %d judged otherwise, %d of them not as explained" % (count, len(differ), len(wrong)))
    return count > 0 and not wrong


def main():
    if len(sys.argv) != 4 or sys.argv[2] not in ("manifests", "suite"):
        raise SystemExit(__doc__)
    run = {"manifests": manifests, "suite": suite}[sys.argv[2]]
    with tempfile.TemporaryDirectory() as room:
        open(os.path.join(room, "index.json"), "w").close()
        raise SystemExit(0 if run(os.path.abspath(sys.argv[1]), room, sys.argv[3]) else 1)


if __name__ == "__main__":
    main()
