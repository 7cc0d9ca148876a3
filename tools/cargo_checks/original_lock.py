#!/usr/bin/env python3
"""Workspaces whose Cargo.lock after `cargo upgrade` is compared with what the rules in docs/UPGRADE.md ("The lock
file") leave, carried out here with real cargo; for tools/checks/cargo_lock_original.sh.

    original_lock.py crates              prints crates for registry.py, whose dependencies change between versions
    original_lock.py compare ROOM N      compares N workspaces, by the commands on PATH; CARGO names cargo

Nothing is fetched after the first workspace, whose crates are all there are: each file of a crate is copied to where
cargo keeps what it has downloaded.
"""
import concurrent.futures
import glob
import json
import os
import random
import re
import shutil
import subprocess
import sys

NAMES = ["apple", "birch", "cedar", "dogwood", "elder", "fir", "ginkgo", "hazel"]
VERSIONS = ["1.0.0", "1.0.4", "1.1.0", "1.2.3", "2.0.0", "2.1.0"]


def crates():
    """Crates, each of whose versions depends on some of the crates behind it."""
    rng = random.Random(1)
    made = []
    for place, name in enumerate(NAMES):
        versions = {}
        for version in VERSIONS:
            behind = [other for other in NAMES[place + 1:] if rng.random() < 0.45]
            versions[version] = {other: rng.choice(["1", "1.0", "2", ">=1", "1.1"]) for other in behind}
        made.append(["one", name, versions])
    return made


def numbers(text):
    return [int(it) for it in text.split(".")]


def admits(req, version):
    """Whether a requirement of the kinds that stand here admits a version."""
    kind, text = re.match(r"(=|~|>=|)(.*)", req).groups()
    named, has = numbers(text), numbers(version)
    floor = named + [0] * (3 - len(named))
    if kind == "=":
        return has[:len(named)] == named
    if kind == "~":
        return has >= floor and has[:min(len(named), 2)] == named[:2]
    return has >= floor and (kind == ">=" or has[0] == floor[0])


def precise(req):
    """The version that a requirement names in full."""
    text = req.lstrip("=~>")
    return text if text.count(".") == 2 else None


class Case:
    """A workspace, and the arguments of an upgrade of it."""

    def __init__(self, room, number):
        self.rng = random.Random(1000 + number)
        self.number = number
        self.place = f"{room}/compared/{number}"
        self.before, self.port, self.own = (f"{self.place}/{it}" for it in ("before", "port", "own"))

    def cargo(self, folder, *args):
        return subprocess.run([os.environ["CARGO"], *args], cwd=folder, capture_output=True, text=True)

    def write(self, members):
        for name, needs in members.items():
            folder = f"{self.before}/{name}"
            os.makedirs(folder + "/src", exist_ok=True)
            open(folder + "/src/lib.rs", "w").close()
            with open(folder + "/Cargo.toml", "w") as file:
                file.write(f'[package]\nname = "{name}"\nversion = "0.1.0"\nedition = "2018"\n\n[dependencies]\n')
                file.write("".join(f'{other} = "{req}"\n' for other, req in needs.items()))
        with open(self.before + "/Cargo.toml", "w") as file:
            file.write(f'[workspace]\nresolver = "2"\nmembers = {json.dumps(list(members))}\n')

    def make(self):
        """Makes the workspace with an old Cargo.lock; whether cargo resolves it."""
        rng = self.rng
        os.makedirs(self.before)
        members = {}
        for name in ["one", "two"][:rng.choice([1, 1, 2])]:
            members[name] = {}
            for other in rng.sample(NAMES, rng.randint(1, 4)):
                version = rng.choice(VERSIONS[:5])
                form = rng.choice(["{2}", "{2}", "{1}", "{0}", "={2}", "~{2}", ">={2}"])
                cut = [".".join(version.split(".")[:n]) for n in (1, 2, 3)]
                members[name][other] = form.format(*cut)
        pinned = {name: {other: "=" + req.lstrip("=~>") for other, req in needs.items()}
                  for name, needs in members.items()}
        for other in rng.sample(NAMES, 3):
            pinned["one"].setdefault(other, "=1.0.0")
        for held in (pinned, members):
            self.write(held)
            self.cargo(self.before, "metadata", "--offline", "--all-features", "--format-version", "1")
        return os.path.exists(self.before + "/Cargo.lock")

    def arguments(self):
        rng = self.rng
        args = []
        if rng.random() < 0.4:
            args.append("-i")
        if rng.random() < 0.3:
            args.append("--pinned")
        if rng.random() < 0.3:
            args += ["--recursive", rng.choice(["true", "false"])]
        self.pins = {}
        text = "".join(open(path).read() for path in glob.glob(self.before + "/*/Cargo.toml"))
        used = sorted(set(re.findall(r'^([a-z]+) = "[^"]*"$', text, re.M)) & set(NAMES))
        if rng.random() < 0.5:
            for name in rng.sample(used, rng.randint(1, min(2, len(used)))):
                req = rng.choice(["{}", "{}", "={}", ">={}", "~{}"]).format(rng.choice(VERSIONS + ["1.1.1"]))
                self.pins[name] = req
                args += ["-p", f"{name}@{req}"]
            for name in used:
                if name not in self.pins and rng.random() < 0.5:
                    args += ["-p", name]
        self.recursive = "false" not in args
        return args

    def packages(self):
        """The names and versions of all packages, after the workspace is resolved; None where it is not."""
        done = self.cargo(self.own, "metadata", "--offline", "--all-features", "--format-version", "1")
        if done.returncode:
            return None
        return [(it["name"], it["version"]) for it in json.loads(done.stdout)["packages"]]

    def carry_out(self):
        """What follows the writes, by the rules; whether it comes to its end."""
        modified = set()
        for path in glob.glob(self.before + "/*/Cargo.toml"):
            new = self.port + path[len(self.before):]
            for old_line, new_line in zip(open(path), open(new)):
                if old_line != new_line:
                    modified.add(old_line.split(" = ")[0])
            shutil.copy(new, self.own + path[len(self.before):])
        if not modified:
            return True
        locked = self.packages()
        if locked is None:
            return False
        pins = {name: req for name, req in sorted(self.pins.items()) if precise(req)}
        for name, req in pins.items():
            for other, version in locked:
                if other == name and admits(req, version):
                    done = self.cargo(self.own, "update", "--precise", precise(req), "--package", f"{name}@{version}",
                                      "--offline")
                    if done.returncode:
                        return False
        if pins:
            locked = self.packages()
        words = [word for name in sorted(modified - set(pins)) for other, version in locked if other == name
                 for word in ("--package", f"{name}@{version}")]
        if self.recursive and words:
            return self.cargo(self.own, "update", "--aggressive", *words, "--offline").returncode == 0
        return True

    def compare(self):
        """What differs; '' where nothing does, None where the case says nothing."""
        if not self.make():
            return None
        args = self.arguments()
        for copy in (self.port, self.own):
            shutil.copytree(self.before, copy)
        done = subprocess.run(["cargo-upgrade", "upgrade", "--offline", *args], cwd=self.port, capture_output=True,
                              text=True)
        ends = self.carry_out()
        if (done.returncode == 0) != ends:
            return f"{args}: status {done.returncode}\n{done.stderr}"
        ours, theirs = (open(it + "/Cargo.lock").read() for it in (self.port, self.own))
        if ours != theirs:
            diff = subprocess.run(["diff", self.own + "/Cargo.lock", self.port + "/Cargo.lock"], capture_output=True,
                                  text=True).stdout
            return f"{args}:\n{diff}\n{done.stderr}"
        self.changes = ours != open(self.before + "/Cargo.lock").read()
        return ""


def warm(room):
    """Has cargo and the commands read each index entry, and puts each crate where cargo looks for it."""
    first = f"{room}/compared/first"
    os.makedirs(first + "/src")
    open(first + "/src/lib.rs", "w").close()
    with open(first + "/Cargo.toml", "w") as file:
        file.write('[package]\nname = "first"\nversion = "0.1.0"\nedition = "2018"\n\n[dependencies]\n')
        file.write("".join(f'{name} = "2"\n' for name in NAMES))
    subprocess.run([os.environ["CARGO"], "fetch", "-q"], cwd=first, check=True)
    kept, = (os.path.dirname(it) for it in glob.glob(os.environ["CARGO_HOME"] + "/registry/cache/*/apple-2*.crate"))
    for path in glob.glob(f"{room}/served/dl/one/*"):
        shutil.copy(path, f"{kept}/{os.path.basename(path)}.crate")
    subprocess.run(["cargo-upgrade", "upgrade", "-n"], cwd=first, check=True, capture_output=True)


def main():
    if sys.argv[1] == "crates":
        print(json.dumps(crates()))
        return 0
    room, wanted = sys.argv[2], int(sys.argv[3])
    warm(room)
    cases = [Case(room, number) for number in range(wanted + wanted // 6)]
    with concurrent.futures.ThreadPoolExecutor(4) as pool:
        told = list(pool.map(lambda case: case.compare(), cases))
    said = [(case, it) for case, it in zip(cases, told) if it is not None]
    wrong = [(case, it) for case, it in said if it]
    for case, it in wrong:
        print(f"workspace {case.number}: {it}")
    moved = sum(1 for case, it in said if not it and case.changes)
    pinned = sum(1 for case, _ in said if case.pins)
    print(f"{len(said)} workspaces, {pinned} with -p NAME@REQ, {moved} whose Cargo.lock changes, {len(wrong)} differ")
    return 1 if wrong or len(said) < wanted or moved < wanted // 2 or pinned < wanted // 4 else 0


if __name__ == "__main__":
    sys.exit(main())
