"""Workspaces to measure with: manifests of members that depend on crates of a registry and on each other, and
what `cargo metadata --no-deps` prints of them."""

import json
import os
import random
import re
import tomllib

from manifests import HEAD, entries, write
from registry import SEED

SOURCE = "registry+https://index.example.org/rust-packages/index"


def dependency(folder, name, value, kind):
    """A dependency of a package, as cargo prints it."""
    table = value if isinstance(value, dict) else {"version": value}
    printed = {"name": name, "source": None if "path" in table else SOURCE, "req": "^" + table["version"],
               "kind": kind, "rename": None, "optional": table.get("optional", False),
               "uses_default_features": table.get("default-features", True),
               "features": table.get("features", []), "target": None, "registry": None}
    if "path" in table:
        printed["path"] = os.path.normpath(os.path.join(folder, table["path"]))
    return printed


class Workspace:
    """A workspace in a folder: the texts of its manifests before and after an upgrade to the newest versions,
    by their paths, and the file with its metadata."""

    def __init__(self, folder, members, found, each):
        self.folder, self.metadata = folder, os.path.join(folder, "metadata.json")
        self.before, self.after, packages = {}, {}, []
        names = ", ".join(f'"crates/member-{number}"' for number in range(members))
        root = f'[workspace]\nmembers = [{names}]\nresolver = "2"\n'
        for texts in (self.before, self.after):
            texts[os.path.join(folder, "Cargo.toml")] = root
        for number in range(members):
            chance = random.Random(f"{SEED} member {number}")
            chosen = chance.sample(found, min(each, len(found)))
            others = sorted(chance.sample(range(number), min(2, number)))
            self.add(number, chosen, others)
            packages.append(self.package(number))
        write(self.metadata, json.dumps(self.whole(packages), separators=(",", ":")))
        self.restore()

    def path(self, number):
        """The manifest of a member."""
        return os.path.join(self.folder, "crates", f"member-{number}", "Cargo.toml")

    def add(self, number, chosen, others):
        """Adds the manifest of a member with entries of these crates and of these other members."""
        own = "".join(f'member-{it} = {{ path = "../member-{it}", version = "0.1.0" }}\n' for it in others)
        part = len(chosen) * 3 // 4
        normal = entries(chosen[:part], "any", compatible=False, seed=number)
        dev = entries(chosen[part:], "string", compatible=False, seed=number)
        for at, texts in ((0, self.before), (1, self.after)):
            head = HEAD % f"member-{number}" + "\n[dependencies]\n"
            texts[self.path(number)] = "".join([head, own, normal[at], "\n[dev-dependencies]\n", dev[at]])

    def restore(self):
        """Writes the manifests as they were."""
        for path, text in self.before.items():
            write(path, text)

    def with_next_minor(self):
        """The manifests, by their paths, once the minor versions of all members are incremented."""
        own = re.compile(r'^(version = |member-\d+ = .*version = )"0\.1\.0"', re.MULTILINE)
        return {path: own.sub(r'\1"0.2.0"', text) for path, text in self.before.items()}

    def package(self, number):
        """A member, as cargo prints it."""
        name, path = f"member-{number}", self.path(number)
        folder, manifest = os.path.dirname(path), tomllib.loads(self.before[path])
        dependencies = [dependency(folder, *entry, kind) for kind in (None, "dev")
                        for entry in sorted(manifest["dev-dependencies" if kind else "dependencies"].items())]
        optional = sorted(it["name"] for it in dependencies if it["optional"])
        target = {"kind": ["lib"], "crate_types": ["lib"], "name": name.replace("-", "_"),
                  "src_path": f"{folder}/src/lib.rs", "edition": "2021", "doc": True, "doctest": True,
                  "test": True}
        return {"name": name, "version": "0.1.0", "id": f"path+file://{folder}#0.1.0", "license": None,
                "license_file": None, "description": None, "source": None, "dependencies": dependencies,
                "targets": [target], "features": {it: [f"dep:{it}"] for it in optional},
                "manifest_path": path, "metadata": None, "publish": None, "authors": [], "categories": [],
                "keywords": [], "readme": None, "repository": None, "homepage": None, "documentation": None,
                "edition": "2021", "links": None, "default_run": None, "rust_version": None}

    def whole(self, packages):
        """What cargo prints of the workspace."""
        ids, target = [package["id"] for package in packages], os.path.join(self.folder, "target")
        return {"packages": packages, "workspace_members": ids, "workspace_default_members": ids,
                "resolve": None, "target_directory": target, "build_directory": target, "version": 1,
                "workspace_root": self.folder, "metadata": None}
