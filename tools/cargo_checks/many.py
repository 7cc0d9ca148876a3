#!/usr/bin/env python3
"""Makes a project of many dependencies, with its lock file and a registry in a folder, for tools/checks/cargo_lock.sh.

    many.py DIR LOCKED NAMED

DIR/ws is a package of NAMED dependencies, each of which can be raised, and a lock file of LOCKED packages. DIR/cargo answers
`cargo metadata` and `cargo locate-project` as cargo would, and writes the arguments of `cargo update` to DIR/update, one a line.
"""
import json
import os
import sys

top, locked, named = os.path.abspath(sys.argv[1]), int(sys.argv[2]), int(sys.argv[3])
names = [f"crate{number:05}" for number in range(locked)]


def write(path, text):
    """Writes a file and the folders above it."""
    os.makedirs(os.path.dirname(path), exist_ok=True)
    with open(path, "w", encoding="utf-8") as file:
        file.write(text)


write(f"{top}/ws/src/lib.rs", "")
write(f"{top}/ws/Cargo.toml", '[package]\nname = "a"\nversion = "0.1.0"\n\n[dependencies]\n' +
      "".join(f'{name} = "1.0"\n' for name in names[:named]))
write(f"{top}/ws/Cargo.lock", "version = 4\n\n" + "".join(
    f'[[package]]\nname = "{name}"\nversion = "1.0.0"\nsource = "registry+file://{top}/index"\nchecksum = "{number:064x}"\n\n'
    for number, name in enumerate(["a"] + names)))
write(f"{top}/config.toml", f'[source.crates-io]\nreplace-with = "one"\n\n[source.one]\nregistry = "file://{top}/index"\n')
for name in names[:named]:
    write(f"{top}/index/{name[:2]}/{name[2:4]}/{name}", "".join(
        json.dumps({"name": name, "vers": version, "deps": [], "cksum": "0" * 64, "features": {}, "yanked": False}) + "\n"
        for version in ("1.0.0", "1.1.0")))
write(f"{top}/index/config.json", "{}")
packages = [{"name": name, "version": "1.0.0", "id": name, "manifest_path": f"/none/{name}/Cargo.toml"} for name in names]
own = {"name": "a", "version": "0.1.0", "id": "a", "manifest_path": f"{top}/ws/Cargo.toml"}
metadata = {"workspace_root": f"{top}/ws", "workspace_members": ["a"], "packages": [own] + packages}
write(f"{top}/metadata.json", json.dumps(metadata))
write(f"{top}/cargo", f"""#!/bin/sh
case $1 in
  metadata) cat "{top}/metadata.json" ;;
  locate-project) echo "{top}/ws/Cargo.toml" ;;
  update) printf '%s\\n' "$@" > "{top}/update" ;;
esac
""")
os.chmod(f"{top}/cargo", 0o755)
