#!/usr/bin/env python3
"""plan.py PROGRAM MANIFEST INDEX   prints a manifest with its requirements raised over the lines of an index; the
file stays as it is. It calls `cargo-edit plan` (docs/PLAN.md) and needs the standard library alone."""

import json
import subprocess
import sys

if len(sys.argv) != 4:
    sys.exit("usage: plan.py PROGRAM MANIFEST INDEX")
program, manifest, index = sys.argv[1:]
text = open(manifest, encoding="utf-8", newline="").read()
request = {"version": 1, "command": "upgrade", "manifests": {"Cargo.toml": text}, "index": open(index, encoding="utf-8").read()}
run = subprocess.run([program, "plan"], input=json.dumps(request).encode(), stdout=subprocess.PIPE)
response = json.loads(run.stdout)
if response["error"]:
    sys.exit(response["error"]["message"])
new = text.encode()
for edit in reversed(response["edits"]):
    new = new[:edit["start"]] + edit["text"].encode() + new[edit["end"]:]
assert new.decode() == response["manifests"].get("Cargo.toml", text)
sys.stdout.buffer.write(new)
