#!/usr/bin/env bash
# fronts.sh PROGRAM   each prefix of the example's manifest is accepted exactly where Python's own reader of TOML 1.0.0
# accepts it, ends quickly on a small stack, and a prefix that is an error stays as it was.
set -eu -o pipefail
here=$(cd "$(dirname "$0")/../.." && pwd)
ulimit -s 1024
python3 - "$1" "$here/examples/first" <<'PYTHON'
import os, subprocess, sys, tempfile, tomllib

program, example = sys.argv[1:]
with open(os.path.join(example, "Cargo.toml"), "rb") as file:
    text = file.read()


def is_document(front):
    try:
        tomllib.loads(front.decode())
    except (tomllib.TOMLDecodeError, UnicodeDecodeError):
        return False
    return True


wrong, accepted = [], 0
with tempfile.TemporaryDirectory() as room:
    manifest = os.path.join(room, "Cargo.toml")
    index = os.path.join(room, "index.json")
    open(index, "w").close()
    for length in range(len(text) + 1):
        with open(manifest, "wb") as file:
            file.write(text[:length])
        command = [program, "upgrade", "--manifest-path", manifest, "--index-file", index]
        done = subprocess.run(command, stdout=subprocess.DEVNULL, stderr=subprocess.PIPE, timeout=10)
        # the first line; the place of the error is below it
        message = done.stderr.split(b"\n")[0]
        wanted = (0, b"    Checking ") if is_document(text[:length]) else (1, b"Error: Unable to parse Cargo.toml")
        accepted += wanted[0] == 0
        with open(manifest, "rb") as file:
            stays = file.read() == text[:length]
        if done.returncode != wanted[0] or not message.startswith(wanted[1]) or not stays:
            wrong.append("%d bytes: status %d, %s" % (length, done.returncode, done.stderr))
print("\n".join(wrong + ["%d fronts, of which %d are manifests; %d judged otherwise" % (len(text) + 1, accepted, len(wrong))]))
sys.exit(1 if wrong or accepted < 10 else 0)
PYTHON
