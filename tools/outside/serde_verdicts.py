"""What serde_json reads in index lines, by the program serde_reads, which is built here."""

import json
import os
import pathlib
import re
import shutil
import subprocess

HERE = pathlib.Path(__file__).resolve().parent
CRATES = pathlib.Path("/usr/share/cargo/registry")
PLACE = re.compile(r" at line \d+ column \d+$")


def built_program():
    """The path of serde_reads, built offline from the crates of Debian's librust-serde-json-dev in a folder
    that is kept, outside the repository."""
    if not list(CRATES.glob("serde_json-1.*")):
        raise SystemExit("index_lines.py: the crate serde_json is missing; tools/gate_needs --install "
                         "installs Debian's package librust-serde-json-dev")
    caches = os.environ.get("XDG_CACHE_HOME") or pathlib.Path.home() / ".cache"
    kept = pathlib.Path(caches, "cargo-edit-serde-reads")
    shutil.copytree(HERE / "serde_reads", kept / "serde_reads", dirs_exist_ok=True)
    (kept / ".cargo").mkdir(exist_ok=True)
    (kept / ".cargo/config.toml").write_text(
        f'[source.crates-io]\nreplace-with = "debian"\n[source.debian]\ndirectory = "{CRATES}"\n')
    # (rustup's cargo, where the environment's PATH has none)
    cargo = shutil.which("cargo") or os.path.expanduser("~/.cargo/bin/cargo")
    subprocess.run([cargo, "build", "--offline", "--quiet"], cwd=kept / "serde_reads", check=True,
                   env={**os.environ, "CARGO_TARGET_DIR": str(kept / "target")})
    return kept / "target/debug/serde_reads"


def verdicts(program, lines):
    """What each line is as a tree, and as a typed record: the five members that count, or the text of an
    error without its place."""
    given = b"".join(line + b"\n" for line in lines)
    said = subprocess.run([program], input=given, stdout=subprocess.PIPE, check=True).stdout.splitlines()
    assert len(said) == len(lines)
    return [[PLACE.sub("", read) if isinstance(read, str) else read for read in json.loads(one)]
            for one in said]
