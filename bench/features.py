#!/usr/bin/env python3
"""features.py CALLS: what an update of an entry costs by its features, where their texts collide under the
hash of the set that joins them and where they do not, by the program edit_calls (CALLS).

Each run reads a manifest of one entry with N features, reads the entry's record, adds one feature and an
option, and updates the entry. Processor seconds, least of ROUNDS interleaved rounds; beside them what reading
the manifest alone costs."""

import pathlib
import resource
import subprocess
import sys
import tempfile

ROUNDS = 3
COUNTS = (1_000, 10_000, 50_000)
TEXTS = {"plain": "%08d_and_as_long_a_name_as_those", "collide": "VCt84XxmJ16jGQv_PwRfGXPs%08d"}
CALLS = {
    "read alone": ["set_literal", ".none", "=", "x"],
    "update": ["update", ".dependencies", ".x", "=", "1.0", "1", "one-more"],
}


def manifest(text, count):
    """A manifest of one entry with so many features."""
    features = ", ".join('"%s"' % (text % n) for n in range(count))
    return '[dependencies]\nx = { version = "1.0", features = [%s] }\n' % features


def spent(command):
    """The processor seconds of a run."""
    before = resource.getrusage(resource.RUSAGE_CHILDREN)
    subprocess.run(command, check=True, stdout=subprocess.DEVNULL)
    after = resource.getrusage(resource.RUSAGE_CHILDREN)
    return after.ru_utime + after.ru_stime - before.ru_utime - before.ru_stime


def main():
    program = sys.argv[1]
    print("| Features | texts | read alone, s | update, s | readings |")
    print("|---|---|---|---|---|")
    with tempfile.TemporaryDirectory() as room:
        path = pathlib.Path(room) / "Cargo.toml"
        for count in COUNTS:
            for name, text in TEXTS.items():
                path.write_text(manifest(text, count))
                read, update = (min(spent([program, str(path), *args]) for _ in range(ROUNDS))
                                for args in CALLS.values())
                print(f"| {count:,} | {name} | {read:.4f} | {update:.4f} | {update / read:.1f} |")


if __name__ == "__main__":
    main()
