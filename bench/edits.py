#!/usr/bin/env python3
"""edits.py CALLS [PEER]: what an edit costs on manifests of 100 kB and 1 MB, by the program edit_calls
(CALLS) and, where it is named, by its peer over `toml_edit` (bench/build.sh builds it), in one run.

Each edit is one run of the program, which reads the manifest, makes the edit (which reads what it leaves and
compares the trees) and prints the text. `set_literal` at a place where no value stands reads alone: the other
rows say how many readings an edit costs, and what ten times the text costs. Processor seconds, least of
ROUNDS interleaved rounds."""

import pathlib
import resource
import subprocess
import sys
import tempfile

ROUNDS = 7
SIZES = (100_000, 1_000_000)
WANTED = 12.0


def manifest(size):
    """A manifest of some `size` bytes: one table of entries, and one of features."""
    lines = ["[package]", 'name = "x"', "", "[dependencies]"]
    total = 0
    while total < size:
        line = 'crate-%d = { version = "1.%d", features = ["a", "b"] } # keep' % (len(lines), len(lines))
        lines.append(line)
        total += len(line) + 1
    return "\n".join([*lines, "", "[features]", 'all = ["a"]', ""]), len(lines) // 2


def spent(command):
    """The processor seconds of a run."""
    before = resource.getrusage(resource.RUSAGE_CHILDREN)
    subprocess.run(command, check=True, stdout=subprocess.DEVNULL)
    after = resource.getrusage(resource.RUSAGE_CHILDREN)
    return after.ru_utime + after.ru_stime - before.ru_utime - before.ru_stime


def edits(entry):
    """The arguments of each edit; the first only reads."""
    name = ".crate-%d" % entry
    return {
        "read alone": ["set_literal", ".none", "=", "x"],
        "set_literal": ["set_literal", ".dependencies", name, ".version", "=", "2.0"],
        "set_value": ["set_value", ".features", ".all", "=", "list", "1", "b"],
        "insert": ["insert", ".dependencies", "=", "new", "text", "1.0"],
        "insert inline": ["insert", ".dependencies", name, "=", "optional", "truth", "true"],
        "replace_entry": ["replace_entry", ".dependencies", name, "=", "text", "2.0"],
        "remove an entry": ["remove", ".dependencies", name, "="],
        "remove a member": ["remove", ".dependencies", name, ".features", "="],
        "remove the table": ["remove", ".dependencies", "="],
    }


def output(command):
    """What a run prints."""
    return subprocess.run(command, check=True, stdout=subprocess.PIPE).stdout


def main():
    programs = sys.argv[1:3]
    with tempfile.TemporaryDirectory() as room:
        least, sizes = {}, {}
        for size in SIZES:
            text, entry = manifest(size)
            sizes[size] = (pathlib.Path(room) / str(size), edits(entry))
            sizes[size][0].write_text(text)
        for _ in range(ROUNDS):
            for size, (path, rows) in sizes.items():
                for row, args in rows.items():
                    for program in programs:
                        time = spent([program, str(path), *args])
                        least[program, row, size] = min(time, least.get((program, row, size), time))
        path, rows = sizes[SIZES[0]]
        other = [row for row, args in rows.items()
                 if len({output([program, str(path), *args]) for program in programs}) > 1]
    show(programs, least)
    if other:
        print("\nThe two leave other texts: " + ", ".join(other) + ".")


def show(programs, least):
    """Prints the table of the least times of each program, row and size."""
    small_size, large_size = SIZES
    peer = programs[1:]
    print("| Edit | 100 kB, s | 1 MB, s | ten times the text | readings |" + " times the peer |" * len(peer))
    print("|---|---|---|---|---|" + "---|" * len(peer))
    for row in edits(0):
        small, large = least[programs[0], row, small_size], least[programs[0], row, large_size]
        missed = "" if large <= WANTED * small else " (missed)"
        readings = large / least[programs[0], "read alone", large_size]
        ratio = "".join(f" {large / least[other, row, large_size]:.2f} |" for other in peer)
        print(f"| {row} | {small:.4f} | {large:.4f} | {large / small:.1f}{missed} | {readings:.1f} |{ratio}")


if __name__ == "__main__":
    main()
