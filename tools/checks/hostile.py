#!/usr/bin/env python3
"""hostile.py PROGRAM CALLS [--table]: texts as a hostile author would write them, for each reader: manifests, index lines,
configurations, metadata, versions, addresses and arguments under PROGRAM, and texts that no command line takes under CALLS,
the program edit_calls. Each must end with the status and the text that its row wants, on a stack of a megabyte, within
200 MB of memory (addresses, not only what is touched) for a text of up to a megabyte, and within SECONDS of a processor for
each megabyte, a second at least. No file changes unless its row says so. --table prints a line for each row: what, bytes,
status, text, seconds for each megabyte."""

import math
import pathlib
import resource
import signal
import subprocess
import sys
import tempfile
import time
from concurrent.futures import ThreadPoolExecutor

from hostile_texts import rows

SECONDS, STACK, MEMORY = 3, 1 << 20, 200 << 20
INDEX = b'{"name":"a","vers":"1.0.0"}\n'


def bounded(megabytes):
    """Sets the limits of the process before the program starts."""
    def bound():
        room = int(MEMORY * max(1, megabytes))
        resource.setrlimit(resource.RLIMIT_STACK, (STACK, STACK))
        resource.setrlimit(resource.RLIMIT_AS, (room, room))
        seconds = max(1, math.ceil(SECONDS * megabytes))
        resource.setrlimit(resource.RLIMIT_CPU, (seconds, seconds + 1))
    return bound


def put(room, files):
    """Writes the files of a row into a folder, whose path replaces @HERE@ in them."""
    for name, text in files.items():
        path = room / name
        path.parent.mkdir(parents=True, exist_ok=True)
        path.write_bytes(text)


def faults(row, run, stays):
    """What is wrong with a run."""
    if run.returncode == -signal.SIGXCPU:
        yield "too long"
    elif run.returncode != row.status:
        yield f"status {run.returncode} in place of {row.status}"
    if row.text not in run.stdout + run.stderr:
        yield f"no {row.text!r}"
    if row.stays != stays:
        yield "a file changed" if row.stays else "no file changed"


def tried(row, program, calls):
    """A row's line of the table, and its faults."""
    with tempfile.TemporaryDirectory() as folder:
        room = pathlib.Path(folder)
        files = {"index.json": INDEX, "Cargo.toml": b"", **row.files()}
        files = {name: text.replace(b"@HERE@", folder.encode()) for name, text in files.items()}
        put(room, files)
        megabytes = sum(len(text) for text in files.values()) / 1e6
        args = [calls if row.calls else program, *(arg.replace("@HERE@", folder) for arg in row.args)]
        environment = {"HOME": str(room / "home"), "PATH": "/usr/bin:/bin"}
        start = time.perf_counter()
        try:
            run = subprocess.run(args, capture_output=True, check=False, cwd=room, env=environment,
                                 preexec_fn=bounded(megabytes), timeout=60)
        except subprocess.TimeoutExpired:
            return f"{row.what}: no end", [f"{row.what}: not done within 60 seconds"]
        took = time.perf_counter() - start
        stays = all((room / name).read_bytes() == text for name, text in files.items())
        wrong = list(faults(row, run, stays))
    line = f"{row.what} | {int(megabytes * 1e6)} | {run.returncode} | {row.text.decode()} | {took / max(megabytes, 1e-6):.2f}"
    return line, [f"{row.what}: {fault}: {run.stdout[:200]!r} {run.stderr[:300]!r}" for fault in wrong]


def main():
    program, calls = [arg for arg in sys.argv[1:] if arg != "--table"]
    table = list(rows())
    with ThreadPoolExecutor(2) as pool:
        done = list(pool.map(lambda row: tried(row, program, calls), table))
    if "--table" in sys.argv:
        print("\n".join(line for line, _ in done))
    wrong = [fault for _, faults_of in done for fault in faults_of]
    print("\n".join([*wrong, f"{len(table)} hostile texts, of which {len(wrong)} end otherwise than wanted"]))
    sys.exit(1 if wrong or len(table) < 250 else 0)


if __name__ == "__main__":
    main()
