#!/usr/bin/env python3
"""disk_calls.py LIBRARY PROGRAM: each call for files of a run over each of the examples fails in turn, as on a broken disk:
paths that are examined, files that are opened, read, written, flushed, locked, moved or removed, and what is printed.
LIBRARY fails the call whose number FAIL_AT is.

Call 1 fails, then 2, until a run ends with no call failed. A run ends with status 0, and prints and leaves what an
undisturbed one does; or it ends with status 1, prints a prefix of that and then the error (where it can be printed), and
leaves the manifests whole: the first ones in their order raised, the others as they were. The next run, undisturbed, then
completes the upgrade and leaves no further file."""

import pathlib
import sys

from memory import ARGUMENTS, in_turn

TEXTS = [b"Error: " + text for text in (
    b"Failed to look at a path\n", b"Failed to read a file\n", b"Failed to write updated Cargo.toml\n", b"Failed to write message\n")]


def failed(place, number):
    """What is wrong with a run in which a call fails, whether it reported the failure, and whether it reached the call."""
    place.reset()
    answer, seen = place.run("FAIL_AT", number)
    (status, out, err), raised = answer, place.raised()
    if raised is None:
        return "a manifest is cut, or raised before another one", False, seen
    done = answer == place.usual and status == 0 and raised == len(place.new)
    # (where the call that fails is one that prints, the error may not be printed either)
    fronts = [err.partition(text)[0] for text in TEXTS if text in err] or [err] * (seen == "write")
    reported = status == 1 and any(place.is_front(out, front) for front in fronts)
    if not done and not reported:
        return f"status {status}, {raised} manifests raised, {out!r} {err!r}", False, seen
    place.reset()
    answer, _ = place.run("FAIL_AT", 0)
    if answer != place.usual or place.raised() != len(place.new) or place.files() != place.names:
        return f"the next run: {answer}, files {place.files()}", False, seen
    return "", reported, seen


def main():
    library, program = (str(pathlib.Path(arg).resolve()) for arg in sys.argv[1:3])
    for name in ARGUMENTS:
        calls, reported = in_turn(program, library, name, failed)
        print(f"examples/{name}: {calls} calls for files fail in turn, of which {reported} are reported")


if __name__ == "__main__":
    main()
