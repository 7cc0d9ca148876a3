#!/usr/bin/env python3
"""growth.py LIBRARY CALLS: each request for memory of a call is refused in turn. LIBRARY refuses the one whose number
REFUSE_AT is; CALLS is the program edit_calls.

Request 1 is refused, then 2, until a run ends with no request refused. Each run must return error 46, or the expected result
where nothing is refused; the last must return the expected result. After 46 the manifest that an edit borrowed has its old
text and views, and the same edit of it then gives the expected result; a cache still has its answer, and the same call then
gives the expected result; of three outputs those before the refused request are whole and those after it untouched; no
output is written by a plan, and no further file is left. The expected results are written here by hand."""

import itertools
import json
import os
import pathlib
import subprocess
import sys
import tempfile
from collections import Counter
from concurrent.futures import ThreadPoolExecutor
from dataclasses import dataclass

LACK = b"out of memory"
AT_ONCE = 4
FIRST = b"[dependencies]\nserde = { version = '1.0', optional = true } # keep\n"
RAISED = FIRST.replace(b"'1.0'", b'"1.2"')
TABLES = b"dependencies: table\nserde: inline table\n"
RECORD = b'[dependencies]\nserde = { features = ["a"], version = "1" }\n'
FEATURES = b'[features]\nx = ["dep", "dep/std", "other"]\n'
ONE = b"[dependencies]\ncargo-edit = '0.1.0'\n"
ENTRIES = b'{"name":"serde","vers":"1.2.3"}\n{"name":"held","vers":"1.0.0"}\n'
VERSIONS = b"".join(b'{"name":"a","vers":"%s"%s}\n' % (version, rest) for version, rest in (
    (b"1.0.0+a", b""), (b"1.2.0", b""), (b"1.0.0+b", b""), (b"bad", b""), (b"1.3.0", b',"yanked":true'))) \
    + b'{"name":"held","vers":"1.0.0"}\n'
CACHED = b"after error 46: 1 held, %d cached, then "
MEMBER = b'[package]\nname = "%s"\nversion = "0.1.0"\n\n[dependencies]\n'
OLD = {"a": MEMBER % b"a", "b": MEMBER % b"b" + b'a = { path = "../a", version = "0.1" }\n',
       "c": MEMBER % b"c" + b"b = { path = '../b', version = '^0.1.0' } # keep\n"}
NEW = {"a": OLD["a"].replace(b"0.1.0", b"0.2.0"), "b": OLD["b"].replace(b"0.1.0", b"0.2.0").replace(b"0.1", b"0.2"),
       "c": MEMBER.replace(b"0.1.0", b"0.2.0") % b"c" + b"b = { path = '../b', version = \"^0.2.0\" } # keep\n"}


@dataclass
class Call:
    """A call: its name, its arguments, the files where it runs (with the folder's path for @HERE@), what it prints
    where nothing is refused, what it may print where a request is refused, the files that it leaves, and those that it
    may leave after a refused request."""
    what: str
    args: list
    files: dict
    answer: bytes
    lacks: list
    left: dict
    left_early: list


def edit(what, before, views, after, *args):
    """An edit of a manifest, which shows these views."""
    files = {"Cargo.toml": before}
    again = b"refused 46 " + LACK + b"\n" + before + views + b"done\n" + after
    return Call(what, ["Cargo.toml", *args], files, b"done\n" + after, [again], files, [files])


def plan(what, answer, files, *args, held=False, **others):
    """A call of a plan or a reader, with a cached answer or without one."""
    lacks = [b"refused 46 " + LACK + b"\n"] + [CACHED % 0 + answer + b"done\n"] * held
    left = {"left": files, "left_early": [files], **others}
    return Call(what, args, files, answer + b"done\n", lacks, **left)


def lookup(call, answer):
    """A call for a name with five entries, and how many lookups it has made: one for the cached name and one for this
    one. Where a lookup ended with 46, no entries are in the cache, and the second call makes one more; where the entries
    were in the cache already, it makes none."""
    files = {"Cargo.toml": b"", "index.json": VERSIONS}
    made = plan(call, answer + b"2 lookups\n", files, call, "@HERE@", "a")
    made.lacks += [CACHED % 0 + answer + b"3 lookups\ndone\n", CACHED % 5 + answer + b"2 lookups\ndone\n"]
    return made


def edits():
    place = (".dependencies", ".serde")
    files = {"Cargo.toml": FIRST}
    yield Call("read", ["Cargo.toml", "none", "="], files, b"no such place\n" + FIRST, [], files, [files])
    yield edit("set_value", FIRST, TABLES, FIRST.replace(b"true", b"false"),
               "set_value", *place, ".optional", "=", "truth", "false")
    yield edit("set_literal", FIRST, TABLES, RAISED, "set_literal", *place, ".version", "=", "1.2")
    yield edit("insert", FIRST, TABLES, FIRST + b'log = "0.4"\n', "insert", place[0], "=", "log", "text", "0.4")
    yield edit("remove", FIRST, TABLES, FIRST.replace(b", optional = true", b""), "remove", *place, ".optional", "=")
    yield edit("replace_entry", FIRST, TABLES, b'[dependencies]\nserde = { version = "2" } # keep\n',
               "replace_entry", *place, "=", "table", "1", "version", "text", "2")
    yield edit("from_toml, to_toml", RECORD, TABLES, b'[dependencies]\nserde = { version = "1", features = ["a"] }\n',
               "rewrite", *place, "=")
    yield edit("update_toml", b'[dependencies]\nserde = { version = "1", features = ["a"] }\n', TABLES, b'[dependencies]\n'
               b'serde = { version = "2", features = ["a", "b"], optional = true }\n', "update", *place, "=", "2", "2", "b", "a")
    yield edit("gc_dep", FEATURES, b"features: table\nx: array\n", b'[features]\nx = ["other"]\n', "gc_dep", "=", "dep")
    yield edit("remove_from_table", ONE, b"dependencies: table\ncargo-edit: string\n", b"",
               "remove_from_table", "=", "1", "dependencies", "cargo-edit")


def workspace(members):
    """The files of a workspace of these members."""
    packages = [{"name": name, "id": name, "version": "0.1.0", "manifest_path": f"@HERE@/{name}/Cargo.toml"} for name in OLD]
    metadata = {"workspace_root": "@HERE@", "workspace_members": list(OLD), "packages": packages}
    return {"metadata.json": json.dumps(metadata).encode(), "Cargo.toml": b'[workspace]\nmembers = ["a", "b", "c"]\n',
            **{f"{name}/Cargo.toml": text for name, text in members.items()}}


def plans():
    raised = {"Cargo.toml": FIRST, "index.json": ENTRIES}
    yield plan("plan_upgrade", b"@HERE@/Cargo.toml\n" + RAISED + b"\n", raised, "upgrade", "@HERE@", held=True)
    yield lookup("krate", b"1.0.0+a 1.2.0 1.0.0+b bad 1.3.0 ")
    yield lookup("ranked", b"1.2.0 1.0.0+b 1.0.0+a ")
    yield plan("plan_set_version", b"".join(b"@HERE@/%s/Cargo.toml\n%s\n" % (name.encode(), text) for name, text in NEW.items()),
               workspace(OLD), "set_version", "@HERE@")
    # (after a refused request the first outputs may be written, in their order)
    written = [{name: (NEW if number < count else OLD)[name] for number, name in enumerate(OLD)} for count in range(4)]
    yield plan("apply", b"", workspace(OLD), "apply", "@HERE@", left=workspace(NEW),
               left_early=[workspace(members) for members in written])
    yield plan("a package spec", b"serde\n", {"spec": b"serde@1.0, <2"}, "spec", "spec")


def lay_out(room, files):
    """Writes the files of a call into a folder."""
    for name, text in files.items():
        (room / name).parent.mkdir(parents=True, exist_ok=True)
        (room / name).write_bytes(text.replace(b"@HERE@", os.fsencode(room)))


def run(program, call, library, number):
    """A run with a refused request: its result, whether a request was refused, and the files left."""
    with tempfile.TemporaryDirectory() as folder:
        room, seen = pathlib.Path(folder) / "in", pathlib.Path(folder) / "seen"
        room.mkdir()
        lay_out(room, call.files)
        args = [arg.replace("@HERE@", str(room)) for arg in call.args]
        environment = {"LD_PRELOAD": library, "REFUSE_AT": str(number), "REFUSE_SEEN": str(seen)}
        done = subprocess.run([program, *args], cwd=room, env=environment, capture_output=True,
                              check=False, timeout=60)
        here = os.fsencode(room)
        left = {str(path.relative_to(room)): path.read_bytes().replace(here, b"@HERE@")
                for path in room.rglob("*") if path.is_file()}
        return (done.returncode, done.stdout.replace(here, b"@HERE@"), done.stderr), seen.exists(), left


def judged(call, answer, left):
    """What is wrong with a run, and whether a request was refused and the run reported it."""
    if answer == (0, call.answer, b""):
        return "" if left == call.left else "the files", False
    # (a request before the edit, as for the arguments or the manifest, is reported on standard error)
    reported = answer in [(0, lack, b"") for lack in call.lacks] or answer == (1, b"", b"Error: " + LACK + b"\n")
    if not reported:
        return "neither 46 nor the usual answer", False
    return "" if left in call.left_early else "the files", True


def refused(pool, program, call, library):
    """How many requests were refused in turn, how many runs answered 46, and how often each text was printed."""
    reported, printed = 0, Counter()
    for first in itertools.count(1, 4 * AT_ONCE):
        runs = pool.map(lambda number: run(program, call, library, number), range(first, first + 4 * AT_ONCE))
        for number, (answer, seen, left) in enumerate(runs, first):
            fault, lacks = judged(call, answer, left)
            if fault:
                sys.exit(f"{call.what}, request {number}: {fault}: {answer} {left}")
            reported += lacks
            printed[answer[1]] += 1
            if not seen:
                if lacks or not reported:
                    fault = "a run with no request refused answered 46" if lacks else "no run reported a refused request"
                    sys.exit(f"{call.what}: {fault}")
                return number - 1, reported, printed


def check_cached(counts):
    """The entries are in the cache where memory runs out while they are ranked: that is at each request of `ranked` that
    `krate`, which is the lookup alone, does not make."""
    (looked_up, _, without), (requests, _, printed) = counts["krate"], counts["ranked"]
    cached = [sum(count for text, count in texts.items() if text.startswith(CACHED % 5)) for texts in (without, printed)]
    if cached != [0, requests - looked_up] or requests <= looked_up:
        sys.exit(f"krate, ranked: {looked_up} and {requests} requests, {cached} of which left entries in the cache")


def main():
    library, program = (str(pathlib.Path(arg).resolve()) for arg in sys.argv[1:3])
    counts = {}
    with ThreadPoolExecutor(AT_ONCE) as pool:
        for call in [*edits(), *plans()]:
            counts[call.what] = requests, reported, _ = refused(pool, program, call, library)
            print(f"{call.what}: {requests} requests refused in turn, {reported} answers 46")
    check_cached(counts)
    print(f"{sum(requests for requests, _, _ in counts.values())} requests for memory refused in turn, over {len(counts)} "
          f"calls, {sum(reported for _, reported, _ in counts.values())} answers 46")


if __name__ == "__main__":
    main()
