#!/usr/bin/env python3
"""generated.py PROGRAM CALLS: inputs that are too long or too many for a case of tests/cases, made here and
given to the built program PROGRAM or to edit_calls (CALLS): texts at the limit of nesting, the prefixes of a
manifest, tables and workspaces with many members, and the pieces of a text after each of several edits. The
expected values come from docs/LIMITS.md and from how each input is made. Prints how many of each were tried."""

import json
import pathlib
import re
import subprocess
import sys
import tempfile
import tomllib

CASES = pathlib.Path(__file__).resolve().parents[2] / "tests/cases"

# The forms of nesting, each with how often its part is repeated at most.
NESTED = {
    "parts of a header": (79, lambda count: f"[{'a.' * count}a]"),
    "parts of a key": (79, lambda count: f"{'a.' * count}a = true"),
    "parts of the header of an array of tables": (78, lambda count: f"[[{'a.' * count}a]]"),
    "parts of a key in an inline table": (78, lambda count: f"a = {{ {'a.' * count}a = true }}"),
    "inline tables": (79, lambda count: "a = " + "{ a = " * count + "{}" + "}" * count),
    "arrays around a value": (79, lambda count: "a = " + "[" * count + "1" + "]" * count),
    "arrays": (80, lambda count: "a = " + "[" * count + "]" * count),
    "inline tables over several lines": (
        79, lambda count: "a = " + "{\na = " * count + "{\n}" + ",\n}" * count),
}

MANIFEST = "[dependencies]\nserde = { version = '1.0', optional = true } # keep\n"

# What a text that is no document ends with.
NO_DOCUMENT = (1, b"", b"Error: Unable to parse Cargo.toml\n")


class Check:
    """Runs programs in a folder of its own, and counts the checks that pass."""

    def __init__(self, program, calls, folder):
        self.program, self.calls, self.folder = program, calls, pathlib.Path(folder)
        self.counts, self.failed = {}, 0

    def run(self, program, arguments, files):
        """The status, standard output and standard error of a program over files."""
        for path, text in files.items():
            (self.folder / path).parent.mkdir(parents=True, exist_ok=True)
            (self.folder / path).write_text(text)
        done = subprocess.run([program, *arguments], cwd=self.folder, env={}, stdin=subprocess.DEVNULL,
                              capture_output=True, timeout=60, check=False)
        return done.returncode, done.stdout, done.stderr

    def same(self, table, name, came, wanted):
        """Counts results that are as expected, and prints those that are not."""
        self.counts[table] = self.counts.get(table, 0) + 1
        if came != wanted:
            self.failed += 1
            print(f"{table}, {name}:\n    came:   {came!r}\n    wanted: {wanted!r}")


def check_document(check, table, name, text, is_document):
    """Whether a text is read: an edit of no place prints it as it is."""
    came = check.run(check.calls, ["Cargo.toml", "remove", "="], {"Cargo.toml": text})
    wanted = (0, b"no such place\n" + text.encode(), b"") if is_document else NO_DOCUMENT
    check.same(table, name, came, wanted)


def check_nesting(check):
    """Each form of nesting at its limit, and one level past it."""
    for name, (limit, made) in NESTED.items():
        for count in (limit, limit + 1):
            check_document(check, "levels of nesting", f"{count} {name}", made(count), count == limit)
    check_document(check, "levels of nesting", "an empty inline table", NESTED["inline tables"][1](0), True)


def check_fronts(check):
    """Each prefix of a manifest: a document if it ends at the header, its line's end, or after the brace."""
    for count in range(68):
        is_document = count in (0, 14, 15) or count >= 59
        check_document(check, "fronts of a manifest", f"{count} bytes", MANIFEST[:count], is_document)


def check_many_entries(check):
    """A table with ten thousand entries."""
    text = "[dependencies]\n" + "".join(f'crate-{number} = "1.{number}"\n' for number in range(10_000))
    for place, wanted in (([".dependencies"], b"\nlen 10000\n"),
                          ([".dependencies", ".crate-9999"], b"\nstring 1.9999")):
        _, shown, _ = check.run(check.calls, ["Cargo.toml", "show", *place, "="], {"Cargo.toml": text})
        # (the text ends with a string, without a line's end)
        is_shown = wanted in shown if wanted.endswith(b"\n") else shown.endswith(wanted)
        check.same("ten thousand entries", place[-1], is_shown, True)


def check_index_lines(check):
    """Lines of an index with arrays in one another: 126 below the object are read, 127 are not."""
    def nested(levels):
        return '{"name":"a","vers":"1.0.0","deps":' + "[" * levels + "]" * levels + "}"

    arguments = ["upgrade", "--dry-run", "--message-format", "json", "--index-file", "index.json"]
    files = {"Cargo.toml": '[dependencies]\na = "0.0.1"\n'}
    _, came, _ = check.run(check.program, arguments, files | {"index.json": nested(126)})
    check.same("levels of an index line", "126 arrays", b'"latest":"1.0.0"' in came, True)
    for name, line in (("127 arrays", nested(127)), ("1000 arrays", "[" * 1000)):
        status, _, errors = check.run(check.program, arguments, files | {"index.json": line})
        came = status, errors.splitlines()[:1]
        check.same("levels of an index line", name, came, (1, [b"Error: Invalid index line 1"]))


def package_of(check, name, path):
    """The metadata of a package."""
    manifest = f"{check.folder}/{path}/Cargo.toml"
    return {"name": name, "id": path, "version": "1.0.0", "manifest_path": manifest}


def check_many_members(check):
    """Three hundred members and one package that is none: each member has a row, and the calls that follow
    name the other package."""
    members = [package_of(check, f"m{number}", f"m/{number}") for number in range(300)]
    metadata = {"workspace_root": str(check.folder), "workspace_members": [it["id"] for it in members],
                "packages": [package_of(check, "o", "o"), *members]}
    manifest = '[package]\nversion = "1.0.0"\n[dependencies]\no = "0.9.0"\n'
    files = {f"{it['id']}/Cargo.toml": manifest for it in members}
    files |= {"Cargo.toml": "[workspace]\n", "m.json": json.dumps(metadata)}
    files |= {"index": '{"name":"o","vers":"0.9.1"}\n'}
    arguments = ["set-version", "--metadata-json", "m.json", "--bump", "minor", "-p", "m299", "--diff"]
    _, shown, _ = check.run(check.program, arguments, files)
    changed = re.findall(rb"^--- a/(.*)", shown, re.MULTILINE)
    check.same("three hundred members", "the last member", changed, [b"m/299/Cargo.toml"])
    arguments = ["upgrade", "--metadata-json", "m.json", "--index-file", "index", "--message-format", "json"]
    _, shown, _ = check.run(check.program, arguments, files)
    *rows, summary = map(json.loads, shown.splitlines())
    paths = {row["manifest_path"] for row in rows}
    packages = [arg for call in summary["update_calls"] for arg in call].count("o@1.0.0")
    check.same("three hundred members", "all and the other", (len(paths), packages), (300, 1))


def pieces_after(check, edits, text):
    """The pieces that hold a text after edits; None if they are not the text."""
    arguments = [argument for edit in edits for argument in ("&", *edit)][1:]
    _, shown, _ = check.run(check.calls, ["Cargo.toml", "pieces", *arguments], {"Cargo.toml": text})
    answer, count, whole, *pieces = shown.split(b"\0")
    is_text = answer.partition(b"\n")[2] == whole == b"".join(pieces) and int(count) == len(pieces)
    return pieces if is_text else None


def check_pieces(check):
    """After each edit of the cases with several edits the pieces joined are the text, and are at most two more."""
    table = "pieces after each edit"
    for case in tomllib.loads((CASES / "edit_calls/edits_in_turn.toml").read_text())["case"]:
        edits = [edit.split("\0") for edit in "\0".join(case["args"][1:]).split("\0&\0")]
        text = case["files"]["Cargo.toml"]
        before = pieces_after(check, [], text)
        check.same(table, f"{case['name']}: no edit", before, [text.encode()] if text else [])
        for count in range(1, len(edits) + 1):
            after = pieces_after(check, edits[:count], text)
            is_held = None not in (before, after) and len(after) <= len(before) + 2
            check.same(table, f"{case['name']}: {count} edits", is_held, True)
            before = after


TRIED = [check_nesting, check_fronts, check_many_entries, check_index_lines, check_many_members,
         check_pieces]


def main():
    """Runs all checks."""
    program, calls = (str(pathlib.Path(path).resolve()) for path in sys.argv[1:])
    failed = 0
    for tried in TRIED:
        with tempfile.TemporaryDirectory(prefix="generated-") as folder:
            check = Check(program, calls, folder)
            tried(check)
            failed += check.failed
            for table, count in check.counts.items():
                print(f"{table}: {count} tried")
    return 1 if failed else 0


if __name__ == "__main__":
    sys.exit(main())
