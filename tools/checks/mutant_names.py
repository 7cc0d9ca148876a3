#!/usr/bin/env python3
"""mutant_names.py: checks that each mutant of the repository is a file FUNCTION-FAULT.edit, where FUNCTION is the function in
which its first 'old:' text lies, without module and type, that no crate has two of one name, and that each is in a folder that
is read. Prints a line for each other one; the status is 1 then. Why a mutant cannot be tried, tools/mutants says."""
import glob
import os
import re
import sys

sys.dont_write_bytecode = True
ROOT = os.path.realpath(os.path.join(os.path.dirname(__file__), "..", ".."))
sys.path.insert(0, os.path.join(ROOT, "tools"))
from edits import Edit, Unusable  # noqa: E402
from source import Source  # noqa: E402

FOLDERS = ("mutants", "more-mutants")
NAME = re.compile(r"[a-z0-9_]+-[a-z0-9_]+\.edit")
LONGEST = 100


def changed_first(file, source):
    """The function that a mutant changes first."""
    edit = Edit(file, source)
    path, old, _ = edit.pairs[0]
    text = edit.text({}, path)
    at = text.index(old)
    return [it.name for it in source.functions(path, text) if it.begin < at < it.end][-1].split("::")[-1]


def fault(file, source, seen):
    """What is wrong with the name of a mutant, beside these names of others, or nothing."""
    folder, name = os.path.basename(os.path.dirname(file)), os.path.basename(file)
    if folder == "must-fail":
        return None
    if folder not in FOLDERS:
        return "is in no folder that is read: move it to mutants/ or more-mutants/"
    if name in seen:
        return "is the second mutant of this name"
    seen.add(name)
    try:
        function = changed_first(file, source)
    except Unusable:
        return None
    if not NAME.fullmatch(name) or len(name) > LONGEST:
        return "is not named FUNCTION-FAULT.edit, in at most %d characters of a to z, 0 to 9 and _" % LONGEST
    if not name.startswith(function + "-"):
        return "changes the function %s: its name has to begin with %s-" % (function, function)
    return None


def main():
    count = failed = 0
    for crate in sorted(glob.glob(ROOT + "/crates/*")):
        source, seen = Source(crate), set()
        for file in sorted(glob.glob(crate + "/*/*.edit")):
            why = fault(file, source, seen)
            count += 1
            failed += 1 if why else 0
            if why:
                print("%s %s" % (os.path.relpath(file, ROOT), why))
    print("%d mutants, %d with a name or in a folder that is wrong" % (count, failed))
    return 1 if failed else 0


if __name__ == "__main__":
    sys.exit(main())
