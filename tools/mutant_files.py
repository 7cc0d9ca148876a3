"""The files of mutants: which there are, which are to be tried, and which crates should have some and have none."""
import glob
import hashlib
import os
import re
import sys

from source import Source, texts


def listed(crate, kind):
    """The mutants in a crate's folder of this kind; what else lies there is a failure."""
    folder = os.path.join(crate.folder, kind)
    names = sorted(os.listdir(folder)) if os.path.isdir(folder) else []
    odd = [name for name in names if not name.endswith((".edit", ".md"))]
    if odd:
        sys.exit("mutants: %s/%s is no mutant" % (folder, odd[0]))
    return [os.path.join(folder, name) for name in names if name.endswith(".edit")]


def chosen(crates, args, kind):
    """The mutants that are to be tried, by the names of their crates."""
    lost = {os.path.dirname(it) for it in glob.glob("crates/*/" + kind)} - {"crates/" + it.name for it in crates}
    if lost:
        sys.exit("mutants: crates.txt does not name %s, which has mutants" % sorted(lost)[0])
    found = {crate.name: listed(crate, kind) for crate in crates}
    if not args:
        return found
    wanted = {}
    for arg in args:
        folder = os.path.dirname(os.path.dirname(os.path.abspath(arg)))
        crate = next((it.name for it in crates if it.name == arg or arg.endswith(".edit") and it.folder == folder), None)
        if crate is None or arg.endswith(".edit") and not os.path.isfile(arg):
            sys.exit("mutants: crates.txt names no crate %s, and it is no mutant of one" % arg)
        wanted.setdefault(crate, []).extend([os.path.abspath(arg)] if arg.endswith(".edit") else found[crate])
    return {crate: list(dict.fromkeys(files)) for crate, files in wanted.items()}


def sums_of(text):
    """The checksum of the sources, and those of the crates by their names, in a text that tools/sources wrote."""
    lines = [it.split() for it in text.split("\n") if it.strip()]
    whole = lines[0][0] if lines and len(lines[0]) == 1 else ""
    return whole, {it[1].removeprefix("crates/"): it[0] for it in lines if len(it) == 2}


def changed_crates(names, now, released):
    """Those of these crates whose checksum is not the one that the release has; what it has none of counts as changed."""
    return [name for name in names if now.get(name) is None or now[name] != released.get(name)]


def third(crate, files, sources):
    """A third of the mutants of a crate, at least one, by the checksum of the sources: another third once they change."""
    drawn = lambda file: hashlib.sha256(("%s %s/%s" % (sources, crate, os.path.basename(file))).encode()).digest()
    kept = set(sorted(files, key=drawn)[: (len(files) + 2) // 3])
    return [it for it in files if it in kept]


def without_mutants(crates, wanted, kind):
    """The crates among those that are wanted that have no mutant of this kind and should have one: they have a folder of this
    kind, or, of the kind that the gate tries, a public function has an `ensures`."""
    return [
        crate.name for crate in crates if crate.name in wanted and not wanted[crate.name]
        and (os.path.isdir(os.path.join(crate.folder, kind)) or kind == "mutants" and has_contracts(crate.folder))]


def has_contracts(folder):
    """Whether a public function of a crate has an `ensures`."""
    source = Source(folder)
    return any(
        re.search(r"\bpub\s+(?:const\s+)?fn\b", it.head) and "ensures" in it.head
        for path, text in texts(os.path.join(folder, "src"), ".rt")
        for it in source.functions(os.path.relpath(path, folder), text))
