"""The toolchain as a Python module, its checksum, and whether the libraries that it built can be used."""
import hashlib
import importlib.machinery
import importlib.util
import os
import subprocess


def toolchain():
    """The toolchain's rt as a module; its `rtlib` knows a crate's libraries and the arguments of a check."""
    guide = subprocess.run(["rt", "doc"], capture_output=True, text=True, check=True).stdout.strip()
    loader = importlib.machinery.SourceFileLoader("rt", os.path.join(os.path.dirname(guide), "bin", "rt"))
    made = importlib.util.module_from_spec(importlib.util.spec_from_loader("rt", loader))
    loader.exec_module(made)
    return made


def kit_sum(kit):
    """The checksum of the toolchain: the one that it has of itself, or, of a kit without one, that of its identity and of the
    name, size and time of each file that a check reads."""
    if hasattr(kit, "kit_sum"):
        return kit.kit_sum()
    found = hashlib.sha256()
    with open(os.path.join(kit.KIT, "KIT-ID"), "rb") as file:
        found.update(file.read())
    for part in ("bin", "c", "logic_built", "rattle", "rlibs", "toolchain"):
        for place, folders, names in os.walk(os.path.join(kit.KIT, part)):
            folders.sort()
            for path in (os.path.join(place, name) for name in sorted(names)):
                state = os.lstat(path)
                found.update(repr((os.path.relpath(path, kit.KIT), state.st_size, state.st_mtime_ns)).encode())
    return found.hexdigest()


def stale(library):
    """Why a library below cannot be used, if it cannot: it was not built, or its sources are newer."""
    advice = "build it: `rt ci` at the top, or `rt check` in a crate above it"
    if not os.path.isdir(library.rlib):
        return "%s is not built; %s" % (library.name, advice)
    stamp = os.path.join(os.path.dirname(library.rlib), "stamp")
    if os.path.isfile(stamp):
        return None if library.is_built() else "%s was built from other sources; %s" % (library.name, advice)
    built = os.path.getmtime(library.rlib)
    newer = [file for file in sources_of(library.folder) if os.path.getmtime(file) > built]
    return "%s is newer than the library %s; %s" % (newer[0], library.name, advice) if newer else None


def sources_of(folder):
    for part in ("src", "specs", "proofs"):
        for place, _, files in os.walk(os.path.join(folder, part)):
            yield from (os.path.join(place, name) for name in files)
