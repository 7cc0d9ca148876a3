"""Verdicts on mutants that were refused, kept on this machine outside each checkout, so that a later run over the same files
takes them over. A verdict is named by the checksum of all that it rests on: the kit, HANDLES, the lines of crates.txt, the
sources of the crate and of those below, the tools that judge, and the text of the edit. (It says something where the crate is
proved as it stands, which each run of the gate does.) Of a mutant that was let through a mark stays until it is refused."""
import hashlib
import json
import os
import shutil
import stat
import tempfile
import time

HERE = os.path.dirname(os.path.realpath(__file__))
# the tools that make the copies and judge what a check says
JUDGES = ("contracts_alone.py", "edits.py", "source.py", "toolchain.py", "trial.py", "twins.py", "verdicts.py")
PARTS = ("src", "specs", "proofs", "c")
# the most verdicts that are kept; those that no run took over for the longest time go first
MOST = 20_000
A_DAY = 86_400


def usual_folder():
    """The folder of the kept verdicts, or nothing where the environment names no folder for caches."""
    cache = os.environ.get("XDG_CACHE_HOME", "")
    if not os.path.isabs(cache):
        home = os.environ.get("HOME", "")
        cache = os.path.join(home, ".cache") if os.path.isabs(home) else ""
    return os.path.join(cache, "cargo-edit-gate", "verdicts") if cache else None


def checksum(*parts):
    return hashlib.sha256(repr(parts).encode()).hexdigest()


def content(path):
    """The bytes of a file; of one that cannot be read, bytes that no other file has."""
    try:
        with open(path, "rb") as file:
            return file.read()
    except OSError:
        return os.urandom(16)


def sources_of(folder):
    """The sources of a crate: their paths from its folder, and their bytes."""
    for part in PARTS:
        for place, folders, names in os.walk(os.path.join(folder, part)):
            folders.sort()
            for path in (os.path.join(place, name) for name in sorted(names)):
                yield os.path.relpath(path, folder), content(path)


class Verdicts:
    """The kept verdicts. `kit`: the checksum of the toolchain; without it, or without a folder, none is kept. `takes`:
    whether verdicts of earlier runs are taken over."""

    def __init__(self, kit, folder, takes=True):
        self.kit, self.takes, self.folder = kit, takes, None
        self.judges = checksum(*[(it, content(os.path.join(HERE, it))) for it in JUDGES])
        if kit and folder:
            try:
                os.makedirs(folder, 0o700, exist_ok=True)
                found = os.lstat(folder)
                # (a folder in which others can write is not used)
                if stat.S_ISDIR(found.st_mode) and found.st_uid == os.geteuid() and not found.st_mode & 0o022:
                    self.folder = folder
            except OSError:
                pass

    def state(self, crate, known=None):
        """The checksum of all that a verdict on a mutant of this crate rests on, but the edit. `known` holds those of the
        sources of crates that were read already, by their names."""
        known = {} if known is None else known
        for it in (*crate.below(), crate):
            if it.name not in known:
                known[it.name] = checksum(list(sources_of(it.folder)))
        # crates/NAME lies in the folder that has crates.txt and HANDLES
        top = os.path.dirname(os.path.dirname(crate.folder))
        handles, listed = [text_of(os.path.join(top, it)) for it in ("HANDLES", "crates.txt")]
        sources = [(it.name, known[it.name]) for it in (*crate.below(), crate)]
        return checksum(self.kit, self.judges, handles, uses(listed, crate), sources)

    def name(self, state, edit):
        """The name of the verdict on the mutant of this text over files of this state."""
        return checksum(state, edit)

    def reason(self, name):
        """Why a mutant was refused in an earlier run over the same files, or nothing where no such verdict is kept."""
        if not self.folder or not self.takes:
            return None
        path = os.path.join(self.folder, name)
        try:
            with open(path, encoding="utf-8") as file:
                found = json.load(file)
            if found["name"] != name or found["verdict"] != "refused" or not isinstance(found["why"], str):
                return None
            os.utime(path)
            return found["why"]
        except (OSError, ValueError, KeyError, TypeError):
            return None

    def keep(self, name, why):
        """Keeps the verdict that a mutant was refused. It is no error where that cannot be written."""
        if not self.folder:
            return
        try:
            with tempfile.TemporaryDirectory(prefix="new-", dir=self.folder) as room:
                made = os.path.join(room, name)
                with open(made, "w", encoding="utf-8") as file:
                    json.dump({"name": name, "verdict": "refused", "why": why}, file)
                # (renamed, so that no other run reads half of it)
                os.replace(made, os.path.join(self.folder, name))
        except OSError:
            pass

    def mark(self, crate, edit, is_let_through):
        """Remembers whether the mutant of this text, of the crate of this name, was let through when it was tried last."""
        path = self.folder and os.path.join(self.folder, "let-through-" + checksum(crate, edit))
        try:
            if path and is_let_through:
                with open(path, "a", encoding="utf-8"):
                    os.utime(path)
            elif path and os.path.exists(path):
                os.unlink(path)
        except OSError:
            pass

    def is_marked(self, crate, edit):
        """Whether the mutant was let through when it was tried last, over these or other sources."""
        return bool(self.folder) and os.path.exists(os.path.join(self.folder, "let-through-" + checksum(crate, edit)))

    def prune(self):
        """Removes what runs that were killed left, and the verdicts beyond the most that are kept."""
        try:
            found = list(os.scandir(self.folder)) if self.folder else []
            left = [it for it in found if it.is_dir() and it.stat().st_mtime < time.time() - A_DAY]
            files = sorted((it.stat().st_mtime, it.path) for it in found if it.is_file())
            for it in left:
                shutil.rmtree(it.path, ignore_errors=True)
            for _, path in files[: max(0, len(files) - MOST)]:
                os.unlink(path)
        except OSError:
            pass


def text_of(path):
    """The text of a file, or none where it is not there."""
    return content(path).decode("utf-8", "replace") if os.path.isfile(path) else ""


def uses(listed, crate):
    """The lines of crates.txt for a crate and for those below it."""
    names = {it.name for it in (*crate.below(), crate)}
    return sorted(it for it in listed.split("\n") if it.partition(":")[0].split()[:1] and it.split()[0].rstrip(":") in names)
