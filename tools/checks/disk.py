#!/usr/bin/env python3
"""disk.py PROGRAM: runs that may not write. On a disk without room, and under a limit of the size of files, the manifest
stays as it was, the error is reported and no file is left; with room again it is raised. A manifest that may not be written
stays; in a folder where none may be made it is overwritten, and where it would grow on a disk without room it stays. Runs at
once, over one manifest or a workspace of 30, wait for each other: with two indexes the later version stands in the end,
whichever begins first."""

import os
import pathlib
import resource
import shutil
import subprocess
import sys
import tempfile

from killed import Manifests

OLD = b'[dependencies]\na = "1.0"\n' + (b"# " + b"x" * 98 + b"\n") * 3000
FIVE, SEVEN = OLD.replace(b"1.0", b"1.5"), OLD.replace(b"1.0", b"1.7")
# (of whole pages, so that what is longer by a byte takes one more)
PAGES = b'[dependencies]\na = "1.0"\n'.ljust(10 * 4096 - 1, b"#") + b"\n"
LONGER = PAGES.replace(b"1.0", b"1.10")
REFUSED = b"Error: Failed to write updated Cargo.toml\n"
LIMIT, ROUNDS, AT_ONCE = 100_000, 25, 4
NOBODY = ["setpriv", "--reuid=65534", "--regid=65534", "--clear-groups"]
tries = 0


class Place:
    """A folder with a manifest and two index files beside it."""

    def __init__(self, program, folder):
        self.program, self.folder = program, pathlib.Path(folder)
        self.manifest = self.folder / "in" / "Cargo.toml"
        self.manifest.parent.mkdir(parents=True)
        for minor in (5, 7, 10):
            (self.folder / f"index{minor}.json").write_bytes(b'{"name":"a","vers":"1.%d.0"}\n' % minor)
        self.manifest.write_bytes(OLD)

    def args(self, minor=5):
        return [self.program, "upgrade", "--manifest-path", str(self.manifest), "--index-file",
                str(self.folder / f"index{minor}.json")]

    def run(self, by=(), minor=5, more=(), **options):
        global tries
        tries += 1
        environment = {"HOME": str(self.folder), "PATH": os.environ["PATH"]}
        return subprocess.run([*by, *self.args(minor), *more], capture_output=True, check=False, env=environment, **options)

    def faults(self, what, run, status, text):
        """What is wrong with a run that was to end so and to leave this text, and no other file."""
        if run.returncode != status or (status == 1 and REFUSED not in run.stderr):
            yield f"{what}: status {run.returncode} in place of {status}: {run.stderr!r}"
        if self.manifest.read_bytes() != text:
            yield f"{what}: the manifest has {len(self.manifest.read_bytes())} bytes, not the {len(text)} wanted"
        if os.listdir(self.manifest.parent) != ["Cargo.toml"]:
            yield f"{what}: left are {os.listdir(self.manifest.parent)}"


def limit():
    resource.setrlimit(resource.RLIMIT_FSIZE, (LIMIT, LIMIT))


def limited(place):
    """A limit of the size of files, at which a write fails or the process ends."""
    done = place.run(preexec_fn=limit, restore_signals=False)
    yield from place.faults("a limit of the size of files", done, 1, OLD)
    place.run(preexec_fn=limit)
    if place.manifest.read_bytes() != OLD:
        yield "ended by a limit: the manifest changed"
    yield from place.faults("behind a run that a limit ended", place.run(), 0, FIVE)


def full(program, folder):
    """On a small disk that another file fills but for a page or so."""
    folder.mkdir()
    if subprocess.run(["mount", "-t", "tmpfs", "-o", "size=1m", "tmpfs", str(folder)], capture_output=True, check=False).returncode:
        print("no disk of its own: only a limit of the size of files was tried")
        return
    place = Place(program, folder)
    for room in (0, 4096, 100_000, 200_000):
        filler = folder / "filler"
        free = os.statvfs(folder).f_bavail * os.statvfs(folder).f_frsize
        filler.write_bytes(b"\0" * (free - room))
        yield from place.faults(f"a disk with {room} bytes left", place.run(), 1, OLD)
        filler.unlink()
    yield from place.faults("a disk with room again", place.run(), 0, FIVE)
    yield from full_and_forbidden(place)
    subprocess.run(["umount", str(folder)], check=True)


def full_and_forbidden(place):
    """On the same disk without room, in a folder where no file may be made: a manifest is overwritten, and stays whole where
    it would grow."""
    by = NOBODY if os.getuid() == 0 else []
    if by and subprocess.run([*by, "true"], capture_output=True, check=False).returncode:
        print("no other user: a disk without room was not tried with a folder that may not be written")
        return
    place.manifest.write_bytes(PAGES)
    if by:
        shutil.chown(place.manifest, 65534)
    place.manifest.parent.chmod(0o555)
    filler = place.folder / "filler"
    filler.write_bytes(b"\0" * (os.statvfs(place.folder).f_bavail * os.statvfs(place.folder).f_frsize))
    for what, minor, status, text in (("a longer text in place, without room", 10, 1, PAGES),
                                      ("a text of one length in place, without room", 5, 0, PAGES.replace(b"1.0", b"1.5"))):
        yield from place.faults(what, place.run(by, minor), status, text)
    filler.unlink()
    yield from place.faults("a longer text in place, with room", place.run(by, 10), 0, LONGER)
    place.manifest.parent.chmod(0o755)


def forbidden(program, folder):
    """Under a user that may not write the manifest, or make a file beside it."""
    by = NOBODY if os.getuid() == 0 else []
    if by and subprocess.run([*by, "true"], capture_output=True, check=False).returncode:
        print("no other user: files that may not be written were not tried")
        return
    place = Place(program, folder)
    if by:
        shutil.chown(place.manifest, 65534)
        shutil.chown(place.manifest.parent, 65534)
    for what, inside, own, status, text in (("a manifest that may not be written", 0o755, 0o444, 1, OLD),
                                            ("neither it nor its folder", 0o555, 0o444, 1, OLD),
                                            ("a folder that may not be written", 0o555, 0o644, 0, FIVE)):
        place.manifest.parent.chmod(0o755)
        place.manifest.write_bytes(OLD)
        place.manifest.chmod(own)
        place.manifest.parent.chmod(inside)
        yield from place.faults(what, place.run(by), status, text)
    place.manifest.parent.chmod(0o755)
    place.manifest.chmod(0o644)
    place.manifest.write_bytes(OLD)
    sealed = place.folder / "sealed"
    sealed.mkdir(mode=0o755 if by else 0o555)
    calls = ["--update-calls", str(sealed / "calls")]
    yield from place.faults("a file of calls that may not be made", place.run(by, more=calls), 1, OLD)
    sealed.chmod(0o777)
    yield from place.faults("a file of calls that may be made", place.run(by, more=calls), 0, FIVE)


def at_once(place):
    """Runs at once, with two indexes: each reads what the one before it wrote, and none lowers a requirement."""
    global tries
    for number in range(ROUNDS):
        place.manifest.write_bytes(OLD)
        runs = [subprocess.Popen(place.args((5, 7)[(turn + number) % 2]), stdout=subprocess.DEVNULL, stderr=subprocess.PIPE)
                for turn in range(AT_ONCE)]
        tries += AT_ONCE
        for run in runs:
            output = run.communicate()[1]
            if run.returncode:
                yield f"one of {AT_ONCE} runs at once: {output!r}"
        text = place.manifest.read_bytes()
        if text != SEVEN or os.listdir(place.manifest.parent) != ["Cargo.toml"]:
            yield f"runs at once left {text[:26]!r}.., and {os.listdir(place.manifest.parent)}"


def workspace_at_once(program, folder):
    """Two runs at once over a workspace, with two indexes: all manifests have the later version."""
    global tries
    folder.mkdir()
    (folder / "index7.json").write_bytes(b'{"name":"a","vers":"1.7.0"}\n')
    manifests = Manifests(program, folder)
    seven = manifests.old.replace(b'a = "1.0"', b'a = "1.7"')
    args = [manifests.args, [*manifests.args[:-1], str(folder / "index7.json")]]
    for number in range(ROUNDS):
        manifests.reset()
        runs = [subprocess.Popen(args[(turn + number) % 2], stdout=subprocess.DEVNULL, stderr=subprocess.PIPE) for turn in range(2)]
        tries += 2
        for run in runs:
            output = run.communicate()[1]
            if run.returncode:
                yield f"one of two runs at once over a workspace: {output!r}"
        if not manifests.hold(seven) or manifests.left():
            yield f"two runs at once over a workspace left a mixture, an earlier version, or {manifests.left()} files"


def main():
    os.umask(0o022)
    with tempfile.TemporaryDirectory() as name:
        room = pathlib.Path(name)
        room.chmod(0o755)
        program = str(room / "cargo-edit")
        shutil.copy(sys.argv[1], program)
        wrong = [*limited(Place(program, room / "limited")), *full(program, room / "full"),
                 *forbidden(program, room / "forbidden"), *at_once(Place(program, room / "at-once")),
                 *workspace_at_once(program, room / "workspace")]
    print("\n".join([*wrong, f"{tries} runs that may not write, or at once; {len(wrong)} faults"]))
    sys.exit(1 if wrong else 0)


if __name__ == "__main__":
    main()
