#!/usr/bin/env python3
"""owners.py PROGRAM: the users who may read and write a manifest are the same before and after a run. A member of a group
writes the manifest of another user, root writes that of a user, a manifest is mounted alone, or stands in a folder where
each user may remove only what is theirs. A user's own files stay, whatever their names; what killed runs left goes with
the next run, also where it changes nothing. Pipes that the command line names are read to their end, one in place of a
configuration is an error; the calls of `cargo update` may go to standard output and to pipes. Of one file under two
members, and of a workspace with a member that may not be written, nothing is written."""

import json
import os
import pathlib
import subprocess
import sys
import tempfile

from workspaces import MADE, NOBODY, Workspace, run

OLD, NEW = b'[dependencies]\na = "1.0"\n', b'[dependencies]\na = "1.5"\n'
LINES = '{"name":"a","vers":"1.0.0"}\n{"name":"a","vers":"1.5.0"}\n'
GROUP = 2345
MEMBER = ["setpriv", "--reuid=65534", "--regid=65534", f"--groups={GROUP}"]


class Place:
    """A manifest in a folder of its own, and an index beside the folder."""

    def __init__(self, program, room):
        self.program, self.room = program, pathlib.Path(room).resolve()
        self.room.chmod(0o755)
        self.folder = self.room / "in"
        self.folder.mkdir()
        self.index = self.room / "index.json"
        self.index.write_text(LINES)
        self.manifest = self.folder / "Cargo.toml"
        self.manifest.write_bytes(OLD)

    def own(self, uid, gid, mode, folder_uid, folder_gid, folder_mode):
        """Owners, groups and modes of the manifest and of its folder."""
        os.chown(self.manifest, uid, gid)
        self.manifest.chmod(mode)
        os.chown(self.folder, folder_uid, folder_gid)
        self.folder.chmod(folder_mode)

    def args(self, *more):
        return [self.program, "upgrade", "--manifest-path", str(self.manifest), "--index-file", str(self.index), *more]

    def run(self, by=(), more=(), **options):
        return run(self.args(*more), by, env={"HOME": str(self.room), "PATH": os.environ["PATH"]}, **options)

    def faults(self, what, done, status=0, text=NEW):
        """What is wrong with a run that was to end so and to leave this text, and no other file."""
        if done.returncode != status:
            yield f"{what}: status {done.returncode}: {done.stderr!r}"
        if self.manifest.read_bytes() != text:
            yield f"{what}: the manifest is {self.manifest.read_bytes()!r}"
        if os.listdir(self.folder) != ["Cargo.toml"]:
            yield f"{what}: left are {os.listdir(self.folder)}"


def owners(place):
    """Runs by root and by a member of a group: the owner, the group and the mode stay."""
    for what, by, facts in (("root, another's manifest", (), (1234, GROUP, 0o640, 1234, GROUP, 0o755)),
                            ("root, one with set-id bits", (), (1234, GROUP, 0o6775, 1234, GROUP, 0o755)),
                            ("a member of the group", MEMBER, (1234, GROUP, 0o664, 1234, GROUP, 0o775)),
                            ("a member, another's folder", MEMBER, (1234, GROUP, 0o664, 1234, 1234, 0o755)),
                            ("the owner, with another group", MEMBER, (65534, GROUP, 0o660, 65534, 65534, 0o755)),
                            ("a folder where each removes what is theirs", MEMBER, (1234, GROUP, 0o666, 0, 0, 0o1777))):
        place.manifest.write_bytes(OLD)
        place.own(*facts)
        yield from place.faults(what, place.run(by))
        seen = place.manifest.stat()
        wanted = facts[:3]
        # (the system clears the set-id bits of a file that a user other than root writes)
        if (seen.st_uid, seen.st_gid, seen.st_mode & 0o7777) != wanted:
            yield f"{what}: {seen.st_uid}:{seen.st_gid} {seen.st_mode & 0o7777:o}"
    place.own(0, 0, 0o644, 0, 0, 0o755)


def mounted(place):
    """A manifest that is a mount of its own, as a container may have it."""
    source = place.room / "source"
    source.write_bytes(OLD)
    if subprocess.run(["mount", "--bind", str(source), str(place.manifest)], capture_output=True, check=False).returncode:
        print("nothing can be mounted here: a manifest that is mounted was not tried")
        return
    yield from place.faults("a manifest that is mounted", place.run())
    subprocess.run(["umount", str(place.manifest)], check=True)


def own_files(place):
    """Files of a user under names like those of temporary ones stay; what a killed run left does not."""
    place.manifest.write_bytes(NEW)
    names = ("cargo-edit.new-0", MADE + "999999-0.new", MADE + "999999-1.tmp", MADE + "old", MADE + "999999-1.Cargo.toml.was")
    precious = [place.folder / name for name in names]
    for path in precious:
        path.write_text("precious")
    left = place.folder / (MADE + "999999-7.new")
    left.write_text("")
    first = place.folder / "first"
    first.write_text("half a manif")
    filled = first.rename(place.folder / f"{MADE}999999-{first.stat().st_ino}.tmp")
    done = place.run()
    if done.returncode or place.manifest.read_bytes() != NEW:
        yield f"beside files of a user: {done.returncode} {done.stderr!r}"
    if any(not path.exists() or path.read_text() != "precious" for path in precious):
        yield f"a user's file is gone: {os.listdir(place.folder)}"
    if left.exists() or filled.exists():
        yield f"what a killed run left stays: {os.listdir(place.folder)}"
    for path in place.folder.iterdir():
        if path != place.manifest:
            path.unlink()


def read(place):
    """What is read: pipes that the command line names to their end, no pipe and no device elsewhere."""
    place.manifest.write_bytes(OLD)
    script = f'"$0" upgrade --manifest-path {place.manifest} --index-file <(cat {place.index})'
    yield from place.faults("a pipe as index file", run(["bash", "-c", script, place.program]))
    for option in ("--index-file", "--config", "--metadata-json"):
        place.manifest.write_bytes(OLD)
        args = [place.program, "upgrade", "--manifest-path", str(place.manifest), option, "/dev/zero"]
        with subprocess.Popen(args, stdout=subprocess.DEVNULL, stderr=subprocess.PIPE) as child:
            output = child.stderr.read()
            _, status, used = os.wait4(child.pid, 0)
            child.returncode = os.waitstatus_to_exitcode(status)
        if child.returncode != 1 or b"Error: " not in output or place.manifest.read_bytes() != OLD:
            yield f"{option} /dev/zero: status {child.returncode}, {output!r}"
        if used.ru_maxrss > 100_000:
            yield f"{option} /dev/zero: {used.ru_maxrss} kB of memory"
    configuration = place.room / ".cargo" / "config.toml"
    configuration.parent.mkdir()
    os.mkfifo(configuration)
    done = place.run()
    yield from place.faults("a pipe as configuration", done, 1, OLD)
    configuration.unlink()
    configuration.symlink_to("/dev/null")
    yield from place.faults("an empty device as configuration", place.run())
    configuration.unlink()


def calls(program, room):
    """The calls of `cargo update` to standard output, to a pipe, to a FIFO, and to a folder that is not there."""
    workspace = Workspace(program, room)
    locked = {"name": "a", "id": "a", "version": "1.0.0", "manifest_path": "/r/a/Cargo.toml",
              "source": "registry+https://github.com/rust-lang/crates.io-index"}
    workspace.metadata["packages"].append(locked)
    (workspace.room / "metadata.json").write_text(json.dumps(workspace.metadata))
    args = workspace.upgrade() + ["--update-calls"]
    plain = run(args + [str(workspace.room / "calls")])
    text = (workspace.room / "calls").read_bytes()
    if plain.returncode or b"update" not in text:
        yield f"a file of calls: {plain.returncode} {text!r} {plain.stderr!r}"
    workspace.reset()
    log = workspace.room / "log"
    log.write_bytes(b"before\n")
    with open(log, "ab") as file:
        done = subprocess.run(args + ["/dev/stdout"], stdout=file, stderr=subprocess.PIPE, check=False, timeout=60)
    if done.returncode or not log.read_bytes().startswith(b"before\n") or not log.read_bytes().endswith(text):
        yield f"calls to standard output: {done.returncode} {log.read_bytes()!r} {done.stderr!r}"
    workspace.reset()
    done = run(args + ["/dev/stdout"])
    if done.returncode or not done.stdout.endswith(text):
        yield f"calls to a pipe: {done.returncode} {done.stdout!r} {done.stderr!r}"
    workspace.reset()
    fifo = workspace.room / "fifo"
    os.mkfifo(fifo)
    with subprocess.Popen(["cat", str(fifo)], stdout=subprocess.PIPE) as reader:
        done = run(args + [str(fifo)])
        output = reader.communicate(timeout=20)[0]
    if done.returncode or output != text or not fifo.is_fifo():
        yield f"calls to a FIFO: {done.returncode} {output!r} {done.stderr!r}"


def twice(program, room):
    """Two members that are one file, through a link to a folder: an error that names both, and nothing is written."""
    workspace = Workspace(program, room)
    link = workspace.room / "link"
    link.symlink_to(workspace.paths[0].parent)
    workspace.metadata["packages"][1]["manifest_path"] = str(link / "Cargo.toml")
    (workspace.room / "metadata.json").write_text(json.dumps(workspace.metadata))
    done = run(workspace.set_version("0.2.0"))
    names = (str(link / "Cargo.toml").encode(), str(workspace.paths[0]).encode())
    if done.returncode != 1 or any(name not in done.stderr for name in names) or b"the same file" not in done.stderr:
        yield f"one file under two members: {done.returncode} {done.stderr!r}"
    if workspace.state(workspace.old) != "000":
        yield "one file under two members is written"


def refused(program, room):
    """A member that may not be written: no member of the workspace is."""
    workspace = Workspace(program, room)
    workspace.paths[1].chmod(0o444)
    for args in (workspace.upgrade(), workspace.set_version("0.2.0")):
        done = run(args)
        place = b"  at " + str(workspace.paths[1]).encode()
        if done.returncode != 1 or place not in done.stderr or b"  cause: " not in done.stderr:
            yield f"a member that may not be written: {done.returncode} {done.stderr!r}"
        if workspace.state(workspace.old) != "000" or workspace.left():
            yield f"a member that may not be written: {workspace.state(workspace.old)}, left {workspace.left()}"


def main():
    program, wrong = sys.argv[1], []
    for kind in (own_files, read) + ((owners, mounted) if not os.getuid() else ()):
        with tempfile.TemporaryDirectory() as room:
            wrong += kind(Place(program, room))
    for kind in (calls, twice, refused):
        with tempfile.TemporaryDirectory() as room:
            wrong += kind(program, room)
    if os.getuid() or run([*NOBODY, "true"]).returncode:
        print("no other user: owners were not tried")
    print("\n".join(wrong + [f"{len(wrong)} faults"]))
    sys.exit(bool(wrong))


if __name__ == "__main__":
    main()
