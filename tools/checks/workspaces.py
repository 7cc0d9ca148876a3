"""A workspace of small manifests that runs change at once, are killed over or fail in, and the arguments of runs."""

import json
import pathlib
import subprocess

NOBODY = ["setpriv", "--reuid=65534", "--regid=65534", "--clear-groups"]
# The prefix of the names of files that a run makes.
MADE = ".cargo-edit."


def manifest(number):
    """The text of a member: a dependency, and the member before it."""
    text = f'[package]\nname = "m{number}"\nversion = "0.1.0"\n\n[dependencies]\na = "1.0"\n'
    if number:
        text += f'm{number - 1} = {{ path = "../m{number - 1}", version = "0.1" }}\n'
    return text.encode()


class Workspace:
    """Members in folders of their own, and what runs read beside them."""

    def __init__(self, program, room, members=3):
        self.program, self.room = program, pathlib.Path(room).resolve()
        self.paths = [self.room / f"m{number}" / "Cargo.toml" for number in range(members)]
        self.old = [manifest(number) for number in range(members)]
        for path in self.paths:
            path.parent.mkdir(parents=True)
        packages = [{"name": f"m{number}", "id": f"m{number}", "version": "0.1.0", "manifest_path": str(path)}
                    for number, path in enumerate(self.paths)]
        self.metadata = {"workspace_root": str(self.paths[0].parent), "packages": packages,
                         "workspace_members": [package["id"] for package in packages]}
        (self.room / "metadata.json").write_text(json.dumps(self.metadata))
        (self.room / "index.json").write_text('{"name":"a","vers":"1.0.0"}\n{"name":"a","vers":"1.5.0"}\n')
        self.reset()
        self.own = self.names()

    def reset(self):
        for path, text in zip(self.paths, self.old):
            path.write_bytes(text)

    def names(self):
        """All files below the room."""
        return {str(path) for path in self.room.rglob("*")}

    def left(self):
        """The files that are not the workspace's own."""
        return sorted(self.names() - self.own)

    def upgrade(self):
        return [self.program, "upgrade", "--metadata-json", str(self.room / "metadata.json"), "--index-file",
                str(self.room / "index.json")]

    def set_version(self, *args):
        return [self.program, "set-version", "--metadata-json", str(self.room / "metadata.json"), "--workspace", *args]

    def raised(self):
        """The texts after an upgrade."""
        return [text.replace(b'a = "1.0"', b'a = "1.5"') for text in self.old]

    def bumped(self, version="0.2.0"):
        """The texts after `set-version` of this version."""
        short = version.rpartition(".")[0].encode()
        return [text.replace(b'"0.1.0"', b'"%s"' % version.encode()).replace(b'"0.1"', b'"%s"' % short)
                for text in self.old]

    def state(self, *texts):
        """For each manifest the number of the list of texts that it is from, or a cross where it is none."""
        return "".join(next((str(number) for number, text in enumerate(texts) if path.read_bytes() == text[at]), "x")
                       for at, path in enumerate(self.paths))

    def missing(self):
        """The manifests that are missing, each with the texts of the files beside it."""
        return [(path, [beside.read_bytes() for beside in path.parent.iterdir()]) for path in self.paths if not path.exists()]

    def given_back(self):
        """What is wrong after a kill that came while a manifest was moved: its old text stands beside it, and a dry run gives
        it back."""
        missing = self.missing()
        if len(missing) > 1:
            yield f"{len(missing)} manifests are missing"
        for path, beside in missing:
            if self.old[self.paths.index(path)] not in beside:
                yield f"the text of {path} is gone"
        if missing:
            done = run([*self.upgrade(), "--dry-run"])
            if done.returncode or self.missing():
                yield f"a dry run gives no manifest back: {done.stderr!r}"


def run(args, by=(), **options):
    """A run, with what it prints."""
    return subprocess.run([*by, *args], capture_output=True, check=False, timeout=60, **options)
