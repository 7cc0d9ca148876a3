#!/usr/bin/env python3
"""edges.py PROGRAM   the edge cases that edges.sh lists. Prints each case that fails."""
import json
import os
import pty
import shutil
import socket
import subprocess
import sys
import tempfile
import threading

MANIFEST = '[dependencies]\nserde = "1.0"\n'
INDEX = '{"name":"serde","vers":"1.2.3"}\n'
UPGRADE = ["upgrade", "--manifest-path", "Cargo.toml", "--index-file", "index.json"]
PROGRAM = sys.argv[1]
failed = []


class Room:
    """A folder of a case, with a manifest, an index file, a folder of an index and a lock file."""

    def __init__(self, top, name=b"room"):
        self.path = os.path.join(os.fsencode(tempfile.mkdtemp(dir=top)), name)
        os.mkdir(self.path)
        self.write("Cargo.toml", MANIFEST)
        self.write("index.json", INDEX)
        self.write("Cargo.lock", "version = 4\n")
        os.mkdir(self.at("index"))

    def at(self, name):
        return os.path.join(self.path, os.fsencode(name))

    def write(self, name, text):
        with open(self.at(name), "w", encoding="utf-8", newline="") as file:
            file.write(text)

    def read(self, name):
        with open(self.at(name), "rb") as file:
            return file.read()

    def files(self):
        """Every file below, with what it holds."""
        found = {}
        for folder, _, names in os.walk(self.path):
            for name in names:
                path = os.path.join(folder, name)
                found[path] = open(path, "rb").read() if os.path.isfile(path) else None
        return found

    def run(self, *arguments, env=None):
        return subprocess.run([PROGRAM, *arguments], cwd=self.path, stdin=subprocess.DEVNULL, capture_output=True,
                              timeout=10, env={**os.environ, **(env or {})})


def expect(what, holds, *shown):
    if not holds:
        failed.append(what)
        print(f"{what}:", *shown)


def refused(room, what, part, *arguments, env=None):
    """Checks that the run is a usage error with this text, and that every file stays."""
    before = room.files()
    done = room.run(*arguments, env=env)
    shown = done.stderr.decode(errors="backslashreplace")
    expect(what, done.returncode == 2 and shown.startswith("error: ") and part in shown, done.returncode, shown)
    expect(what + ": files", room.files() == before, "a file changed")


def outputs(top):
    """A file for the calls that is read, or written as something else, by any name; a folder that is not there."""
    room = Room(top)
    os.symlink("Cargo.toml", room.at("linked"))
    os.link(room.at("index.json"), room.at("hard.json"))
    os.mkdir(room.at("member"))
    room.write("member/Cargo.toml", '[package]\nname = "m"\n')
    room.write("index/config.json", "{}\n")
    os.mkdir(room.at(".cargo"))
    room.write(".cargo/config.toml", "[net]\noffline = true\n")
    room.write("first.toml", "[net]\noffline = true\n")
    room.write("metadata.json", "{}")
    for name in ["Cargo.toml", "./Cargo.toml", "linked", "index.json", "hard.json", "Cargo.lock", "member/Cargo.toml",
                 ".cargo/config.toml", "first.toml", "../room/index.json"]:
        refused(room, f"calls to {name}", "'--update-calls <FILE>': the file is read or written as something else",
                *UPGRADE, "--lock-file", "Cargo.lock", "--config", "first.toml", "--update-calls", name)
    refused(room, "calls to the metadata", "read or written", "upgrade", "--metadata-json", "metadata.json", "--index-file",
            "index.json", "--update-calls", "metadata.json")
    refused(room, "calls to an index entry", "read or written", "upgrade", "--index-dir", "index", "--update-calls",
            "index/config.json")
    os.unlink(room.at("Cargo.lock"))
    os.unlink(room.at(".cargo/config.toml"))
    os.mkdir(room.at("other"))
    for name in ["Cargo.lock", "other/Cargo.toml", "member/Cargo.lock", ".cargo/config.toml", ".cargo/config",
                 "../room/Cargo.lock", "home/config.toml", "index/se/rd"]:
        os.makedirs(os.path.dirname(room.at(name)), exist_ok=True)
        refused(room, f"calls to {name}, which does not exist", "read or written as something else", "upgrade",
                "--manifest-path", "Cargo.toml", "--index-dir", "index", "--update-calls", name,
                env={"CARGO_HOME": room.at("home")})
    with socket.socket(socket.AF_UNIX) as bound:
        bound.bind(room.at("socket"))
        refused(room, "calls to a socket", "it is a socket", *UPGRADE, "--update-calls", "socket")
    refused(room, "calls to a folder", "it is a folder", *UPGRADE, "--update-calls", "index")
    refused(room, "calls below no folder", "there is no such folder", *UPGRADE, "--update-calls", "none/calls")
    done = room.run(*UPGRADE, "--update-calls", "calls")
    expect("calls to a new file", done.returncode == 0 and os.path.exists(room.at("calls")), done)
    room.write("Cargo.toml", MANIFEST)
    done = room.run(*UPGRADE, "--update-calls", "calls")
    expect("calls to an old file", done.returncode == 0, done)
    parted = Room(top, b"two\nlines")
    refused(parted, "calls of a folder with a line end", "a line end", *UPGRADE, "--update-calls", "calls")


def folders(top):
    """An index folder that does not exist or is no folder."""
    room = Room(top)
    os.mkfifo(room.at("pipe"))
    for name in ["none", "index.json", "pipe", "/dev/null"]:
        refused(room, f"index folder {name}", f"'{name}' for '--index-dir <DIR>': there is no such folder",
                "upgrade", "--manifest-path", "Cargo.toml", "--index-dir", name, "--check")
    done = room.run("upgrade", "--manifest-path", "Cargo.toml", "--index-dir", "index")
    expect("an empty index folder", done.returncode == 0, done)


def args(top):
    """Arguments, folders and variables that are not UTF-8, or not there; empty names."""
    room = Room(top)
    for name in ["--package", "--exclude"]:
        refused(room, f"an empty name of {name}", "a value is required for", *UPGRADE, name, "")
        refused(room, f"an empty name of {name} behind a sign", "a value is required for", "set-version",
                "--metadata-json", "metadata.json", name + "=")
    refused(room, "an argument", "invalid UTF-8", "upgrade", b"--manifest-path=\xff")
    for name in ["HOME", "CARGO_HOME"]:
        env = {name: os.fsdecode(b"\xff")}
        for args in [["--help"], ["--version"], ["upgrade", "--help"], ["set-version", "--version"]]:
            done = room.run(*args, env=env)
            expect(f"{name} and {args}", done.returncode == 0 and done.stdout and not done.stderr, done)
    env = {"CARGO_HOME": "", "HOME": os.fsdecode(b"\xff")}
    refused(room, "HOME", "HOME is not UTF-8", *UPGRADE, env=env)
    odd = Room(top, b"odd\xff")
    gone = Room(top)
    inner = gone.at("gone")
    for args in [["--help"], ["--version"], ["upgrade", "--help"]]:
        done = odd.run(*args)
        expect(f"a folder that is not UTF-8 and {args}", done.returncode == 0 and done.stdout, done)
        done = in_gone(inner, args)
        expect(f"a removed folder and {args}", done.returncode == 0 and done.stdout, done)
    refused(odd, "a folder that is not UTF-8", "the current folder", *UPGRADE)
    done = in_gone(inner, UPGRADE)
    expect("a removed folder", done.returncode == 2 and b"the current folder" in done.stderr, done)


def in_gone(folder, arguments):
    """A run whose current folder has been removed."""
    script = 'cd "$1" && rmdir "$1" && shift && exec "$@"'
    os.mkdir(folder)
    return subprocess.run(["sh", "-c", script, "sh", folder, PROGRAM, *arguments], capture_output=True, timeout=10)


ACTIVE = "\x1b[2J\x1b]0;t\x07\r\x7f\x9b31m\u202e\u2028\u200f"
SHOWN = "\\u{1b}[2J\\u{1b}]0;t\\u{7}\\r\\u{7f}\\u{9b}31m\\u{202e}\\u{2028}\\u{200f}"
ODD = ('[package]\nname = "\\u001b[2J\\u001b]0;t\\u0007\\r\\u007f\\u009b31m\\u202e\\u2028\\u200f"\n'
       '[dependencies]\nserde = "1.0" # \u202e\u009b\n')


def terminal(room, arguments, env=None):
    """What a terminal gets on both streams, in this environment."""
    parent, child = pty.openpty()
    done = subprocess.Popen([PROGRAM, *arguments], cwd=room.path, stdin=subprocess.DEVNULL, stdout=child, stderr=child,
                            env=env or {})
    os.close(child)
    got = b""
    while True:
        try:
            piece = os.read(parent, 65536)
        except OSError:
            break
        if not piece:
            break
        got += piece
    os.close(parent)
    done.wait(10)
    return got.replace(b"\r\n", b"\n").decode()


def terminals(top):
    """Characters on which a terminal acts are escaped there, and nowhere else."""
    room = Room(top)
    room.write("Cargo.toml", ODD)
    got = terminal(room, [*UPGRADE, "--dry-run", "--diff"])
    expect("a terminal gets escapes", f"Checking {SHOWN}'s dependencies\n" in got, ascii(got))
    expect("a terminal gets no control character", all(c == "\n" or c == "\t" or c >= " " and c != "\x7f" and not
           "\x80" <= c <= "\x9f" and c not in "\u202e\u2028\u200f" for c in got), ascii(got))
    expect("a diff is escaped on a terminal", '+serde = "1.2" # \\u{202e}\\u{9b}\n' in got, ascii(got))
    done = room.run(*UPGRADE, "--dry-run", "--diff")
    expect("a pipe gets the bytes", f"Checking {ACTIVE}'s dependencies\n".encode() in done.stderr, done)
    expect("a diff in a pipe has the bytes", '+serde = "1.2" # \u202e\u009b\n'.encode() in done.stdout, done)
    got = terminal(room, [*UPGRADE, "--dry-run", "--message-format", "json"])
    lines = [line for line in got.splitlines() if line.startswith("{")]
    expect("messages on a terminal are JSON", [json.loads(line)["reason"] for line in lines][-1:] == ["upgrade-summary"], ascii(got))


def colors(top):
    """A report on a terminal is colored, unless the arguments or the environment say otherwise; columns are aligned there."""
    room = Room(top)
    titles, raised = "name  old req compatible latest new req", "serde 1.0     1.2.3      1.2.3  "
    got = terminal(room, [*UPGRADE, "-n"], {"TERM": "xterm"})
    expect("titles on a terminal", f"\n\x1b[1m{titles}\x1b[0m\n" in got, ascii(got))
    expect("a requirement on a terminal", f"\n{raised}\x1b[32m1.2    \x1b[0m\n" in got, ascii(got))
    expect("a status on a terminal", got.startswith("\x1b[1;32m    Checking\x1b[0m "), ascii(got))
    got = terminal(room, [*UPGRADE, "-n", "--color", "auto"], {"TERM": "xterm", "CARGO_TERM_COLOR": "never"})
    expect("--color auto", f"\x1b[1m{titles}\x1b[0m\n" in got, ascii(got))
    for args, env in [([], {}), ([], {"TERM": "dumb"}), ([], {"NO_COLOR": "1"}), ([], {"CLICOLOR": "0"}),
                      ([], {"CARGO_TERM_COLOR": "never", "CLICOLOR_FORCE": "1"}), (["--color", "never"], {}),
                      (["--message-format", "markdown"], {"NO_COLOR": "1"})]:
        got = terminal(room, [*UPGRADE, "-n", *args], {"TERM": "xterm", **env} if env or args else env)
        expect(f"no color: {args} {env}", "\x1b" not in got, ascii(got))
    room.write("Cargo.toml", '[dependencies]\n"\u6f22\u5b57" = { package = "serde", version = "1.0" }\nserde = "1.0"\n')
    for shown, spaces in [(terminal(room, [*UPGRADE, "-n"]), 3), (room.run(*UPGRADE, "-n").stdout.decode(), 1)]:
        expect(f"{spaces} spaces", "\nserde (\u6f22\u5b57)" + " " * spaces + "1.0" in shown, ascii(shown))


def writes(top):
    """Each write to standard error has whole lines. A datagram socket keeps writes apart."""
    room = Room(top)
    room.write("Cargo.toml", "[dependencies]\n" + "".join(f'a{i} = "x y"\n' for i in range(100)))
    ours, its = socket.socketpair(socket.AF_UNIX, socket.SOCK_DGRAM)
    pieces = []
    reader = threading.Thread(target=lambda: pieces.extend(iter(lambda: ours.recv(1 << 20), b"")))
    reader.start()
    subprocess.run([PROGRAM, *UPGRADE, "-n"], cwd=room.path, stdin=subprocess.DEVNULL, stdout=subprocess.DEVNULL,
                   stderr=its.fileno(), timeout=10)
    its.send(b"")
    reader.join(10)
    lines = b"".join(pieces).splitlines()
    expect("whole lines", len(lines) > 100 and all(piece.endswith(b"\n") for piece in pieces), len(lines), pieces[:5])
    expect("one write a line", len(pieces) <= b"".join(pieces).count(b"\n"), len(pieces))


def limits(top):
    """The limits of docs/LIMITS.md: an input at the limit is accepted, one above it is an error."""
    room = Room(top)

    def taken(what, at, past, write):
        for text, wanted in [(at, True), (past, False)]:
            room.write("Cargo.toml", MANIFEST)
            room.write("index.json", INDEX)
            write(text)
            done = room.run(*UPGRADE, "-n", "-v")
            clean = done.returncode == 0 and done.stderr.count(b"warning:") == done.stderr.count(b"aborting upgrade")
            expect(f"limit of {what}, taken: {wanted}", clean == wanted, done.returncode, done.stderr[:300])

    def manifest(text):
        room.write("Cargo.toml", text)

    def index(text):
        room.write("index.json", text)

    def requirement(parts):
        return MANIFEST.replace("1.0", ", ".join(["1"] * parts))

    taken("nesting", "a = " + "[" * 80 + "]" * 80 + "\n", "a = " + "[" * 81 + "]" * 81 + "\n", manifest)
    taken("comparators", requirement(32), requirement(33), manifest)
    taken("names", f'[dependencies]\n{"a" * 64} = "1"\n', f'[dependencies]\n{"a" * 65} = "1"\n', manifest)
    line = '{"name":"serde","vers":"1.2.3","x":%s}\n'
    taken("JSON", line % ("[" * 126 + "]" * 126), line % ("[" * 127 + "]" * 127), index)


def main():
    top = tempfile.mkdtemp()
    try:
        for part in [outputs, folders, args, terminals, colors, writes, limits]:
            part(top)
    finally:
        shutil.rmtree(os.fsencode(top))
    if failed:
        sys.exit(f"{len(failed)} cases failed")


main()
