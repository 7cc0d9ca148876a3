"""The whole command `cargo upgrade -n` over a warm cache, with cargo, curl and a registry on the loopback interface."""

import http.server
import os
import re
import shutil
import subprocess
import threading
import time

import manifests
import registry
from jobs import Result, size_text
from measure import Cost, Failed, Job
from workspaces import Workspace

ROOT = os.path.dirname(os.path.dirname(os.path.realpath(__file__)))


class Registry(http.server.ThreadingHTTPServer):
    """A registry with the sparse protocol. An entry that is asked for with its own ETag is answered with 304."""
    daemon_threads, request_queue_size = True, 64

    def __init__(self, found):
        super().__init__(("127.0.0.1", 0), Handler)
        self.address = f"http://127.0.0.1:{self.server_address[1]}/"
        self.texts = {f"/{crate.name[:2]}/{crate.name[2:4]}/{crate.name}": "".join(registry.lines(crate)).encode()
                      for crate in found}
        self.texts["/config.json"] = b'{"dl":"' + self.address.encode() + b'crates"}'
        self.sent = 0
        threading.Thread(target=self.serve_forever, daemon=True).start()


class Handler(http.server.BaseHTTPRequestHandler):
    """Answers a request for a file of the registry."""
    protocol_version = "HTTP/1.1"

    def do_GET(self):
        """Sends the file, unless it is the one that the client has."""
        text = self.server.texts.get(self.path)
        etag = f'"{len(text or b"")}"'
        is_known = text is not None and self.headers.get("If-None-Match") == etag
        self.send_response(404 if text is None else 304 if is_known else 200)
        self.send_header("ETag", etag)
        body = b"" if text is None or is_known else text
        self.server.sent += len(body)
        self.send_header("Content-Length", str(len(body)))
        self.end_headers()
        self.wfile.write(body)

    def log_message(self, *_):
        """Prints nothing."""


class Command:
    """`cargo-upgrade` of the clone around the program that is measured, in a workspace."""

    def __init__(self, folder, program, made, address):
        self.made, self.folder = made, folder
        own = os.path.join(folder, "installed")
        for part in ("bin", "share"):
            shutil.copytree(os.path.join(ROOT, part), os.path.join(own, part))
        os.remove(os.path.join(own, "bin", "cargo-edit"))
        shutil.copy(program, os.path.join(own, "bin", "cargo-edit"))
        self.path = os.path.join(own, "bin", "cargo-upgrade")
        manifests.write(os.path.join(made.folder, ".cargo", "config.toml"),
                        f'[source.crates-io]\nreplace-with = "local"\n\n[source.local]\nregistry = "sparse+{address}"\n')
        home = os.environ.get("HOME", "")
        self.variables = {"PATH": os.environ["PATH"], "HOME": folder, "CARGO_HOME": os.path.join(folder, "home"),
                          "RUSTUP_HOME": os.environ.get("RUSTUP_HOME", os.path.join(home, ".rustup")),
                          "NO_PROXY": "127.0.0.1"}

    def run(self, *options, before=()):
        """Runs the command dry; returns the seconds by the clock, and what it printed."""
        begin = time.perf_counter()
        done = subprocess.run([*before, self.path, "upgrade", "-n", "-i", *options], cwd=self.made.folder,
                              env=self.variables, stdin=subprocess.DEVNULL, capture_output=True, text=True, check=False)
        if done.returncode != 0:
            raise Failed(f"cargo upgrade ended with status {done.returncode}: {done.stderr[-500:]}")
        return time.perf_counter() - begin, done.stdout

    def least(self, rounds, *options):
        """The least seconds of several runs."""
        return min(self.run(*options)[0] for _ in range(rounds))

    def counts(self):
        """The number of programs that a run starts, and of system calls, as a text; empty without strace."""
        if not shutil.which("strace"):
            return ""
        log = os.path.join(self.folder, "calls")
        self.run(before=("strace", "-f", "-qq", "-o", log))
        with open(log, encoding="utf-8", errors="replace") as file:
            calls = [line for line in file if re.match(r"\d+ +\w+\(", line)]
        started = sum(1 for line in calls if re.match(r"\d+ +execve\(.*= 0$", line.rstrip()))
        return f"{started} programs, {len(calls):,} system calls"


def transfer(folder, address, found):
    """The least seconds that curl alone takes for these entries, each answered with 304."""
    config = "".join(f'{"" if at == 0 else "next" + chr(10)}url = "{address}{crate.name[:2]}/{crate.name[2:4]}/{crate.name}"\n'
                     f'header = "If-None-Match: \\"{len("".join(registry.lines(crate)))}\\""\noutput = "/dev/null"\nsilent\n'
                     for at, crate in enumerate(found))
    path, least = os.path.join(folder, "transfers"), None
    manifests.write(path, config)
    for _ in range(3):
        begin = time.perf_counter()
        subprocess.run(["curl", "-q", "-Z", "--parallel-immediate", "--parallel-max", "16", "--config", path],
                       env={"PATH": os.environ["PATH"], "NO_PROXY": "127.0.0.1"}, check=True, capture_output=True)
        least = min(least or 1e9, time.perf_counter() - begin)
    return least


def warm_run(room, size):
    """A dry run on line over a cache that is up to date, without the time of the transfers, as a multiple of one off
    line."""
    members, count, least, most = size
    if not shutil.which("cargo") or not shutil.which("curl"):
        raise Failed("cargo and curl are needed")
    folder, found = room.clear(), registry.crates(count, least, most)
    server = Registry(found)
    try:
        made = Workspace(os.path.join(folder, "workspace"), members, found, 33)
        for number in range(members):
            manifests.write(os.path.join(os.path.dirname(made.path(number)), "src", "lib.rs"), "")
        command = Command(folder, room.programs["program"], made, server.address)
        command.run()
        whole, server.sent = server.sent, 0
        if not whole:
            raise Failed("nothing was fetched")
        on_line, off_line = command.least(room.rounds), command.least(room.rounds, "--offline")
        if server.sent:
            raise Failed(f"{server.sent} bytes were sent again")
        curl, counts = transfer(folder, server.address, found), command.counts()
    finally:
        server.shutdown()
    note = f"{on_line:.3f} s by the clock, {curl:.3f} s of them curl; off line {off_line:.3f} s; {counts}"
    cost = Cost(on_line, 0, on_line)
    return Result(f"{members} members, {count} crates, {size_text(whole)}", {"program": cost}, None,
                  (on_line - curl) / off_line, note)
