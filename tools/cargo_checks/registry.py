#!/usr/bin/env python3
"""Registries on the loopback interface, for tools/checks/cargo_*.sh.

    registry.py DIR

Serves the sparse registries `one` and `two` with ETags, and the files of their crates; `files` is a registry whose index is a
git repository at DIR/files. DIR/port gets the port, DIR/other-port another one of the same, DIR/tls-port that of the same by
https. DIR/certificate.pem gets a certificate of 127.0.0.1 that nothing trusts, DIR/key.pem its key.
DIR/crates.json, where it is there, has more crates, as CRATES has them.
DIR/requests gets a line for each request of a client that is not cargo: its path, `sent` or `unchanged` (304), its user
agent, its Authorization or `-`, its Accept-Encoding or `-`, and `proxied` where this server was its proxy. DIR/mode selects
the response to such a client:

    down, status N      an answer of that status, without a body
    status N NAME       the same, for the crate NAME alone
    html, empty, cut, partial, foreign
                        status 200 with a page, nothing, a body that ends within its last line, one that is shorter than its
                        Content-Length, the body of another crate
    zipped              the body by gzip, for a client that takes it
    slow N              the answer after N seconds
    trickle             the body within 5 seconds, a part each half second
    flaky               503 at the first request for each path, then the answer
    redirect-once URL   302 with an ETag to URL and the path, once for each path, but for those below `moved`
    loop                302 to itself
    token TEXT          401 but where the header Authorization is TEXT, and `config.json` has `auth-required`
    gate                waits until DIR/open is there
    cut-once, reset-once, silent-once NAME
                        the first answer for the crate NAME is cut, ends with a reset of the connection, or is none; then the
                        answer
    wait N SECONDS, wait-once N SECONDS
                        status N with Retry-After, always or at the first request for each path
    hang                no answer
    endless, large      a body of 200 MB by chunks, a Content-Length of a gigabyte
    malformed NAME      a body of the crate NAME whose second line is malformed

While DIR/all is there, the mode is for cargo too. While DIR/private has a text, `one` is a registry that wants this token of
each client: `config.json` has `auth-required`, and all else is 401 but where the header Authorization is that text; while
DIR/walled is there, `config.json` too. DIR/seen gets a line for each request below `one`: its path, its Authorization or `-`.

The mode may be changed at any time. Ends when DIR/stop is there.
"""
import gzip
import hashlib
import http.server
import io
import json
import os
import socket
import ssl
import struct
import subprocess
import sys
import tarfile
import threading
import time

# when versions were published; those of other crates say nothing of it
TIMES = {
    ("one", "aged"): {"1.0.0": "2024-01-01T00:00:00Z", "1.0.9": "2024-02-01T00:00:00Z", "1.1.0": "2024-06-01T00:00:00Z",
                      "1.2.0": "2026-01-01T00:00:00Z"},
    ("one", "young"): {"1.0.0": "2026-02-01T00:00:00Z"},
    ("one", "needs"): {"1.0.0": "2024-01-01T00:00:00Z", "1.1.0": "2024-06-01T00:00:00Z", "1.2.0": "2024-07-01T00:00:00Z"},
    ("two", "apart"): {"1.0.0": "2024-01-01T00:00:00Z", "1.1.0": "2026-01-01T00:00:00Z"},
}
# registry, name, versions, each with what it depends on
CRATES = [
    ("one", "aged", {"1.0.0": {}, "1.0.9": {}, "1.1.0": {}, "1.2.0": {}}),
    ("one", "young", {"1.0.0": {}}),
    ("one", "needs", {"1.0.0": {}, "1.1.0": {"aged": "1"}, "1.2.0": {"young": "1"}}),
    ("two", "apart", {"1.0.0": {}, "1.1.0": {}}),
    ("one", "dep", {"1.0.0": {}, "1.2.3": {}, "2.0.0": {}}),
    ("one", "other", {"0.2.0": {}, "0.2.5": {}, "0.3.0": {}}),
    ("one", "third", {"1.0.0": {"dep": "1"}, "1.1.0": {"dep": "1"}}),
    # (what these depend on changes from version to version)
    ("one", "leaf", {"0.1.0": {}, "0.1.3": {}, "0.1.8": {}, "0.3.0": {}, "0.3.1": {}}),
    ("one", "gains", {"1.0.0": {}, "1.2.0": {"leaf": "0.1"}, "2.0.0": {}}),
    ("one", "loses", {"1.0.0": {"leaf": "0.1"}, "2.0.0": {}}),
    ("one", "keeps", {"1.0.0": {"leaf": "0.1"}}),
    ("one", "middle", {"0.5.0": {}, "0.5.4": {"dep": "1"}, "0.6.0": {"dep": "2"}}),
    ("two", "dep", {"2.0.0": {}, "2.4.0": {}, "3.0.0": {}}),
    ("files", "filed", {"1.0.0": {}, "1.3.0": {}}),
]


def layout(name):
    """The path of a name in an index's layout."""
    if len(name) < 3:
        return f"{len(name)}/{name}"
    return f"3/{name[0]}/{name}" if len(name) == 3 else f"{name[:2]}/{name[2:4]}/{name}"


def crate(name, version, needs):
    """The bytes of a crate's file."""
    manifest = f'[package]\nname = "{name}"\nversion = "{version}"\nedition = "2021"\n\n[dependencies]\n'
    manifest += "".join(f'{other} = "{req}"\n' for other, req in needs.items())
    plain = io.BytesIO()
    with tarfile.open(fileobj=plain, mode="w") as tar:
        for path, text in (("Cargo.toml", manifest), ("src/lib.rs", "")):
            entry = tarfile.TarInfo(f"{name}-{version}/{path}")
            entry.size = len(text)
            tar.addfile(entry, io.BytesIO(text.encode()))
    return gzip.compress(plain.getvalue(), mtime=0)


def line(registry, name, version, needs, file):
    """The line of a version in an index."""
    deps = [{"name": other, "req": req, "features": [], "optional": False, "default_features": True, "target": None,
             "kind": "normal", "registry": None, "package": None} for other, req in needs.items()]
    fields = {"name": name, "vers": version, "deps": deps, "cksum": hashlib.sha256(file).hexdigest(), "features": {},
            "yanked": False}
    time_of = TIMES.get((registry, name), {}).get(version)
    if time_of:
        fields["pubtime"] = time_of
    return json.dumps(fields) + "\n"


def write(path, text):
    """Writes a file and the folders above it."""
    os.makedirs(os.path.dirname(path), exist_ok=True)
    with open(path, "wb") as file:
        file.write(text)


def make_certificate():
    """Makes the certificate of the loopback address, and its key."""
    subprocess.run(["openssl", "req", "-x509", "-newkey", "ec", "-pkeyopt", "ec_paramgen_curve:prime256v1", "-nodes",
                    "-days", "2", "-subj", "/CN=127.0.0.1", "-addext", "subjectAltName=IP:127.0.0.1",
                    "-keyout", room + "/key.pem", "-out", room + "/certificate.pem"],
                   check=True, stderr=subprocess.DEVNULL)


class Answers(http.server.BaseHTTPRequestHandler):
    """Answers from the files below the room."""
    protocol_version = "HTTP/1.1"
    flaky = set()
    broken = set()
    moved = set()

    def answer(self, status, body=b"", tag=None, length=None, more=()):
        self.send_response(status)
        if tag:
            self.send_header("ETag", tag)
        for name, text in more:
            self.send_header(name, text)
        self.send_header("Content-Length", str(len(body) if length is None else length))
        self.end_headers()
        self.wfile.write(body)

    def note(self, *what):
        fields = [self.headers.get(it, "-").replace(" ", "") for it in ("User-Agent", "Authorization", "Accept-Encoding")]
        with open(room + "/requests", "a") as log:
            log.write(" ".join([self.path, what[0], *fields, *what[1:]]) + "\n")

    def breaks(self, kind, body):
        """Breaks off this answer."""
        self.close_connection = True
        if kind == "cut-once":
            self.answer(200, body[:10], None, len(body))
        elif kind == "reset-once":
            self.connection.setsockopt(socket.SOL_SOCKET, socket.SO_LINGER, struct.pack("ii", 1, 0))
            self.connection.close()

    def sends_much(self, kind):
        """Sends a body that is too large."""
        self.close_connection = True
        self.send_response(200)
        if kind == "large":
            self.send_header("Content-Length", "1000000000")
        else:
            self.send_header("Transfer-Encoding", "chunked")
        self.end_headers()
        for _ in range(3200 if kind == "endless" else 0):
            self.wfile.write(b"10000\r\n" + b" " * 0x10000 + b"\r\n")

    def odd(self, mode, body, tag):
        """Answers as the mode has it, and whether it did."""
        kind, _, rest = mode.partition(" ")
        # (a mode that is written again begins anew)
        once = (self.path, os.stat(room + "/mode").st_mtime_ns) if mode else None
        if kind == "down":
            self.answer(503)
        elif kind == "status":
            number, _, name = rest.partition(" ")
            if name and os.path.basename(self.path) != name:
                return False
            self.answer(int(number))
        elif kind == "html":
            self.answer(200, b"<html>Please log in</html>\n", '"portal"')
        elif kind == "empty":
            self.answer(200, b"", '"nothing"')
        elif kind == "cut":
            self.answer(200, body[:-20], '"cut"')
        elif kind == "partial":
            self.close_connection = True
            self.answer(200, body[:10], tag, len(body))
        elif kind == "foreign":
            self.answer(200, body.replace(os.path.basename(self.path).encode(), b"foreign"), '"foreign"')
        elif kind == "zipped" and "gzip" in self.headers.get("Accept-Encoding", ""):
            self.answer(200, gzip.compress(body), tag, more=[("Content-Encoding", "gzip")])
        elif kind == "slow":
            time.sleep(float(rest))
            return False
        elif kind == "trickle" and self.path.endswith("dep"):
            self.send_response(200)
            self.send_header("Content-Length", str(len(body)))
            self.end_headers()
            for k in range(10):
                time.sleep(0.5)
                self.wfile.write(body[k * 40:(k + 1) * 40] if k < 9 else body[k * 40:])
                self.wfile.flush()
        elif kind == "flaky" and once not in self.flaky:
            self.flaky.add(once)
            self.answer(503)
        elif kind == "redirect-once" and once not in self.moved and not self.path.startswith("/moved/"):
            self.moved.add(once)
            self.answer(302, tag='"moved"', more=[("Location", rest + self.path)])
        elif kind.endswith("-once") and kind != "redirect-once" and once not in self.broken \
                and (kind == "wait-once" or os.path.basename(self.path) == rest):
            self.broken.add(once)
            if kind == "wait-once":
                self.answer(int(rest.split()[0]), more=[("Retry-After", rest.split()[1])])
            else:
                self.breaks(kind, body)
        elif kind == "wait":
            self.answer(int(rest.split()[0]), more=[("Retry-After", rest.split()[1])])
        elif kind == "hang":
            while not os.path.exists(room + "/stop"):
                time.sleep(0.1)
        elif kind in ("endless", "large"):
            self.sends_much(kind)
        elif kind == "malformed" and os.path.basename(self.path) == rest:
            lines = body.splitlines(keepends=True)
            self.answer(200, b"".join(lines[:1] + [b'{"name":"%s","vers":12}\n' % rest.encode()] + lines[1:]), '"malformed"')
        elif kind == "loop":
            self.answer(302, more=[("Location", self.path)])
        elif kind == "token" and self.headers.get("Authorization") != rest:
            self.answer(401)
        elif kind == "gate":
            while not os.path.exists(room + "/open"):
                time.sleep(0.02)
            return False
        else:
            return False
        return True

    def is_refused(self, mode):
        """Whether this is a request without the token that the registry wants; and whether `config.json` says that it does."""
        if not self.path.startswith("/one/"):
            return False, mode.startswith("token ")
        own = self.headers.get("Authorization", "-")
        with open(room + "/seen", "a") as log:
            log.write(f"{self.path} {own}\n")
        if not os.path.exists(room + "/private"):
            return False, mode.startswith("token ")
        is_open = self.path.endswith("/config.json") and not os.path.exists(room + "/walled")
        return own != open(room + "/private").read().strip() and not is_open, True

    def do_GET(self):
        proxied = ["proxied"] if self.path.startswith("http://") else []
        if proxied:
            self.path = "/" + self.path.split("/", 3)[3]
        path = os.path.join(room, "served", self.path.lstrip("/"))
        mode = open(room + "/mode").read().strip() if os.path.exists(room + "/mode") else ""
        entry = not self.path.startswith("/dl/") and not self.path.endswith("/config.json")
        is_cargo = self.headers.get("User-Agent", "").startswith("cargo/") and not os.path.exists(room + "/all")
        watched = entry and not is_cargo
        is_there = os.path.isfile(path)
        body = open(path, "rb").read() if is_there else b""
        refused, wants = self.is_refused(mode)
        if wants and self.path.endswith("/config.json"):
            body = json.dumps({**json.loads(body), "auth-required": True}).encode()
        tag = '"' + hashlib.sha256(body).hexdigest()[:16] + '"'
        unchanged = is_there and self.headers.get("If-None-Match") == tag
        if watched:
            self.note("unchanged" if unchanged else "sent", *proxied)
            if self.odd(mode, body, tag):
                return None
        if refused:
            return self.answer(401)
        if not is_there:
            return self.answer(404)
        if unchanged:
            return self.answer(304, tag=tag)
        return self.answer(200, body, tag)

    def log_message(self, *_args):
        pass


class Server(http.server.ThreadingHTTPServer):
    """A server for clients that give up before they have an answer."""
    request_queue_size = 128
    daemon_threads = True

    def handle_error(self, request, client_address):
        if not isinstance(sys.exc_info()[1], (OSError, ValueError)):
            super().handle_error(request, client_address)


room = os.path.abspath(sys.argv[1])
server = Server(("127.0.0.1", 0), Answers)
port = server.server_address[1]
if os.path.exists(room + "/crates.json"):
    CRATES += json.load(open(room + "/crates.json"))
for registry, name, versions in CRATES:
    lines = ""
    for version, needs in versions.items():
        file = crate(name, version, needs)
        write(f"{room}/served/dl/{registry}/{name}-{version}", file)
        lines += line(registry, name, version, needs, file)
    top = f"{room}/files" if registry == "files" else f"{room}/served/{registry}"
    write(f"{top}/{layout(name)}", lines.encode())
for registry in ("one", "two", "files"):
    top = f"{room}/files" if registry == "files" else f"{room}/served/{registry}"
    fields = {"dl": f"http://127.0.0.1:{port}/dl/{registry}/{{crate}}-{{version}}"}
    write(f"{top}/config.json", json.dumps(fields).encode())
git = ["git", "-C", room + "/files", "-c", "user.name=a", "-c", "user.email=a@b.invalid"]
subprocess.run(["git", "init", "-q", room + "/files"], check=True)
subprocess.run(git + ["add", "."], check=True)
subprocess.run(git + ["commit", "-q", "-m", "index"], check=True)
threading.Thread(target=server.serve_forever, daemon=True).start()
other = Server(("127.0.0.1", 0), Answers)
threading.Thread(target=other.serve_forever, daemon=True).start()
safe = Server(("127.0.0.1", 0), Answers)
make_certificate()
context = ssl.SSLContext(ssl.PROTOCOL_TLS_SERVER)
context.load_cert_chain(room + "/certificate.pem", room + "/key.pem")
safe.socket = context.wrap_socket(safe.socket, server_side=True)
threading.Thread(target=safe.serve_forever, daemon=True).start()
for name, number in (("tls-port", safe.server_address[1]), ("other-port", other.server_address[1]), ("port", port)):
    write(f"{room}/{name}.new", str(number).encode())
    os.replace(f"{room}/{name}.new", f"{room}/{name}")
while not os.path.exists(room + "/stop"):
    time.sleep(0.05)
