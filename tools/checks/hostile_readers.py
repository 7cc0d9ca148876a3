"""Rows of hostile.py: index lines, rankings, metadata, versions, addresses, and package specs by themselves."""

import json

from hostile_texts import CHECKING, HERE, INDEX_FILE, MANY, Row, manifest, numbered

MILLION = 1_000_000
TABLE = b"[dependencies]\n"
NO_METADATA, NO_MANIFEST = b"Error: Invalid workspace metadata\n", b"Error: Failed to read manifest contents\n"


def lines(what, text, status=0, output=CHECKING):
    """Index lines, under a manifest without entries."""
    return manifest("index lines: " + what, lambda: b"", status, output, index=text)


def index_rows():
    for what, text in (("an object without a version", b'{"name":"a"}'), ("no object", b"[]"), ("1,000 brackets", b"[" * 1000),
                       ("100,000 brackets", b"[" * MANY), ("100,000 braces", b'{"a":' * MANY), ("the byte FF", b"\xff"),
                       ("yanked by a text", b'{"name":"a","vers":"1.0.0","yanked":"no"}'), ("a number as a name", b'{"name":1,"vers":"1"}'),
                       ("a lone surrogate", b'{"name":"\\ud800","vers":"1.0.0"}'), ("two objects", b'{"name":"a","vers":"1"}' * 2),
                       ("a byte order mark", b'\xef\xbb\xbf{"name":"a","vers":"1"}'), ("a comma at the end", b'{"name":"a","vers":"1",}'),
                       ("a text without an end", b'{"name":"' + b"a" * MILLION), ("a number without digits", b'{"x":-}'),
                       ("a number of a megabyte", b'{"name":"a","vers":"1","x":' + b"1" * MILLION + b"}")):
        yield lines(what, lambda text=text: text, 1, b"Error: Invalid index line 1\n")
    yield lines("the last of 30,000 is cut", lambda: b'{"name":"a","vers":"1.0.0"}\n' * 30_000 + b'{"name":"a"', 1,
                b"Error: Invalid index line 30001\n")
    for what, text in (("a megabyte of blank ones", b"\n" * MILLION), ("none", b""), ("a megabyte of blanks", b" " * MILLION),
                       ("30,000 versions of a name", numbered(30_000, b'{"name":"a","vers":"1.0.%d"}\n')),
                       ("30,000 names", numbered(30_000, b'{"name":"a%d","vers":"1.0.0"}\n')),
                       ("30,000 times one version", b'{"name":"a","vers":"1.0.0"}\n' * 30_000),
                       ("a name of a megabyte", b'{"name":"' + b"a" * MILLION + b'","vers":"1"}'),
                       ("160,000 escapes", b'{"name":"' + b"\\u0000" * 160_000 + b'","vers":"1"}'),
                       ("100,000 further members", b'{"name":"a","vers":"1"' + numbered(MANY, b',"%d":1') + b"}"),
                       ("a member 100,000 times", b'{"name":"a","vers":"1"' + b',"x":1' * MANY + b"}"),
                       ("500,000 numbers", b'{"name":"a","vers":"1","x":[' + b"1," * 500_000 + b"1]}")):
        yield lines(what, lambda text=text: text)


def ranking(what, text, output, requirement=b"0.1"):
    """Index lines of one crate, whose latest version is reported for an entry."""
    return manifest("a ranking: " + what, lambda: TABLE + b'a = "%s"\n' % requirement, output=output, args=("-v",), index=text)


def rankings():
    yield ranking("30,000 versions in rising order", lambda: numbered(30_000, b'{"name":"a","vers":"1.0.%d"}\n'), b" 1.0.29999 ")
    yield ranking("30,000 versions in falling order", lambda: b"".join(
        b'{"name":"a","vers":"1.0.%d"}\n' % n for n in range(30_000, 0, -1)), b" 1.0.30000 ")
    yield ranking("30,000 equal versions", lambda: numbered(30_000, b'{"name":"a","vers":"1.0.0+%d"}\n'), b" 1.0.0 ")
    yield ranking("versions past 64 bits", lambda: b'{"name":"a","vers":"18446744073709551616.0.0"}\n'
                  b'{"name":"a","vers":"18446744073709551615.0.0"}\n', b" 18446744073709551615.0.0 ")
    yield ranking("two pre-releases of 400 kB that differ at the end", lambda: numbered(2, b'{"name":"a","vers":"1.0.0-'
                  + b"a." * 200_000 + b'%d"}\n'), b"a.a.1 ", b"0.1.0-a")


def packages(count, path):
    """The metadata of members, each with a manifest at a path."""
    members = [{"name": f"p{n}", "id": f"i{n}", "version": "1.0.0", "manifest_path": path % n} for n in range(count)]
    return {"workspace_root": HERE, "workspace_members": [member["id"] for member in members], "packages": members}


def metadata(what, listed, status=1, output=NO_METADATA, files=None, args=("upgrade", *INDEX_FILE), stays=True):
    """An output of `cargo metadata`, as bytes or as a value, under a command."""
    def made():
        text = listed()
        return {"metadata.json": text if isinstance(text, bytes) else json.dumps(text).encode(), **(files() if files else {})}
    return Row(what, made, (*args, "--metadata-json", f"{HERE}/metadata.json"), status, output, stays)


def two(second):
    """Two members, of which one has its manifest at /w/a/Cargo.toml."""
    listed = packages(2, "/w/a%d/Cargo.toml")
    listed["packages"][0]["manifest_path"], listed["packages"][1]["manifest_path"] = "/w/a/Cargo.toml", second
    return listed


def thousand():
    """Metadata of 1,000 members."""
    return packages(1000, HERE + "/a%d/Cargo.toml")


def manifests():
    """Their manifests, with an entry each."""
    return {f"a{n}/Cargo.toml": TABLE + b'x = "1"\n' for n in range(1000)}


def registries(count):
    """A configuration with so many registries."""
    return numbered(count, b'[registries.s%d]\nindex = "file:///i"\n')


def metadata_rows():
    one = packages(1, "/w/a%d/Cargo.toml")
    for what, text in (("100,000 brackets", lambda: b"[" * MANY), ("no object", lambda: []), ("no text", lambda: b"\xff"),
                       ("no packages", lambda: {**one, "packages": None}), ("a root that is no path", lambda: {**one, "workspace_root": "w"}),
                       ("members that are no texts", lambda: {**one, "workspace_members": [1]}), ("none", lambda: b""),
                       ("no end", lambda: b"{" + b" " * MILLION), ("a deep package", lambda: b'{"packages":' + b'[{"a":' * MANY),
                       ("a version of a megabyte", lambda: {**one, "packages": [{**one["packages"][0], "version": "1" * MILLION}]})):
        yield metadata("metadata: " + what, text)
    yield metadata("metadata: 100,000 members without a file", lambda: packages(MANY, "/w/a%d/Cargo.toml"), output=NO_MANIFEST)
    yield metadata("metadata: 20,000 members, the last in the folder of the first", lambda: json.dumps(packages(
        20_000, "/w/a%d/Cargo.toml")).replace("/w/a19999/", "/w/a0/").encode(), output=b"Error: Two members share the folder /w/a0\n")
    member = lambda: {"a0/Cargo.toml": b""}
    for what, changed in (("an id 100,000 times", lambda listed: {"workspace_members": ["i0"] * MANY}),
                          ("a package 20,000 times that is no member", lambda listed: {"packages": listed["packages"] + [
                              {**listed["packages"][0], "id": f"x{n}"} for n in range(20_000)]}),
                          ("100,000 further members of an object", lambda listed: {f"x{n}": n for n in range(MANY)})):
        yield metadata("metadata: " + what, lambda changed=changed: (lambda listed: {**listed, **changed(listed)})(
            packages(1, HERE + "/a%d/Cargo.toml")), 0, CHECKING, member)
    yield metadata("metadata: 1,000 members", thousand, 0, CHECKING, manifests)
    for what, status, output, config in (
            ("100 kB of comments", 0, CHECKING, lambda: b"# a line of a configuration\n" * 3600),
            ("400 registries", 0, CHECKING, lambda: registries(400)),
            ("1,000 registries", 0, CHECKING, lambda: registries(1000))):
        yield metadata(f"1,000 members under one configuration: {what}", thousand, status, output,
                       lambda config=config: {".cargo/config.toml": config(), **manifests()})
    for second in ("/w/./a/Cargo.toml", "/w//a/Cargo.toml", "/w/b/../a/Cargo.toml", "//w/a//Cargo.toml", "/../w/a/./Cargo.toml",
                   "/w/a/x/y/../../Cargo.toml", "/w/a/other.toml", "/x" * MANY + "/.." * MANY + "/w/a/Cargo.toml"):
        yield metadata(f"two members in one folder: {second[:30]}", lambda second=second: two(second),
                       output=b"Error: Two members share the folder /w/a\n")


def bump(what, version, level, status, output):
    """A new version of the one member, at a level."""
    def listed():
        one = packages(1, HERE + "/a%d/Cargo.toml")
        one["packages"][0]["version"] = version()
        return one
    return metadata(what, listed, status, output, lambda: {"a0/Cargo.toml": b'[package]\nversion = "%s"\n' % version().encode()},
                    ("set-version", "--bump", level), stays=status != 0)


def version_rows():
    for text, level in (("1.18446744073709551615.0", "minor"), ("1.0.0-rc.18446744073709551615", "rc"),
                        ("18446744073709551615.0.0", "major"), ("1.0.18446744073709551615", "patch")):
        yield bump(f"{level} of {text}", lambda text=text: text, level, 1, b"Error: A number of ")
    yield bump("a phase of a megabyte", lambda: "1.0.0-" + "a" * MILLION, "alpha", 0, b" to 1.0.0-alpha.1\n")
    yield bump("500,000 parts of a phase", lambda: "1.0.0-" + "a." * 500_000 + "a", "alpha", 1, b"Error: This version scheme is not supported.")
    yield bump("build metadata of a megabyte", lambda: "1.0.0+" + "a" * MILLION, "patch", 0, b" to 1.0.1")
    yield metadata("300 members, each with an entry for each", lambda: packages(300, HERE + "/a%d/Cargo.toml"), 0, b"p0 from 1.0.0 to 2.0.0\n",
                   lambda: {f"a{n}/Cargo.toml": b'[package]\nversion = "1.0.0"\n' + TABLE + numbered(
                       300, b'p%d = { path = "../a@", version = "1.0" }\n').replace(b"@", b"0") for n in range(300)},
                   ("set-version", "--bump", "major"), stays=False)
    for text in ("1" * 120_000, "1." * 40_000, "1.70.0-" + "a" * 100_000):
        yield manifest(f"a Rust version {text[:9]}..", lambda: b"", 2, b"error: invalid value '", ("--rust-version", text))
    yield manifest("a manifest's Rust version of a megabyte", lambda: b'[package]\nrust-version = "' + b"1" * MILLION + b'"\n')
    yield metadata("a target of 120,000 bytes", lambda: packages(1, "/w/a%d/Cargo.toml"), 2, b"error: invalid value '1.1.", args=(
        "set-version", "1." * 60_000))
    yield metadata("build metadata that is none", lambda: packages(1, HERE + "/a%d/Cargo.toml"), 1, b"Error: Invalid build metadata `++", lambda: {
        "a0/Cargo.toml": b'[package]\nversion = "1.0.0"\n'}, ("set-version", "--bump", "minor", "--metadata", "+" * 100_000))


def addressed(what, address, status, output, name=b"a"):
    """A lookup of a crate in an index of files at an address."""
    files = lambda: {"Cargo.toml": TABLE + b'"%s" = { version = "1", registry = "r" }\n' % name,
                     ".cargo/config.toml": b'registries.r.index = "%s"\n' % address}
    return Row(what, files, ("upgrade", "--manifest-path", f"{HERE}/Cargo.toml"), status, output)


def addresses():
    path, scheme = b"Error: invalid file path ", b"Error: Registry scheme `"
    for address, status, output in ((b"file:///%00", 1, path), (b"file:///a%00b", 1, path), (b"file:///%FF", 1, path),
                                    (b"https://e/x", 1, scheme), (b"sparse+https://e/", 1, scheme), (b"git+ssh://e/x", 1, scheme),
                                  (b"file:///nowhere%2F..%2F..", 0, CHECKING), (b"file:///" + b"a" * 3000, 1, b"Error: Failed to read a file\n"),
                                  (b"file:///%2e%2e/%2e%2e/nowhere", 0, CHECKING), (b"file://" + b"/.." * MANY, 0, CHECKING)):
        yield addressed(f"a lookup at {address[:30].decode()}", address, status, output)
    name = b"Error: Invalid crate name `"
    for crate in (b"a" * 65, b"", b"..", b"a/b", b"a\\u0000b", b"\xc3\xa9", b"a" * MILLION, b"%2e%2e", b"con/../.."):
        yield addressed(f"a lookup of {crate[:20]!r}", b"file:///nowhere", 1, name, crate)
    yield addressed("a lookup of a name of 64 bytes", b"file:///nowhere", 0, CHECKING, b"a" * 64)


def spec(what, text, output):
    """A package spec under its reader alone."""
    return Row(what, lambda: {"spec": text()}, ("spec", f"{HERE}/spec"), 0, output, calls=True)


def spec_rows():
    yield spec("a spec of a megabyte", lambda: b"a" * MILLION, b"aaa\ndone\n")
    yield spec("a spec of a megabyte of slashes", lambda: b"/" * MILLION, b"refused 20 Invalid name `///")
    yield spec("a spec with a requirement of a megabyte", lambda: b"a@" + b"1," * 500_000, b"refused 14 ")
    yield spec("a spec of a megabyte of signs", lambda: b"a" + b"@" * MILLION, b"refused 14 ")
    yield spec("a spec of 500,000 letters of two bytes", lambda: "é".encode() * 500_000, b"\xc3\xa9\ndone\n")
    yield spec("a zero byte in a spec", lambda: b"a\0", b"refused 20 ")


def reader_rows():
    for part in (index_rows, rankings, metadata_rows, version_rows, addresses, spec_rows):
        yield from part()
