"""Rows of hostile.py: entries of manifests, with the index lines, configurations and arguments that they meet."""

from hostile_texts import CHECKING, NO_CONFIG, manifest, numbered

TABLE = b"[dependencies]\n"


def entries(count, line):
    return lambda: TABLE + numbered(count, line)


def lines(count, line):
    return lambda: numbered(count, line)


def keeping(key, text):
    """The warning that a requirement is not read."""
    return b"warning: keeping %s, unreadable requirement `%s`" % (key, text)


def requirement_rows():
    x2 = lambda: b'{"name":"x","vers":"2.0.0"}\n'
    for what, text in (("a number past 64 bits", b"18446744073709551616"), ("33 comparators", b", ".join([b"1"] * 33)),
                       ("a dot without a number", b"1."), ("a byte of zero", b"1\\u0000")):
        output = keeping(b"x", text.replace(b"\\u0000", b"\0"))
        yield manifest(what + " in a requirement", lambda text=text: TABLE + b'x = "%s"\n' % text, output=output, index=x2)
    yield manifest("32 comparators", lambda: TABLE + b'x = "%s"\n' % b", ".join([b"1"] * 32), index=x2,
                   output=b"Re-run with `--incompatible`")
    for what, text in (("500,000 comparators", b"1," * 500_000), ("a requirement of a megabyte of digits", b"1" * 1_000_000),
                       ("a megabyte of signs", b">" * 1_000_000), ("a pre-release of a megabyte", b"1.0.0-" + b"a." * 500_000)):
        yield manifest(what, lambda text=text: TABLE + b'x = "%s"\n' % text, output=b"warning: keeping x, unreadable requirement `",
                       index=x2)
    yield manifest("a requirement behind a megabyte of blanks", lambda: TABLE + b'x = "' + b" " * 1_000_000 + b'1.0"\n',
                   index=lambda: b'{"name":"x","vers":"1.5.0"}\n', stays=False)
    yield manifest("build metadata of a megabyte", lambda: TABLE + b'x = "1.0.0+' + b"a" * 1_000_000 + b'"\n',
                   index=lambda: b'{"name":"x","vers":"1.5.0"}\n', stays=False)


def entry_rows():
    yield from requirement_rows()
    yield manifest("20,000 entries, and a line for each", entries(20_000, b'c%d = "1.0"\n'), stays=False,
                   index=lines(20_000, b'{"name":"c%d","vers":"1.2.3"}\n'))
    yield manifest("20,000 entries of one crate", entries(20_000, b'c%d = { package = "x", version = "1" }\n'),
                   index=lines(1, b'{"name":"x","vers":"1.2.%d"}\n'), output=CHECKING)
    yield manifest("20,000 targets", lambda: numbered(20_000, b'[target.t%d.dependencies]\nx = "1.0"\n'), stays=False,
                   index=lines(1, b'{"name":"x","vers":"1.2.%d"}\n'))
    yield manifest("50,000 entries that say nothing", entries(50_000, b"c%d = 1\n"),
                   output=b"warning: ignoring c0, unsupported entry: ")
    yield manifest("100,000 features of an entry", lambda: TABLE + b'x = { version = "1", features = ['
                   + numbered(100_000, b'"f%d",') + b"] }\n")
    yield manifest("a feature 100,000 times", lambda: TABLE + b'x = { version = "1", features = [' + b'"f",' * 100_000 + b"] }\n")
    for size, status, output in ((64, 0, CHECKING), (65, 1, b"Error: Invalid crate name `")):
        yield manifest(f"a crate name of {size} bytes", lambda n=size: TABLE + b"a" * n + b' = "1"\n', status, output)
    for name in (b"", b"..", b"a/b", b"a\\u0000", b"\xc3\xa9", b"a" * 1_000_000):
        yield manifest(f"a crate {name[:9]!r}", lambda name=name: TABLE + b'"%s" = "1"\n' % name, 1, b"Error: Invalid crate name `")
    yield from chains()
    yield from arguments()


def chain(length, last):
    """Sources of which each is replaced with the next, and the last as given."""
    return lambda: b"".join(b'[source.s%d]\nreplace-with = "s%d"\n' % (n, n + 1) for n in range(length - 1)) \
        + b"[source.s%d]\n" % (length - 1) + last


def chains():
    entry = lambda: TABLE + b'a = { version = "0.9", registry = "s0" }\n'
    for length in (1, 2, 1000, 20_000):
        yield manifest(f"a circle of {length} sources", entry, 1, b"Error: The source 's0' could not be found",
                       config=chain(length, b'replace-with = "s0"\n'))
    yield manifest("a chain of 20,000 sources", entry, config=chain(20_000, b'registry = "file:///idx"\n'))
    yield manifest("4,000 entries, each with another start of one chain",
                   lambda: TABLE + b"".join(b'c%d = { version = "1", registry = "s%d" }\n' % (n, n) for n in range(4000)),
                   config=chain(4000, b'registry = "file:///idx"\n'))
    yield manifest("a chain without an address", entry, 1, b"Error: missing `registry`", config=chain(20_000, b""))
    yield manifest("20,000 registries, of which one is named", entry,
                   config=lambda: numbered(20_000, b'[registries.s%d]\nindex = "file:///i"\n'))
    yield manifest("8,000 registries, each named by an entry",
                   lambda: TABLE + b"".join(b'c%d = { version = "1", registry = "s%d" }\n' % (n, n) for n in range(8000)),
                   config=lambda: numbered(8000, b'[registries.s%d]\nindex = "file:///i"\n'))
    for what, text in (("100,000 brackets", b"a = " + b"[" * 100_000), ("100,000 braces", b"a = " + b"{a=" * 100_000),
                       ("100,000 parts in a key", b"a" + b".a" * 100_000 + b" = 1"), ("no text", b"\xff" * 1_000_000),
                       ("a table of another kind", b"[registries]\na = 1\n"), ("an index that is no text", b"registries.a.index = 1\n"),
                       ("a key twice behind 40,000", numbered(40_000, b"a%d = 1\n") + b"a0 = 1\n")):
        yield manifest(f"a configuration: {what}", entry, 1, NO_CONFIG, config=lambda text=text: text)
    yield manifest("an address of a megabyte", entry, config=lambda: b'registries.s0.index = "file:///' + b"a" * 1_000_000 + b'"\n')
    yield manifest("an address of 300,000 signs of per cent", entry, config=lambda: b'registries.s0.index = "file:///'
                   + b"%2F" * 300_000 + b'"\n')
    yield manifest("no address", entry, 1, b"Error: invalid `registry` field", config=lambda: b'registries.s0.index = "' + b":" * 1_000_000 + b'"\n')


def arguments():
    arg = "a" * 120_000
    entry = lambda: TABLE + b'a = "1"\n'
    yield manifest("an argument of 120,000 bytes", entry, 1, b"Error: dependency " + arg[:100].encode(), args=("-p", arg))
    yield manifest("an argument of 120,000 slashes", entry, 1, b"Error: Invalid name `///", args=("-p", "/" * 120_000))
    yield manifest("40,000 numbers in a requirement of an argument", entry, 1, b"Error: Invalid version requirement `1.1.",
                   args=("-p", "a@" + "1." * 40_000))
    yield manifest("10,000 arguments", entries(20_000, b'c%d = "1"\n'), 1, b"Error: dependencies w0, w1, ",
                   args=tuple(arg for n in range(5_000) for arg in ("-p", f"w{n}")))
    yield manifest("5,000 excluded names", entries(20_000, b'c%d = "1"\n'),
                   args=tuple(arg for n in range(5_000) for arg in ("--exclude", f"c{n}")))
