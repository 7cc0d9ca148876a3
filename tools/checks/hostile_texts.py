"""The texts of hostile.py, reader by reader: what a row shows, its files, the arguments, the status, and a text that must
be printed. What is wanted comes from the standard (TOML 1.0.0, JSON), from the limits that the README states and from what
the original prints."""

from dataclasses import dataclass
from typing import Callable

MANY = 100_000
PARSE, NO_CONFIG = b"Error: Unable to parse Cargo.toml\n", b"Error: invalid cargo config at "
CHECKING = b"    Checking "


HERE = "@HERE@"
INDEX_FILE = ("--index-file", f"{HERE}/index.json")


@dataclass
class Row:
    """What a row shows, its files, the arguments of the program (@HERE@ is the folder of the files), the status, a text that
    is printed, and whether each file stays; a row of `calls` is one of the program edit_calls."""
    what: str
    files: Callable[[], dict]
    args: tuple
    status: int = 0
    text: bytes = b""
    stays: bool = True
    calls: bool = False


def manifest(what, text, status=0, output=CHECKING, args=(), stays=True, **files):
    """A manifest under an upgrade; the text is made when the row is tried."""
    others = {"index": "index.json", "config": ".cargo/config.toml"}
    args = ("upgrade", "--manifest-path", f"{HERE}/Cargo.toml", *INDEX_FILE, *args)
    return Row(what, lambda: {"Cargo.toml": text(), **{others[name]: make() for name, make in files.items()}}, args,
               status, output, stays)


def refused(what, text):
    """A manifest that is no document."""
    return manifest(what, text, 1, PARSE)


def numbered(count, line):
    """A line for each number."""
    return b"".join(line % number for number in range(count))


def deep_texts():
    for opening in (b"[", b"{a=", b"{\na=", b"{#\na="):
        yield refused(f"{MANY} times {opening!r}", lambda opening=opening: b"a = " + opening * MANY)
    yield refused("100,000 parts in a key", lambda: b"a" + b".a" * MANY + b" = 1\n")
    yield refused("100,000 parts in a header", lambda: b"[a" + b".a" * MANY + b"]\n")
    yield refused("100,000 parts in a header of an element", lambda: b"[[a" + b".a" * MANY + b"]]\n")
    yield refused("100,000 closing brackets", lambda: b"a = [" + b"]" * MANY)
    for parts, status, output in ((80, 0, CHECKING), (81, 1, PARSE)):
        yield manifest(f"a key of {parts} parts", lambda n=parts: b"a" + b".a" * (n - 1) + b" = 1\n", status, output)
        yield manifest(f"a header of {parts} parts", lambda n=parts: b"[a" + b".a" * (n - 1) + b"]\n", status, output)
        yield manifest(f"{parts - 1} arrays in one another", lambda n=parts - 1: b"a = " + b"[" * n + b"1" + b"]" * n, status, output)
    yield manifest("6,000 headers of 80 new parts", lambda: numbered(6000, b"[%04d" + b".a" * 79 + b"]\n"))
    yield manifest("4,000 keys of 80 new parts", lambda: numbered(4000, b"a%04d" + b".a" * 79 + b" = 1\n"))


def long_texts():
    million = 1_000_000
    yield manifest("a string of a megabyte", lambda: b'a = "' + b"x" * million + b'"\n')
    yield manifest("a literal string of a megabyte", lambda: b"a = '" + b"x" * million + b"'\n")
    yield manifest("160,000 escapes", lambda: b'a = "' + b"\\u0041" * 160_000 + b'"\n')
    yield manifest("500,000 folds", lambda: b'a = """' + b"\\\n" * 500_000 + b'"""\n')
    yield manifest("330,000 pairs of quotes", lambda: b'a = """' + b'""x' * 330_000 + b'"""\n')
    yield manifest("330,000 pairs of apostrophes", lambda: b"a = '''" + b"''x" * 330_000 + b"'''\n")
    yield refused("a string without an end", lambda: b'a = "' + b"x" * million)
    yield refused("a string over lines without an end", lambda: b'a = """' + b"x\n" * 500_000)
    yield refused("a lone surrogate behind 160,000 escapes", lambda: b'a = "' + b"\\u0041" * 160_000 + b'\\ud800"\n')
    yield manifest("an integer of a megabyte", lambda: b"a = " + b"1" * million + b"\n")
    yield manifest("an integer of 500,000 underscores", lambda: b"a = 1" + b"_1" * 500_000 + b"\n")
    yield refused("an underscore at the end of them", lambda: b"a = 1" + b"_1" * 500_000 + b"_\n")
    yield manifest("a hexadecimal number of a megabyte", lambda: b"a = 0x" + b"f" * million + b"\n")
    yield manifest("an exponent of a megabyte", lambda: b"a = 1e" + b"9" * million + b"\n")
    yield manifest("a second of a megabyte of digits", lambda: b"a = 07:32:00." + b"9" * million + b"\n")
    yield manifest("a comment of a megabyte", lambda: b"#" + b"x" * million)
    yield manifest("a megabyte of blanks", lambda: b" " * million)
    yield manifest("500,000 line ends", lambda: b"\r\n" * 500_000)
    yield refused("a megabyte of carriage returns", lambda: b"\r" * million)
    yield manifest("a key of a megabyte", lambda: b"a" * million + b" = 1\n")
    yield refused("a key without a value", lambda: b"a" * million)
    yield manifest("500,000 comments in an inline table", lambda: b"a = { b = 1" + b"#\n" * 500_000 + b", }\n")
    yield manifest("a million line ends behind a comma", lambda: b"a = { b = 1," + b"\n" * million + b"}\n")
    yield refused("a million line ends between two commas", lambda: b"a = { b = 1," + b"\n" * million + b", }\n")
    yield manifest("500,000 comments in an array", lambda: b"a = [" + b"#\n" * 500_000 + b"]\n")
    yield manifest("no text", lambda: b"\xff" * million, 1, b"Error: Failed to read manifest contents\n")


def many_texts():
    yield manifest("100,000 elements", lambda: b"[[a]]\n" * MANY)
    yield manifest("70,000 elements, each with one of its own", lambda: b"[[a]]\n[[a.b]]\n" * 70_000)
    yield manifest("70,000 elements, each with a table", lambda: b"[[a]]\n[a.b]\n" * 70_000)
    yield manifest("60,000 headers", lambda: numbered(60_000, b"[a%d]\n"))
    yield manifest("60,000 headers in falling order", lambda: b"".join(b"[a%d]\n" % n for n in range(60_000, 0, -1)))
    yield manifest("60,000 keys", lambda: numbered(60_000, b"a%d = 1\n"))
    yield manifest("60,000 dotted keys of one table", lambda: numbered(60_000, b"a.b%d = 1\n"))
    yield manifest("50,000 members of an inline table", lambda: b"a = {" + numbered(50_000, b"a%d=1,") + b"}\n")
    yield manifest("400,000 digits in an array", lambda: b"a = [" + b"1," * 400_000 + b"]\n")
    yield manifest("300,000 arrays in an array", lambda: b"a = [" + b"[]," * 300_000 + b"]\n")
    yield manifest("100,000 inline tables in an array", lambda: b"a = [" + b"{a=1}," * MANY + b"]\n")
    yield manifest("50,000 names that one hash puts at one place",
                   lambda: numbered(50_000, b"VCt84XxmJ16jGQv_PwRfGXPs%08d = 1\n"))
    yield manifest("5,000 names with one front of 200 bytes", lambda: numbered(5_000, b"a" * 200 + b"%d = 1\n"))
    yield refused("the first of 60,000 keys again", lambda: numbered(60_000, b"a%d = 1\n") + b"a0 = 2\n")
    yield refused("the first of 60,000 keys again, as a string", lambda: numbered(60_000, b"a%d = 1\n") + b'"\\u00610" = 2\n')
    yield refused("the first of 60,000 headers again", lambda: numbered(60_000, b"[a%d]\n") + b"[a0]\n")
    yield refused("a table behind 60,000 keys below it", lambda: numbered(60_000, b"a.b%d = 1\n") + b"[a]\n")
    yield refused("a member of an inline table twice", lambda: b"a = {" + numbered(50_000, b"a%d=1,") + b"a0=2}\n")


def fronts():
    text = b"[dependencies]\nserde = { version = '1.0', optional = true } # keep\n"
    for length in range(len(text) + 1):
        if length in (0, 14, 15) or length >= 59:
            yield manifest(f"the first {length} bytes", lambda n=length: text[:n])
        else:
            yield refused(f"the first {length} bytes", lambda n=length: text[:n])


def rows():
    from hostile_entries import entry_rows
    from hostile_readers import reader_rows
    for part in (deep_texts, long_texts, many_texts, fronts, entry_rows, reader_rows):
        yield from part()
