"""Makes index lines: as registries and the fuzzer write them, and changed so that some are none."""

import json
import pathlib
import sys
import tomllib

from json_texts import TEXTS

ROOT = pathlib.Path(__file__).resolve().parents[2]
sys.path += [str(ROOT / "bench"), str(ROOT / "tests/fuzz")]
import inputs
import registry

FIELDS = ("name", "vers", "yanked", "rust_version", "pubtime")
# (times at, just before and just after the bounds of the runs, too)
TIMES = ("2016-02-29T23:59:59Z", "2018-01-01T00:00:00Z", "2018-01-01T00:00:01Z", "2019-07-04T10:20:30Z",
         "2022-06-15T11:59:59Z", "2022-06-15T12:00:00Z", "2022-06-15T12:00:01Z", "2024-12-31T23:59:59Z")
RUST = ("1.0", "1.31", "1.56", "1.56.1", "1.60", "1.60.0", "1.64", "1.65.0", "1.70", "1.70.1", "1.75", "2")
TYPES = (b"1", b"null", b"true", b"false", b'""', b'"a"', b'"1.0.0"', b"[]", b"{}", b'["a"]', b"0.5")
BYTES = b'"\\{}[],:0129-+.eEtfn/u \t\r\x00\x1f\x7f\x80\xbf\xc3\xe2\xed\xf0\xff'
ESCAPES = ['\\"', "\\\\", '\\\\\\"', "\\/", "\\n", "\\u0041", "\\u00e9", "\\ud83d\\ude00"]
ODD_PARTS = [*ESCAPES, "\\", '"', "\t", "\0", "\x1f", "\x7f", "\u00e9", "\\ud800", "\\udc00", "\\u00", "\\x",
             *(bytes([code]) for code in (0x80, 0xbf, 0xc3, 0xe2, 0xf0, 0xff)), b"\xed\xa0\x80"]
# The digits of the least number that is past the range of a float.
PAST_FLOATS = "1797693134862315807937289714053034150799341327100378269361737789804449682927647509466490179775"
MARKS = (b'":', b':"', b":[", b":{", b',"', b",{", b'["', b"[{", b'"]', b'{"', b"}}", b"]}", b"},", b'",')
BLANKS = (b" ", b"  ", b"\t", b"\r", b" \t\r ", b"\x0c", b"\x0b", b"\xc2\xa0")


def string(rng, text):
    """The literal of a string, some of its characters escaped."""
    share = rng.choice((0, 0, 0, 0.2, 1))
    made = ""
    for char in text:
        plain = json.dumps(char, ensure_ascii=False)[1:-1]
        form = rng.choice(("\\u%04x", "\\u%04X"))
        made += form % ord(char) if rng.random() < share and ord(char) < 0x10000 else plain
    return f'"{made}"'.encode()


def name_of(number):
    """The name of a crate, another one for each number; some are long."""
    return registry.name_of(number) + ("-" * (number % 9) + "long_name" * 4 if number % 7 == 0 else "")


def odd_string(rng):
    """The literal of a string, with some escapes, and parts that may not stand in one."""
    specials = rng.choice((ESCAPES, ESCAPES, [*ESCAPES, "\u00e9", "\u20ac", "\U0001f980", "\x7f"], ODD_PARTS))
    parts = [b"x" * rng.choice((0, 1, 3, 7, 8, 14, 15, 16, 24, 31, 32, rng.randrange(70)))]
    for _ in range(rng.randrange(4)):
        part = rng.choice(specials)
        parts.append(part.encode() if isinstance(part, str) else part)
        parts.append(b"y" * rng.choice((0, 0, 0, 1, 7, rng.randrange(33))))
    return b'"' + b"".join(parts) + b'"'


def odd_number(rng):
    """The literal of a number, or nearly so; many are long, or near the greatest float."""
    def digits(count):
        return "".join(rng.choice("0123456789") for _ in range(count))
    if rng.random() < 0.4:
        text = PAST_FLOATS[:rng.randrange(1, len(PAST_FLOATS))] + digits(rng.randrange(4))
        point = rng.randrange(1, len(text) + 1)
        return f"{text[:point]}{'.' * (point < len(text))}{text[point:]}e{309 - point}".encode()
    whole = rng.choice(("0", "1", "2", "-0", "-1", "12", "3" + digits(rng.randrange(45))))
    part = rng.choice(("", "", "." + digits(rng.randrange(30))))
    power = rng.choice(("e", "E", "e+", "e-")) + str(rng.randrange(rng.choice((10, 330, 10 ** 12))))
    return (whole + part + rng.choice(("", power))).encode()


def odd_value(rng):
    """A text of JSON, a string, a number, or one of these in arrays and objects."""
    value = rng.choice((rng.choice(TEXTS), odd_string(rng), odd_number(rng)))
    for _ in range(rng.choice((0, 0, 0, 0, 1, 2))):
        value = rng.choice((b"[%s]", b'{"a":%s}', b"[1,%s]", b'[%s,"b"]', b'{"a":null,"b":%s}')) % value
    return value


def or_null(rng, texts):
    """The literal of one of these strings, or `null`."""
    return string(rng, rng.choice(texts)) if rng.random() < 0.9 else b"null"


def cells(rng, number):
    """The members of a line as pairs of literals, in an order and number that differ."""
    pairs = [("name", string(rng, name_of(number))), ("vers", string(rng, inputs.version(rng)))]
    deps = ",".join(registry.dependency(rng) for _ in range(rng.choice((0, 1, 2, 4))))
    more = [("deps", f"[{deps}]".encode()), ("cksum", b'"%064x"' % rng.getrandbits(256)),
            ("features", registry.features(rng).encode()), ("features2", registry.features(rng).encode()),
            ("yanked", rng.choice((b"true", b"false", b"false"))), ("links", rng.choice((b"null", b'"z"'))),
            ("v", rng.choice((b"1", b"2", b"3"))), ("rust_version", or_null(rng, RUST)),
            ("pubtime", or_null(rng, TIMES))]
    chosen = sorted(rng.sample(range(len(more)), rng.randrange(len(more) + 1)))
    pairs += [more[at] for at in chosen]
    if rng.random() < 0.3:
        rng.shuffle(pairs)
    return [(string(rng, key) if rng.random() < 0.05 else b'"%s"' % key.encode(), value)
            for key, value in pairs]


def changed_cells(rng, pairs):
    """The members with one change: a value, a key, a member more, one that comes twice, or one less."""
    at = rng.randrange(len(pairs))
    key, value = pairs[at]
    kind = rng.randrange(8)
    if kind == 0:
        pairs[at] = (key, rng.choice(TYPES))
    elif kind == 1:
        pairs[at] = (key, odd_value(rng))
    elif kind == 2:
        pairs[at] = (rng.choice((rng.choice(TEXTS), odd_string(rng), odd_string(rng))), value)
    elif kind == 3:
        name = rng.choice((*FIELDS, "Name", "name ", "ver", "version", "pubtim", "", "x")).encode()
        pairs.insert(rng.randrange(len(pairs) + 1), (b'"%s"' % name, rng.choice(TYPES)))
    elif kind in (4, 5):
        pairs.insert(rng.randrange(len(pairs) + 1), (b'"x"', odd_value(rng)))
    elif kind == 6:
        pairs.insert(rng.randrange(len(pairs) + 1), (key, rng.choice((value, rng.choice(pairs)[1]))))
    else:
        pairs.pop(at)
    return pairs or [(b'"name"', b'"a"')]


def joined(rng, pairs):
    """The line of these members: without blanks, with one after commas and colons, or with any."""
    style = rng.choice(("none", "none", "after", "after commas", "after colons", "any"))
    comma, colon = {"none": (b",", b":"), "after": (b", ", b": "), "after commas": (b", ", b":"),
                    "after colons": (b",", b": "), "any": (b",", b":")}[style]
    if style != "any":
        return b"{" + comma.join(key + colon + value for key, value in pairs) + b"}"

    def gap():
        return rng.choice((b"", b"", b"", rng.choice(BLANKS[:5]), rng.choice((*BLANKS, *[b" "] * 20))))
    inner = b",".join(gap() + key + gap() + b":" + gap() + value + gap() for key, value in pairs)
    return gap() + b"{" + inner + b"}" + gap()


def spaced(rng, line):
    """The line with a blank after each comma and colon, or blanks where other marks meet, also within its
    values."""
    if rng.random() < 0.4:
        return line.replace(b'":', b'": ').replace(b',"', b', "').replace(b",{", b", {")
    for mark in rng.sample(MARKS, rng.choice((1, 2, 3, len(MARKS)))):
        line = line.replace(mark, mark[:1] + rng.choice(BLANKS[:5]) + mark[1:])
    return line


def changed_bytes(rng, line):
    """The line with one change of its bytes."""
    at = rng.randrange(len(line) + 1)
    end = min(len(line), at + rng.choice((1, 1, 2, 3, 8, 30)))
    kind = rng.randrange(12)
    if kind == 0:
        return line[:at] + bytes([rng.choice(BYTES)]) + line[at:]
    if kind == 1:
        return line[:at] + bytes([rng.choice(BYTES)]) + line[at + 1:]
    if kind == 2:
        return line[:at] + line[end:]
    if kind == 3 and at < len(line):
        return line[:at] + bytes([line[at] ^ 1 << rng.randrange(8)]) + line[at + 1:]
    if kind == 4:
        return line[:at] + line[at + 1:at + 2] + line[at:at + 1] + line[at + 2:]
    if kind == 5:
        return line[:at] + line[at:end] + line[at:]
    if kind == 6:
        return line[:at]
    if kind == 7:
        return line[at:] if rng.random() < 0.3 else line[:-1]
    if kind == 8:
        return line + rng.choice((*BLANKS, *(bytes([code]) for code in BYTES), line, b"\xef\xbb\xbf"))
    if kind == 9:
        return rng.choice((*BLANKS, b"\xef\xbb\xbf", b"\x00", b",", b"[")) + line
    if kind == 10:
        return line[:at] + rng.choice(BLANKS) + line[at:]
    return in_string(rng, line)


def in_string(rng, line):
    """The line with some text of a string put at a quote or a letter, where a string may be."""
    places = [at for at, code in enumerate(line) if code in b'"aeosn0']
    if not places:
        return line
    at = rng.choice(places) + rng.randrange(2)
    literal = rng.choice(TEXTS)
    inner = literal[1:-1] if literal[:1] == b'"' else rng.choice(ESCAPES).encode()
    return line[:at] + inner + line[at:]


def made_line(rng, number):
    """A line, as a registry or the fuzzer writes it, or put together here of members; most are changed."""
    name, kind = name_of(number), rng.random()
    if kind < 0.25:
        crate = registry.Crate(name, registry.history(rng, 2))
        line = list(registry.lines(crate, rng.random()))[rng.randrange(2)].encode().rstrip(b"\n")
    elif kind < 0.4:
        line = inputs.index_line(rng, inputs.JsonWriter(rng), name).encode()
    else:
        pairs = cells(rng, number)
        for _ in range(rng.choice((0, 1, 1, 1, 1, 2))):
            pairs = changed_cells(rng, pairs)
        line = joined(rng, pairs)
    if rng.random() < 0.25:
        line = spaced(rng, line)
    for _ in range(rng.choice((0, 0, 0, 0, 1, 1, 2, 3) if kind >= 0.4 else (0, 0, 1, 1, 1, 1, 2, 3))):
        line = changed_bytes(rng, line)
    return line.replace(b"\n", b"")


def lines_of_texts():
    """Each text of JSON as a line, as a value of each member that counts, and of another one."""
    whole = b'{"name":%s,"vers":%s,"yanked":%s,"rust_version":%s,"pubtime":%s,"x":%s}'
    given = [b'"t%d"', b'"1.0.0"', b"false", b'"1.60"', b'"2019-07-04T10:20:30Z"', b"1"]
    for number, text in enumerate(TEXTS):
        yield text
        yield b'{"name":"a","vers":"1.0.0","x":' + text + b"}"
        for at in range(len(given)):
            values = [given[0] % (number * 8 + at), *given[1:]]
            values[at] = text
            yield whole % tuple(values)
        yield b'{"name":"k%d",%s:1,"vers":"1.0.0"}' % (number, text)
        yield b'{"name": "b%d", "vers": "1.0.0", "x": %s}' % (number, text)


def texts_in(value):
    """The texts and the bytes of the files of a table of cases."""
    if isinstance(value, str):
        yield value.encode()
    elif isinstance(value, dict):
        for one in value.values():
            yield from texts_in(one)
    elif isinstance(value, list):
        for one in value:
            yield from texts_in(one)


def lines_of_tests():
    """The lines of each text in tests/cases and tests/fuzz that has a line of an index, or may have one."""
    for path in sorted((ROOT / "tests/cases").glob("*/*.toml")):
        for text in texts_in(tomllib.loads(path.read_text(encoding="utf-8"))):
            yield from (line for line in text.split(b"\n") if b"{" in line or b'"name"' in line)
    for path in sorted((ROOT / "tests/fuzz/cases").glob("*/files/**/*")):
        if path.is_file() and (path.suffix == ".json" or "Cargo" not in path.name):
            yield from path.read_bytes().split(b"\n")
    yield from (line.encode() for line in inputs.BROKEN)


def all_lines(rng, count):
    """So many lines, no two equal: those of the tests, those of the texts of JSON, and made ones. At least
    half of them are made."""
    fixed = list(dict.fromkeys([*lines_of_tests(), *lines_of_texts()]))
    if len(fixed) > count // 2:
        fixed = rng.sample(fixed, count // 2)
    found, number = dict.fromkeys(fixed), 0
    while len(found) < count:
        found[made_line(rng, number)] = None
        number += 1
    return list(found)
