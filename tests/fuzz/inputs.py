"""What a run reads beside manifests: index lines, metadata of cargo, configurations."""

import json

from toml_text import Writer

MAJOR, NUMBERS = ("0", "1", "1", "2", "2", "3", "10"), ("0", "1", "2", "3", "10", "11")
PRE = ("-alpha.1", "-beta", "-rc.1", "-rc.2", "-0.a.1", "-1", "-a-b")
BUILD = ("+build", "+1", "+01", "+b")
ODD_VERSIONS = ("1", "1.0", "01.0.0", "1.0.0-", "1.0.0-01", "v1.0.0", "", "x", "18446744073709551616.0.0",
                "1.0.0 ", "\u00e9")
RUST = ("1.56", "1.60.0", "1.70", "1.70.1", "1", "2.0")
ODD_RUST = (None, "x", "1.70.0-beta", "", "=1.70", "^1.60", "1.*", "1.60, 1.70")
FURTHER = (("cksum", "0" * 64), ("deps", [{"name": "a", "req": "^1", "features": [], "optional": False}]),
           ("features", {"x": ["y"]}), ("features2", {}), ("v", 2), ("links", None), ("\u00e9", "\U0001f980"),
           ("n", [1, -0.5, 1e300, 10 ** 30, True, None]), ("Yanked", True), ("version", "9.9.9"), ("", ""))
# Lines that are none of an index, each for another reason.
BROKEN = ('{"name":"a"}', '{"vers":"1.0.0"}', "[]", "1", "{", '{"name":"a","vers":"1.0.0"',
          '{"name":1,"vers":"1.0.0"}', '{"name":"a","vers":null}',
          '{"name":"a","vers":"1.0.0","yanked":null}', '{"name":"a","vers":"1.0.0","rust_version":1}',
          '{"name":"a","vers":"1.0.0",}', '{"name":"a","vers":"1.0.0","x":01}',
          '{"name":"a","vers":"1.0.0","x":"\\ud800"}', '{"name":"a","vers":"1.0.0"} x',
          "{'name':'a','vers':'1'}", '{"name":"a","vers":"1.0.0","x":1e999}',
          '{"name":"a","vers":"1.0.0","x":NaN}', '{"name":"a","vers":"1.0.0","x":"\t"}')


def version(rng):
    """A version as an index has it."""
    if rng.random() < 0.04:
        return rng.choice(ODD_VERSIONS)
    text = ".".join(rng.choice(numbers) for numbers in (MAJOR, NUMBERS, NUMBERS))
    if rng.random() < 0.12:
        text += rng.choice(PRE)
    return text + (rng.choice(BUILD) if rng.random() < 0.08 else "")


class JsonWriter:
    """Writes JSON, with other blanks and escapes each time."""

    def __init__(self, rng):
        self.rng = rng
        self.odd = rng.random() < 0.3

    def gap(self):
        """Blanks between tokens."""
        return self.rng.choice(("", " ", "\t", "  ")) if self.odd else ""

    def text(self, text):
        """A string. (`@HERE@`, which stands for the case's folder, stays as it is.)"""
        if not self.odd:
            return json.dumps(text, ensure_ascii=self.rng.random() < 0.5)
        made = ""
        for char in text:
            short = json.dumps(char, ensure_ascii=False)[1:-1]
            escaped = char not in "@HER" and ord(char) < 0x10000 and self.rng.random() < 0.1
            made += f"\\u{ord(char):04x}" if escaped else short
        return f'"{made}"'

    def value(self, value):
        """A value of any type."""
        gap = self.gap
        if isinstance(value, str):
            return self.text(value)
        if isinstance(value, list):
            return "[" + gap() + ("," + gap()).join(self.value(one) + gap() for one in value) + "]"
        if isinstance(value, dict):
            return self.pairs(list(value.items()))
        return json.dumps(value)

    def pairs(self, pairs):
        """An object of these pairs, in their order."""
        gap = self.gap
        return "{" + ",".join(gap() + self.text(key) + gap() + ":" + gap() + self.value(value) + gap()
                              for key, value in pairs) + "}"


def index_line(rng, writer, name):
    """A line of an index."""
    pairs = [("name", name), ("vers", version(rng))]
    if rng.random() < 0.5:
        pairs.append(("yanked", rng.random() < 0.25))
    if rng.random() < 0.25:
        pairs.append(("rust_version", rng.choice(RUST) if rng.random() < 0.8 else rng.choice(ODD_RUST)))
    pairs += rng.sample(FURTHER, rng.choice((0, 0, 1, 3)))
    if rng.random() < 0.3:
        rng.shuffle(pairs)
    if rng.random() < 0.03:
        # (a key that comes twice counts by its last value)
        pairs.insert(0, rng.choice((("name", "other"), ("vers", 7), ("yanked", True),
                                    ("rust_version", "9.0"))))
    return writer.gap() + writer.pairs(pairs) + writer.gap()


def index(rng, names, broken_share=0.02):
    """Index lines for some of these crates."""
    writer, lines = JsonWriter(rng), []
    for name in names:
        if rng.random() < 0.9:
            lines += [index_line(rng, writer, name) for _ in range(rng.choice((1, 2, 4, 8)))]
    if rng.random() < 0.2:
        rng.shuffle(lines)
    if rng.random() < 0.1:
        lines.insert(rng.randrange(len(lines) + 1), rng.choice(("", " ", "\t")))
    if rng.random() < broken_share:
        lines.insert(rng.randrange(len(lines) + 1), rng.choice(BROKEN))
    end = rng.choice(("\n", "\n", "\n", "\r\n"))
    return (end.join(lines) + (end if rng.random() < 0.9 else "")).encode()


def metadata(rng, members, others=()):
    """The output of `cargo metadata` for members: each a name, a version, the folder below the workspace, and
    further members of its package. (No two members are one file, and none is missing: those are errors that
    have rows of their own.)"""
    packages = []
    for name, number, folder, further in members:
        path = "/".join(part for part in ("@HERE@/ws", folder, "Cargo.toml") if part)
        packages.append({"name": name, "version": number, "id": f"path+file:///ws/{folder}#{name}@{number}",
                         "source": None,
                         "manifest_path": path, "dependencies": [], "targets": [], **further})
    listed = {"packages": packages + list(others), "workspace_members": [one["id"] for one in packages],
            "workspace_root": "@HERE@/ws", "version": 1, "target_directory": "@HERE@/ws/target"}
    if rng.random() < 0.5:
        for package in packages:
            items = list(package.items())
            rng.shuffle(items)
            package.clear()
            package.update(items)
    rng.shuffle(listed["packages"])
    return JsonWriter(rng).value(listed).encode()


def registry_package(name, number):
    """A package of the registry, as metadata have it; the calls of `cargo update` name it."""
    return {"name": name, "version": number, "id": f"registry#{name}@{number}",
            "source": "registry+https://example.org/index",
            "manifest_path": f"/r/{name}-{number}/Cargo.toml", "dependencies": []}


def configuration(rng, registries):
    """A configuration of cargo that defines these registries, by one of TOML's forms; rarely it is none."""
    w, root, sections = Writer(rng), [], []
    for number, name in enumerate(registries):
        address = w.string(rng.choice((f"sparse+https://example.org/{number}/", f"file:///nowhere/{number}",
                                       "https://example.org/x")))
        style = rng.randrange(3)
        if style == 0:
            root.append(w.pair(["registries", name, "index"], address))
        elif style == 1:
            sections.append(w.header(["registries", name]) + w.pair(["index"], address))
        else:
            root.append(w.pair(["registries", name], w.inline([(["index"], address)])))
    if rng.random() < 0.5:
        sections.append(w.header(["net"]) + w.pair(["retry"], "2") + w.pair(["git-fetch-with-cli"], "true"))
    if rng.random() < 0.3:
        sections.append(w.header(["alias"]) + w.pair(["b"], w.array([w.string("build")])))
    if rng.random() < 0.03:
        sections.append(rng.choice(("x", "[registries]\nq = 1\n", "registries = 1\n",
                                    "[source.r]\nreplace-with = 1\n")))
    return ("".join(root) + "".join(sections)).encode()
