"""Manifests: packages, workspaces and dependency tables, each table and each entry in one of the forms that
TOML allows."""

from toml_text import TEXTS, Writer

KINDS = ("dependencies", "dev-dependencies", "build-dependencies")
TARGETS = ("cfg(unix)", 'cfg(target_os = "linux")', "x86_64-unknown-linux-gnu", "cfg(not(windows))", "t")
MAJOR, NUMBERS = ("0", "1", "1", "2", "2", "3", "10"), ("0", "1", "2", "3", "10")
ODD_REQUIREMENTS = ("*", "x", "X", "1.*", "1.x", "1.2.*", "1.*.*", "0.*", ">=1, <3", ">=1", ">0.1", "<2",
                    "<=2.0", "> 1.0.0", " ^ 1", "1 , 1", "=1.*", "~1", "~ 1.2", "1.0.0-alpha.1",
                    "^1.0.0-beta", "=2.0.0-rc.1", "1.0.0+build", "1.2+b", ">=1.0.0-alpha, <2", "^0.0",
                    "0.0.3", "0.0", "~0", "1.2.3, 1.2", "=1, ^1.0", "18446744073709551615", "1-2",
                    "1.0.0-0.a.1")
UNREADABLE = ("", "v1", "1.2.3.4", "a", "1..2", "1,", ",1", "01", "1.0.0-", "1.0.0-01",
              "18446744073709551616", "=", "1 2", "*, 1", "1.*.3", "^", "==1", "1.0-a", "\u00e9", "1\t",
              "latest")
# (A name with a line end or another control character is printed as it stands, so that it may resemble a
# message: such names are left out. So is a package version that is no text, which set-version replaces by
# one.)
ODD_KEYS = ("a b", "\u00e9", "a.b", "x'y", 'x"y', "#", "A", "1")


def requirement(rng):
    """A requirement: mostly a plain one, with one to three numbers and a sign."""
    kind = rng.random()
    if kind < 0.70:
        count = rng.choice((1, 2, 2, 3, 3))
        text = ".".join(rng.choice(numbers) for numbers in (MAJOR, NUMBERS, NUMBERS)[:count])
        return rng.choice(("", "", "", "^", "~", "=")) + text
    return rng.choice(ODD_REQUIREMENTS if kind < 0.95 else UNREADABLE)


class Entries:
    """Entries of dependency tables, as lists of members: a path of names, and how a value is written."""

    def __init__(self, rng, names, registries=()):
        self.rng, self.names, self.registries = rng, names, registries

    def others(self, rng):
        """Members that say nothing of a version; rarely of a wrong type."""
        made = []
        if rng.random() < 0.3:
            texts = [rng.choice(TEXTS) for _ in range(rng.randrange(3))]
            made.append((["features"], lambda w: w.array([w.string(text) for text in texts])))
        if rng.random() < 0.3:
            made.append((["optional"], lambda w: rng.choice(("true", "false"))))
        if rng.random() < 0.2:
            made.append((["default-features"], lambda w: rng.choice(("true", "false"))))
        if rng.random() < 0.03:
            name = rng.choice(("features", "registry", "default_features", "package", "git", "path",
                               "workspace", "other"))
            made.append(([name], lambda w: w.any_value(3)))
        if rng.random() < 0.03:
            made.append((["nested", "version"], lambda w: w.string("1.0")))
        return made

    def source(self, rng):
        """Members that say where a crate comes from."""
        kind = rng.random()
        if kind < 0.72:
            made = [(["version"], self.version_value(rng))]
            if self.registries and rng.random() < 0.25:
                name = rng.choice(self.registries)
                made.append((["registry"], lambda w: w.string(name)))
            return made
        if kind < 0.79:
            return [(["workspace"], lambda w: "true" if rng.random() < 0.95 else "false")]
        name = "git" if kind < 0.89 else "path"
        made = [([name], lambda w: w.string("https://example.org/x" if name == "git" else "../x"))]
        if name == "git" and rng.random() < 0.5:
            made.append(([rng.choice(("branch", "tag", "rev"))], lambda w: w.string("main")))
        if rng.random() < 0.6:
            made.append((["version"], self.version_value(rng)))
        return made

    @staticmethod
    def version_value(rng):
        """How a requirement is written; rarely it is no text."""
        text = requirement(rng)
        return (lambda w: w.string(text)) if rng.random() < 0.98 else (lambda w: w.any_value(3))

    def entry(self):
        """The key of an entry with its members; a lone member without a name is the entry's own text."""
        rng = self.rng
        key = rng.choice(self.names)
        if rng.random() < 0.45:
            return key, [([], self.version_value(rng))]
        members = self.source(rng) + self.others(rng)
        if rng.random() < 0.15:
            package = rng.choice(self.names)
            members.append((["package"], lambda w: w.string(package)))
            key = rng.choice(ODD_KEYS) if rng.random() < 0.3 else key + "-renamed"
        unique = {}
        for names, value in members:
            unique.setdefault(names[0], (names, value))
        members = list(unique.values())
        rng.shuffle(members)
        return key, members

    def table(self, most=6):
        """The entries of a table, each key once."""
        made = {}
        for _ in range(self.rng.randrange(most)):
            key, members = self.entry()
            made[key] = members
        return list(made.items())


class Manifest:
    """A manifest: statements at the root, and tables with headers behind them."""

    def __init__(self, rng):
        self.rng, self.w = rng, Writer(rng)
        self.root, self.sections = [], []

    def add_entry(self, pairs, headers, place, front, key, members):
        """Adds an entry by one of its forms to the statements of a table, or to the tables with headers."""
        w, style = self.w, self.rng.random()
        if not members[0][0]:
            pairs.append((front + [key], members[0][1](w)))
        elif style < 0.55:
            pairs.append((front + [key], w.inline([(names, value(w)) for names, value in members])))
        elif style < 0.8:
            pairs.extend((front + [key] + names, value(w)) for names, value in members)
        elif headers is None:
            pairs.append((front + [key], w.inline([(names, value(w)) for names, value in members])))
        else:
            text = "".join(w.pair(names, value(w)) for names, value in members)
            headers.append(w.header(place + [key]) + text)

    def add_table(self, place, entries):
        """Adds a dependency table by one of its forms."""
        w, style = self.w, self.rng.random()
        pairs, headers = [], []
        if style < 0.72:
            for key, members in entries:
                self.add_entry(pairs, headers, place, [], key, members)
            if pairs or not headers or self.rng.random() < 0.3:
                self.sections.append(w.header(place) + "".join(w.pair(*pair) for pair in pairs))
            self.sections.extend(headers)
        elif style < 0.84:
            for key, members in entries:
                self.add_entry(pairs, None, place, place, key, members)
            self.root.extend(w.pair(*pair) for pair in pairs)
        elif style < 0.92 and len(place) > 1:
            for key, members in entries:
                self.add_entry(pairs, None, place, place[-1:], key, members)
            self.sections.append(w.header(place[:-1]) + "".join(w.pair(*pair) for pair in pairs))
        else:
            for key, members in entries:
                self.add_entry(pairs, None, place, [], key, members)
            value = w.inline(pairs)
            self.root.append(w.pair(place, value))

    def add_noise(self, kind):
        """Adds a table that is no dependency table, or one that resembles one."""
        w, rng = self.w, self.rng
        if kind == 0:
            self.sections.append(w.header(["features"]) + w.pair(["default"], w.array([w.string("std")])))
        elif kind == 1:
            self.sections.extend(w.header(["bin"], True) + w.pair(["name"], w.string(f"b{number}"))
                                 for number in range(2))
        elif kind == 2:
            value = w.inline([(["version"], w.string("1.0"))])
            self.sections.append(w.header(["patch", "crates-io"]) + w.pair(["serde"], value))
        elif kind == 3:
            self.sections.append(w.header(["package", "metadata", "x"])
                                 + "".join(w.pair([f"v{number}"], w.any_value())
                                           for number in range(rng.randrange(5))))
        elif kind == 4:
            text = w.pair(["opt-level"], "3") + w.pair(["lto"], "true")
            self.sections.append(w.header(["profile", "release"]) + text)
        else:
            self.root.append(w.pair([rng.choice(("cargo-features", "note", "x-y", "\u00e9"))], w.any_value()))

    def add_package(self, name, members):
        """Adds the table of the package: members as names with how their values are written."""
        w = self.w
        members = [(["name"], lambda w: w.string(name)), *members]
        self.rng.shuffle(members)
        style = self.rng.random()
        if style < 0.8:
            text = "".join(w.pair(names, value(w)) for names, value in members)
            self.sections.append(w.header(["package"]) + text)
        elif style < 0.9:
            self.root.extend(w.pair(["package"] + names, value(w)) for names, value in members)
        else:
            self.root.append(w.pair(["package"], w.inline([(names, value(w)) for names, value in members])))

    def text(self):
        """The whole text."""
        rng, w = self.rng, self.w
        rng.shuffle(self.sections)
        if rng.random() < 0.3:
            rng.shuffle(self.root)
        begin = "\ufeff" if rng.random() < 0.08 else ""
        begin += w.line_end() if rng.random() < 0.3 else ""
        text = begin + "".join(self.root) + "".join(self.sections)
        if rng.random() < 0.1:
            text = text.rstrip("\r\n")
        return text


def places(rng):
    """The places of the dependency tables of a manifest."""
    found = [["dependencies"]] if rng.random() < 0.9 else []
    found += [[kind] for kind in KINDS[1:] if rng.random() < 0.3]
    for target in rng.sample(TARGETS, rng.choice((0, 0, 0, 1, 1, 2))):
        found += [["target", target, kind] for kind in KINDS if rng.random() < 0.5]
    rng.shuffle(found)
    return found


def manifest(rng, names, registries=(), package=None, shared=False, without=()):
    """A manifest: with the table of a package (its name and members) or without one, with the dependencies
    that a workspace shares or without them, and without one of the other dependency tables."""
    made = Manifest(rng)
    entries = Entries(rng, names, registries)
    if package is not None:
        made.add_package(*package)
    for place in places(rng):
        if place == list(without):
            continue
        made.add_table(place, entries.table())
    if shared:
        made.add_table(["workspace", "dependencies"], entries.table())
    for kind in rng.sample(range(6), rng.choice((0, 0, 1, 1, 2))):
        made.add_noise(kind)
    return made


def mutated(rng, text):
    """A text with some bytes cut out, doubled, changed or put in."""
    data = bytearray(text)
    for _ in range(rng.choice((1, 1, 2, 5))):
        at, length = rng.randrange(len(data) + 1), rng.choice((1, 1, 2, 8, 40))
        kind = rng.randrange(4)
        if kind == 0:
            del data[at:at + length]
        elif kind == 1:
            data[at:at] = data[at:at + length]
        elif kind == 2 and at < len(data):
            data[at] = rng.choice(b"\"'\\[]{}=,.#\n\r\t 0aZ\x00\xff\xc3")
        else:
            data[at:at] = rng.choice((b'"', b"'", b"[", b"]", b"{", b"}", b"=", b",", b"#", b"\n", b"\r",
                                      b"\\", b'"""', b"'''",
                                      b"[[", b"\xff", b"\xc3\xa9", b"\x00", b"a.b", b"= 1", b"\\u0041",
                                      b"{,}", b",,"))
    return bytes(data)
