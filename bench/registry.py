"""Crates of a made registry: their versions and their index lines, which have the members, the lengths and
the order that lines of registries have. All of it follows from a seed."""

import random
from dataclasses import dataclass

SEED = 20261127
FIRST = ("async", "base", "bit", "byte", "cargo", "core", "crypto", "data", "derive", "env", "fast",
         "file", "form", "futures", "hash", "http", "hyper", "json", "lazy", "linked", "log", "map",
         "mem", "net", "num", "once", "parking", "path", "pin", "proc", "quick", "rand", "regex",
         "rust", "serde", "sha", "simd", "socket", "syn", "thread", "time", "tokio", "toml", "tower",
         "tracing", "unicode", "url", "utf", "web", "zero")
SECOND = ("bytes", "cell", "channel", "codec", "config", "error", "ext", "fmt", "io", "iter", "list",
          "lock", "macros", "parser", "pool", "queue", "stream", "sys", "table", "test", "trait",
          "types", "util", "value", "width")
FEATURES = ("std", "alloc", "derive", "serde", "full", "nightly", "unstable", "rustls", "native-tls",
            "macros")


@dataclass
class Crate:
    """A crate: its name, its versions in the order of their release as three numbers and whether each is
    yanked."""
    name: str
    versions: list

    def newest(self, least, compatible):
        """The greatest version that is not yanked; among those that a caret requirement of `least` admits, if
        so."""
        found = [version for version, yanked in self.versions
                 if not yanked and (not compatible or is_admitted(version, least))]
        return max(found)


def fixed_part(version):
    """The numbers that all versions have that a caret requirement of this one admits."""
    zeros = 0 if version[0] else 1 if version[1] else 2
    return version[:zeros + 1]


def is_admitted(version, least):
    """Whether a caret requirement of `least` admits a version."""
    return version >= least and fixed_part(version) == fixed_part(least)


def name_of(number):
    """The name of a crate, another one for each number."""
    first, rest = FIRST[number % len(FIRST)], number // len(FIRST)
    second, rest = SECOND[rest % len(SECOND)], rest // len(SECOND)
    return f"{first}-{second}" if not rest else f"{first}_{second}{rest + 1}"


def history(chance, count):
    """So many versions, each greater than the one before; the last of each run of compatible ones is not
    yanked."""
    version, versions = (chance.choice((0, 0, 1)), 1, 0), []
    for _ in range(count):
        versions.append([version, chance.random() < 0.03])
        step = chance.random()
        if step < 0.6:
            version = (version[0], version[1], version[2] + 1)
        elif step < 0.93:
            version = (version[0], version[1] + 1, 0)
        else:
            version = (version[0] + 1, 0, 0)
    for (one, after) in zip(versions, versions[1:] + [[None, False]]):
        if after[0] is None or fixed_part(one[0]) != fixed_part(after[0]):
            one[1] = False
    return [(version, yanked) for version, yanked in versions]


def crates(count, least, most, seed=SEED):
    """So many crates, with from `least` to `most` versions each."""
    chance = random.Random(seed)
    return [Crate(name_of(number), history(chance, chance.randint(least, most))) for number in range(count)]


def dependency(chance):
    """A dependency of an index line."""
    features = chance.choice(("[]", "[]", '["std"]', '["derive","alloc"]'))
    target = chance.choice(("null", "null", "null", '"cfg(unix)"'))
    kind = chance.choice(("normal", "normal", "dev", "build"))
    name, req = name_of(chance.randrange(1000)), f"^{chance.randrange(3)}.{chance.randrange(30)}"
    optional, default = chance.choice(("false", "true")), chance.choice(("true", "true", "false"))
    return (f'{{"name":"{name}","req":"{req}","features":{features},"optional":{optional},'
            f'"default_features":{default},"target":{target},"kind":"{kind}"}}')


def features(chance):
    """The features of an index line."""
    names = chance.sample(FEATURES, chance.randrange(5))
    lists = [f'["{chance.choice(FEATURES)}"]' if chance.random() < 0.5 else "[]" for _ in names]
    return "{%s}" % ",".join(f'"{name}":{features}' for name, features in zip(names, lists))


def lines(crate, seed=SEED):
    """The index lines of a crate, each with a line end."""
    chance = random.Random(f"{seed} {crate.name}")
    deps = [dependency(chance) for _ in range(chance.choice((0, 1, 1, 1, 2, 2, 3, 4)))]
    text, rust = features(chance), ""
    for number, ((major, minor, patch), yanked) in enumerate(crate.versions):
        if deps and chance.random() < 0.2:
            deps[chance.randrange(len(deps))] = dependency(chance)
        if number * 2 >= len(crate.versions):
            rust = ',"rust_version":"1.%d"' % (56 + number % 20)
        yield (f'{{"name":"{crate.name}","vers":"{major}.{minor}.{patch}","deps":[{",".join(deps)}],'
               f'"cksum":"{chance.getrandbits(256):064x}","features":{text},'
               f'"yanked":{"true" if yanked else "false"},"links":null{rust}}}\n')


def short_line(name, version):
    """The shortest line of an entry that a registry would have."""
    return '{"name":"%s","vers":"%d.%d.%d","yanked":false}\n' % (name, *version)


def write_lines(path, found):
    """Writes the index lines of crates to a file; the bytes written."""
    with open(path, "w", encoding="utf-8") as file:
        for crate in found:
            file.writelines(lines(crate))
        return file.tell()
