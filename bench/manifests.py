"""Manifests to measure with: entries over the crates of registry.py with the texts that an upgrade has to
leave, and long manifests joined from those of Debian's packages."""

import os
import pathlib
import random
import re
import tomllib

from registry import SEED, crates, name_of

DEBIAN = pathlib.Path("/usr/share/cargo/registry")
HEADER = re.compile(r"^(\s*\[\[?)(.*?)(\]\]?\s*(#.*)?)$")
HEAD = '[package]\nname = "%s"\nversion = "0.1.0"\nedition = "2021"\n'


def version_text(numbers):
    """Numbers with points between them."""
    return ".".join(map(str, numbers))


def requirement(chance, crate, compatible=True):
    """A requirement of a crate, and what an upgrade makes of it."""
    older = [version for version, yanked in crate.versions[:len(crate.versions) // 2 + 1] if not yanked]
    least = chance.choice(older)
    count = chance.choice((2, 3, 3)) if least[0] == 0 else chance.choice((1, 2, 2, 3))
    least = (*least[:count], 0, 0)[:3]
    return version_text(least[:count]), version_text(crate.newest(least, compatible)[:count])


def entry(chance, form, name, req):
    """An entry of a form: `string`, `inline`, or `any`, which is one as projects mix them."""
    if form == "any":
        form = chance.choice(("string", "string", "inline", "features"))
    if form == "string":
        return f'{name} = "{req}"\n'
    if form == "inline":
        return f'{name} = {{ version = "{req}", optional = true }}\n'
    return f'{name} = {{ version = "{req}", default-features = false, features = ["std", "alloc"] }} # why\n'


def entries(found, form, compatible=True, seed=SEED):
    """The entries of crates, and these entries after an upgrade."""
    before, after = [], []
    for crate in found:
        old, new = requirement(random.Random(f"{seed} {crate.name}"), crate, compatible)
        for req, texts in ((old, before), (new, after)):
            texts.append(entry(random.Random(f"{seed} {crate.name} form"), form, crate.name, req))
    return "".join(before), "".join(after)


def manifest(found, form):
    """A manifest with an entry for each crate, and what an upgrade leaves of it."""
    head = HEAD % "bench" + "\n[dependencies]\n"
    return tuple(head + text for text in entries(found, form))


def short_entries(count, form):
    """A manifest of so many entries with names that begin alike, what an upgrade leaves of it, and an index
    with a short line for each."""
    line = '{"name":"crate-number-%d","vers":"%s","yanked":false}\n'
    head, old, new, index = HEAD % "bench" + "\n[dependencies]\n", [], [], []
    for number in range(count):
        name, vers = f"crate-number-{number}", f"1.2.{number % 5 + 7}"
        index.append(line % (number, vers))
        old.append(entry(random, form, name, f"1.2.{number % 7}"))
        new.append(entry(random, form, name, vers))
    return head + "".join(old), head + "".join(new), "".join(index)


def move_below(name, text):
    """A manifest with all its tables below a table of this name."""
    lines = [HEADER.sub(rf"\1{name}.\2\3", line) for line in text.splitlines()]
    return "\n".join([f"[{name}]", *lines, ""])


def is_toml(text):
    """Whether a text is TOML, as Python reads it."""
    try:
        tomllib.loads(text)
    except tomllib.TOMLDecodeError:
        return False
    return True


def read_packages(folder=DEBIAN):
    """The manifests of Debian's `librust-*-dev` packages, without those that stay no TOML below another
    table."""
    texts = [path.read_text(encoding="utf-8") for path in sorted(folder.glob("*/Cargo.toml"))]
    return [text for text in texts if is_toml(move_below("m0", text))]


def generate(seed=SEED):
    """Manifests in the form in which cargo publishes them, for machines without Debian's packages."""
    chance = random.Random(seed)
    for number in range(100):
        text = ["# THIS FILE IS GENERATED\n", HEAD % name_of(number),
                'authors = ["A. Person <person@example.org>"]\n',
                'description = "A crate with a sentence about what it does, and for whom"\n',
                f'keywords = ["{name_of(number + 1)}", "parse"]\nlicense = "MIT OR Apache-2.0"\n']
        for kind in ("dependencies", "dev-dependencies", "target.'cfg(unix)'.dependencies"):
            for crate in crates(chance.randrange(1, 9), 4, 9, seed=f"{number} {kind}"):
                text.append(f'\n[{kind}.{crate.name}]\nversion = "{requirement(chance, crate)[0]}"\n'
                            'optional = true\ndefault-features = false\n')
        text.append('\n[features]\ndefault = ["std"]\nstd = [\n    "alloc",\n    "serde?/std",\n]\n')
        yield "".join(text)


def join(texts, size):
    """Manifests one after the other, each below a table of its own, until they have so many bytes."""
    parts, length = [], 0
    while length < size:
        parts.append(move_below(f"m{len(parts)}", texts[len(parts) % len(texts)]))
        length += len(parts[-1].encode())
    return "".join(parts)


def colliding_keys(count):
    """Keys that a hash map with a known hash would put at one place."""
    return "".join("VCt84XxmJ16jGQv_PwRfGXPs%08d = 1\n" % number for number in range(count))


def long_headers(count):
    """Headers of 80 parts, of which 79 are new tables each."""
    return "".join("[%04d%s]\n" % (number, ".a" * 79) for number in range(count))


def digits(count):
    """An array of digits."""
    return "a = [%s]\n" % ("1," * count)


def write(path, text):
    """Writes a text to a file, and makes its folder."""
    os.makedirs(os.path.dirname(path), exist_ok=True)
    with open(path, "w", encoding="utf-8") as file:
        file.write(text)
