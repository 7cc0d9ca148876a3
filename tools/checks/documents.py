#!/usr/bin/env python3
"""documents.py [FILE ..]: checks that what Markdown files name exists (all of the repository's, where none is given).

Checked are links: the file exists, and has the heading behind `#`. And paths in code spans: those that begin with a
folder of the repository, with a crate's name, or, in a crate's README, with a folder of that crate, names of Markdown
files, names of shell scripts, and files of tests/cases as `upgrade/diffs.toml`. NAME and such (`crates/NAME/src`) stand for any name, `*` for any part of one. Prints a line for each that is not
there; the status is 1 then. An example after "from `FILE`" has to be in that file too, except for spaces."""

import functools
import glob
import os
import re
import sys

ROOT = os.path.realpath(os.path.join(os.path.dirname(__file__), "..", ".."))
NO_SOURCES = {".git", "build", "out", "target", "node_modules", "__pycache__"}
TOP = {".ci", "bench", "bin", "crates", "docs", "examples", "release", "share", "tests", "tools"}
PLACEHOLDER = re.compile(r"\b(?:CHAPTER|COMMAND|CRATE|FAULT|FILE|FUNCTION|NAME|NNNN)\b")
IN_CRATE = {"more-mutants", "mutants", "proofs", "specs", "src"}
SCRIPTS = ("", "tools/", "tools/checks/", "share/cargo-edit/")
FENCE = re.compile(r"(?ms)^(```|~~~).*?^\1[^\n]*$")
QUOTED = re.compile(r"(?s)\bfrom `(crates/[\w/.]+|[\w/.]+\.rt)`[^`]*\n+```rust\n(.*?)\n```")
SPAN = re.compile(r"`([^`\n]+)`")
LINK = re.compile(r"\[[^\]]*\]\(([^()\s]+)\)")
PATH = re.compile(r"[\w.*@+-]+(?:/[\w.*@+-]+)*/?")
TOKEN = re.compile(r"(?<![\w/.-])(?:[\w.-]+/)*[\w-]+\.md(?![\w/-])")


def markdown_files():
    """Every Markdown file of the repository."""
    for folder, inner, names in os.walk(ROOT):
        inner[:] = [it for it in inner if it not in NO_SOURCES]
        yield from (os.path.join(folder, it) for it in sorted(names) if it.endswith(".md"))


@functools.cache
def headings(path):
    """The anchors of a Markdown file's headings, as renderers name them."""
    with open(path, encoding="utf-8") as file:
        text = FENCE.sub("", file.read())
    seen = {}
    for title in re.findall(r"(?m)^#+ +(.*?) *#*$", text):
        shown = re.sub(r"\[([^\]]*)\]\([^()]*\)", r"\1", title)
        name = re.sub(r"[^\w\- ]", "", shown.lower()).replace(" ", "-")
        seen[name] = seen.get(name, -1) + 1
        if seen[name]:
            seen["%s-%d" % (name, seen[name])] = 0
    return set(seen)


def bad_links(path, text):
    """The links of a file that lead nowhere."""
    for target in LINK.findall(SPAN.sub("", text)) + LINK.findall(text):
        if re.match(r"[a-z]+:", target):
            continue
        name, _, anchor = target.partition("#")
        file = os.path.normpath(os.path.join(os.path.dirname(path), name)) if name else path
        if not os.path.exists(file):
            yield "link to %s, which is not there" % target
        elif anchor and file.endswith(".md") and anchor not in headings(file):
            yield "link to %s: there is no such heading" % target


def stands(pattern):
    """Whether something of the repository has this path; with the ending of its kind left out too."""
    pattern = PLACEHOLDER.sub("*", pattern)
    endings = ("", ".rt", ".antt", ".edit", ".py", ".sh", ".md")
    return any(glob.glob(os.path.join(ROOT, pattern.rstrip("/") + ending)) for ending in endings)


def candidates(path, token):
    """The paths, from the repository's root, of which one has to be there; none for a token that names no file."""
    first = token.split("/")[0]
    own = os.path.relpath(path, ROOT).split("/")
    crate = "/".join(own[:2]) if own[0] == "crates" and len(own) > 2 else None
    if "/" in token and first in TOP:
        return [token]
    if re.fullmatch(r"\w+\.sh", token):
        return [it + token for it in SCRIPTS]
    if re.fullmatch(r"[\w-]+/\w+\.toml", token) and os.path.isdir(os.path.join(ROOT, "tests/cases", first)):
        return ["tests/cases/" + token]
    if "/" in token and first.isidentifier() and os.path.isdir(os.path.join(ROOT, "crates", first)):
        rest = token[len(first) + 1:]
        return ["crates/" + token] if rest.split("/")[0] in IN_CRATE else [
            "crates/%s/%s/%s" % (first, it, rest) for it in ("src", "specs", "proofs")]
    if "/" in token and first in IN_CRATE and crate:
        return [os.path.join(crate, token)]
    return []


def wrong_quotes(text):
    """The files that an example is quoted from although they do not contain it."""
    for name, example in QUOTED.findall(text):
        with open(os.path.join(ROOT, "crates", name.removeprefix("crates/")), encoding="utf-8") as file:
            if " ".join(example.split()) not in " ".join(file.read().split()):
                yield "an example from %s, which differs from the file" % name


def missing(path, text):
    """What a file names that does not exist."""
    yield from wrong_quotes(text)
    text = FENCE.sub("", text)
    yield from bad_links(path, text)
    if os.path.basename(path) == "CHANGELOG.md":
        # (the changelog names files of earlier versions)
        return
    for span in SPAN.findall(text):
        for token in re.split(r"[\s,;()\[\]{}:=]+", span):
            token = token.rstrip(".")
            if PATH.fullmatch(token) and ".." not in token and "out" not in token.split("/"):
                found = candidates(path, token)
                if found and not any(stands(it) for it in found):
                    yield "`%s`, which is not there" % token
    for token in TOKEN.findall(LINK.sub("", text)):
        if token.startswith("build/"):  # files that tools make there are in no clone
            continue
        folders = ("", "docs", "crates/NAME", os.path.relpath(os.path.dirname(path), ROOT))
        if not any(stands(os.path.normpath(os.path.join(it, token))) for it in folders):
            yield "%s, which is not there" % token


def main():
    files = [os.path.realpath(it) for it in sys.argv[1:]] or list(markdown_files())
    count = 0
    for path in files:
        with open(path, encoding="utf-8") as file:
            text = file.read()
        for what in sorted(set(missing(path, text))):
            print("%s names %s" % (os.path.relpath(path, ROOT), what))
            count += 1
    print("%d Markdown files, %d names of what is not there" % (len(files), count))
    return 1 if count else 0


if __name__ == "__main__":
    sys.exit(main())
