"""Whether the hunks of a unified diff are at the lines that they name: `patch` and `git apply` find a hunk
elsewhere too."""

import re

HEAD = re.compile(rb'^--- ("?a/.*)\n\+\+\+ ("?b/.*)\n', re.MULTILINE)
ESCAPE = re.compile(rb"\\([0-7]{3}|.)")
LETTERS = dict(zip(b'abtnvfr"\\', b'\a\b\t\n\v\f\r"\\'))
HUNK = re.compile(rb"@@ -(\d+)(?:,(\d+))? \+(\d+)(?:,(\d+))? @@\n")
NO_END = b"\\ No newline at end of file\n"


def unquoted(name):
    """A name as git writes it: in quotes, with escapes, where it has to be; a tab ends one with a space."""
    if name.endswith(b"\t") and b" " in name:
        name = name[:-1]
    if not name.startswith(b'"'):
        return name
    return ESCAPE.sub(lambda e: bytes([int(e[1], 8) if len(e[1]) == 3 else LETTERS[e[1][0]]]), name[1:-1])


def lines_of(text):
    """The lines of a text, each with its line end."""
    return [line for line in re.split(rb"(?<=\n)", text) if line]


def sides(lines, old, new):
    """The lines of a hunk before and after the change, as many as its head says, and what follows it."""
    before, after, at = [], [], 0
    while at < len(lines) and (len(before) < old or len(after) < new):
        sign, line = lines[at][:1], lines[at][1:]
        at += 1
        if at < len(lines) and lines[at] == NO_END:
            line, at = line[:-1], at + 1
        before += [line] if sign in b" -" else []
        after += [line] if sign in b" +" else []
    return before, after, lines[at:]


def faults_of(body, before, after):
    """What is wrong with the hunks of one file."""
    old, new, lines = lines_of(before), lines_of(after), lines_of(body)
    while lines:
        head = HUNK.fullmatch(lines[0])
        if not head:
            yield f"no head of a hunk: {lines[0]!r}"
            return
        at, count, to, length = (1 if number is None else int(number) for number in head.groups())
        left, right, lines = sides(lines[1:], count, length)
        if left != old[at - 1:at - 1 + count] or right != new[to - 1:to - 1 + length]:
            yield f"a hunk that is not at its lines: {head.group()!r}"


def faults(diff, before, after):
    """What is wrong with a diff, between files by their paths below the root of the workspace."""
    heads = list(HEAD.finditer(diff))
    for head, end in zip(heads, [*(one.start() for one in heads[1:]), len(diff)]):
        old, new = unquoted(head[1]), unquoted(head[2])
        name = "ws/" + old[2:].decode(errors="replace")
        if old[:2] != b"a/" or new != b"b/" + old[2:] or name not in before:
            yield f"a head of no file: {head.group()!r}"
        else:
            yield from faults_of(diff[head.end():end], before[name], after[name])
