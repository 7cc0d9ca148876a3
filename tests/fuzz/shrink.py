"""Makes a case that fails smaller, as long as it fails in the same way."""

import re
import time
from dataclasses import replace


def way(fault):
    """The way in which a case fails: its fault without names, numbers and texts, and with the error that was
    printed."""
    error = re.search(r"status -?\d+|Error: [^\\`']*", fault)
    return re.sub(r"['\"\d(:].*", "", fault, flags=re.DOTALL)[:60] + (error.group() if error else "")


def without_files(case):
    """The case without one of its files."""
    for name in case.files:
        yield replace(case, files={other: text for other, text in case.files.items() if other != name})


def without_args(case):
    """The case without one or two of its arguments, behind the subcommand."""
    for count in (2, 1):
        for at in range(1, len(case.args) - count + 1):
            yield replace(case, args=case.args[:at] + case.args[at + count:], sure=False)


def parts_left(text, length):
    """A text without some of its lines."""
    lines = text.split(b"\n")
    for at in range(0, len(lines), length):
        yield b"\n".join(lines[:at] + lines[at + length:])


def without_lines(case):
    """The case without some lines of one of its files."""
    for name, text in case.files.items():
        if name == "metadata.json":
            continue
        length = max(1, len(text.split(b"\n")) // 2)
        while length:
            for left in parts_left(text, length):
                yield replace(case, files={**case.files, name: left})
            length //= 2


def smaller(case, wrong, judge, until):
    """A smaller case that fails in one of the ways of this one; it stops at a time."""
    ways = {way(fault) for fault in wrong}
    changed = True
    while changed and time.monotonic() < until:
        changed = False
        for make in (without_args, without_files, without_lines):
            changed |= bool(steps := list(steps_of(case, make, judge, ways, until)))
            case = steps[-1] if steps else case
    return case


def steps_of(case, make, judge, ways, until):
    """Ever smaller cases that fail in one of these ways."""
    again = True
    while again:
        again = False
        for one in make(case):
            if time.monotonic() > until:
                return
            if any(way(fault) in ways for fault in judge(one)):
                case, again = one, True
                yield one
                break
