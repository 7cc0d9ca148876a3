"""Versions and requirements, as the documentation of the crate `semver` describes them; written apart from
the program, which is judged by it."""

import re
from dataclasses import dataclass, replace

LIMIT = 2 ** 64
NUMBER = r"(?:0|[1-9][0-9]*)"
PRE = r"[0-9A-Za-z-]+(?:\.[0-9A-Za-z-]+)*"
VERSION = re.compile(rf"({NUMBER})\.({NUMBER})\.({NUMBER})(?:-({PRE}))?(?:\+({PRE}))?")
COMPARATOR = re.compile(rf"(=|>=|>|<=|<|\^|~)?[ ]*({NUMBER}|[*xX])"
                        rf"(?:\.({NUMBER}|[*xX])(?:\.({NUMBER}|[*xX])(?:-({PRE}))?(?:\+{PRE})?)?)?")


@dataclass(frozen=True)
class Version:
    """A version: three numbers, pre-release and build metadata."""
    numbers: tuple
    pre: str = ""
    build: str = ""

    def plain(self):
        """The text without build metadata."""
        return ".".join(map(str, self.numbers)) + (f"-{self.pre}" if self.pre else "")

    def __str__(self):
        return self.plain() + (f"+{self.build}" if self.build else "")

    def key(self):
        """What versions are ordered by."""
        return (self.numbers, not self.pre, identifiers(self.pre), build_identifiers(self.build))


def identifiers(pre):
    """What pre-releases are ordered by: numbers before names, and numbers by their value."""
    return [(0, int(part), "") if part.isdigit() else (1, 0, part) for part in pre.split(".") if pre]


def build_identifiers(build):
    """The same of build metadata, where a number may have zeros in front."""
    return [(0, int(part), len(part), "") if part.isdigit() else (1, 0, 0, part)
            for part in build.split(".") if part]


def fine_pre(pre):
    """Whether no number of a pre-release has a zero in front."""
    return not any(part.isdigit() and part != "0" and part[0] == "0" for part in (pre or "").split("."))


def read_version(text):
    """The version that a text is, else none."""
    match = VERSION.fullmatch(text)
    if not match or not fine_pre(match[4]) or any(int(match[i]) >= LIMIT for i in (1, 2, 3)):
        return None
    return Version(tuple(int(match[i]) for i in (1, 2, 3)), match[4] or "", match[5] or "")


@dataclass(frozen=True)
class Comparator:
    """An operator, one to three numbers, and a pre-release. The operator * is that of a wildcard."""
    op: str
    numbers: tuple
    pre: str = ""

    def __str__(self):
        text = ".".join(map(str, self.numbers))
        if self.pre and len(self.numbers) == 3:
            text += f"-{self.pre}"
        return text + ".*" if self.op == "*" else self.op + text

    def admits(self, version):
        """Whether it admits a version, apart from the rule about pre-releases."""
        mine = self.numbers
        same = version.numbers[:len(mine)] == mine
        if self.op == "*":
            return same
        if len(mine) < 3:
            return self.admits_short(version, same)
        own, other = (mine, not self.pre, identifiers(self.pre)), version.key()[:3]
        if self.op == "~":
            return version.numbers[:2] == mine[:2] and other >= own
        if self.op == "^":
            return other >= own and self.same_front(version)
        return {"=": other == own, ">": other > own, ">=": other >= own, "<": other < own,
                "<=": other <= own}[self.op]

    def admits_short(self, version, same):
        """The same where one or two numbers are given."""
        front = version.numbers[:len(self.numbers)]
        if self.op == "^":
            return version.numbers >= self.numbers and self.same_front(version)
        return {"=": same, "~": same, ">": front > self.numbers, ">=": front >= self.numbers,
                "<": front < self.numbers, "<=": front <= self.numbers}[self.op]

    def same_front(self, version):
        """Whether the numbers up to the first that is not 0, or to the last that is given, are those of a
        version."""
        zeros = next((at for at, number in enumerate(self.numbers) if number), len(self.numbers) - 1)
        return version.numbers[:zeros + 1] == self.numbers[:zeros + 1]


def read_comparator(text):
    """The comparator that a text is, else none."""
    match = COMPARATOR.fullmatch(text)
    if not match or not fine_pre(match[5]):
        return None
    op, parts = match[1], [part for part in match.group(2, 3, 4) if part is not None]
    wild = [part in "*xX" for part in parts]
    numbers = tuple(int(part) for part, is_wild in zip(parts, wild) if not is_wild)
    if any(number >= LIMIT for number in numbers) or wild[0] or wild != sorted(wild):
        return None
    if any(wild):
        # (an operator before a wildcard counts as if the numbers alone followed it)
        return None if match[5] or "+" in text else Comparator(op or "*", numbers)
    return Comparator(op or "^", numbers, match[5] or "")


def read_requirement(text):
    """The comparators that a text is, else none."""
    bare = text.strip(" ")
    if bare in ("*", "x", "X"):
        return []
    parts = [read_comparator(part.strip(" ")) for part in bare.split(",")]
    return None if None in parts or len(parts) > 32 else parts


def admits(comparators, version):
    """Whether a requirement admits a version: each comparator does, and for a pre-release one of them has a
    pre-release at the same three numbers."""
    if not all(one.admits(version) for one in comparators):
        return False
    return not version.pre or any(one.pre and one.numbers == version.numbers for one in comparators)


def raised(text, version):
    """A requirement's text raised to a version; where a comparator cannot be raised, none."""
    comparators = read_requirement(text)
    if not comparators:
        return text
    if any(one.op[0] in "<>" for one in comparators):
        return None
    made = [replace(one, numbers=version.numbers[:len(one.numbers)], pre="" if one.op == "*" else version.pre)
            for one in comparators]
    new = ", ".join(map(str, made))
    return new[1:] if new[0] == "^" and not text.startswith("^") else new
