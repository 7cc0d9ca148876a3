"""Writes TOML in every form that TOML 1.0.0 has, and inline tables over several lines as TOML 1.1.0 has
them."""

import re

BARE = re.compile(r"[A-Za-z0-9_-]+")
SHORT = {"\b": "\\b", "\t": "\\t", "\n": "\\n", "\f": "\\f", "\r": "\\r", '"': '\\"', "\\": "\\\\"}
COMMENTS = ("", " x", " version = \"1.0\"", " 'quoted' \"both\"", "#", " [dependencies]",
            " \u00e9\u4e2d\U0001f980", " a = {", "\ttab", " \"\"\" open", " ''' open", " }", " ]", " \\",
            " keep", " \u00a0", " a.b = '")
TEXTS = ("", "x", "a b", "\u00e9", "tab\there", "quote\"s", "it's", "back\\slash", "#no comment", "[x]",
         "{x}", "=", "\U0001f980", "1.0", "line\nend", "''", '""', "a'''b", 'a"""b', "\u2028", "\x7f",
         "\u0080", "\r\n", "trailing ", "\\u0041")
NUMBERS = ("0", "-0", "+1", "1_000", "0xdead_beef", "0o755", "0b1101", "9223372036854775807",
           "-9223372036854775808", "1.5", "-0.0", "1e10", "1E-3", "6.02_2e+2_3", "inf", "-inf", "+inf", "nan",
           "-nan", "true", "false", "1979-05-27T07:32:00Z", "1979-05-27 07:32:00.999999-07:00",
           "1979-05-27t07:32:00z", "1979-05-27T07:32:00", "1979-05-27", "07:32:00", "00:00:00.5",
           "2000-02-29")


class Writer:
    """Writes pieces of TOML, each time in another form."""

    def __init__(self, rng):
        self.rng = rng
        self.crlf = rng.random() < 0.12
        self.mixed = rng.random() < 0.05
        self.comments = rng.choice((0.02, 0.15, 0.5))
        self.odd = rng.choice((0.0, 0.1, 0.5))
        self.multi = rng.random() < 0.5

    def chance(self, share):
        """True in this share of all calls."""
        return self.rng.random() < share

    def end(self):
        """A line end."""
        return "\r\n" if self.crlf != (self.mixed and self.chance(0.3)) else "\n"

    def gap(self):
        """Blanks and tabs, mostly none or one."""
        return self.rng.choice(("", "", " ", " ", " ", "  ", "\t",
                                " \t ")) if self.chance(self.odd + 0.3) else " "

    def comment(self):
        """A comment, or nothing."""
        return "#" + self.rng.choice(COMMENTS) if self.chance(self.comments) else ""

    def line_end(self):
        """What may follow a statement, to the end of its line, and perhaps further lines without a
        statement."""
        text = self.rng.choice(("", " ", "\t")) + self.comment() + self.end()
        while self.chance(0.08 + self.odd / 5):
            text += self.rng.choice(("", " ")) + self.comment() + self.end()
        return text

    # ---- strings

    def escaped(self, char, many_lines):
        """A character of a string with escapes."""
        code = ord(char)
        if char == "\n" and many_lines and self.chance(0.7):
            return self.end()
        if char == "\t" and self.chance(0.5):
            return char
        if char in SHORT and not (char == '"' and many_lines and self.chance(0.3)):
            return SHORT[char] if self.chance(0.8) else f"\\u{code:04x}"
        if code < 32 or code == 127 or (code != 34 and self.chance(self.odd / 6)):
            return f"\\u{code:04X}" if code < 0x10000 and self.chance(0.7) else f"\\U{code:08x}"
        return char

    def basic(self, text):
        """A string with escapes on one line."""
        return '"' + "".join(self.escaped(char, False) for char in text) + '"'

    def long_basic(self, text):
        """A string with escapes that may go over lines."""
        inside = "".join(self.escaped(char, True) for char in text)
        inside = re.sub(r'"(?="")', '\\\\"', inside)
        inside = re.sub(r'(?<!\\)"$', '\\\\"', inside)
        fold = "\\" + self.end() + self.rng.choice(("", "  ", "\n ",
                                                    "\t")) if self.chance(self.odd / 2) else ""
        return '"""' + (self.end() if self.chance(0.3) or inside.startswith(("\n", "\r"))
                        else "") + fold + inside + '"""'

    def literal(self, text):
        """A string without escapes, where the text allows one."""
        if re.search(r"['\x00-\x08\n-\x1f\x7f]", text):
            return self.basic(text)
        return f"'{text}'"

    def long_literal(self, text):
        """A string without escapes that may go over lines, where the text allows one."""
        if re.search(r"'''|'$|[\x00-\x08\x0b-\x1f\x7f]", text):
            return self.long_basic(text)
        begin = self.end() if self.chance(0.3) or text.startswith("\n") else ""
        return "'''" + begin + text.replace("\n", self.end()) + "'''"

    def string(self, text):
        """A string in one of the four forms."""
        forms = (self.basic, self.basic, self.basic, self.literal, self.long_basic, self.long_literal)
        return self.rng.choice(forms if self.chance(self.odd) else forms[:4])(text)

    # ---- keys

    def part(self, name):
        """One part of a key."""
        if BARE.fullmatch(name) and not self.chance(self.odd / 4):
            return name
        return self.literal(name) if self.chance(0.5) else self.basic(name)

    def key(self, names):
        """A dotted key."""
        dots = [self.rng.choice((".", " . ", ". ", " .")) if self.chance(self.odd / 4) else "."
                for _ in names]
        return "".join(dot + self.part(name) for dot, name in zip(dots, names))[len(dots[0]):]

    def header(self, names, many=False):
        """The header of a table, or of an element of an array of tables."""
        gap = self.rng.choice((" ", "\t")) if self.chance(self.odd / 4) else ""
        inside = gap + self.key(names) + gap
        lead = "  " if self.chance(self.odd / 4) else ""
        return lead + (f"[[{inside}]]" if many else f"[{inside}]") + self.line_end()

    def pair(self, names, value):
        """A statement of a key and its value."""
        lead = self.rng.choice(("  ", "\t")) if self.chance(self.odd / 3) else ""
        return lead + self.key(names) + self.gap() + "=" + self.gap() + value + self.line_end()

    # ---- values

    def between(self, many_lines):
        """What may stand between the parts of an array or an inline table."""
        text = self.rng.choice(("", " "))
        while many_lines and self.chance(0.4):
            text += self.comment() + self.end() + self.rng.choice(("", "    ", "\t"))
        return text

    def listed(self, parts, many_lines, comma_at_end):
        """Parts with commas between them."""
        text = self.between(many_lines)
        for number, part in enumerate(parts):
            last = number == len(parts) - 1
            text += part + self.between(many_lines) + ("" if last and not comma_at_end
                                                       else ",") + self.between(many_lines)
        return text

    def array(self, values):
        """An array."""
        return "[" + self.listed(values, self.chance(0.4), bool(values) and self.chance(0.3)) + "]"

    def inline(self, pairs):
        """An inline table of names with their values."""
        many_lines = self.multi and self.chance(0.3)
        parts = [self.key(names) + self.gap() + "=" + self.gap() + value for names, value in pairs]
        return "{" + self.listed(parts, many_lines, bool(parts) and many_lines and self.chance(0.5)) + "}"

    def any_value(self, depth=0):
        """A value of any type."""
        kind = self.rng.random()
        if kind < 0.4:
            return self.string(self.rng.choice(TEXTS))
        if kind < 0.75 or depth > 3:
            return self.rng.choice(NUMBERS)
        count = self.rng.randrange(4)
        if kind < 0.9:
            return self.array([self.any_value(depth + 1) for _ in range(count)])
        return self.inline([([f"k{number}"], self.any_value(depth + 1)) for number in range(count)])
