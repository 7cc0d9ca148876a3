"""What a manifest's text is made of: its string literals, and the bytes outside of them; the same text as
TOML 1.0.0 has it, for `tomllib`, which knows no line ends and comments between the pairs of an inline
table."""

import re

CONTROL = re.compile(r"[\x00-\x08\x0b-\x1f\x7f]")
START, KEY, EQUALS, VALUE = range(4)
PIECE = re.compile(r'''
    (?P<comment> \#[^\n]*)
  | (?P<string> """ (?: [^"\\] | \\. | "{1,2}(?!") )*? "{3,5}
              | \'\'\' (?: [^'] | '{1,2}(?!') )*? '{3,5}
              | " (?: [^"\\\n] | \\[^\n] )* "
              | ' [^'\n]* ')
  | (?P<line_end> \n)
  | (?P<sign> [\[\]{},=])
  | (?P<other> [^\#"'\n\[\]{},=]+ | ["'])
''', re.VERBOSE | re.DOTALL)


def pieces(text):
    """The pieces of a text, each with its kind. A text that is no TOML has pieces as well, which then say
    nothing."""
    return [(match.lastgroup, match.group()) for match in PIECE.finditer(text)]


def literals_and_rest(text):
    """The string literals of a text in their order, and the text with a zero byte in place of each."""
    literals, rest = [], []
    for kind, piece in pieces(text):
        if kind == "string":
            literals.append(piece)
        rest.append("\0" if kind == "string" else piece)
    return literals, "".join(rest)


class Plain:
    """Takes the line ends, comments and last commas of inline tables out of a text.
    Of each array and inline table that is open it knows what stands before: nothing since its start or a
    comma (START), a key (KEY), an equals sign (EQUALS) or a value (VALUE). Behind a key and an equals sign no
    line ends: there it stays, so that the text is none."""

    def __init__(self):
        self.done, self.open, self.in_value = [], [], False

    def put(self, kind, piece):
        """Adds a piece."""
        inline = bool(self.open) and self.open[-1][0] == "{"
        if inline and kind in ("comment", "line_end") and self.open[-1][1] in (START, VALUE):
            # (a tab, since a blank would join a date and a time; a comment that is none stays)
            control = kind == "comment" and CONTROL.search(piece)
            self.done.append(piece if control else "" if kind == "comment" else "\t")
            return
        if kind == "sign":
            self.put_sign(piece)
        elif inline and kind in ("string", "other") and piece.strip():
            self.open[-1][1] = {START: KEY, EQUALS: VALUE}.get(self.open[-1][1], self.open[-1][1])
        if kind != "sign":
            self.done.append(piece)
        if kind == "line_end" and not self.open:
            self.in_value = False

    def put_sign(self, sign):
        """Adds a bracket, a brace, a comma or an equals sign. (A bracket before an equals sign is one of a
        header.)"""
        if sign in "]}" and self.open:
            self.drop_comma(sign)
            self.open.pop()
        elif self.open and sign in "=,":
            self.open[-1][1] = EQUALS if sign == "=" else START
        elif self.open or self.in_value and sign in "[{":
            if self.open:
                self.open[-1][1] = VALUE
            self.open.append([sign, START])
        elif sign == "=":
            self.in_value = True
        self.done.append(sign)

    def drop_comma(self, sign):
        """Takes away the comma before a closing brace, where a value stands before it."""
        at = len(self.done) - 1
        while at > 0 and not self.done[at].strip():
            at -= 1
        if sign == "}" and self.done[at] == ",":
            before = "".join(self.done[:at]).rstrip()
            if before and before[-1] not in ",{":
                self.done[at] = " "


def plain(text):
    """The text as TOML 1.0.0 has it: a byte order mark and what TOML 1.1.0 allows in inline tables are taken
    out. A text with a quote that begins no string is none, and stays."""
    text, made = text.removeprefix("\ufeff").replace("\r\n", "\n"), Plain()
    for kind, piece in pieces(text):
        if piece in ("'", '"'):
            made.done = [text]
            break
        made.put(kind, piece)
    # (`tomllib` reads CR LF as one line end; a CR that is left before an LF is none of a line end)
    return "".join(made.done).replace("\r\n", "\r\r\n")
