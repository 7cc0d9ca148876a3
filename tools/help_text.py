"""Reads the help that a command line prints: what it is for, its usage, and its sections of entries."""
import dataclasses
import re

# `  -n, --dry-run  text`, `      --locked  text`, `  [TARGET]  text`, `  upgrade  text`; the text may stand below
ENTRY = re.compile(r"^(?: {2}|      (?=--))(\S+(?: \S+)*)(?:\s{2,}(.*))?$")


@dataclasses.dataclass
class Entry:
    """A line of a section: what is written on the command line, and what it is for."""

    written: str
    text: str

    @property
    def name(self):
        """The name of a command or an argument."""
        return self.written.split()[0].rstrip(".")

    @property
    def flags(self):
        """The names of an option, as `-n` and `--dry-run`."""
        return re.findall(r"(?:^|(?<=, ))(--?[A-Za-z0-9][\w-]*)", self.written)

    @property
    def value(self):
        """The name of an option's value, or none."""
        found = re.search(r"<([^ ]*)>\]?(?:\.\.\.)?$", self.written)
        return found and found[1]

    @property
    def is_repeated(self):
        return self.written.endswith("...") or self.value is not None

    @property
    def may_lack_value(self):
        """Whether the option may stand without its value."""
        return "[<" in self.written or "[without a value: " in self.text

    @property
    def values(self):
        """The values that the help lists."""
        found = re.search(r"\[possible values: ([^\]]*)\]", self.text)
        if found:
            return found[1].split(", ")
        return self.value.split("|") if self.value and re.fullmatch(r"[\w-]+(\|[\w-]+)+", self.value) else []

    @property
    def is_path(self):
        """Whether the value is a file or a folder, by its name."""
        return self.value in ("PATH", "FILE", "DIR")


@dataclasses.dataclass
class Help:
    """A help: its first lines, the usage, and for each heading its entries, or its text where it has none."""

    about: str
    usage: str
    sections: list

    @property
    def commands(self):
        headings = ("Commands", "More commands")
        return [it for heading, entries, _ in self.sections if heading in headings for it in entries]

    @property
    def options(self):
        """The entries that are options, whatever their heading."""
        return [it for _, entries, _ in self.sections for it in entries if it.flags]


def section(heading, lines):
    """The entries of a section; a line with a deeper indent continues the text of the entry above."""
    entries = []
    for line in lines:
        found = ENTRY.match(line)
        if found:
            entries.append(Entry(found[1].strip(), (found[2] or "").strip()))
        elif line.strip() and entries and line.startswith("   "):
            entries[-1].text = (entries[-1].text + " " + line.strip()).strip()
        elif line.strip():
            return heading, [], "\n".join(lines).strip("\n")
    return heading, entries, ""


def read(text):
    """A help, of its text."""
    about, usage, sections = [], [], []
    place = about
    for line in text.split("\n"):
        if line.startswith("Usage: "):
            place = usage
            line = line[len("Usage: "):]
        elif line[:1].strip() and place is not about:
            # a heading, or a text of its own after the sections
            heading = line[:-1] if line.endswith(":") else ""
            place = []
            sections.append((heading, place))
            if heading:
                continue
        place.append(line.rstrip())
    return Help(" ".join(about).strip(), " ".join(" ".join(usage).split()), [section(*it) for it in sections])
