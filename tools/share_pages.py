"""Man pages in roff, made of a help."""
STATUS = (
    ("0", "Success; with --check: nothing would change."),
    ("1", "An error, which is printed after `Error: `; with --check and no such line: something would change."),
    ("2", "A usage error."),
)


# characters that roff prints as others, and how they are written
ROFF = str.maketrans({"\\": "\\e", "-": "\\-", "`": "\\(ga", "'": "\\(aq", "^": "\\(ha", "~": "\\(ti"})


def plain(text):
    """A text as roff reads it: no byte of it is a request or an escape."""
    text = text.translate(ROFF)
    return "\\&" + text if text.startswith(".") else text


def bold(text):
    return "\\fB%s\\fR" % plain(text)


def front(name, version, about):
    return [
        '.\\" Made by tools/share_files from the program\'s help.',
        '.TH "%s" "1" "" "cargo\\-edit %s"' % (plain(name.upper()), plain(version)),
        ".nh",
        ".SH NAME",
        "%s \\- %s" % (plain(name), plain(about)),
    ]


def usage(text):
    return [".SH SYNOPSIS", plain(text)]


def sections(page, request):
    """Each section of a help below its heading."""
    lines = []
    for heading, entries, text in page.sections:
        if heading:
            lines += [".%s %s" % (request, plain(heading.upper() if request == "SH" else heading))]
        for entry in entries:
            lines += [".TP", bold(entry.written)] + ([plain(entry.text)] if entry.text else [])
        if text:
            lines += [".nf"] + [plain(line) for line in text.split("\n")] + [".fi"]
    return lines


def back(others):
    """The statuses, and the other pages."""
    lines = [".SH EXIT STATUS"]
    for status, text in STATUS:
        lines += [".TP", bold(status), plain(text)]
    return lines + [".SH SEE ALSO", ", ".join("%s(1)" % bold(it) for it in others)]


def joined(lines):
    return "\n".join(lines) + "\n"


def of_program(name, version, top, commands, installed):
    """The page of the program: its own help, and that of each command."""
    lines = front(name, version, top.about) + usage(top.usage) + sections(top, "SH")
    for command, page in commands.items():
        lines += [".SH %s %s" % (plain(name.upper()), plain(command.upper())), plain(page.about), ".PP", plain(page.usage)]
        lines += sections(page, "SS")
    return joined(lines + back(["cargo"] + ["cargo-" + it for it in installed if it in commands]))


def of_command(name, command, version, page):
    """The page of a command that is installed by its own name, and so is one of cargo's."""
    return joined(front(name, version, page.about) + usage(page.usage) + sections(page, "SH") + back(["cargo", "cargo-edit"]))
