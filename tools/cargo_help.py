"""The help of `cargo upgrade` and `cargo set-version`: that of the program's subcommands without what the scripts of bin/
fill in themselves, and with what they add."""
import re
import textwrap

import help_text

# options of the program that the scripts give it, and people do not
PLUMBING = {"--metadata-json", "--index-file", "--index-dir", "--lock-file", "--config", "--default-config", "--now"}

# options that mean more for a command of cargo than for the program alone
TEXTS = {
    ("upgrade", "--manifest-path"): "The workspace of this manifest; without it that of the current folder",
    ("upgrade", "--update-calls"): "Writes the calls of `cargo update` that are made to this file",
    ("upgrade", "--interactive"): "Shows what would change as numbered rows, and asks which ones to change",
    ("upgrade", "--locked"): "Stops with an error where a manifest or Cargo.lock would change",
    ("upgrade", "--offline"): "Fetches nothing: cached index entries are used",
    ("set-version", "--manifest-path"): "The workspace of this manifest; without it that of the current folder",
    ("set-version", "--offline"): "Has cargo fetch nothing",
    ("set-version", "--locked"): "Stops with an error where Cargo.lock is not up to date, and leaves it as it is",
}

# what an option of cargo itself sets
UNSEEN = "Settings of `cargo --config` are not seen: write them into a configuration file of cargo."

FILES = (
    ("$XDG_CACHE_HOME/cargo-edit/index, ~/.cache/cargo-edit/index", "Cached index entries. It may be removed at any time."),
    ("Cargo.toml, Cargo.lock", "What is changed: requirements or versions in the manifests, and what cargo makes of them."),
    (".cargo/config.toml, $CARGO_HOME/config.toml", "The configuration of cargo: registries, source replacement, network. "
     + UNSEEN),
)

ENVIRONMENT = (
    ("CARGO", "The cargo that is run; `cargo` of PATH without it."),
    ("CARGO_HOME", "The home of cargo, ~/.cargo without it."),
    ("XDG_CACHE_HOME", "The folder of caches, ~/.cache without it."),
    ("CARGO_NET_OFFLINE, CARGO_NET_RETRY, CARGO_HTTP_TIMEOUT, CARGO_HTTP_PROXY, CARGO_HTTP_CAINFO", "As for cargo."),
    ("CARGO_REGISTRIES_<NAME>_INDEX, CARGO_REGISTRIES_<NAME>_TOKEN", "The index of a registry and the token for it."),
    ("CARGO_TERM_COLOR", "When reports are colored, as `--color`: `auto`, `always` or `never`."),
    ("NO_COLOR, CLICOLOR, CLICOLOR_FORCE", "Without the two above: not colored where NO_COLOR is not empty, else colored "
     "where CLICOLOR_FORCE is neither empty nor 0, else not colored where CLICOLOR is 0, else colored on a terminal."),
)
# those that count for `set-version` too
SHARED = ("CARGO", "CARGO_HOME", "CARGO_TERM_COLOR", "NO_COLOR, CLICOLOR, CLICOLOR_FORCE")

EXAMPLES = {
    "upgrade": (
        ("cargo upgrade --dry-run --diff", "Shows what would change, and changes nothing."),
        ("cargo upgrade", "Raises requirements to the greatest versions that they admit, and updates Cargo.lock."),
        ("cargo upgrade --incompatible", "Also to versions that the old requirements do not admit."),
        ("cargo upgrade -p docopt@~0.9 -p 'serde@>=0.9, <2.0'", "Only these two, to these requirements."),
        ("cargo upgrade --exclude serde", "All but this crate."),
        ("cargo upgrade --min-age 14", "Only to versions that are at least 14 days old."),
        ("cargo upgrade --check --message-format json", "Status 1 if something would change, with messages for a program."),
    ),
    "set-version": (
        ("cargo set-version 1.2.0", "This version for all members; it has to be greater than the current one."),
        ("cargo set-version --bump minor", "The next minor version of each member."),
        ("cargo set-version --bump rc -p my-crate", "A release candidate of this member."),
        ("cargo set-version --bump patch --check --diff", "Shows what would change, with status 1 if something would."),
    ),
}

# the policy of a project, for the man page
POLICY = """\
A table in the root manifest sets values of options for each run, and holds crates back:

    [workspace.metadata.cargo-edit]     # package.metadata.cargo-edit without a [workspace]
    exclude = ["a", "b"]                # as --exclude
    incompatible = "allow"              # also: compatible, pinned
    level = "minor"                     # as --level
    min-age = 14                        # as --min-age
    never-lower = true                  # as --never-lower
    rust-version = "1.70"               # as --rust-version

    [workspace.metadata.cargo-edit.crates.serde]
    hold = "^1"                         # only versions that this admits
    level = "patch"                     # for this crate
    reason = "2.0 breaks our derive"    # printed beside the hold

An option of the command line comes before the policy; --no-policy ignores it."""


def of_command(name, page):
    """The help of the command of cargo, made from that of the subcommand."""
    sections = []
    for heading, entries, text in page.sections:
        public = [it for it in entries if not PLUMBING & set(it.flags)]
        shown = [written(help_text.Entry(it.written, next((TEXTS[name, flag] for flag in it.flags if (name, flag) in TEXTS), it.text)))
                 for it in public]
        sections.append((heading, shown, text))
    usage = page.usage.replace("cargo-edit ", "cargo ", 1).replace(" --metadata-json <FILE>", "")
    return help_text.Help(page.about, usage, sections)


def written(entry):
    """An option of cargo's command as its help writes it: with brackets around a value that may be left out."""
    if not entry.may_lack_value:
        return entry
    text = re.sub(r" \[without a value: [^]]*\]", "", entry.text)
    return help_text.Entry(re.sub(r"(<\S+>)$", r"[\1]", entry.written), text)


def with_more(name, page):
    """The same with what its help has at the end."""
    more = "`man cargo-%s` has examples%s, files and the environment." % (name, ", the policy of a project" * (name == "upgrade"))
    if name == "upgrade":
        more += f"\n{UNSEEN}"
    return help_text.Help(page.about, page.usage, page.sections + [("", [], more)])


def is_of(page, text):
    """Whether a page has each option that a text names. What names one that the program does not have yet is left out."""
    flags = {flag for entry in page.options for flag in entry.flags}
    return set(re.findall(r"(?<![\w-])--?[a-z][\w-]*", text)) <= flags


def with_places(name, page):
    """The same with the files and the environment that count, for a man page."""
    files = [help_text.Entry(*it) for it in FILES if name == "upgrade" or "Cached" not in it[1]]
    environment = [help_text.Entry(*it) for it in ENVIRONMENT if name == "upgrade" or it[0] in SHARED]
    examples = [help_text.Entry(*it) for it in EXAMPLES[name] if is_of(page, it[0])]
    lines = [it for it in POLICY.split("\n") if is_of(page, it)]
    policy = [("Policy", [], "\n".join(lines))] if name == "upgrade" else []
    more = [("Examples", examples, "")] + policy + [("Files", files, ""), ("Environment", environment, "")]
    return help_text.Help(page.about, page.usage, page.sections + more)


def text(page):
    """The help as it is printed."""
    lines = [page.about, "", "Usage: " + page.usage]
    width = max(len(padded(entry)) for _, entries, _ in page.sections for entry in entries)
    for heading, entries, below in page.sections:
        lines += ["", heading + ":"] if heading else [""]
        for entry in entries:
            wrapped = textwrap.wrap(entry.text, 118 - width - 2) or [""]
            lines.append((padded(entry).ljust(width) + "  " + wrapped[0]).rstrip())
            lines += [" " * (width + 2) + more for more in wrapped[1:]]
        lines += [below] if below else []
    return "\n".join(lines) + "\n"


def padded(entry):
    """The left column of an entry: a long option without a short one is aligned with the other long ones."""
    return ("      " if entry.written.startswith("--") else "  ") + entry.written
