"""Command lines: the arguments of `upgrade` and `set-version`, and what those of an upgrade mean."""

import re

import oracle
import semver
from manifests import requirement

VALUED = {"--compatible": ("allow", "true", "ignore", "false"),
          "--incompatible": ("allow", "true", "ignore", "false"),
          "-i": ("allow", "true", "ignore", "false"), "--pinned": ("allow", "true", "ignore", "false"),
          "--recursive": ("true", "false")}
YES = ("allow", "true")
NEED_VALUE = ("--rust-version", "-p", "--package", "--exclude", "--level", "--index-file", "--metadata-json",
              "--manifest-path")
MANIFESTS = ("@HERE@/ws/Cargo.toml", "@HERE@/ws", "Cargo.toml")
LEVELS = ("major", "minor", "patch", "release", "rc", "beta", "alpha")
# Arguments of every kind, also those that are none. (--update-calls names a file of its own alone: one that
# is read or written by the same run would be replaced. Arguments that are not UTF-8 are left out, as are
# empty names.)
ANY = ("-n", "--dry-run", "--check", "--locked", "--diff", "--message-format json",
       "--message-format human", "--message-format=json", "--message-format markdown",
       "--message-format github", "--message-format xml", "--color never", "--color on", "-i",
       "--incompatible", "--pinned", "--pinned ignore", "--compatible", "--compatible=ignore",
       "--compatible maybe", "--never-lower", "--recursive", "--recursive false", "--recursive=x", "-v",
       "-vv", "-vvvv", "-q", "-qq", "-vq", "-p serde", "-p log@1", "-p log@", "-p @1", "-p a/b",
       "--exclude a", "--exclude", "-p", "--level minor", "--level=x", "--rust-version 1.60",
       "--rust-version x", "--ignore-rust-version", "--offline", "--workspace", "--all", "--bump minor",
       "--bump x", "--bump", "1.2.3", "0.0.1", "x", "-m b1", "-m +", "--metadata=1.0", "--", "--help",
       "-h", "--version", "-V", "--nope", "-z", "--check=1", "=", "--update-calls @HERE@/calls",
       "--manifest-path", "--manifest-path @HERE@/ws", "--manifest-path @HERE@/none/Cargo.toml",
       "--index-dir @HERE@/ix", "--index-file @HERE@/none", "\u00e9", "-\u00e9", "--exclude=",
       "--manifest-path=")


def choice(rng, long, short, value):
    """An option with a value, in one of its forms."""
    forms = [[long, value], [f"{long}={value}"]] + ([[short, value], [short + value]] if short else [])
    return rng.choice(forms)


def upgrade_options(rng, names):
    """Options of an upgrade that say what is raised."""
    args = []
    if rng.random() < 0.4:
        args += rng.choice((["-i"], ["--incompatible"], ["--incompatible=allow"], ["-i", "true"],
                             ["--incompatible", "ignore"]))
    if rng.random() < 0.3:
        args += rng.choice((["--pinned"], ["--pinned", "allow"], ["--pinned=false"]))
    if rng.random() < 0.15:
        args += rng.choice((["--compatible", "ignore"], ["--compatible=false"], ["--compatible"],
                             ["--compatible", "true"]))
    if rng.random() < 0.2:
        args += ["--never-lower"] if args or rng.random() < 0.3 else ["--never-lower", "-i"]
    if rng.random() < 0.25:
        args += choice(rng, "--level", None, rng.choice(tuple(oracle.KEPT)))
    if rng.random() < 0.2:
        args += rng.choice((["--recursive"], ["--recursive", "false"], ["--recursive=true"]))
    if rng.random() < 0.25:
        args += choice(rng, "--rust-version", None, rng.choice(("1.56", "1.60", "1.70.1", "2", "1.65.0")))
    elif rng.random() < 0.2:
        args.append("--ignore-rust-version")
    while rng.random() < 0.25:
        name = rng.choice(names)
        given = requirement(rng)
        args += choice(rng, "--package", "-p", f"{name}@{given}" if rng.random() < 0.35 else name)
    while rng.random() < 0.15:
        args += choice(rng, "--exclude", None, rng.choice(names))
    args += rng.choice(([], [], [], ["-v"], ["-vv"], ["-q"], ["-v", "--verbose"]))
    return args


def set_version_options(rng, names):
    """Options of `set-version` that say which versions are set."""
    args = []
    kind = rng.random()
    if kind < 0.6:
        args += choice(rng, "--bump", None, rng.choice(LEVELS))
    elif kind < 0.95:
        args.append(rng.choice(("0.2.0", "1.0.0", "1.0.0-rc.1", "2.0.0", "3.0.0", "11.0.0", "1.2.3+b",
                                 "0.0.1", "x")))
    if rng.random() < 0.2:
        args += choice(rng, "--metadata", "-m", rng.choice(("b", "1.0", "a-b", "+")))
    kind = rng.random()
    if kind < 0.35:
        args.append("--workspace")
    elif kind < 0.4:
        args.append("--all")
    else:
        while rng.random() < 0.35:
            args += choice(rng, "--package", "-p", rng.choice(names))
    while rng.random() < 0.12:
        args += choice(rng, "--exclude", None, rng.choice(names))
    return args


def any_options(rng):
    """Arguments of every kind, in any number and order."""
    args = []
    for _ in range(rng.choice((0, 1, 2, 2, 3, 4, 6))):
        args += rng.choice(ANY).split(" ")
    if rng.random() < 0.1 and args:
        args[rng.randrange(len(args))] += rng.choice(("x", "=", "\u00e9", "'"))
    return args


# ---- what the arguments of an upgrade mean

def pairs_of(args):
    """The options with their values; Unknown where the arguments have another form than those above."""
    at = 0
    while at < len(args):
        arg, value = args[at], None
        at += 1
        if arg.startswith("--") and "=" in arg:
            arg, value = arg.split("=", 1)
        elif arg[:2] in ("-p", "-i") and len(arg) > 2 and arg[1] != "-":
            arg, value = arg[:2], arg[2:]
        elif arg in NEED_VALUE:
            if at == len(args) or args[at].startswith("-"):
                raise oracle.Unknown("an option without its value")
            value, at = args[at], at + 1
        elif arg in VALUED:
            value = VALUED[arg][0]
            if at < len(args) and args[at] in VALUED[arg]:
                value, at = args[at], at + 1
        yield arg, value


def add_package(options, value):
    """Adds a -p."""
    name, at, text = value.partition("@")
    if not re.fullmatch(r"[\w-]+", name) or at and semver.read_requirement(text) is None:
        raise oracle.Unknown("a name or a requirement that cannot be read")
    options.named = True
    options.packages[name] = text if at else None


def check_value(arg, value):
    """Unknown where an option has a value that is none of its own, or names another manifest."""
    bad_version = arg == "--rust-version" and not oracle.rust_numbers(value)
    other_path = arg == "--manifest-path" and value not in MANIFESTS
    no_level = arg == "--level" and value not in oracle.KEPT
    if bad_version or other_path or no_level or value == "" or arg in VALUED and value not in VALUED[arg]:
        raise oracle.Unknown(f"a value of {arg}")


def upgrade_meaning(args):
    """What an upgrade may do by its options."""
    options, seen = oracle.Options(), set()
    for arg, value in pairs_of(args):
        arg = "--incompatible" if arg == "-i" else arg
        if arg in seen and arg not in ("-p", "--package", "--exclude", "-v", "-vv", "-q", "--verbose"):
            raise oracle.Unknown("an option twice")
        seen.add(arg)
        check_value(arg, value)
        if arg in ("-p", "--package"):
            add_package(options, value or "")
        elif arg == "--exclude":
            options.excluded.add(value)
        elif arg == "--level":
            options.level = value
        elif arg == "--rust-version":
            options.rust_version = oracle.rust_numbers(value)
        elif arg in ("--incompatible", "--pinned", "--compatible"):
            setattr(options, arg[2:], value in YES)
        elif arg in ("--never-lower", "--ignore-rust-version"):
            setattr(options, arg[2:].replace("-", "_"), True)
        elif arg not in ("-v", "-vv", "-q", "--verbose", "--recursive", "--index-file", "--metadata-json",
                          "--manifest-path"):
            raise oracle.Unknown(f"the argument {arg}")
    if {"--rust-version", "--ignore-rust-version"} <= seen:
        raise oracle.Unknown("options that exclude each other")
    return options
