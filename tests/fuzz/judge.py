"""What is wrong with a case: it is run as its arguments want it, and all faults are listed."""

import random
import re

import set_versions
import upgrades
from cases import HERE
from properties import DRY, general

# The arguments that say nothing of how a run reports, and are none of help or the version.
PLAIN = re.compile(
    r"(?!-).*|-[vq]+|-[pm].+|-[pim]|--(metadata-json|index-file|manifest-path|rust-version"
    r"|ignore-rust-version|compatible|incompatible|pinned|recursive|never-lower|level|package|exclude|verbose"
    r"|quiet|bump|metadata|workspace|all)(=.*)?", re.DOTALL)


def is_plain(args):
    """Whether options that say how a run reports may be added to the arguments."""
    return all(PLAIN.fullmatch(arg) for arg in args)


def names_file(args, option, name):
    """Whether an option names this file of the case."""
    return any(pair == (option, f"{HERE}/{name}") for pair in zip(args, args[1:]))


def any_run(room, case):
    """What is wrong with the one run of a case whose arguments are of every kind."""
    args = case.args
    before_end = args[:args.index("--")] if "--" in args else args
    run = room.run(args)
    run.files.pop("calls", None)
    locked = "--locked" in before_end and args[:1] == ["upgrade"]
    dry = bool(DRY & set(before_end)) or locked or args[:1] == ["looks"]
    yield from general(room, run, may_check="--check" in before_end, may_write=not dry)


def faults(room, case, choices=None):
    """All that is wrong with a case. Which of the more expensive runs are made goes by `choices`, or all
    are."""
    room.lay_out(case.files)
    rng = random.Random(choices)
    choose = (lambda share: True) if choices is None else (lambda share: rng.random() < share)
    index = names_file(case.args, "--index-file", "index.json")
    workspace = names_file(case.args, "--metadata-json", "metadata.json")
    if case.command == "upgrade" and index and is_plain(case.args):
        if workspace or "--metadata-json" not in case.args:
            return list(upgrades.faults(room, case, choose))
    if case.command == "set-version" and workspace and is_plain(case.args):
        return list(set_versions.faults(room, case, choose))
    return list(any_run(room, case))
