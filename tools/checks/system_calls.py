#!/usr/bin/env python3
"""system_calls.py PROGRAM: each system call of an `upgrade` and of a `set-version` over three members is failed in turn, by
`strace -e inject`, and each is the moment of a kill. No manifest is ever cut. A run with a failed call ends with status 0
and each manifest new, or with status 1 (2 where there is no current folder) and an error, and only the manifests that were
moved so far, the first ones, are new. After a kill the next run leaves no file of the killed one, and a manifest that had
just been moved aside comes back. In an undisturbed run every new file is flushed to the disk before the first of them is
moved to its place."""

import collections
import concurrent.futures
import re
import sys
import tempfile

from workspaces import Workspace, run

ERRORS = ("EIO", "ENOSPC", "EACCES", "EINTR")
WORKERS = 4
# Calls of the C library and of the loader for memory, and the end.
PASSED = {"exit_group", "brk", "mmap", "munmap", "mremap", "execve"}


def calls(args):
    """The system calls of a run, each with how many of its name came before it, from the first of the program's own."""
    traced = run(["strace", "-f", "-o", "/dev/stdout", *args]).stdout.decode(errors="replace")
    names = [found[1] for found in (re.match(r"\d+\s+(\w+)\(", line) for line in traced.splitlines()) if found]
    seen, numbered = collections.Counter(), []
    for name in names:
        seen[name] += 1
        numbered.append((name, seen[name]))
    return numbered[names.index("getcwd"):]


def unflushed(args, members):
    """What is wrong with how a run makes its new files: each is flushed before the first is moved to its place, and there is one
    for each manifest."""
    traced = run(["strace", "-f", "-y", "-e", "trace=fsync,link,linkat,rename,renameat,renameat2", "-o", "/dev/stdout", *args])
    flushed, moved = set(), 0
    for line in traced.stdout.decode(errors="replace").splitlines():
        if found := re.search(r"fsync\(\d+<[^>]*/([^/>]*\.tmp)>\) += 0", line):
            flushed.add(found[1])
        elif found := re.search(r'(?:link|rename)\w*\([^"]*"[^"]*/([^"/]*\.tmp)",', line):
            moved += 1
            if found[1] not in flushed or len(flushed) < members:
                yield f"the new file {found[1]} is moved where {len(flushed)} of {members} are flushed"
    if moved != members:
        yield f"{moved} of {members} new files are moved"


def ordered():
    """What is wrong with the order of flushing and moving, of both commands."""
    for name in ("upgrade", "set-version"):
        with tempfile.TemporaryDirectory() as room:
            workspace = Workspace(sys.argv[1], room)
            args = workspace.upgrade() if name == "upgrade" else workspace.set_version("0.2.0")
            yield from (f"{name}: {text}" for text in unflushed(args, len(workspace.paths)))


def inject(args, call, what):
    """A run in which a system call fails or the process is killed at it."""
    name, number = call
    return run(["strace", "-f", "-o", "/dev/null", "-e", f"inject={name}:{what}:when={number}", *args])


def is_front(state):
    """Whether the manifests are new up to one of them, and old after it."""
    return re.fullmatch("1*0*", state) is not None


def failed(workspace, args, new, share, counts):
    """What is wrong with runs in which a call fails."""
    for call in share:
        for error in ERRORS if call[0] not in PASSED else ():
            workspace.reset()
            done = inject(args, call, f"error={error}")
            state = workspace.state(workspace.old, new)
            counts[error, f"status {done.returncode}", state] += 1
            # (a call that fails while the error is printed leaves it unprinted)
            reported = done.returncode == 1 and (b"Error: " in done.stderr or call[0] in ("write", "writev"))
            # (without a current folder the arguments cannot be read: a usage error)
            is_usage_error = done.returncode == 2 and b"error: the current folder" in done.stderr
            reported |= is_usage_error and call[0] == "getcwd" and state == "000"
            # (a failure after the last rename is reported, and every manifest is new)
            if not is_front(state) or not (reported or (done.returncode == 0 and state == "111")):
                yield f"{error} of {call}: status {done.returncode}, {state}, {done.stderr[-200:]!r}"
            if state not in ("000", "111") and not call[0].startswith(("rename", "link")):
                yield f"{error} of {call}, which moves no file: {state}, {done.stderr[-200:]!r}"
            if workspace.left():
                run(args)
                if workspace.left():
                    yield f"{error} of {call}: behind the next run {workspace.left()} are left"


def killed(workspace, args, new, share, counts):
    """What is wrong with runs that are killed at a call."""
    for call in share:
        workspace.reset()
        inject(args, call, "signal=KILL")
        counts["killed", f"{len(workspace.missing())} moved aside"] += 1
        yield from (f"a kill at {call}: {text}" for text in workspace.given_back())
        if workspace.missing():
            continue
        state = workspace.state(workspace.old, new)
        counts["killed", state] += 1
        if not is_front(state):
            yield f"a kill at {call}: {state}"
        run(workspace.upgrade())
        if workspace.left():
            yield f"a kill at {call}: behind the next run {workspace.left()} are left"


def part(kind, name, number, counts):
    """What is wrong with every WORKERS-th of the runs of a kind over a command, in a workspace of their own."""
    with tempfile.TemporaryDirectory() as room:
        workspace = Workspace(sys.argv[1], room)
        args = workspace.upgrade() if name == "upgrade" else workspace.set_version("0.2.0")
        new = workspace.raised() if name == "upgrade" else workspace.bumped()
        return [f"{name}: {text}" for text in kind(workspace, args, new, calls(args)[number::WORKERS], counts)]


def main():
    counts, wrong = collections.Counter(), list(ordered())
    parts = [(kind, name, number) for number in range(WORKERS) for kind in (failed, killed) for name in ("upgrade", "set-version")]
    with concurrent.futures.ThreadPoolExecutor(WORKERS) as pool:
        for found in pool.map(lambda one: part(*one, counts), parts):
            wrong += found
    for what, count in sorted(counts.items(), key=str):
        print(count, *what)
    if not any("1" in state and "0" in state for kind, *_, state in counts if kind == "killed"):
        wrong.append("no kill came between two renames")
    print("\n".join(wrong[:20] + [f"{len(wrong)} faults"]))
    sys.exit(bool(wrong))


if __name__ == "__main__":
    main()
