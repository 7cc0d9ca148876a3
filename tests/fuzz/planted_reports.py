"""Faults in the reports of the program: its status, and what it prints."""

import os
import pathlib
import re

from planted_run import fault


@fault
def status_three(run):
    run.go()
    run.status = 3 if run.status == 1 else run.status


@fault
def error_with_status_zero(run):
    run.go()
    run.status = 0 if b"Error: Unable to parse" in run.err else run.status


@fault
def error_without_its_line(run):
    run.go()
    run.err = run.err.replace(b"Error: Unable to parse", b"Unable to parse")


@fault
def ended_by_a_signal(run):
    run.go()
    if any(b"'''" in text for text in run.before.values()) and run.written():
        os.kill(os.getpid(), 11)


@fault
def no_end(run):
    run.go()
    while any(text.startswith(b"\xef\xbb\xbf") for text in run.before.values()):
        pass


@fault
def always_an_error(run):
    run.go(["--version"])
    run.status, run.out, run.err = 1, b"", b"Error: out of memory\n"


@fault
def bad_toml_accepted(run):
    run.go()
    if b"Error: Unable to parse" in run.err:
        run.status, run.err = 0, b""


@fault
def inline_tables_over_lines_refused(run):
    if any(re.search(rb"=\s*\{[^}\n]*\n", text) for text in run.before.values()):
        run.status, run.err = 1, b"Error: Unable to parse Cargo.toml\n"
    else:
        run.go()


@fault
def check_always_fine(run):
    run.go()
    run.status = 0 if run.has("--check") and b"Error: " not in run.err else run.status


@fault
def check_always_fails(run):
    run.go()
    run.status = 1 if run.has("--check") and run.status == 0 else run.status


@fault
def dry_run_prints_less(run):
    run.go()
    if run.has("-n"):
        run.out = b"\n".join(run.out.split(b"\n")[1:])


@fault
def diff_with_a_wrong_line(run):
    run.go()
    if run.has("--diff"):
        run.out = re.sub(rb"^\+([^+].*)\d", rb"+\g<1>7", run.out, count=1, flags=re.MULTILINE)


@fault
def diff_with_a_wrong_place(run):
    run.go()
    if run.has("--diff"):
        run.out = re.sub(rb"^@@ -(\d+)", rb"@@ -\g<1>1", run.out, flags=re.MULTILINE)


@fault
def diff_of_one_file_alone(run):
    run.go()
    found = list(re.finditer(rb"^--- ", run.out, re.MULTILINE))
    if run.has("--diff") and len(found) > 1:
        run.out = run.out[:found[1].start()]


@fault
def message_cut(run):
    run.go()
    if run.has("--message-format"):
        run.out = run.out.replace(b'"rename":null', b'"rename":', 1)


@fault
def message_without_a_member(run):
    run.go()
    if run.has("--message-format"):
        run.out = run.out.replace(b'"why":null', b'"wny":null', 1)


@fault
def message_of_another_change(run):
    run.go()
    if run.has("--message-format"):
        run.out = re.sub(rb'("change":"[a-z]+",.*"new":")', rb"\g<1>1", run.out, count=1)


@fault
def calls_lost(run):
    run.go()
    if run.has("--update-calls") and pathlib.Path("../calls").exists():
        pathlib.Path("../calls").write_bytes(b"")


@fault
def look_lost(run):
    run.go()
    if run.args[:1] == ["looks"]:
        run.out = b"\n".join(run.out.split(b"\n")[1:])
