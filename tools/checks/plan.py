#!/usr/bin/env python3
"""plan.py PROGRAM: `PROGRAM plan` beside runs of PROGRAM over files. Each case of tests/cases whose command, options and
files a request can express is run both ways: the status and the new texts must be the same, and the edits of the
response must turn the old texts into the new ones. Requests, responses and the messages that cases print must fit
docs/*.schema.json, whose copy of the messages' schema in that of plans is compared. examples/plan.py must raise
examples/first as its README shows."""

import difflib
import importlib.machinery
import importlib.util
import json
import pathlib
import subprocess
import sys
import tempfile

import json_schema

sys.dont_write_bytecode = True
ROOT = pathlib.Path(__file__).resolve().parents[2]
COMMANDS = {"upgrade", "set-version"}
# options with a value, with an optional value, and without one
VALUED = {"package", "exclude", "rust-version", "level", "rows", "published-before", "min-age", "now", "bump", "metadata"}
OPTIONAL = {"compatible", "incompatible", "pinned", "recursive"}
FLAGS = {"never-lower", "to-lockfile", "unify", "no-policy", "locked", "offline", "workspace", "all", "ignore-rust-version"}
SHORT = {"-p": "--package", "-i": "--incompatible", "-m": "--metadata"}
# the options that name the texts of a request
FILES = {"metadata-json": "metadata", "index-file": "index", "lock-file": "lock"}


def load_runner():
    """tests/cases/run as a module."""
    loader = importlib.machinery.SourceFileLoader("cases", str(ROOT / "tests/cases/run"))
    module = importlib.util.module_from_spec(importlib.util.spec_from_loader("cases", loader))
    loader.exec_module(module)
    return module


CASES = load_runner()
PLAN = json.loads((ROOT / "docs/plan.schema.json").read_text())
MESSAGES = json.loads((ROOT / "docs/messages.schema.json").read_text())


class Inexpressible(Exception):
    """A case that a request cannot express."""


def options_of(arguments):
    """The options of a command line, the paths of the files that it names, and its target."""
    options, files, target, args = {}, {}, None, list(arguments)
    while args:
        arg = SHORT.get(args[0], args[0])
        args.pop(0)
        name, equals, value = arg.removeprefix("--").partition("=")
        if not arg.startswith("-"):
            target = arg
            continue
        if name in VALUED | FILES.keys() | {"message-format", "manifest-path"} and not equals:
            value = args.pop(0)
        if name in OPTIONAL and not equals and args[:1] and args[0] in ("allow", "ignore", "true", "false"):
            value, equals = args.pop(0), "="
        if name in FILES or name == "manifest-path":
            files[name] = value
        elif name in VALUED:
            options.setdefault(name, []).append(value)
        elif name in OPTIONAL:
            options[name] = value if equals else True
        elif name in FLAGS and not equals:
            options[name] = True
        elif name not in ("message-format", "diff"):
            raise Inexpressible(arg)
    return options, files, target


def request_of(case, room):
    """The request that is equivalent to a case."""
    arguments = [room.filled(argument) for argument in case["args"]]
    if arguments[:1] == [] or arguments[0] not in COMMANDS or case.keys() & {"program", "folder", "environment", "stdin"}:
        raise Inexpressible(case["title"])
    options, named, target = options_of(arguments[1:])
    texts = {path: room.filled(text) for path, text in case.get("files", {}).items() if isinstance(text, str)}
    if len(texts) < len(case.get("files", {})):
        raise Inexpressible("bytes")
    paths = {str(room.at(path)): text for path, text in texts.items()}
    request = {"version": 1, "command": arguments[0], "root": str(room.at(".")), "options": options}
    for option, member in FILES.items():
        if option in named:
            text = paths.pop(str(room.at(named[option])), None)
            if text is None:
                raise Inexpressible(option)
            try:
                request[member] = json.loads(text) if member == "metadata" else text
            except ValueError:
                raise Inexpressible(option) from None
    if request["command"] == "upgrade" and "index" not in request:
        raise Inexpressible("index")
    if not isinstance(request.get("metadata", {}), dict):
        raise Inexpressible("metadata")
    request["configs"] = {path: text for path, text in paths.items() if "/.cargo/config" in path}
    request["manifests"] = {path: text for path, text in paths.items() if path not in request["configs"]}
    if "metadata" not in request:
        if len(request["manifests"]) != 1 or str(room.at(named.get("manifest-path", "Cargo.toml"))) not in paths:
            raise Inexpressible("manifest")
    if target is not None:
        request["target"] = target
    return request


def edited(text, edits):
    """A text after edits."""
    data = text.encode()
    for edit in reversed(edits):
        data = data[:edit["start"]] + edit["text"].encode() + data[edit["end"]:]
    return data.decode()


def read_text(path):
    """The text of a file, with its line ends as they are."""
    return pathlib.Path(path).read_bytes().decode()


def fault_of(case, program):
    """What is wrong with the response to a case, or `None`."""
    with tempfile.TemporaryDirectory() as folder:
        room = CASES.Room(folder)
        request = request_of(case, room)
        run = subprocess.run([program, "plan"], input=json.dumps(request).encode(), capture_output=True, check=False)
        response = json.loads(run.stdout)
        for name, value in (("request", request), ("response", response)):
            # (the schema of these values alone names the fault better than `anyOf` with both)
            faults = json_schema.Schema({**PLAN, "anyOf": [{"$ref": "#/$defs/" + name}]}).faults(value)
            if faults:
                return "the %s: %s" % (name, faults[0])
        if "metadata" in request and (response["error"] or {}).get("message", "").startswith("the request is not JSON"):
            # (metadata that no JSON reader of the program takes are malformed within a request too)
            raise Inexpressible("metadata")
        room.lay_out(case)
        status, _, stderr = room.run(case, {"cargo-edit": program})
        if not run.returncode == response["status"] == status:
            return "status %d, not %d: %s %s" % (run.returncode, status, response["error"], stderr)
        if status == 2:
            return None
        for path, text in request["manifests"].items():
            after = read_text(path) if pathlib.Path(path).exists() else text
            own = [edit for edit in response["edits"] if edit["path"] == path]
            if response["manifests"].get(path, text) != after:
                return "%s: another text than a run over files writes" % path
            if edited(text, own) != after or any(a["end"] > b["start"] for a, b in zip(own, own[1:])):
                return "%s: the edits do not lead to the new text" % path
        if status == 1 and response["error"]["message"] not in stderr:
            return "another error: %s" % response["error"]["message"]
        return None


def check_cases(program):
    """Runs all cases that a request can express; their number, and the faults."""
    count, faults = 0, []
    for path in sorted((ROOT / "tests/cases").glob("*/*.toml")):
        for case in CASES.read_cases(path):
            try:
                fault = fault_of(case, program)
            except Inexpressible:
                continue
            count += 1
            if fault:
                faults.append("%s: %s" % (case["title"], fault))
    return count, faults


def message_faults():
    """The faults of messages that cases print in JSON, and of the copy of their schema."""
    schema, faults, count = json_schema.Schema(MESSAGES), [], 0
    if PLAN["$defs"]["messages"] != MESSAGES:
        faults.append("docs/plan.schema.json has another schema of messages than docs/messages.schema.json")
    for path in sorted((ROOT / "tests/cases").glob("*/*.toml")):
        for case in CASES.read_cases(path):
            lines = [line for line in case.get("stdout", "").splitlines() if line.startswith('{"')]
            # (`plan` and `lock-plan` print one document, which is no message)
            if case.get("args", [])[:1] not in (["plan"], ["lock-plan"]) and "json" in " ".join(case.get("args", [])):
                for line in lines:
                    count += 1
                    faults += ["%s: %s" % (case["title"], it) for it in schema.faults(json.loads(line))]
    return faults + (["only %d messages of cases" % count] if count < 50 else [])


def check_example(program):
    """The fault of examples/plan.py over examples/first, or `None`."""
    first = ROOT / "examples/first"
    old = (first / "Cargo.toml").read_text().splitlines(keepends=True)
    run = subprocess.run(
        [sys.executable, ROOT / "examples/plan.py", program, first / "Cargo.toml", first / "index.json"],
        capture_output=True, text=True, check=False)
    raised = [line[2:] for line in (first / "raised.diff").read_text().splitlines(keepends=True) if line[0] == ">"]
    added = [line[2:] for line in difflib.ndiff(old, run.stdout.splitlines(keepends=True)) if line[0] == "+"]
    return None if added == raised else "examples/plan.py: %s%s" % (run.stdout, run.stderr)


def main():
    program = str(pathlib.Path(sys.argv[1]).resolve())
    count, faults = check_cases(program)
    faults += message_faults()
    example = check_example(program)
    if example:
        faults.append(example)
    for fault in faults:
        print(fault)
    print("plan: %d cases, %d faults" % (count, len(faults)))
    # (most cases of `upgrade` and `set-version` can be expressed)
    return 1 if faults or count < 200 else 0


if __name__ == "__main__":
    sys.exit(main())
