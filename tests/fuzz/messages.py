"""What is wrong with messages as JSON: their form, as docs/MESSAGES.md has it."""

import json

TEXT, MAYBE, TRUTH, NUMBER = "a text", "a text or null", "a truth value", "a number or null"
TEXTS, PLACE, CALLS = "a list of texts", "a place", "a list of lists of texts"
WHY = ("latest", "compatible", "incompatible", "pinned", "git", "local", "excluded", "unreadable", None)
CHANGE = ("explicit", "latest", "compatible", None)
MEMBERS = {
    "upgrade-row": {"manifest_path": TEXT, "name": TEXT, "rename": MAYBE, "place": PLACE, "old": MAYBE,
                    "compatible": MAYBE,
                    "latest": MAYBE, "new": MAYBE, "why": WHY, "change": CHANGE},
    "upgrade-warning": {"manifest_path": TEXT, "message": TEXT},
    "upgrade-file": {"manifest_path": TEXT, "written": TRUTH},
    "upgrade-held-back": {"younger": TEXTS, "undated": TEXTS, "registries_without_times": TEXTS},
    "upgrade-summary": {"dry_run": TRUTH, "modified": TEXTS, "git_crates": TEXTS, "missing": TEXTS,
                        "pinned_present": TRUTH,
                        "incompatible_present": TRUTH, "update_calls": CALLS},
    "set-version-change": {"action": ("Upgrading", "Updating"), "message": TEXT},
    "set-version-version": {"name": MAYBE, "old": TEXT, "new": TEXT, "path": TEXT, "inherited": TRUTH},
    "set-version-requirement": {"name": TEXT, "old": TEXT, "new": TEXT, "path": TEXT, "inherited": TRUTH},
    "error": {"number": NUMBER, "message": TEXT, "place": MAYBE, "excerpt": MAYBE, "cause": MAYBE, "help": MAYBE},
}
ORDER = {"upgrade": ("upgrade-row", "upgrade-warning", "upgrade-file", "upgrade-held-back", "upgrade-summary"),
         "set-version": ("set-version-change", "set-version-version", "set-version-requirement")}
# those that stand among the ones before them in that order
AMONG = {"set-version-requirement": "set-version-version"}


def is_texts(value):
    """Whether a value is a list of texts."""
    return isinstance(value, list) and all(isinstance(one, str) for one in value)


def fits(value, form):
    """Whether a value has a form."""
    if isinstance(form, tuple):
        return value is None and None in form or isinstance(value, str) and value in form
    return {NUMBER: value is None or isinstance(value, int), TEXT: isinstance(value, str),
            MAYBE: value is None or isinstance(value, str), TRUTH: isinstance(value, bool),
            TEXTS: is_texts(value), CALLS: isinstance(value, list) and all(map(is_texts, value)),
            PLACE: isinstance(value, list) and all(isinstance(one, str | int) for one in value)}[form]


def read(out):
    """The messages of an output; a ValueError where a line is no object as this program writes it."""
    messages = []
    for line in out.decode().split("\n")[:-1]:
        message = json.loads(line)
        keys = list(message) if isinstance(message, dict) else []
        if not keys or keys != sorted(keys, key=str.encode):
            raise ValueError(f"no object with sorted keys: {line}")
        messages.append(message)
    if out and not out.endswith(b"\n"):
        raise ValueError("no line end at the end")
    return messages


def error_faults(messages, has_error):
    """What is wrong with the messages of a run that failed: an error is the last one, and no other one is an error."""
    reasons = [message.get("reason") for message in messages]
    if "error" in reasons[:-1] or has_error != (reasons[-1:] == ["error"]):
        yield f"errors are not reported as one message at the end: {messages}"
    for message in messages:
        form = MEMBERS["error"] if message.get("reason") == "error" else {}
        wrong = [name for name in form if name not in message or not fits(message[name], form[name])]
        if wrong:
            yield f"members {wrong} of an error: {message}"


def faults(command, messages):
    """What is wrong with messages of a command."""
    reasons = ORDER[command]
    for message in messages:
        reason = message.get("reason")
        form = MEMBERS.get(reason)
        if form is None or reason not in reasons:
            yield f"a message with the reason {reason}"
            continue
        if message.get("version") != 1:
            yield f"a message of no format's number: {message}"
        lacks = form.keys() - message.keys()
        if lacks:
            yield f"a message without {sorted(lacks)}: {message}"
        for name in form.keys() & message.keys():
            if not fits(message[name], form[name]):
                yield f"the member {name} is not {form[name]}: {message}"
    known = [message["reason"] for message in messages if message.get("reason") in reasons]
    order = [reasons.index(AMONG.get(reason, reason)) for reason in known]
    if order != sorted(order):
        yield "messages out of their order"
    summaries = sum(message.get("reason") == "upgrade-summary" for message in messages)
    if command == "upgrade" and summaries != 1:
        yield f"{summaries} summaries"
