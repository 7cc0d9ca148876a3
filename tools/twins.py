"""Twins: second copies of a function beside it, under another name, with its contract and its proof, so that two mutants of
one function can stand in one copy of a crate."""
import os
import re
import shutil

from source import Source, blanked, texts

NAME = "%s_twin_%d"


def may_have_twin(function, text):
    """Whether a function that stands in this text can have a twin: not where it stands in a trait, has no body, is in a cycle
    of calls or calls itself."""
    own = function.name.split("::")[-1]
    calls_itself = re.search(r"\b%s\b" % own, blanked(text)[function.begin: function.end])
    return not function.in_trait and function.begin < function.end and not function.cycle and not calls_itself


def twin_of(function, text, number):
    """The text and the name of a twin of a function that stands in this text, or nothing where that name is taken."""
    *outer, own = function.name.split("::")
    code, name = blanked(text), NAME % (own, number)
    head = re.search(r"\bfn\s+(%s)\b" % own, code[function.start: function.begin])
    if not head or re.search(r"\b%s\b" % name, code):
        return None
    at = function.start + head.start(1)
    return text[function.start: at] + name + text[at + len(own): function.end + 1], "::".join([*outer, name])


def only(functions, name):
    """The function of this name, or nothing where there is none or more than one."""
    found = [it for it in functions if it.name == name]
    return found[0] if len(found) == 1 else None


def is_cited(folder, name):
    """Whether another proof of the crate names the proof of a function, or its goals: that would not fit a twin."""
    *outer, own = name.split("::")
    proofs = os.path.join(folder, "proofs")
    place = os.path.join(proofs, *outer, own) + os.sep
    named = re.compile(r"\bproofs\.%s(?![\w-])" % re.escape(".".join([*outer, own])))
    return any(named.search(text) for path, text in texts(proofs, ".antt") if not path.startswith(place))


def add_twin(source: Source, path, whole, copied, edited, name, number):
    """The texts of a copy with a twin of the function `name` behind it, and the twin's name, or nothing. `whole`: the file
    as the crate has it; `copied`: the texts of the copy; `edited`: the file with the mutant."""
    text = copied.get(path, whole)
    own, changed, there = [only(source.functions(path, it), name) for it in (whole, edited, text)]
    if not own or not changed or not there or not may_have_twin(own, whole) or not may_have_twin(changed, edited):
        return None
    # (the proofs of closures stand in a folder of their own)
    *outer, last = name.split("::")
    if os.path.isdir(os.path.join(source.folder, "proofs", *outer, "fn", last)) or is_cited(source.folder, name):
        return None
    made = twin_of(changed, edited, number)
    return made and ({**copied, path: text[: there.end + 1] + made[0] + text[there.end + 1:]}, made[1])


def copy_proof(folder, crate, name, twin):
    """Gives a twin the proof of its function in a copy of the crate."""
    place, other = [os.path.join(folder, "proofs", *it.split("::")) for it in (name, twin)]
    if not os.path.isdir(place):
        return
    shutil.copytree(place, other)
    module, renamed = ["Rattle.%s.proofs.%s" % (crate, it.replace("::", ".")) for it in (name, twin)]
    for at, _, files in os.walk(other):
        for file in files:
            with open(os.path.join(at, file), encoding="utf-8") as it:
                text = it.read()
            text = re.sub(r"(?<![\w.])%s(?![\w-])" % re.escape(module), renamed, text)
            with open(os.path.join(at, file), "w", encoding="utf-8") as it:
                it.write(text)
