"""Copies of a crate in which most functions are known by their contracts alone."""
import os
import re
import shutil

from source import Source, texts

CYCLE = re.compile(r"#\[cycle\(\w+\)\]\s*")
HOLE = "use %s.Statement.{statement}\n\npub %s_spec : {M : Type 1} → statement M\n%s_spec = ?\n"


def leave_contracts(folder, crate, whole):
    """Reduces each function in a copy of the crate to its head and its clauses, except those in `whole` and what is within
    them: `unreachable!()` replaces its body, and a hole its proof, which a check with --allow-holes accepts by its
    statement."""
    source = Source(folder)
    for path, text in texts(os.path.join(folder, "src"), ".rt"):
        functions = source.functions(os.path.relpath(path, folder), text)
        left = [it for it in functions if it.begin < it.end and it.name not in whole]
        for it in sorted(left, key=lambda it: -it.begin):
            head = CYCLE.sub("", text[it.start: it.begin])
            text = text[: it.start] + head + "{ unreachable!() }" + text[it.end + 1:]
            leave_hole(folder, crate, it)
        with open(path, "w", encoding="utf-8") as file:
            file.write(text)


def leave_hole(folder, crate, function):
    *outer, name = function.name.split("::")
    place = os.path.join(folder, "proofs", *outer)
    cycles = ["+" + name, *([function.cycle.split("::")[-1]] if function.cycle else [])]
    for old in (name, os.path.join("fn", name), *cycles):
        shutil.rmtree(os.path.join(place, old), ignore_errors=True)
    os.makedirs(os.path.join(place, name))
    module = ".".join(["Rattle", crate, "proofs", *outer, name])
    with open(os.path.join(place, name, "Proof.antt"), "w", encoding="utf-8") as file:
        file.write(HOLE % (module, name, name))
