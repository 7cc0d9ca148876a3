"""Mutants as edits: what each changes, the results of a check by function, and whether they reject the mutant."""
import os
import re

from source import Source
from twins import add_twin

# The prover's errors for a proof file that names something that no longer exists, and for a file that cites such a proof.
TAKEN_AWAY = re.compile(r"is not in scope|has no field|has no `|is no name|takes? no such")
FOLLOWS = re.compile(r"was not admitted")
PROOF = re.compile(r"(?:\./)?(proofs/(\S+)/(?:Answers|Invariants|Proof)\.antt):(\d+):\d+: error: (.*)")
# what a proof file names at the start of a line: a lemma, or the answer to a goal
NAMED = re.compile(r"(?:pub )?([\w-]+)(?: [\w ]*)?(?::|=|$)")


class Unusable(Exception):
    """Why an edit cannot be tried."""


class Edit:
    """A mutant: the pairs of texts, the functions that they lie in, all functions of their cycles, and an input on which
    its result differs, where it names one. `twin`: the name of the twin that it changes in place of its function, in a copy
    where another mutant changes that; `number` tells twins apart; `may_twin`: whether it may stand in one."""

    def __init__(self, file, source: Source):
        self.file, self.folder, self.functions, self.members, self.apart = file, source.folder, set(), set(), set()
        self.source, self.twin, self.number, self.may_twin = source, None, 0, True
        with open(file, encoding="utf-8") as it:
            text = it.read()
        self.content, self.pairs, self.differs = text, list(pairs(text)), differs(text)
        if not self.pairs:
            raise Unusable("it has no 'old:' and 'new:' pair")
        made = {}
        for path, old, new in self.pairs:
            text = self.text(made, path)
            at, functions = place(text, old, path), source.functions(path, text)
            inside = [it for it in functions if it.begin < at and at + len(old) <= it.end]
            if not inside:
                raise Unusable("an 'old:' text lies in no function's body: %s" % old.strip())
            changed = inside[-1]
            self.functions.add(changed.name)
            self.members |= {changed.name} | changed.cycles
            if changed.cycle:
                self.members |= {it.name for it in functions if it.cycle == changed.cycle}
            made[path] = text.replace(old, new)

    def text(self, made, path):
        if path in made:
            return made[path]
        try:
            with open(os.path.join(self.folder, path), encoding="utf-8") as file:
                return file.read()
        except OSError as error:
            raise Unusable("there is no file %s" % path) from error

    def over(self, texts):
        """The texts with this edit made too."""
        made = dict(texts)
        for path, old, new in self.pairs:
            text = self.text(made, path)
            place(text, old, path)
            made[path] = text.replace(old, new)
        return made

    def beside(self, group, texts):
        """The texts with this edit made too, or nothing where it cannot be combined with those of the group."""
        self.twin = None
        if any(self.members & other.apart or other.members & self.apart for other in group):
            return None
        if any(self.members & other.members for other in group):
            self.number = 2 + len([it for it in group if it.twin])
            return self.in_twin(texts, True) if self.may_twin and len(self.functions) == 1 else None
        try:
            return self.over(texts)
        except Unusable:
            return None

    def in_twin(self, texts, is_made):
        """The texts with a twin of the function, in which the edit is made or not, or nothing where it can have none."""
        path, (name,) = self.pairs[0][0], self.functions
        whole = self.text({}, path)
        made = add_twin(self.source, path, whole, texts, self.over({})[path] if is_made else whole, name, self.number)
        if made:
            self.twin = made[1]
        return made and made[0]

    def checked(self):
        """The functions that a check of the copy is to prove."""
        return {self.twin} if self.twin else self.functions

    def changed(self):
        """What the edit changes in the copy: its functions, and what is in a cycle with them."""
        return {self.twin} if self.twin else self.members


def place(text, old, path):
    if text.count(old) != 1:
        raise Unusable("an 'old:' text is in %s %d times, and not once: %s" % (path, text.count(old), old.strip()))
    return text.index(old)


def pairs(text):
    path = old = None
    for line in text.split("\n"):
        if line.startswith("file: "):
            path = line[6:].strip()
        elif line.startswith("old: "):
            old = line[5:]
        elif line.startswith("new:"):
            if not path or not old:
                raise Unusable("a 'new:' line stands before any 'file:' or 'old:' line")
            yield path, old, line[5:] if line.startswith("new: ") else line[4:]
            old = None


def differs(text):
    """The input for which the mutant's file claims a different result, or none."""
    inputs = [line[8:].strip() for line in text.split("\n") if line.startswith("differs:")]
    if len(inputs) > 1 or inputs == [""]:
        raise Unusable("it has more than one 'differs:' line, or one that names no input")
    return inputs[0] if inputs else None


class Report:
    """The result of a check by function. `proved`: those that it proved. By the name of a function: `open`: the goals
    that the search left; `broken`: each term of its own proof that no longer fits, with the goal that it answers; `taken`:
    what its proof names and the edit took away; `waits`: the functions that it calls and that are not proved; `other`:
    anything else."""

    def __init__(self, text, crate, folder):
        self.text, self.folder, self.lines = text, folder, text.rstrip("\n").split("\n")
        self.proved, self.open, self.broken, self.taken, self.other, self.waits = set(), {}, {}, {}, {}, {}
        for at, line in enumerate(self.lines):
            function = re.match(r"fn %s::(\S+): (.*)" % crate, line)
            proof = PROOF.match(line)
            if function:
                self.of_function(plain(function[1]), function[2], crate)
            elif proof and not FOLLOWS.search(proof[4]):
                name, whole = plain(proof[2].replace("/", "::")), " ".join([proof[4], *self.behind(at)])
                if TAKEN_AWAY.search(whole):
                    self.taken.setdefault(name, whole)
                else:
                    self.broken.setdefault(name, []).append((self.answer_at(proof[1], int(proof[3])), whole))

    def behind(self, at):
        """The lines that continue the message of a line; they begin with two spaces."""
        more = []
        for line in self.lines[at + 1:]:
            if not line.startswith("  "):
                break
            more.append(line.strip())
        return more

    def answer_at(self, path, number):
        """The name in a proof file whose term stands at a line."""
        try:
            with open(os.path.join(self.folder, path), encoding="utf-8") as file:
                lines = file.read().split("\n")[:number]
        except OSError:
            return ""
        named = [it[1] for it in map(NAMED.match, lines) if it and it[1] not in ("use", "pub", "--")]
        return named[-1] if named else ""

    def of_function(self, name, message, crate):
        if message == "no holes" or message.startswith("depends on a hole in"):
            self.proved.add(name)
            return
        for calls in re.findall(r"it calls (.*?), which (?:is|are) not proved", message):
            self.waits.setdefault(name, set()).update(
                plain(it) for it in re.findall(r"`%s::([^`]+)`" % crate, calls))
        if "did not prove" in message:
            self.open[name] = message[message.index("`search` did not prove"):]
        elif name not in self.waits:
            self.other[name] = message

    def strangers(self, changed):
        """The functions that are refused and are none of these."""
        refused = {*self.open, *self.broken, *self.taken, *self.other}
        return sorted(it for it in refused if not holds(changed, it))

    def reached_prover(self):
        return self.lines[-1].startswith("only=")

    def first_error(self):
        errors = [line for line in self.lines if "error" in line] or self.lines[-3:]
        return errors[0][:200]

    def whole_wait(self, name):
        """The functions that are not proved and that this one calls, directly or indirectly."""
        found, left = set(), {name}
        while left:
            more = self.waits.get(left.pop(), set()) - found
            found |= more
            left |= more
        return found


def judged(edit, report, changed):
    """The verdict of a check on an edit where these functions are changed: 'refused', 'failed' or 'again', and why; with
    'again' the functions beside which it is not to be tried."""
    own = edit.changed()
    ours = lambda found: [found[it] for it in sorted(found) if holds(own, it)]
    waits = {it for name in report.waits if holds(own, name) for it in report.whole_wait(name)}
    foreign = {it for it in changed - own if any(holds({it}, name) for name in waits)}
    strangers, broken = report.strangers(changed), [it for found in ours(report.broken) for it in found]
    if not report.reached_prover():
        return "failed", "the check does not reach the prover: %s" % report.first_error()
    if strangers:
        return "failed", "%s is refused too, which no edit touches" % strangers[0]
    if ours(report.taken):
        return "failed", "replace this edit: a proof names what it took away: %s" % ours(report.taken)[0]
    if ours(report.open):
        return "refused", ours(report.open)[0]
    for goal, text in broken:
        if is_of_contract(goal):
            return "refused", "%s: %s" % (goal, text)
    if broken and edit.differs:
        return "refused", "%s: %s: differs at %s" % (*broken[0], edit.differs)
    if broken:
        return "failed", (
            "a term at %s broke, which is no goal of the contract, and no 'differs:' line names an input on which the "
            "result differs: %s" % (broken[0][0] or "a proof", broken[0][1]))
    if foreign:
        return "again", foreign
    return "failed", (ours(report.other) or ["%s is proved" % ", ".join(sorted(edit.checked()))])[0]


def is_of_contract(goal):
    """Whether a goal is one of the function's own `ensures`, at one of its ends."""
    return goal == "returns" or goal.startswith("returns-")


def plain(name):
    """A function's name without the parts that a closure in it adds."""
    return name.replace("::fn::", "::")


def holds(functions, name):
    """Whether a name is one of these functions or a closure in one."""
    return any(name == it or name.startswith(it + "::") for it in functions)
