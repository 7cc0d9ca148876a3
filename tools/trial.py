"""The trial of one crate's mutants, on copies of the crate."""
import os
import shutil
import subprocess
import tempfile

from contracts_alone import leave_contracts
from edits import Edit, Report, Unusable, judged
from source import Source
from toolchain import stale
from twins import copy_proof


class Trial:
    """The mutants of one crate, tried on copies."""

    def __init__(self, rtlib, crate, files, options, verdicts):
        self.rtlib, self.crate, self.options, self.verdicts = rtlib, crate, options, verdicts
        self.source, self.passed, self.failed, self.taken, self.copies = Source(crate.folder), 0, 0, 0, 0
        self.edits, self.state, self.is_same = [], None, False
        for file in files:
            try:
                self.edits.append(Edit(file, self.source))
            except Unusable as why:
                self.fail(file, why)

    def note(self, text):
        print(text, flush=True)

    def fail(self, file, why):
        self.failed += 1
        self.note("%s/%s: LET THROUGH: %s" % (self.crate.name, os.path.basename(file), why))

    def check(self, room, texts, edits, what="copy"):
        """Checks the functions of these edits in a copy in which these texts stand in place of the crate's own."""
        functions = {name for edit in edits for name in edit.checked()}
        self.copies += 1
        copy = os.path.join(room, "copy-%d" % self.copies)
        self.make_copy(copy, texts, edits)
        with open(os.devnull, "w", encoding="utf-8") as self.crate.out:
            command = [self.rtlib.RATTLE, "check", *self.crate.words(["--jobs", "1"], keeps=False)]
        command += [arg for name in sorted(functions) for arg in ("--only", name)]
        command += ["--allow-holes", "--incremental", os.path.join(room, "incremental")]
        name = os.path.join(self.options.output or room, "%s-%d" % (self.crate.name, self.copies))
        with open(name, "w+", encoding="utf-8", errors="replace") as file:
            ran = subprocess.Popen(
                [*self.rtlib.guarded(), *command], cwd=copy, stdin=subprocess.DEVNULL, stdout=file, stderr=subprocess.STDOUT)
            _, status, used = os.wait4(ran.pid, 0)
            ran.returncode = os.waitstatus_to_exitcode(status)
            file.seek(0)
            report = Report(file.read(), self.crate.name, self.crate.folder)
        shutil.rmtree(copy)
        self.note("== %s, %s %d: %d functions, %.0f processor seconds, %d MB: %s" % (
            self.crate.name, what, self.copies, len(functions),
            used.ru_utime + used.ru_stime, used.ru_maxrss / 1000, report.lines[-1][:60]))
        return report

    def make_copy(self, copy, texts, edits):
        """A copy of the crate with these texts, where the functions that no edit changes have their contracts alone."""
        for part in ("src", "specs", "proofs"):
            if os.path.isdir(os.path.join(self.crate.folder, part)):
                shutil.copytree(os.path.join(self.crate.folder, part), os.path.join(copy, part))
        for path, text in texts.items():
            with open(os.path.join(copy, path), "w", encoding="utf-8") as file:
                file.write(text)
        for edit in edits:
            if edit.twin:
                copy_proof(copy, self.crate.name, next(iter(edit.functions)), edit.twin)
        leave_contracts(copy, self.crate.name, {name for edit in edits for name in edit.changed()})

    def run(self):
        left = self.edits if self.options.alone else self.without_kept()
        if left:
            with tempfile.TemporaryDirectory(prefix="wrong-bodies-") as room:
                earlier = os.path.join(self.crate.folder, "out", "incremental")
                if self.options.warm and os.path.isdir(earlier):
                    shutil.copytree(earlier, os.path.join(room, "incremental"))
                skips = self.options.proved or self.options.alone or self.options.after
                if self.is_built(left) and (skips or self.is_sound(room, left)):
                    self.try_all(room, left)
        return self

    def without_kept(self, known=None):
        """The edits of which no verdict is kept; the verdicts on the others are taken over."""
        self.state, left = self.verdicts.state(self.crate, known), []
        for edit in self.edits:
            why = self.verdicts.reason(self.verdicts.name(self.state, edit.content))
            if why is None:
                left.append(edit)
            else:
                self.passed += 1
                self.taken += 1
                self.note("%s/%s: refused, by an earlier run: %s" % (self.crate.name, os.path.basename(edit.file), why))
        return left

    def is_built(self, edits):
        """Whether the libraries below can be used."""
        why = next(filter(None, map(stale, self.crate.below())), None)
        for edit in edits if why else []:
            self.fail(edit.file, why)
        return not why

    def is_sound(self, room, edits):
        """Whether each function or twin that one of these edits changes is proved where none is made and the others are
        known by their contracts alone."""
        functions, texts = {name for edit in edits for name in edit.checked()}, {}
        for edit in edits:
            texts = edit.twin and edit.in_twin(texts, False) or texts
        report = self.check(room, texts, edits, "unchanged")
        lost = sorted(functions - report.proved)
        for edit in edits if lost else []:
            self.fail(edit.file, "the unchanged crate is not proved at %s: %s" % (lost[0], report.first_error()))
        return not lost

    def try_all(self, room, edits):
        left = list(edits)
        while left:
            group, texts = together(left)
            left = [it for it in left if it not in group]
            left += self.try_group(room, group, texts)

    def try_group(self, room, group, texts):
        """Tries edits in one copy, and returns those that must be tried again."""
        if self.options.alone:
            self.passed += len(group) if self.is_sound(room, group) else 0
            return []
        report = self.check(room, texts, group)
        # (a verdict is kept only where no file that it rests on was changed meanwhile)
        self.is_same = self.verdicts.state(self.crate) == self.state
        changed = {name for edit in group for name in edit.changed()}
        if (report.strangers(changed) or not report.reached_prover()) and len(group) > 1:
            # one of them is not read, or touches more than its function: all without twins, else each half by itself
            twins = [it for it in group if it.twin]
            for edit in twins:
                edit.may_twin = False
            parts = [group[: len(group) // 2], group[len(group) // 2:]]
            again = twins
            for part in [[it for it in group if not it.twin]] if twins else parts:
                again += self.try_group(room, *together(part))
            return again
        return [edit for edit in group if self.judge(edit, report, changed)]

    def judge(self, edit, report, changed):
        """Counts an edit, and returns whether it must be tried again without others."""
        verdict, why = judged(edit, report, changed)
        if verdict == "again":
            edit.apart |= why
            return True
        if verdict == "failed" and edit.twin:
            # (so that only what is refused is said of a twin)
            edit.may_twin = False
            return True
        self.verdicts.mark(self.crate.name, edit.content, verdict != "refused")
        if verdict == "refused":
            self.passed += 1
            self.note("%s/%s: refused: %s" % (self.crate.name, os.path.basename(edit.file), why[:150]))
            if self.is_same:
                self.verdicts.keep(self.verdicts.name(self.state, edit.content), why[:150])
        else:
            self.fail(edit.file, why[:300])
        return False


def together(edits):
    """Edits that can stand in one copy, and the texts of the copy."""
    group, texts = [], {}
    for edit in edits:
        made = edit.beside(group, texts)
        if made is not None:
            texts = made
            group.append(edit)
    return group, texts
