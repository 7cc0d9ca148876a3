"""Tests which mutants tools/mutants tries, which verdicts of earlier runs it takes over, and how it tries a second
mutant of one function: tools/mutant_files.py, tools/verdicts.py, tools/twins.py, without the prover."""
import contextlib
import io
import os
import shutil
import subprocess
import sys
import unittest
import unittest.mock

sys.dont_write_bytecode = True
import mutants  # noqa: E402
from edits import Report, judged  # noqa: E402
from mutant_files import changed_crates, sums_of, third  # noqa: E402
from mutants import COUNT, ENDED, OPEN, TOOLS, tool  # noqa: E402
from trial import together  # noqa: E402
from twins import copy_proof  # noqa: E402
from verdicts import Verdicts  # noqa: E402


class Verdict(mutants.Room):
    def counts(self, **chosen):
        """How many mutants were refused, how many let through, and how many verdicts of earlier runs were taken over."""
        trial = self.tried(proved=True, **chosen)
        return trial.passed, trial.failed, trial.taken

    def test_a_kept_verdict_is_taken_over(self):
        self.assertEqual(self.counts(), (1, 0, 0))
        trial = self.tried(proved=True)
        self.assertEqual((trial.passed, trial.failed, trial.taken, trial.checked), (1, 0, 1, []))
        self.assertIn("refused, by an earlier run: `search` did not prove `returns`", trial.said[0])
        # also where the file of the edit has another name, and not where no verdict is to be taken over
        self.assertEqual(self.counts(edits=("file: src/lib.rt\n", COUNT)), (1, 1, 1))
        self.assertEqual(self.counts(anew=True), (1, 0, 0))

    def test_a_kept_verdict_that_does_not_fit_is_not_used(self):
        self.assertEqual(self.counts(), (1, 0, 0))
        self.assertEqual(self.counts(edits=(COUNT.replace("0", "1"),)), (1, 0, 0))
        for path in ("proofs/count/Answers.antt", "specs/New.antt", "src/tree.rt", "../low/src/lib.rt", "../../HANDLES"):
            with self.subTest(path):
                self.assertEqual(self.counts(), (1, 0, 1))
                place = os.path.join(self.folder, path)
                old = self.read(path) if os.path.exists(place) else None
                self.write(path, (old or "") + "\n")
                self.assertEqual(self.counts(lines=["fn a::count: no holes"]), (0, 1, 0))
                os.remove(place) if old is None else self.write(path, old)
        self.write("../../crates.txt", "other: low\n")
        self.assertEqual(self.counts(), (1, 0, 1))
        self.write("../../crates.txt", "other: low\na: low\n")
        self.assertEqual(self.counts(), (1, 0, 0))
        self.assertEqual(self.counts(kit="another kit"), (1, 0, 0))
        self.assertEqual(self.counts(kit=None), (1, 0, 0))
        self.assertEqual(self.counts(kit=None), (1, 0, 0))

    def test_a_damaged_verdict_is_not_used(self):
        self.assertEqual(self.counts(), (1, 0, 0))
        (kept,) = os.listdir("kept")
        for text in ("", "{}", "[1]", '{"name": "x", "verdict": "refused", "why": "y"}'):
            self.write("../../kept/" + kept, text)
            self.assertEqual(self.counts(), (1, 0, 0), text)
            self.assertEqual(self.counts(), (1, 0, 1), text)
        os.chmod("kept", 0o777)
        self.assertEqual(self.counts(), (1, 0, 0))

    def test_what_is_let_through_is_not_kept(self):
        proved = ["fn a::count: no holes"]
        marked = lambda: Verdicts("kit", os.path.abspath("kept")).is_marked("a", COUNT)
        self.assertEqual(self.counts(lines=proved), (0, 1, 0))
        self.assertTrue(marked())
        self.assertEqual(self.counts(lines=proved), (0, 1, 0))
        self.write("src/new.rt", "")
        self.assertTrue(marked())
        self.assertEqual(self.counts(), (1, 0, 0))
        self.assertFalse(marked())

    def test_a_verdict_over_files_that_change_meanwhile_is_not_kept(self):
        trial = self.trial(proved=True)
        check = trial.check

        def change(*args):
            self.write("../low/src/lib.rt", "pub fn other() {}\n")
            return check(*args)

        trial.check = change
        self.assertEqual(trial.run().passed, 1)
        self.assertEqual(os.listdir("kept"), [])

    def test_a_place_that_cannot_be_written_is_no_error(self):
        self.write("../../kept", "a file")
        self.assertEqual(self.counts(), (1, 0, 0))
        self.assertEqual(self.counts(), (1, 0, 0))

    def test_too_many_verdicts_are_removed_the_oldest_first(self):
        verdicts = Verdicts("kit", os.path.abspath("kept"))
        names = ["%064d" % number for number in range(4)]
        for number, name in enumerate(names):
            verdicts.keep(name, "why")
            os.utime(os.path.join("kept", name), (number, number))
        self.assertEqual(verdicts.reason(names[0]), "why")
        with unittest.mock.patch("verdicts.MOST", 2):
            verdicts.prune()
        self.assertEqual(sorted(os.listdir("kept")), [names[0], names[3]])

    def test_mutants_without_a_kept_verdict_are_listed(self):
        listed = io.StringIO()
        with contextlib.redirect_stdout(listed):
            status = tool.list_missing([self.trial()])
        self.assertEqual((status, listed.getvalue()), (1, "crates/a/mutants/edit-0.edit\n0 kept, 1 not\n"))
        self.tried()
        with contextlib.redirect_stdout(io.StringIO()) as listed:
            status = tool.list_missing([self.trial()])
        self.assertEqual((status, listed.getvalue().split("\n")[-2]), (0, "1 kept, 0 not"))

    def test_a_third_is_drawn_by_the_sources(self):
        files = ["crates/a/mutants/%d.edit" % number for number in range(10)]
        drawn = third("a", files, "1")
        self.assertEqual(len(drawn), 4)
        self.assertEqual(drawn, third("a", files, "1"))
        self.assertEqual(["/elsewhere/" + it for it in drawn], third("a", ["/elsewhere/" + it for it in files], "1"))
        # as the sources change, each comes to be drawn
        self.assertEqual({it for number in range(40) for it in third("a", files, str(number))}, set(files))
        self.assertNotEqual(third("b", files, "1"), drawn)
        self.assertEqual([len(third("a", files[:count], "1")) for count in (0, 1, 2, 3, 4, 6)], [0, 1, 1, 1, 2, 2])

    def test_all_are_tried_of_a_crate_that_changed(self):
        shutil.copytree(os.path.join(TOOLS), "tools", ignore=shutil.ignore_patterns("checks", "__pycache__"))
        for name in ("HANDLES", "crates.txt"):
            self.write("../../" + name, "")
        shutil.copytree(self.folder, os.path.join(self.folder, "..", "b"))
        wanted = {name: [self.write("../%s/mutants/%d.edit" % (name, it), COUNT) for it in range(9)] for name in "ab"}

        def sums():
            return subprocess.run(["tools/sources", "--crates"], capture_output=True, text=True, check=True).stdout

        verdicts = Verdicts("kit", os.path.abspath("kept"))

        def count():
            with contextlib.redirect_stdout(io.StringIO()) as said:
                chosen = tool.only_a_third(wanted, verdicts)
            return {it: len(files) for it, files in chosen.items()}, said.getvalue()

        self.assertEqual(count(), ({"a": 9, "b": 9}, "chosen: 18 of 18 mutants: all, as each crate changed since the release\n"))
        self.write("../../release/SOURCES", "sum\n")
        self.assertEqual(count()[0], {"a": 9, "b": 9})
        self.write("../../release/SOURCES", "sum\n" + sums())
        self.assertEqual(count(), ({"a": 3, "b": 3}, "chosen: 6 of 18 mutants: a third, as no crate changed since the release\n"))
        self.write("README.md", "no source\n")
        self.assertEqual(count()[0], {"a": 3, "b": 3})
        # what was let through is tried until it is refused (here all have one text)
        verdicts.mark("b", COUNT, True)
        self.assertEqual(count()[0], {"a": 3, "b": 9})
        verdicts.mark("b", COUNT, False)
        self.assertEqual(count()[0], {"a": 3, "b": 3})
        for path in ("src/tree.rt", "specs/New.antt", "mutants/0.edit"):
            self.write(path, "other\n")
            chosen, said = count()
            self.assertEqual(chosen, {"a": 9, "b": 3}, path)
            self.assertIn("12 of 18 mutants: all of a, which changed since the release, and of the other crates a third", said)
            self.write("../../release/SOURCES", "sum\n" + sums())
        self.assertEqual(changed_crates(["new"], {"new": "1"}, {}), ["new"])
        self.assertEqual(sums_of("1\n2  crates/a\n"), ("1", {"a": "2"}))

    def test_a_second_mutant_of_a_function_changes_a_twin(self):
        second, other = COUNT.replace("0", "1"), "file: src/read.rt\nold: self.up()\nnew: 0\n"
        trial = self.trial(edits=(COUNT, second, other))
        group, texts = together(trial.edits)
        self.assertEqual([it.twin for it in group], [None, "count_twin_2", None])
        text = texts["src/lib.rt"]
        self.assertIn("pub fn count(n: u8) -> u8\n    ensures { result ≡ n }\n{\n    0\n}", text)
        self.assertIn("pub fn count_twin_2(n: u8) -> u8\n    ensures { result ≡ n }\n{\n    1\n}", text)
        self.assertEqual(group[1].in_twin({}, False)["src/lib.rt"].count("{\n    n\n}"), 2)
        self.assertEqual((group[1].checked(), group[1].changed()), ({"count_twin_2"}, {"count_twin_2"}))
        # its proof, of its own name, which other proofs keep
        copy_proof(self.folder, "a", "count", "count_twin_2")
        self.assertIn("use Rattle.a.proofs.count_twin_2.Goals as goal", self.read("proofs/count_twin_2/Answers.antt"))
        self.assertIn("use Rattle.a.proofs.count.Goals as goal", self.read("proofs/count/Answers.antt"))
        # its verdict is that of the twin alone
        twin = OPEN.replace("count", "count_twin_2")
        report = Report("\n".join([twin, "fn a::count: no holes", ENDED]), "a", self.folder)
        changed = {name for it in group for name in it.changed()}
        self.assertEqual([judged(it, report, changed)[0] for it in group[:2]], ["failed", "refused"])

    def test_no_twin_of_a_cycle_of_calls(self):
        depth = "file: src/read.rt\nold: self.depth()\nnew: 0\n"
        for edit in (depth, depth.replace("depth", "up")):
            group, _ = together(self.trial(edits=(edit, edit.replace("0", "1"))).edits)
            self.assertEqual(len(group), 1)

    def test_no_twin_where_another_proof_names_that_of_the_function(self):
        edits = (COUNT, COUNT.replace("0", "1"))
        self.write("proofs/Lemmas.antt", "use Rattle.a.proofs.counted.Goals as goal\n")
        self.assertEqual(len(together(self.trial(edits=edits).edits)[0]), 2)
        self.write("proofs/Lemmas.antt", "use Rattle.a.proofs.count.Goals as goal\n")
        self.assertEqual(len(together(self.trial(edits=edits).edits)[0]), 1)

    def test_what_is_not_refused_in_a_twin_is_tried_in_a_copy_of_its_own(self):
        trial = self.trial(edits=(COUNT, COUNT.replace("0", "1")), proved=True)

        def check(room, texts, edits):
            trial.checked.append([it.twin for it in edits])
            twin = ["fn a::count_twin_2: no holes"] if any(it.twin for it in edits) else []
            return Report("\n".join([OPEN, *twin, ENDED]), "a", self.folder)

        trial.check = check
        self.assertEqual((trial.run().passed, trial.failed, trial.checked), (2, 0, [[None, "count_twin_2"], [None]]))

    def test_twins_that_are_not_read_stand_in_a_further_copy(self):
        lines = [OPEN]
        trial = self.trial(edits=(COUNT, COUNT.replace("0", "1")), proved=True)

        def check(room, texts, edits):
            trial.checked.append([it.twin for it in edits])
            unread = "src/lib.rt:9:1: error: two of one name"
            return Report(unread if any(it.twin for it in edits) else "\n".join([*lines, ENDED]), "a", self.folder)

        trial.check = check
        self.assertEqual((trial.run().passed, trial.checked), (2, [[None, "count_twin_2"], [None], [None]]))


if __name__ == "__main__":
    unittest.main()
