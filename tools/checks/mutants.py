"""Tests the parts of tools/mutants that need no prover: tools/edits.py, tools/source.py, tools/mutant_files.py,
tools/contracts_alone.py, and that unchanged functions are proved before changed ones."""
import collections
import importlib.machinery
import importlib.util
import os
import sys
import tempfile
import types
import unittest

sys.dont_write_bytecode = True
TOOLS = os.path.join(os.path.dirname(os.path.abspath(__file__)), "..")
sys.path.insert(0, TOOLS)
from contracts_alone import leave_contracts  # noqa: E402
from edits import Edit, Report, Unusable, judged  # noqa: E402
from mutant_files import chosen, without_mutants  # noqa: E402
from source import Source  # noqa: E402
from trial import Trial  # noqa: E402
from verdicts import Verdicts  # noqa: E402

loader = importlib.machinery.SourceFileLoader("tool", os.path.join(TOOLS, "mutants"))
tool = importlib.util.module_from_spec(importlib.util.spec_from_loader("tool", loader))
loader.exec_module(tool)


class Crate(collections.namedtuple("Crate", "name folder libraries", defaults=[()])):
    def below(self):
        return [Crate(name, os.path.join(os.path.dirname(self.folder), name)) for name in self.libraries]


FILES = {
    "src/lib.rt": "mod read;\npub mod tree;\n\n/// Counts.\npub fn count(n: u8) -> u8\n    ensures { result ≡ n }\n"
                  "{\n    n\n}\n",
    "src/tree.rt": "pub struct Tree {\n    n: u8,\n}\n",
    "src/read.rt": "use crate::tree::Tree;\n\nimpl Tree {\n    fn depth(&self) -> u8 {\n        self.depth()\n    }\n\n"
                   "    #[cycle(walk)]\n    fn down(&self) -> u8 {\n        self.up()\n    }\n\n"
                   "    #[cycle(walk)]\n    fn up(&self) -> u8 {\n        self.down()\n    }\n}\n",
    "proofs/count/Answers.antt": "use Rattle.a.proofs.count.Goals as goal\n\nhelper : (n : ℕ) → n ≡ n\nhelper n = refl\n\n"
                                 "pub loop-1-preserved : goal.loop-1-preserved\nloop-1-preserved c =\n    helper c.n\n\n"
                                 "pub returns-in_ok : goal.returns-in_ok\nreturns-in_ok c =\n    refl\n",
}
COUNT = "file: src/lib.rt\nold:     n\nnew:     0\n"
ENDED = "only=1 holes=0"
OPEN = "fn a::count: no proof: expected answers in ./proofs/count/Answers.antt; `search` did not prove `returns`"
AT_LOOP = "./proofs/count/Answers.antt:8:5: error: this `refl` lands at 0"
AT_RETURN = "./proofs/count/Answers.antt:12:5: error: this `refl` lands at 0"
GONE = "./proofs/count/Answers.antt:8:5: error: `c.n`\n  is not in scope"


class Room(unittest.TestCase):
    """A small crate in a folder of its own, which is the current folder."""

    def setUp(self):
        room = tempfile.TemporaryDirectory()
        self.addCleanup(room.cleanup)
        self.addCleanup(os.chdir, os.getcwd())
        os.chdir(room.name)
        self.folder = os.path.join(room.name, "crates", "a")
        for path, text in FILES.items():
            self.write(path, text)

    def write(self, path, text):
        path = os.path.join(self.folder, path)
        os.makedirs(os.path.dirname(path), exist_ok=True)
        with open(path, "w", encoding="utf-8") as file:
            file.write(text)
        return path

    def read(self, path):
        with open(os.path.join(self.folder, path), encoding="utf-8") as file:
            return file.read()

    def trial(self, edits=(COUNT,), is_proved=True, lines=(OPEN,), kit="kit", **chosen):
        """The trial of these mutants, by recorded checks; `checked` says of each whether it had a mutant."""
        options = types.SimpleNamespace(**{"proved": False, "alone": False, "after": None, "warm": False, **chosen})
        files = [self.write("mutants/edit-%d.edit" % number, text) for number, text in enumerate(edits)]
        self.write("../low/src/lib.rt", "pub fn low() {}\n") if not os.path.isdir("crates/low") else None
        verdicts = Verdicts(kit, os.path.abspath("kept"), not chosen.get("anew"))
        trial = Trial(None, Crate("a", self.folder, ("low",)), files, options, verdicts)
        trial.said, trial.checked = [], []
        trial.note, trial.is_built = trial.said.append, lambda edits: True

        def check(room, texts, edits, what="copy"):
            trial.checked.append(what == "copy")
            said = lines if what == "copy" else ["fn a::count: no holes" if is_proved else OPEN]
            return Report("\n".join([*said, ENDED]), "a", self.folder)

        trial.check = check
        return trial

    def tried(self, **chosen):
        return self.trial(**chosen).run()


class Mutants(Room):
    def edit(self, text):
        return Edit(self.write("mutants/one.edit", text), Source(self.folder))

    def verdict(self, report, edit=COUNT, changed=()):
        edit = self.edit(edit)
        return judged(edit, Report("\n".join([*report, ENDED]), "a", self.folder), edit.members | set(changed))

    def refuses(self, text, why):
        with self.assertRaisesRegex(Unusable, why):
            self.edit(text)

    def test_an_edit_is_read(self):
        edit = self.edit(COUNT + "differs: n = 1, where the result is 0\n")
        self.assertEqual(edit.pairs, [("src/lib.rt", "    n", "    0")])
        self.assertEqual(edit.differs, "n = 1, where the result is 0")
        self.assertEqual(edit.functions, {"count"})
        self.assertIn("{\n    0\n}", edit.over({})["src/lib.rt"])
        self.assertIsNone(self.edit(COUNT).differs)

    def test_an_edit_that_cannot_be_tried(self):
        self.refuses("file: src/lib.rt\n", "no 'old:' and 'new:' pair")
        self.refuses("file: src/lib.rt\nnew: 0\n", "stands before any")
        self.refuses("file: src/none.rt\nold: n\nnew: 0\n", "there is no file")
        self.refuses("file: src/lib.rt\nold: u8\nnew: u16\n", "2 times, and not once")
        self.refuses("file: src/lib.rt\nold: lost\nnew: 0\n", "0 times, and not once")
        self.refuses("file: src/lib.rt\nold: result ≡ n\nnew: result ≡ 0\n", "lies in no function's body")
        self.refuses(COUNT + "differs:\n", "names no input")
        self.refuses(COUNT + "differs: 1\ndiffers: 2\n", "more than one")

    def test_a_cycle_in_an_impl_of_another_module(self):
        alone = self.edit("file: src/read.rt\nold: self.depth()\nnew: 0\n")
        self.assertEqual(alone.members, {"tree::Tree::depth", "tree::Tree::+depth"})
        cycle = self.edit("file: src/read.rt\nold: self.up()\nnew: 0\n")
        self.assertEqual(cycle.functions, {"tree::Tree::down"})
        self.assertLessEqual(
            {"tree::Tree::down", "tree::Tree::up", "tree::Tree::+walk", "tree::+walk", "read::+walk"}, cycle.members)
        report = Report("fn a::tree::Tree::+walk: no proof: `search` did not prove `returns`\n" + ENDED, "a", self.folder)
        self.assertEqual(judged(cycle, report, cycle.members)[0], "refused")

    def test_a_goal_that_the_search_leaves_open_refuses(self):
        self.assertEqual(self.verdict([OPEN]), ("refused", "`search` did not prove `returns`"))

    def test_a_term_that_broke(self):
        self.assertEqual(self.verdict([AT_RETURN])[0], "refused")
        verdict, why = self.verdict([AT_LOOP])
        self.assertEqual(verdict, "failed")
        self.assertIn("a term at loop-1-preserved broke", why)
        self.assertEqual(self.verdict(["./proofs/count/Answers.antt:4:5: error: this `refl` lands at 0"])[0], "failed")
        verdict, why = self.verdict([AT_LOOP], COUNT + "differs: n = 1\n")
        self.assertEqual(verdict, "refused")
        self.assertIn("differs at n = 1", why)
        self.assertEqual(self.verdict([AT_LOOP, AT_RETURN])[0], "refused")
        self.assertEqual(self.verdict(["./proofs/count/Invariants.antt:3:5: error: no"])[0], "failed")

    def test_what_does_not_count(self):
        differs = COUNT + "differs: n = 1\n"
        self.assertIn("a proof names what it took away", self.verdict([GONE], differs)[1])
        self.assertEqual(self.verdict([OPEN, GONE], differs)[0], "failed")
        self.assertIn("touches", self.verdict([OPEN, OPEN.replace("count", "other")])[1])
        self.assertEqual(self.verdict(["fn a::count: no holes"]), ("failed", "count is proved"))
        self.assertEqual(self.verdict(["fn a::count: the borrow checker says no"])[0], "failed")
        edit = self.edit(COUNT)
        report = Report("src/lib.rt:8:5: error: this is no text", "a", self.folder)
        self.assertIn("does not reach the prover", judged(edit, report, edit.members)[1])

    def test_a_function_that_waits_is_tried_again(self):
        waits = "fn a::count: no proof; it calls `a::tree::size`, which is not proved"
        size = "fn a::tree::size: no proof: `search` did not prove `returns`"
        self.assertEqual(self.verdict([waits, size], changed={"tree::size"}), ("again", {"tree::size"}))

    def test_a_crate_without_mutants_fails(self):
        crate = Crate("a", self.folder)
        bare = lambda kind, args=(): without_mutants([crate], chosen([crate], args, kind), kind)
        self.assertEqual(bare("mutants"), ["a"])
        self.assertEqual(bare("more-mutants"), [])
        os.makedirs(os.path.join(self.folder, "more-mutants"))
        self.assertEqual(bare("more-mutants"), ["a"])
        edit = self.write("mutants/one.edit", COUNT)
        self.assertEqual(bare("mutants"), [])
        self.assertEqual(bare("mutants", [edit]), [])
        os.remove(edit)
        self.assertEqual(bare("mutants", ["a"]), ["a"])
        self.write("src/lib.rt", FILES["src/lib.rt"].replace("pub fn", "fn"))
        os.rmdir(os.path.dirname(edit))
        self.assertEqual(bare("mutants"), [])

    def test_other_functions_have_their_contracts_alone(self):
        leave_contracts(self.folder, "a", {"tree::Tree::depth"})
        self.assertIn("    ensures { result ≡ n }\n{ unreachable!() }", self.read("src/lib.rt"))
        self.assertEqual(self.read("proofs/count/Proof.antt").split("\n")[-2], "count_spec = ?")
        self.assertFalse(os.path.exists(os.path.join(self.folder, "proofs/count/Answers.antt")))
        read = self.read("src/read.rt")
        self.assertIn("self.depth()", read)
        self.assertNotIn("self.up()", read)
        self.assertNotIn("#[cycle", read)

    def test_the_unchanged_function_is_proved_first(self):
        trial = self.tried(is_proved=False)
        self.assertEqual((trial.passed, trial.failed, trial.checked), (0, 1, [False]))
        self.assertIn("the unchanged crate is not proved at count", trial.said[0])
        trial = self.tried()
        self.assertEqual((trial.passed, trial.failed, trial.checked), (1, 0, [False, True]))

    def test_alone_tries_no_mutant(self):
        trial = self.tried(alone=True)
        self.assertEqual((trial.passed, trial.failed, trial.checked), (1, 0, [False]))
        trial = self.tried(is_proved=False, alone=True)
        self.assertEqual((trial.passed, trial.failed, trial.checked), (0, 1, [False]))
        self.assertIn("the unchanged crate is not proved at count", trial.said[0])


if __name__ == "__main__":
    unittest.main()
