"""How mutants are read and applied, and how those that are not refused are reported."""
import sys
import unittest
from pathlib import Path
from tempfile import TemporaryDirectory
from unittest import mock

import edits
import wrong
from edits import Change, Edit, Unusable
from program import TOP

sys.path.insert(0, str(TOP / "release"))
import earlier
import tools

BODY = "function: list::first\nfile: src/list.rt\nold: one\nnew: two\nold: two three\nnew: \n"
READ = Edit("body", "list::first", (Change("src/list.rt", "one", "two"), Change("src/list.rt", "two three", "")))


class Edits(unittest.TestCase):
    def setUp(self):
        folder = TemporaryDirectory(prefix="sheet-test-")
        self.addCleanup(folder.cleanup)
        self.top = Path(folder.name)
        (self.top / "src").mkdir()
        (self.top / "src/list.rt").write_text("one three\nfour\n")

    def body(self, text):
        """The edit in a file of this text."""
        file = self.top / "body.edit"
        file.write_text(text)
        return edits.read(file)

    def test_it_is_read(self):
        self.assertEqual(self.body(BODY), READ)

    def test_what_cannot_be_read_is_unusable(self):
        for text in (
            "",
            "function: f\n",
            "file: src/list.rt\nold: one\nnew: two\n",
            "function: f\nold: one\nnew: two\n",
            "function: f\nfile: src/list.rt\nnew: two\n",
            f"{BODY}more\n",
        ):
            with self.subTest(text=text):
                self.assertRaises(Unusable, self.body, text)

    def test_its_changes_apply_one_after_another(self):
        self.assertEqual(edits.applied(READ, self.top, {}), {"src/list.rt": "\nfour\n"})

    def test_an_old_text_stands_once(self):
        for old in ("e", "five"):
            with self.subTest(old=old):
                edit = Edit("body", "f", (Change("src/list.rt", old, "x"),))
                self.assertRaises(Unusable, edits.applied, edit, self.top, {})
        self.assertRaises(Unusable, edits.applied, Edit("body", "f", (Change("src/none.rt", "a", "b"),)), self.top, {})

    def test_those_of_one_function_or_one_text_are_in_rounds_apart(self):
        other = Edit("other", "list::second", (Change("src/list.rt", "four", "five"),))
        again = Edit("again", "list::second", (Change("src/list.rt", "three", "3"),))
        same = Edit("same", "list::third", (Change("src/list.rt", "one", "1"),))
        found = edits.rounds([READ, other, again, same], self.top)
        self.assertEqual([[it.name for it in trial.edits] for trial in found], [["body", "other"], ["again", "same"]])
        self.assertEqual(found[0].texts, {"src/list.rt": "\nfive\n"})


class Order(unittest.TestCase):
    def test_many_mutants_over_much_text_begin(self):
        with TemporaryDirectory(prefix="sheet-test-") as folder:
            top = Path(folder)
            for name, size in (("short", 10), ("long", 100), ("longer", 150)):
                (top / "crates" / name / "src/deep").mkdir(parents=True)
                (top / "crates" / name / "src/deep/lib.rt").write_text("x" * size)
            chosen = {"longer": [1], "short": [1] * 30, "long": [1] * 2}
            self.assertEqual(wrong.in_order(top, chosen), ["short", "long", "longer"])


class Refused(unittest.TestCase):
    def crate(self):
        """A crate whose files nobody looks at."""
        return object.__new__(wrong.Crate)

    def is_refused(self, said, status=1):
        """Whether a check that says this of the function refuses it."""
        checked = wrong.Checked(status, {} if said is None else {"list::first": said}, [])
        return self.crate().is_refused(checked, READ)

    def test_what_the_check_says_of_the_function_decides(self):
        for said in ("not proved", "no proof: `search` did not prove `returns-clause`; it calls `low::f`, which is not proved"):
            self.assertTrue(self.is_refused(said))
        for said in ("proved", None, "no proof: it calls `low::f`, which is not proved"):
            self.assertFalse(self.is_refused(said))

    def test_a_check_without_a_verdict_refuses_nothing(self):
        for status in (0, 2, 3, -9):
            self.assertFalse(self.is_refused("not proved", status))


class Earlier(unittest.TestCase):
    """A mutant that an earlier run had refused is tried again once something changes that its refusal rests on."""

    def setUp(self):
        folder = TemporaryDirectory(prefix="sheet-test-")
        self.addCleanup(folder.cleanup)
        self.top = Path(folder.name)
        (self.top / "crates.txt").write_text("low:\naside:\nhigh: low itoa\n")
        for name in ("low", "aside", "high"):
            (self.top / "crates" / name / "src").mkdir(parents=True)
            (self.top / "crates" / name / "src/lib.rt").write_text(f"{name} one\n")
        self.mutants = [self.top / f"{name}.edit" for name in ("first", "second")]
        for mutant in self.mutants:
            mutant.write_text(f"function: {mutant.stem}\nfile: src/lib.rt\nold: one\nnew: two\n")
        self.identity = "kit-1"

    def refusals(self):
        """What is stored, as a new run reads it."""
        with mock.patch.object(tools, "identity", lambda kit: self.identity):
            return earlier.Refusals(self.top, None, self.top / "stored")

    def tried(self, faults):
        """Tries the mutants of the upper crate, where these aren't refused. Returns the counts, and what was tried."""
        given = []

        def of_crate(top, kit, name, room):
            return mock.Mock(faults=lambda bodies: given.extend(it.stem for it in bodies) or faults)

        with mock.patch.object(wrong, "Crate", of_crate), mock.patch.object(wrong.sys, "stdout"):
            return wrong.tried(self.top, None, self.refusals(), "high", self.mutants), given

    def test_one_that_was_refused_is_not_tried_again(self):
        self.assertEqual(self.tried({"second": "is still proved"}), ((1, 1), ["first", "second"]))
        self.assertEqual(self.tried({"second": "is still proved"}), ((1, 1), ["second"]))
        self.assertEqual(self.tried({}), ((2, 0), ["second"]))
        self.assertEqual(self.tried({}), ((2, 0), []))

    def test_it_is_after_each_change_that_it_rests_on(self):
        def write(path, text):
            (self.top / path).parent.mkdir(exist_ok=True)
            (self.top / path).write_text(text)

        changes = (
            lambda: write("crates/high/src/lib.rt", "high one two\n"),
            lambda: write("crates/high/proofs/Lib.antt", ""),
            lambda: write("crates/low/src/lib.rt", "low two\n"),
            lambda: write("crates.txt", "low: itoa\naside:\nhigh: low itoa\n"),
            lambda: setattr(self, "identity", "kit-2"),
        )
        for change in changes:
            self.assertEqual(self.tried({})[0], (2, 0))
            self.assertEqual(self.tried({})[1], [])
            change()
            self.assertEqual(self.tried({})[1], ["first", "second"])
        write("first.edit", "function: first\nfile: src/lib.rt\nold: one\nnew: three\n")
        self.assertEqual(self.tried({})[1], ["first"])

    def test_it_is_not_after_another_change(self):
        self.assertEqual(self.tried({})[0], (2, 0))
        (self.top / "crates/aside/src/lib.rt").write_text("aside two\n")
        self.assertEqual(self.tried({})[1], [])
