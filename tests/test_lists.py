"""The lists of `./test --list`, and the names of contracts and definitions in the auditor's pages."""
import re
import unittest

import edits
import lists
from program import TOP

WORD = re.compile(r"[A-Za-z_]\w*")


def page(name):
    """The text of a page, without what is fenced."""
    return re.sub(r"```.*?```", "", (TOP / "docs" / name).read_text(), flags=re.DOTALL)


def codes(text):
    """The pieces of code in a text."""
    return re.findall(r"`([^`]+)`", " ".join(text.split()))


def words_of(files):
    """The words of these files."""
    return {word for file in files for word in WORD.findall(file.read_text())}


def sources(crate):
    """The sources, definitions and proofs of a crate."""
    return [it for part in ("src", "specs", "proofs") for it in (TOP / "crates" / crate / part).rglob("*") if it.is_file()]


def sections(text):
    """The sections of DEFINITIONS: the crate of each, and its text."""
    parts = re.split(r"^## `(ps_\w+)`$", text, flags=re.MULTILINE)[1:]
    return list(zip(parts[::2], parts[1::2]))


class Lists(unittest.TestCase):
    def test_each_test_of_a_crate_is_listed(self):
        files = TOP.glob("crates/checks_*/src/**/*.rt")
        count = sum(line.strip() == lists.TEST for file in files for line in file.read_text().splitlines())
        names = [name for _, name, _ in lists.crate_tests(TOP)]
        self.assertGreater(count, 0)
        self.assertEqual(len(names), count)

    def test_each_file_of_tests_says_what_it_is_about(self):
        self.assertEqual([file for file, about, _ in lists.program_tests(TOP) if not about], [])

    def test_each_mutant_is_listed(self):
        count = len(list(TOP.glob(f"tests/wrong/*/*{edits.SUFFIX}")))
        self.assertEqual(len(list(lists.mutants(TOP))), count)


class Rejected(unittest.TestCase):
    """The list of bodies that a test of the program rejects (`rejected.txt`)."""

    def test_each_names_a_test_that_there_is(self):
        lines = [it for it in (TOP / "tests/rejected.txt").read_text().splitlines() if not it.startswith("#")]
        self.assertGreater(len(lines), 30)
        for line in lines:
            with self.subTest(line):
                crate, body, test = line.split(": ")
                self.assertTrue(crate == "any" or (TOP / "crates" / crate).is_dir())
                self.assertNotEqual(body, "")
                file, group, name = test.split(".")
                text = (TOP / "tests" / f"{file}.py").read_text()
                [after] = re.findall(rf"^class {group}\b(.*?)(?=^class |\Z)", text, flags=re.DOTALL | re.MULTILINE)
                self.assertIn(f"def {name}(", after)


class Proved(unittest.TestCase):
    def test_each_contract_stands_in_the_file_of_its_row(self):
        rows = [line.split(" | ") for line in page("PROVED.md").splitlines() if line.startswith("| ")]
        rows = [row for row in rows if len(row) == 3 and row[0] != "| What holds"]
        self.assertGreater(len(rows), 50)
        for promise, contract, place in rows:
            files = [TOP / "crates" / name for name in codes(place)]
            with self.subTest(promise=promise, place=place):
                self.assertEqual([it for it in files if not it.is_file()], [])
                named = {word for code in codes(contract) for word in WORD.findall(code)}
                self.assertTrue(named)
                self.assertEqual(named - words_of(files), set())

    def test_each_test_that_is_named_is_there(self):
        for name in re.findall(r"`(test_[\w*]+\.py)`", page("PROVED.md")):
            with self.subTest(name=name):
                self.assertTrue(list(TOP.glob(f"tests/{name}")))


class Definitions(unittest.TestCase):
    def test_each_crate_has_a_section(self):
        crates = {crate for crate, _ in sections(page("DEFINITIONS.md"))}
        there = {it.parent.name for it in TOP.glob("crates/ps_*/specs")}
        self.assertEqual(there - crates, set())

    def test_each_definition_that_is_named_is_there(self):
        everywhere = words_of(file for crate in (TOP / "crates").glob("ps_*") for file in sources(crate.name))
        for crate, text in sections(page("DEFINITIONS.md")):
            for code in codes(text):
                with self.subTest(crate=crate, code=code):
                    self.assertEqual({it for it in WORD.findall(code) if len(it) > 2} - everywhere, set())

    def test_each_file_that_is_named_is_there(self):
        for crate, text in sections(page("DEFINITIONS.md")):
            for name in re.findall(r"\(`(\w+)`(?:, `\w+`)*: `", " ".join(text.split())):
                with self.subTest(crate=crate, name=name):
                    self.assertTrue((TOP / "crates" / crate / f"specs/{name}.antt").is_file())
