"""The whole test: what `./test` counts and how it ends, with a stand-in for the merge gate and for the tests it runs."""
import os
import re
import shutil
import stat
import subprocess

from program import LIMIT, NO_BROWSER, NO_TESTS, TOP, Ended, ProgramTest

TESTS = """\
import unittest


class Stand(unittest.TestCase):
    def test_in(self):
        {}
"""
# the mutants of a crate, or of all once the gate has ended, with the crates that it proved
WRONG = """\
import threading

Fault = ValueError


class Turns:
    def __init__(self):
        self.names, self.ended = [], threading.Event()

    def note(self, name):
        self.names.append(name)

    def end(self):
        self.ended.set()


class Trials:
    def __init__(self, top, only="", is_over=True):
        self.turns, self.only, self.is_over = Turns(), only, is_over

    def counts(self):
        if not self.is_over:
            self.turns.ended.wait()
        print("wrong", self.only, *self.turns.names)
        return {}
"""
SAME = "test: the released object is that of the proved build\n"
NAMES = ("test_start", "test_transcripts")
PASSED = "".join(f"{name}.Stand.test_in: ok\n" for name in NAMES)
# what a step took, and the steps
TOOK = re.compile(r"test: (.+) took \d+\.\d minutes by the clock, \d+\.\d of processors\n")
STEPS = ["the gate", "the gate with the mutants", "the released object", "the program", "the proved program", "everything"]
# the tests that are run again on the program that the kit links
AGAIN = "".join(f"test: {name} on the program that the kit links\n{name}.Stand.test_in: ok\n" for name in NAMES)


class Whole(ProgramTest):
    def setUp(self):
        self.top = self.folder()
        (self.top / "tests").mkdir()
        shutil.copy(TOP / "test", self.top)
        for file in ("__main__.py", "program.py"):
            shutil.copy(TOP / "tests" / file, self.top / "tests")
        self.use("rt", "echo gate $*", "echo rt: low proved", "echo rt: high is kept: it is", "echo 7 passed, 0 failed")
        self.use("build")
        self.use_wrong("3, 0")
        self.use_comparison("None")
        self.use_test("self.assertEqual(1, 1)")
        self.linked = self.top / "crates/sheet/out/sheet"
        self.linked.parent.mkdir(parents=True)
        self.linked.touch()

    def use(self, name, *commands):
        """Has these commands stand in for a tool."""
        file = self.top / name
        file.write_text("\n".join(["#!/bin/sh", *commands]) + "\n")
        file.chmod(stat.S_IRWXU)

    def use_comparison(self, why):
        """Has this be why the released code isn't that of the proved build."""
        (self.top / "tests/compared.py").write_text(f"def difference(top):\n    return {why}\n")

    def use_wrong(self, counts):
        """Has so many mutants be refused, and so many not."""
        (self.top / "tests/wrong.py").write_text(WRONG.format(counts))

    def use_test(self, statement):
        """Has this statement be the one test of the program."""
        for file in ("test_start.py", "test_transcripts.py"):
            (self.top / "tests" / file).write_text(TESTS.format(statement))

    def start(self, *words):
        """Runs the whole test, or what these words ask for, to its end."""
        how = {"stdin": subprocess.DEVNULL, "capture_output": True, "text": True, "timeout": LIMIT}
        how["env"] = {**os.environ, "PATH": f"{self.top}:{os.environ['PATH']}"}
        ran = subprocess.run([self.top / "test", *words], **how)
        return Ended(ran.returncode, ran.stdout, ran.stderr)

    def skipped(self, reason):
        """How the tests of the program end where each is left out for this reason."""
        each = (f"{name}.Stand.test_in: skipped\ntest: 1 tests were skipped, since {reason}\n" for name in NAMES)
        return Ended(0, f"{''.join(each)}0 passed, 0 failed, 2 skipped\n", "")

    def assert_fails(self, last, *words):
        """It ends with status 1 and this last line."""
        ended = self.start(*words)
        self.assertEqual((ended.status, ended.output.splitlines()[-1]), (1, last))

    def test_all_passes(self):
        gate = "gate ci\nrt: low proved\nrt: high is kept: it is\n7 passed, 0 failed\n"
        shown = f"{gate}wrong  low high\n{SAME}{PASSED}{AGAIN}15 passed, 0 failed\n"
        ended = self.start()
        self.assertEqual(ended._replace(output=TOOK.sub("", ended.output)), Ended(0, shown, ""))
        self.assertEqual(TOOK.findall(ended.output), STEPS)

    def test_the_program_alone(self):
        self.assertEqual(self.start("--program"), Ended(0, f"{PASSED}2 passed, 0 failed\n", ""))
        self.assertEqual(self.start("--program", "Stand"), Ended(0, f"{PASSED}2 passed, 0 failed\n", ""))

    def test_what_the_gate_counts_as_failed_is_counted(self):
        self.use("rt", "echo 7 passed, 2 failed", "exit 1")
        self.assert_fails("15 passed, 2 failed")

    def test_a_gate_without_counts_is_a_failure(self):
        self.use("rt", "echo 7 passed, 0 failed", "echo and more")
        self.assert_fails("8 passed, 1 failed")
        self.use("rt")
        self.assert_fails("8 passed, 1 failed")

    def test_a_gate_that_ends_badly_is_a_failure(self):
        self.use("rt", "echo 7 passed, 0 failed", "exit 3")
        self.assert_fails("15 passed, 1 failed")

    def test_other_released_code_is_a_failure(self):
        self.use_comparison("'it is another'")
        self.assert_fails("14 passed, 1 failed")

    def test_wrong_bodies_that_are_not_refused_are_failures(self):
        self.use_wrong("1, 2")
        self.assert_fails("13 passed, 2 failed")

    def test_the_wrong_bodies_of_a_crate_alone(self):
        self.assertEqual(self.start("--wrong", "low"), Ended(0, "wrong low\n3 passed, 0 failed\n", ""))

    def test_no_wrong_body_is_a_failure(self):
        self.use_wrong("0, 0")
        self.assert_fails("0 passed, 1 failed", "--wrong", "nonsense")

    def test_the_tests_of_the_program_need_no_proof(self):
        self.use("build", "test \"$*\" != --prove")
        self.assertEqual(self.start("--program"), Ended(0, f"{PASSED}2 passed, 0 failed\n", ""))

    def test_a_program_that_is_not_built_is_a_failure(self):
        self.use("build", "exit 4")
        self.linked.unlink()
        self.assert_fails("10 passed, 4 failed")

    def test_a_test_of_the_program_that_fails_is_a_failure(self):
        for statement in (
            "self.assertEqual(1, 2)",
            "raise OSError",
            "self.skipTest('later')",
            "import missing",
            "with self.subTest(): self.fail()",
        ):
            with self.subTest(statement=statement):
                self.use_test(statement)
                self.assert_fails("11 passed, 4 failed")

    def test_a_test_without_its_browser_is_skipped(self):
        self.use_test(f"self.skipTest({NO_BROWSER!r})")
        self.assertEqual(self.start("--program"), self.skipped(NO_BROWSER))
        self.use_test(f"self.skipTest({NO_BROWSER!r} + '?')")
        self.assert_fails("0 passed, 2 failed", "--program")

    def test_only_the_tests_of_the_program_alone_leave_out_what_wants_those_of_the_crates(self):
        self.use_test(f"self.skipTest({NO_TESTS!r})")
        self.assertEqual(self.start("--program"), self.skipped(NO_TESTS))
        self.assert_fails("11 passed, 2 failed, 2 skipped")

    def test_a_file_of_tests_that_cannot_be_read_is_a_failure(self):
        (self.top / "tests/test_start.py").write_text("class\n")
        self.assert_fails("1 passed, 1 failed", "--program")

    def test_no_test_of_that_name_is_a_failure(self):
        self.assert_fails("0 passed, 1 failed", "--program", "nonsense")

    def test_other_words_are_refused(self):
        usage = (
            "usage: ./test, or ./test --program [TEXT], or ./test --wrong [CRATE], or ./test --list,"
            " or ./test --hunt MINUTES [--seed NUMBER]\n"
        )
        for words in (["program"], ["--program", "a", "b"]):
            with self.subTest(words=words):
                self.assertEqual(self.start(*words), Ended(2, "", usage))
