"""Tests of the crates in which memory is refused: each stands whichever single request of its process that is.

Such a test is named `refused_` and the call that it makes. After a refusal it looks whether all is as before, and makes
the call once more, which then gives what it gives without. The gate builds the tests of a crate as a program, which
lists them, and runs the one whose name it is given.
"""
import subprocess
from itertools import chain

from program import LIMIT, NO_TESTS, TOP, Ended, ProgramTest
from shortage import ALL, Short, build, each, refusing, requests_in

# The tests of each crate, by their calls.
TESTS = {
    "checks_keep": ("sheet::refused_open_kept",),
    "checks_state": (
        "delta::refused::refused_joined", "index::refused_set", "wire::refused_decode_and_encode",
    ),
    "checks_sheet": (
        "csv::refused_import", "face::refused_append", "face::refused_post", "sheet::refused::refused_edit",
        "sheet::refused::refused_merge", "sheet::refused::refused_open", "sheet::refused::refused_prepare",
        "sheet::refused::refused_receive",
    ),
    "checks_sessions": (
        "desk::refused_edit", "desk::refused_open", "desk::refused_pull", "desk::refused_receive",
        "kept_line::refused_read_kept_line",
    ),
}
# No test makes more requests than that.
MOST = 20_000


def sources():
    """The files that programs are built from."""
    return chain([TOP / "crates.txt"], *(TOP.glob(f"crates/*/{part}/**/*") for part in ("src", "specs", "proofs")))


class Refused(ProgramTest):
    def setUp(self):
        self.library = build(self.folder())

    def program(self, crate):
        """The program of the crate's tests. The test is left out where there is none, and fails where it is older than
        the sources."""
        program = TOP / f"crates/{crate}/out/{crate}_tests"
        if not program.is_file():
            self.skipTest(NO_TESTS)
        built = program.stat().st_mtime
        self.assertFalse([file for file in sources() if file.stat().st_mtime > built], f"{crate}: run `rt ci` anew")
        return program

    def run_refused(self, program, test, first, last):
        """Runs one test, and refuses its requests from the first to the last."""
        with refusing(self.library, first, last) as (how, count):
            ran = subprocess.run([program, test], stdin=subprocess.DEVNULL, capture_output=True, timeout=LIMIT, **how)
            return Short(Ended(ran.returncode, ran.stdout, ran.stderr), requests_in(count))

    def assert_stands_each(self, program, test):
        """The test passes whichever single request is refused."""
        passed, requests = self.run_refused(program, test, ALL, ALL)
        self.assertEqual((passed.status, passed.error), (0, b""))
        self.assertIn(requests, range(1, MOST))
        spans = [(number, number) for number in range(1, requests + 2)]
        runs = each(lambda *span: self.run_refused(program, test, *span), spans)
        for (number, _), short in zip(spans, runs):
            with self.subTest(test=test, refused=number):
                self.assertEqual(short.ended, passed)
                # the last run meets no refusal, and each other one meets its own
                self.assertEqual(short.requests >= number, number <= requests)

    def assert_crate(self, crate):
        """Each test of the crate that is named so passes whichever single request is refused, and it has just these."""
        program = self.program(crate)
        listed = subprocess.run([program, "--list"], capture_output=True, check=True, timeout=LIMIT).stdout.decode()
        names = [line.removesuffix(": test") for line in listed.splitlines()]
        found = [name for name in names if name.split("::")[-1].startswith("refused_")]
        self.assertEqual(sorted(found), sorted(TESTS[crate]))
        for test in TESTS[crate]:
            self.assert_stands_each(program, test)

    def test_keep(self):
        self.assert_crate("checks_keep")

    def test_state(self):
        self.assert_crate("checks_state")

    def test_sheet(self):
        self.assert_crate("checks_sheet")

    def test_sessions(self):
        self.assert_crate("checks_sessions")
