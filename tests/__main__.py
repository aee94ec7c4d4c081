"""The whole test of the repository: the merge gate, the mutants, the released object, and the tests of the program.

`./test` has all of it, `./test --program` the latter alone, and `./test --program TEXT` those whose name has the text.
The latter needs no kit: it tests the program that `./sheet` links of the released object.
`./test --wrong` tries the mutants alone, and `./test --wrong CRATE` those of a crate, over what is proved already.
The last line is `N passed, M failed` over everything that ran, and the exit status is 0 only where nothing failed.
Tests that want a browser or a broker are left out where there is none. `./test --program` also leaves out those that
want git, the kit, or the tests of the crates, which `rt ci` builds. Then `, K skipped` follows.
`./test --hunt MINUTES` looks for trouble by chance (`hunt/`, `docs/TESTING.md`), and ends in the same way.
`./test --list` runs nothing. It prints what each test shows, and the function whose proof each mutant has to break.
All tests of the program run file by file, each in a process of its own and some side by side.
"""
import os
import re
import resource
import subprocess
import sys
import time
import traceback
import unittest
from concurrent.futures import ThreadPoolExecutor
from typing import NamedTuple

import compared
import wrong
from program import NO_BROKER, NO_BROWSER, NO_GIT, NO_KIT, NO_TESTS, TOP
from wrong import Fault

# The tests of worked rows and of starts, which are also run on the program that the kit links.
ROWS = ("test_start", "test_transcripts")
# The files of tests that take longest, which begin first, and those that measure time, which run one after the other
# once all others have ended.
LONG = ("test_seats", "test_entries", "test_page_monkey", "test_hunt", "test_page_wire")
ALONE = ("test_page_speed", "test_page_start", "test_tables", "test_wait", "test_workers")
USAGE = (
    "usage: ./test, or ./test --program [TEXT], or ./test --wrong [CRATE], or ./test --list,"
    " or ./test --hunt MINUTES [--seed NUMBER]"
)

class Tally(NamedTuple):
    """How many passed, how many failed, and how many were left out, since what they need is missing."""

    passed: int
    failed: int
    skipped: int = 0

    def and_also(self, other):
        """The sum of both."""
        return Tally(self.passed + other.passed, self.failed + other.failed, self.skipped + other.skipped)

    def __str__(self):
        """The last line of what ran."""
        skipped = f", {self.skipped} skipped" if self.skipped else ""
        return f"{self.passed} passed, {self.failed} failed{skipped}"


class Shown(unittest.TestResult):
    """Shows each test once it has ended, below what went wrong in it, and counts.

    A test that is expected to fail counts as failed. So does one that is skipped for another reason than these, so that
    no other is left out.
    """

    def __init__(self, reasons):
        super().__init__()
        self.tally = Tally(0, 0)
        self.faults = []
        self.reasons = dict.fromkeys(reasons, 0)
        self.is_left_out = False

    def stopTest(self, test):
        super().stopTest(test)
        self.end(test)

    def end(self, test):
        """Counts and shows the test."""
        is_well = not self.faults and not self.is_left_out
        self.tally = self.tally.and_also(Tally(int(is_well), int(bool(self.faults)), int(self.is_left_out)))
        end = "FAILED" if self.faults else "skipped" if self.is_left_out else "ok"
        print(*self.faults, f"{test.id()}: {end}", sep="\n", flush=True)
        self.faults = []
        self.is_left_out = False

    def addError(self, test, err):
        self.faults.append("".join(traceback.format_exception(*err)))
        # what fails before the first test of a class or a file isn't followed by an end
        if not isinstance(test, unittest.TestCase):
            self.end(test)

    def addFailure(self, test, err):
        self.addError(test, err)

    def addSubTest(self, test, subtest, err):
        if err is not None:
            self.faults.append(f"{subtest.id()}\n{''.join(traceback.format_exception(*err))}")

    def addSkip(self, test, reason):
        if reason in self.reasons:
            self.is_left_out = True
            self.reasons[reason] += 1
        else:
            self.faults.append(f"skipped: {reason}")

    def addExpectedFailure(self, test, err):
        self.faults.append("expected to fail, and does")

    def addUnexpectedSuccess(self, test):
        self.faults.append("expected to fail, and doesn't")


def failed(why):
    """One failure, which is shown."""
    print(f"test: {why}", flush=True)
    return Tally(0, 1)


def gate(proved):
    """Runs the merge gate, whose lines are shown as they come, and reads the counts off its last one.

    This is called with the name of each crate that was proved, now or by an earlier run.
    """
    begun = time.monotonic()
    try:
        ran = subprocess.Popen(["rt", "ci"], cwd=TOP, stdin=subprocess.DEVNULL, stdout=subprocess.PIPE)
    except OSError as error:
        return failed(f"rt ci can't be run: {error}")
    last = b""
    for last in ran.stdout:
        sys.stdout.buffer.write(last)
        sys.stdout.buffer.flush()
        found = re.fullmatch(rb"rt: (\w+) (?:proved|is kept: .*)\n", last)
        if found is not None:
            proved(found[1].decode())
    _, status, used = os.wait4(ran.pid, 0)
    status = ran.returncode = os.waitstatus_to_exitcode(status)
    show_minutes("the gate", time.monotonic() - begun, used.ru_utime + used.ru_stime)
    counts = re.fullmatch(rb"(\d+) passed, (\d+) failed\n?", last)
    if counts is None:
        return failed(f"rt ci ended with status {status}, and its last line has no counts")
    tally = Tally(int(counts[1]), int(counts[2]))
    if status != 0 and tally.failed == 0:
        return tally.and_also(failed(f"rt ci ended with status {status}, though it counts no failure"))
    return tally


def is_built(*words):
    """Whether there is a program, the proved one where the word `--prove` asks for it."""
    how = {"stdin": subprocess.DEVNULL, "stdout": subprocess.DEVNULL}
    return subprocess.run([TOP / "build", *words], **how).returncode == 0


def released():
    """Compares the released object with that of the build that the gate has proved."""
    if not is_built("--prove"):
        return failed("the proved program isn't built, so it wasn't compared")
    why = compared.difference(TOP)
    if why is not None:
        return failed(why)
    print("test: the released object is that of the proved build", flush=True)
    return Tally(1, 0)


class Process(NamedTuple):
    """How a process of tests ended: what it said without its counts, and these; a fault where it said none."""

    said: str
    tally: Tally

    def counted(self, reasons):
        """Its counts, with those that were left out as failed where it was for another reason than these."""
        found = re.findall(r"^test: \d+ tests were skipped, since (.+)$", self.said, re.MULTILINE)
        passed, failed, skipped = self.tally
        return self.tally if all(reason in reasons for reason in found) else Tally(passed, failed + skipped)


def in_process(text, program=None):
    """Runs the tests whose names have the text in a process of their own, on this program where one is given."""
    words = [sys.executable, "-B", TOP / "tests", "--program", text]
    environment = os.environ if program is None else {**os.environ, "SHEET_PROGRAM": str(program)}
    ran = subprocess.run(words, stdin=subprocess.DEVNULL, stdout=subprocess.PIPE, text=True, env=environment)
    counts = re.search(r"^(\d+) passed, (\d+) failed(?:, (\d+) skipped)?\n\Z", ran.stdout, re.MULTILINE)
    if counts is None:
        return Process(f"{ran.stdout}test: {text} ended with status {ran.returncode}\n", Tally(0, 1))
    return Process(ran.stdout[: counts.start()], Tally(*map(int, counts.groups("0"))))


def rows_of_proved():
    """Runs the tests of worked rows and of starts on the program that the kit has linked."""
    tally = Tally(0, 0)
    for text in ROWS:
        print(f"test: {text} on the program that the kit links", flush=True)
        linked = TOP / "crates/sheet/out/sheet"
        if not linked.is_file():
            tally = tally.and_also(failed("the proved program isn't built, so it wasn't tested"))
            continue
        ended = in_process(f"{text}.", linked)
        print(ended.said, end="", flush=True)
        tally = tally.and_also(ended.tally)
    return tally


def refused(trials):
    """Tries these mutants, which the prover has to refuse."""
    try:
        tally = Tally(*trials.counts())
    except (Fault, OSError) as fault:
        return failed(f"the mutants can't be tried: {fault}")
    return tally if tally != Tally(0, 0) else failed("there is no mutant to try")


def program(text, reasons):
    """Runs the tests of this folder whose names have the text. A test may be left out for these reasons."""
    # (another program is there already, however new the sources are)
    if "SHEET_PROGRAM" not in os.environ and not is_built():
        return failed("the program isn't built, so it wasn't tested")
    if not text:
        return file_by_file(reasons)
    loader = unittest.TestLoader()
    loader.testNamePatterns = [f"*{text}*"]
    # (the others needn't be read where these are all of a file)
    is_file = text.endswith(".") and (TOP / f"tests/{text}py").is_file()
    tests = loader.discover(str(TOP / "tests"), f"{text}py" if is_file else "test*.py")
    if tests.countTestCases() == 0:
        return failed("there is no such test of the program")
    shown = Shown(reasons)
    tests.run(shown)
    for reason, count in shown.reasons.items():
        if count:
            print(f"test: {count} tests were skipped, since {reason}", flush=True)
    return shown.tally


def file_by_file(reasons):
    """Runs all tests of this folder, so many files at a time that the processors have work while some tests wait."""
    tally = Tally(0, 0)
    def place(file):
        return file.stem not in LONG, -file.stat().st_size, file.stem

    names = [file.stem for file in sorted((TOP / "tests").glob("test_*.py"), key=place)]
    beside = [name for name in names if name not in ALONE]
    alone = [name for name in names if name in ALONE]
    for lanes, part in ((len(os.sched_getaffinity(0)) + 1, beside), (1, alone)):
        with ThreadPoolExecutor(lanes) as pool:
            for ended in pool.map(lambda name: in_process(f"{name}."), part):
                print(ended.said, end="", flush=True)
                tally = tally.and_also(ended.counted(reasons))
    return tally


def gate_and_mutants():
    """Runs the merge gate, and tries the mutants of each crate once the libraries below it are proved."""
    trials = wrong.Trials(TOP, is_over=False)
    with ThreadPoolExecutor(1) as pool:
        tried = pool.submit(refused, trials)
        try:
            tally = gate(trials.turns.note)
        finally:
            trials.turns.end()
    return tally.and_also(tried.result())


def show_minutes(name, seconds, processor):
    """Shows what something took by the clock and of processors, both in seconds."""
    print(f"test: {name} took {seconds / 60:.1f} minutes by the clock, {processor / 60:.1f} of processors", flush=True)


def timed(name, call, *given):
    """Has this call count, and shows what it took."""
    def used():
        children = resource.getrusage(resource.RUSAGE_CHILDREN)
        return children.ru_utime + children.ru_stime

    begun, before = time.monotonic(), used()
    tally = call(*given)
    show_minutes(name, time.monotonic() - begun, used() - before)
    return tally


def whole():
    """Runs everything."""
    tally = timed("the gate with the mutants", gate_and_mutants)
    tally = tally.and_also(timed("the released object", released))
    # (the gate has built the tests of the crates)
    tally = tally.and_also(timed("the program", program, "", (NO_BROKER, NO_BROWSER)))
    return tally.and_also(timed("the proved program", rows_of_proved))


def main(words):
    """Runs what the words ask for, and returns the exit status."""
    if words == ["--list"]:
        # (read only here, since this file's own test has no lists beside it)
        import lists
        sys.stdout.write(lists.text(TOP))
        return 0
    if words[:1] == ["--hunt"]:
        if not is_built():
            print(failed("the program isn't built, so there is no hunt"))
            return 1
        # (read only here, since this file's own test has no hunt beside it)
        from hunt import command
        return command.main(words)
    if words[:1] not in ([], ["--program"], ["--wrong"]) or len(words) > 2:
        print(USAGE, file=sys.stderr)
        return 2
    named = "".join(words[1:])
    if not words:
        tally = timed("everything", whole)
    elif words[0] == "--wrong":
        tally = refused(wrong.Trials(TOP, named))
    else:
        tally = program(named, (NO_BROKER, NO_BROWSER, NO_GIT, NO_KIT, NO_TESTS))
    print(tally)
    return 1 if tally.failed else 0


if __name__ == "__main__":
    sys.exit(main(sys.argv[1:]))
