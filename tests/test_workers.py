"""`--workers` of each command, seen in the threads that the program starts, and in the processor time that they take.

A level of formulas that don't refer to one another is divided where it has 4,096 due cells for each worker; each worker
but one then has a thread of its own.
"""
import os
import resource
import subprocess
import sys
from pathlib import Path

import preloaded
from preloaded import PROGRAM
from program import LIMIT, Ended, ProgramTest, lines, started
from servers import serving
from sizes import COLUMNS, name, pushes

# So many rows of formulas are wide enough for 16 workers. All of them refer to the one cell below.
ROWS = 640
SOURCE = name(0, ROWS + 1)
LAST = name(COLUMNS - 1, ROWS)
ENTRY = f"=[.{SOURCE}]"
# How many threads evaluate beside the caller's own, for so many workers.
THREADS = {1: 0, 2: 1, 4: 3, 16: 15}
# The other threads that a server of one session starts: one reads the first bytes of its connection, one is the session,
# and two are for those who wait.
BESIDE = 4

# The last cell of those that each formula of sums adds up, from the first of them on, and how often that is changed.
# They have few rows of many columns, so that each sum takes long although sums of columns are remembered.
SUMMED, CHANGES = name(25, ROWS + 101), 6

SCRIPT = lines(*pushes(lambda column, row: ENTRY, range(1, ROWS + 1)), f"set {SOURCE} 7", f"get {LAST}")
REPLIES = lines(*(f"ok {number}" for number in range(1, ROWS + 2)), "val 7")
TABLE = lines(*[",".join([ENTRY] * COLUMNS)] * ROWS, "7")
SHOWN = lines(*[",".join(["7"] * COLUMNS)] * ROWS, "7" + "," * (COLUMNS - 1))


class Threads:
    """How a program is started whose threads are counted, and how many it has started."""

    def __init__(self, library, count):
        self.count = count
        env = preloaded.before(library, THREADS_COUNT=str(count.fileno()))
        # (without the launcher, whose own threads aren't meant)
        self.how = {"program": PROGRAM, "env": env, "pass_fds": [count.fileno()]}

    def started(self):
        """How many threads the program has started so far."""
        return self.number(0)

    def seconds(self):
        """The processor time of all threads that have ended, and that of the longest one."""
        return self.number(1) / 1e9, self.number(2) / 1e9

    def number(self, place):
        """A number of the count."""
        return int.from_bytes(os.pread(self.count.fileno(), 8, 8 * place), sys.byteorder)


class CountsThreads(ProgramTest):
    """A test that counts the threads of a program."""

    def setUp(self):
        self.library = Path(self.folder()) / "threads.so"
        preloaded.build("threads.c", self.library)

    def threads(self):
        """A count of threads for one program."""
        count = self.enterContext(open(os.memfd_create("threads"), "r+b"))
        count.truncate(24)
        return Threads(self.library, count)


class Workers(CountsThreads):
    def assert_command(self, command, given, output):
        """The command gives this output for each number of workers, and starts the threads of that number."""
        for workers, wanted in THREADS.items():
            threads = self.threads()
            files = {"stdin": subprocess.PIPE, "stdout": subprocess.PIPE, **threads.how}
            with self.subTest(workers=workers), started(command, "--workers", str(workers), **files) as program:
                written, error = program.communicate(given, timeout=LIMIT)
                self.assertEqual(Ended(program.returncode, written, error), Ended(0, output))
                self.assertEqual(threads.started(), wanted)

    def test_run_has_as_many_as_it_is_told(self):
        self.assert_command("run", SCRIPT, REPLIES)

    def test_table_has_as_many_as_it_is_told(self):
        self.assert_command("table", TABLE, SHOWN)

    def test_serve_has_as_many_as_it_is_told_beside_its_own(self):
        for workers, wanted in THREADS.items():
            threads = self.threads()
            with self.subTest(workers=workers), serving(1, "--workers", str(workers), **threads.how) as server:
                client = server.client()
                client.send(SCRIPT)
                self.assertEqual(client.leave(), REPLIES)
                self.assertEqual(server.ended(), Ended(0, lines(f"closed {ROWS + 1}")))
                self.assertEqual(threads.started(), wanted + BESIDE)

    def test_a_kept_sheet_has_as_many_as_it_is_told(self):
        for workers in (4, 16):
            threads, file = self.threads(), self.folder() / "kept.lines"
            words, told = ("--keep", str(file), "--workers", str(workers)), lines(f"opened {file}, 0 changes")
            files = {"stdin": subprocess.PIPE, "stdout": subprocess.PIPE, **threads.how}
            with self.subTest(command="run", workers=workers), started("run", *words, **files) as program:
                written, error = program.communicate(SCRIPT, timeout=LIMIT)
                self.assertEqual(Ended(program.returncode, written, error), Ended(0, REPLIES, told))
                self.assertEqual(threads.started(), THREADS[workers])
            threads = self.threads()
            file.unlink()
            with self.subTest(command="serve", workers=workers), serving(1, *words, **threads.how) as server:
                client = server.client()
                client.send(SCRIPT)
                self.assertEqual(client.leave(), REPLIES)
                self.assertEqual(server.ended(), Ended(0, lines(f"closed {ROWS + 1}"), told))
                self.assertEqual(threads.started(), THREADS[workers] + BESIDE)

    def test_each_has_its_part_of_a_level(self):
        # each formula is a sum, so that nearly all time is that of evaluations, most of it in changes of the one cell
        entry = f"=SUM([.{SOURCE}:.{SUMMED}])"
        given = lines(*pushes(lambda *_: entry, range(1, ROWS + 1)), *(f"set {SOURCE} {n}" for n in range(CHANGES)))
        threads, workers = self.threads(), max(THREADS)
        before = resource.getrusage(resource.RUSAGE_CHILDREN)
        files = {"stdin": subprocess.PIPE, "stdout": subprocess.PIPE, **threads.how}
        with started("run", "--workers", str(workers), **files) as program:
            program.communicate(given, timeout=LIMIT)
        after = resource.getrusage(resource.RUSAGE_CHILDREN)
        whole = after.ru_utime + after.ru_stime - before.ru_utime - before.ru_stime
        others, most = threads.seconds()
        count = CHANGES * THREADS[workers]
        self.assertEqual(threads.started(), count)
        # the caller has a part like each of the others, and what comes before (the bounds are wide, since times differ)
        self.assertGreater(others, whole / 3)
        self.assertLess(most, 4 * others / count)
