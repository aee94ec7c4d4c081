"""How the libraries are proved side by side, with stand-ins for the kit's own file and for the work."""
import sys
import threading
import unittest

from program import LIMIT, TOP, Ended, lines
from stand_ins import BUILDS, StandIns

sys.path.insert(0, str(TOP / "release"))
import libraries
from libraries import Task

# What stands in for the kit's file: what is built is listed, and `low` is built before this, where OLD says so.
OF_KIT = """\
BELOW = {"low": [], "other": [], "middle": ["low", "other"]}


class Crate:
    def __init__(self, folder, root, known, name="sheet"):
        self.folder, self.name, self.known = folder, name, known

    def below(self):
        make = lambda it: self.known.setdefault(it, Crate(self.folder, "", self.known, it))
        return [make(it) for it in BELOW.get(self.name, BELOW)]

    def stamp(self):
        return self.name

    def count(self, pattern):
        return 100

    def is_built(self):
        return self.name in OLD

    def build_rlib(self, flags, anew):
        with open(self.folder + "/../../built", "a") as out:
            out.write(self.name + "\\n")
        print(self.name + " is proved\\n", end="", flush=True)
        return int(self.name in BAD)


def guarded():
    return []


def lock(crates):
    return []
"""
CRATES = "low:\nother:\nmiddle: low other\nsheet: middle low other\n"
BEGINS = b"sheet: building, which proves what changed; the first time this takes about half an hour\n"
FAILED = "sheet: the build failed; all that it said is in {}"
# What stands in for the tool where all libraries are built.
BUILDS_ALONE = BUILDS.replace("low middle sheet", "sheet")


class SideBySide(StandIns):
    def setUp(self):
        super().setUp()
        self.write("crates.txt", CRATES)
        (self.top / "crates/other/src").mkdir(parents=True)

    def use_kit(self, text):
        """Has this text stand in for the kit's own file."""
        self.use(text, "bin/rtlib.py")

    def built(self):
        """The libraries that were built, in their order."""
        file = self.top / "built"
        return file.read_text().split() if file.is_file() else []

    def test_libraries_are_built_before_the_program(self):
        self.use_kit(f"OLD = BAD = []\n{OF_KIT}")
        ended = self.start("--prove")
        rows = ended.error.decode().splitlines()[1:]
        self.assertEqual((ended.status, ended.output), (3, lines("words: two words")))
        self.assertEqual(sorted(rows[:2]) + rows[2:], ["1 of 4 low", "2 of 4 other", "3 of 4 middle", "4 of 4 sheet"])
        self.assertEqual(sorted(self.built()[:2]) + self.built()[2:], ["low", "other", "middle"])
        self.assertEqual(self.calls("built"), ["built: run -- --help"])

    def test_what_is_built_has_no_line(self):
        self.use_kit(f"OLD, BAD = ['low'], []\n{OF_KIT}")
        self.use(BUILDS_ALONE)
        self.assertEqual(self.start("--prove").error, BEGINS + lines("2 of 4 other", "3 of 4 middle", "4 of 4 sheet"))
        self.assertEqual(self.built(), ["other", "middle"])

    def test_a_library_that_is_not_proved_ends_the_build(self):
        self.use_kit(f"OLD, BAD = ['low'], ['other']\n{OF_KIT}")
        log = self.top / "crates/sheet/out/build.log"
        ended = self.start("--prove")
        self.assertEqual((ended.status, ended.output), (4, b""))
        self.assertTrue(ended.error.startswith(BEGINS + lines("2 of 4 other")), ended)
        self.assertTrue(ended.error.endswith(lines("build: other was not built", FAILED.format(log))))
        self.assertEqual((self.built(), self.calls("built")), (["other"], []))

    def test_with_a_kit_of_another_form_they_are_built_in_turn(self):
        self.use_kit("def lock():\n    pass\n")
        self.assertEqual(self.start("--prove").status, 3)
        self.assertIn("so the libraries are built in turn", (self.top / "crates/sheet/out/build.log").read_text())


class Lanes(unittest.TestCase):
    GIGABYTES = 10**9

    def order(self, tasks, processors, memory=100 * GIGABYTES):
        """The tasks, by what each waits for and how large it is, as they are begun, each with its jobs."""
        begun = []

        def task(name, waits, size):
            return Task(waits, size, lambda jobs: begun.append((name, jobs)) or name != "bad")

        made = {name: task(name, *said) for name, said in tasks.items()}
        return libraries.run_all(made, processors, memory), begun

    def test_each_waits_for_those_below_it(self):
        tasks = {"a": ([], 1), "b": (["a"], 1), "c": (["a", "b"], 1)}
        self.assertEqual(self.order(tasks, 2), (None, [("a", 2), ("b", 2), ("c", 2)]))

    def test_the_longest_chain_is_begun_first(self):
        tasks = {"short": ([], 5), "long": ([], 1), "above": (["long"], 9)}
        self.assertEqual(self.order(tasks, 1), (None, [("long", 1), ("above", 1), ("short", 1)]))

    def test_a_failure_ends_it(self):
        self.assertEqual(self.order({"bad": ([], 1), "next": (["bad"], 1)}, 1), ("bad", [("bad", 1)]))

    def test_processors_are_shared_as_memory_allows(self):
        for ready, idle, memory, jobs in (
            (1, 4, 100, 4), (1, 9, 100, 4), (2, 4, 100, 2), (3, 4, 100, 1), (5, 4, 100, 1), (1, 0, 100, 0),
            (1, 4, 5, 2), (1, 4, 3, 1), (1, 4, 2, 0),
        ):
            with self.subTest(ready=ready, idle=idle, memory=memory):
                self.assertEqual(libraries.jobs_for(ready, idle, memory * self.GIGABYTES), jobs)

    def test_one_runs_however_little_memory_there_is(self):
        self.assertEqual(self.order({"a": ([], 1), "b": ([], 1)}, 4, 1), (None, [("a", 1), ("b", 1)]))

    def test_two_run_side_by_side(self):
        met = threading.Barrier(2)
        meet = lambda jobs: met.wait(LIMIT) is not None
        tasks = {"a": Task([], 1, meet), "b": Task([], 1, meet)}
        self.assertIsNone(libraries.run_all(tasks, 2, 100 * self.GIGABYTES))
