"""The hunt of `./test --hunt`, from a fixed seed: a fixed number of plans of each part, and planted faults of scripts.

The plans are the same in each run, but those of `costs`. It takes some half a minute.
"""
import subprocess
from concurrent.futures import ThreadPoolExecutor

from hunt import deltas, faults, finds
from hunt.finds import Hunt
from hunt.parts import PARTS, Scripts
from hunt.session import written
from program import LIMIT, TOP, ProgramTest
from test_transcripts import FILES, transcript

SEED = 15
# How many plans of each part are run.
PLANS = {"scripts": 400, "replicas": 30, "sessions": 12, "faults": 12, "costs": 12, "pages": 2}
# Each planted fault has to be found among so many scripts, and its script to be left with so few lines.
FEW_SCRIPTS, FEW_LINES = 60, 12


def able():
    """The parts that can hunt on this machine."""
    return [part for part in PARTS if part.lacks() is None]


class Command(ProgramTest):
    def start(self, words):
        """Runs `./test` with these words to its end."""
        # (the last plan is run to its end, whatever the time)
        how = {"stdin": subprocess.DEVNULL, "capture_output": True, "text": True, "timeout": 4 * LIMIT}
        return subprocess.run([TOP / "test", *words], **how)

    def start_each(self, *asked):
        """Yields each of these lists of words, and how `./test` ended with it. A few run at once."""
        with ThreadPoolExecutor(4) as pool:
            yield from zip(asked, pool.map(self.start, asked))

    def test_it_counts_what_it_compared(self):
        ran = self.start(["--hunt", "0.05", "--seed", str(SEED)])
        self.assertEqual((ran.returncode, ran.stderr), (0, ""))
        told = (r"(?s)^hunt: seed 15\n(hunt: no \w+, since .*\n)?hunt: \d+ scripts \(.*\n"
                r"[1-9]\d* passed, 0 failed(, 1 skipped)?\n$")
        self.assertRegex(ran.stdout, told)

    def test_one_part_alone(self):
        hunts = [["--hunt", "0.002", "--seed", str(SEED), "--only", part.name] for part in able()]
        for words, ran in self.start_each(*hunts):
            with self.subTest(words=words):
                self.assertEqual((ran.returncode, ran.stderr), (0, ""))
                told = rf"^hunt: seed 15\nhunt: \d+ {words[-1]}[^;\n]*\n[1-9]\d* passed, 0 failed\n$"
                self.assertRegex(ran.stdout, told)

    def test_words_that_have_no_sense_are_refused(self):
        wrong = (["--hunt"], ["--hunt", "long"], ["--hunt", "1", "--seed", "x"], ["--hunt", "1", "--only", "x"],
                 ["--hunt", "1", "--replay", "x"])
        for words, ran in self.start_each(*wrong):
            with self.subTest(words=words):
                self.assertEqual(ran.returncode, 2)


class Fixed(ProgramTest):
    def test_no_part_finds_anything(self):
        for part in able():
            with self.subTest(part=part.name):
                hunt = Hunt(SEED, [part()])
                find = hunt.first(hunt.parts[0], PLANS[part.name])
                if find is not None:
                    self.fail(hunt.keep(find, self.folder())[1])


class Model(ProgramTest):
    def test_a_number_with_a_sign_is_no_register(self):
        """Not beside a text in which a sign stands before a 0 either, where the model reads all numbers by itself."""
        for register in ("-1", "-0"):
            line = f'[["A1",{register},[[1,1,0]],[]],["B1",[1,1,"=[.A1]-0"],[],[]]]'.encode()
            with self.subTest(register=register):
                self.assertIsNone(deltas.read_delta(line))
                self.assert_session(b"push %s\n" % line, b"err 14 delta\n")


    def test_it_replies_as_the_worked_rows_have_it(self):
        for file in FILES:
            for session in map(transcript, file.read_text().split("\n\n")):
                # (the plain model has one session, so it doesn't wait)
                if b"wait" in session.given:
                    continue
                with self.subTest(file=file.name, title=session.title):
                    replica = int(session.words[session.words.index("--replica") + 1]) if session.words else 1
                    self.assertEqual(written(session.given, replica), session.replies)


class Planted(ProgramTest):
    def assert_found(self, by_program):
        """What stands in for the program is found, the script made smaller, and the trouble shown again by it."""
        hunt = Hunt(SEED, [Scripts(by_program)])
        find = hunt.first(hunt.parts[0], FEW_SCRIPTS)
        self.assertIsNotNone(find)
        folder, _ = hunt.keep(find, self.folder())
        self.assertLessEqual((folder / "given").read_bytes().count(b"\n"), FEW_LINES)
        name, plan = finds.read(folder / "plan")
        self.assertEqual(name, "scripts")
        self.assertIsNotNone(hunt.parts[0].trouble(plan))

    def test_each_fault_of_a_sheet_is_found(self):
        for kind in faults.SHEETS:
            with self.subTest(kind=kind.__name__):
                self.assert_found(faults.on_sheet(kind))

    def test_each_edit_of_the_replies_is_found(self):
        for edit in faults.EDITS:
            with self.subTest(edit=edit):
                self.assert_found(faults.edited(edit, self.folder()))
