"""The hunt beside calls that fail: what a wrong program would write then is found, and what a right one does is not."""
from hunt import shortages
from hunt.scripts import Script
from program import Ended, ProgramTest, lines

SCRIPT = Script(("run",), (b"set A1 5\n", b"get A1\n", b"set B1 =[.A1]*2\n", b"rows A1:B1\n", b"get B1"))
WELL = lines("ok 1", "val 5", "ok 2", "rows 1", "5,10", "val 10")
FAILED = lines("err 20 device")


class Memory(ProgramTest):
    def test_lines_that_lack_memory_change_nothing(self):
        for replies in (("ok 1", "val 5", "ok 2", "rows 1", "5,10", "val 10"),
                        ("err 19 memory", "val ", "ok 1", "rows 1", ",0", "val 0"),
                        ("ok 1", "val 5", "err 19 memory", "err 19 memory", "val ")):
            with self.subTest(replies=replies):
                self.assertIsNone(shortages.short_of_memory(SCRIPT, Ended(0, lines(*replies))))
        self.assertIsNone(shortages.short_of_memory(SCRIPT, Ended(3, b"", lines("err 19 memory"))))

    def test_what_a_wrong_program_does_is_found(self):
        # a line that was refused and carried out, a `get` that lacks memory, a reply lost, one too many, a bad end
        for replies in (("err 19 memory", "val 5", "ok 2", "rows 1", "5,10", "val 10"),
                        ("ok 1", "err 19 memory", "ok 2", "rows 1", "5,10", "val 10"),
                        ("ok 1", "val 5", "ok 2", "rows 1", "5,10"),
                        ("ok 1", "val 5", "ok 2", "rows 1", "5,10", "val 10", "val 10")):
            with self.subTest(replies=replies):
                self.assertIsNotNone(shortages.short_of_memory(SCRIPT, Ended(0, lines(*replies))))
        self.assertIsNotNone(shortages.short_of_memory(SCRIPT, Ended(-6, WELL)))


class Devices(ProgramTest):
    def test_an_input_that_fails_is_answered_up_to_its_last_whole_line(self):
        read = len(b"set A1 5\nget A")
        self.assertIsNone(shortages.unread(SCRIPT, Ended(1, lines("ok 1"), FAILED), read))
        for wrong in (Ended(0, lines("ok 1", "val ")), Ended(1, b"", FAILED),
                      Ended(1, lines("ok 1", "err 1 cell"), FAILED),
                      Ended(1, lines("ok 1")), Ended(0, lines("ok 1"))):
            with self.subTest(wrong=wrong):
                self.assertIsNotNone(shortages.unread(SCRIPT, wrong, read))

    def test_of_an_output_that_fails_a_beginning_is_written(self):
        self.assertIsNone(shortages.unwritten(SCRIPT, Ended(1, WELL[:9], FAILED)))
        for wrong in (Ended(0, WELL[:9]), Ended(1, WELL[:4] + WELL[9:], FAILED), Ended(3, WELL[:9], FAILED)):
            with self.subTest(wrong=wrong):
                self.assertIsNotNone(shortages.unwritten(SCRIPT, wrong))

    def test_a_long_script_has_longer_to_end_since_each_byte_may_be_a_call(self):
        long = Script(("run",), (b"push " + b"0" * 2_600_000 + b"\n",))
        self.assertGreater(shortages.patience(long), shortages.patience(SCRIPT) + 500)
