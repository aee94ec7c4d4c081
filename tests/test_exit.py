"""The exit statuses, each with all that stands on standard output and standard error."""
from program import DEVICE_FAILED, Ended, ProgramTest, lines, run

USAGE = "Usage: sheet <COMMAND>"
RUN_USAGE = "Usage: sheet run [OPTIONS]"
TABLE_USAGE = "Usage: sheet table [OPTIONS]"
MORE = "For more information, try '--help'."
# Words that are refused, besides numbers out of range (`test_start.py` tries those of each option).
NO_WORDS = """
run --entries
run --keep
run --keep a --keep b
table --strict
table --keep plan.lines
serve --sessions 1
sync --from 1
join --from 1
join --to 1
join --from=1 --to=2 --once=yes
join --from=1 --to=2 --until-now
follow --until-now
follow --from=1 --until-now=yes
talk --explain
squash plan.lines
squash --keep
squash --workers 1
squash --keep plan.lines --until 1
squash --without 1 --keep plan.lines
""".strip().splitlines()


class Statuses(ProgramTest):
    def assert_no_command_line(self, words, *paragraphs):
        """These words are refused: these paragraphs on standard error, nothing on standard output, status 2."""
        self.assertEqual(run(*words), Ended(2, b"", "\n\n".join([*paragraphs, MORE]).encode() + b"\n"))

    def test_0_at_the_end_of_the_input(self):
        self.assertEqual(run("run", given=b""), Ended(0))
        self.assertEqual(run("table", given=b""), Ended(0))

    def test_0_where_lines_were_refused(self):
        given = lines("walk", "get A0", "get A1")
        self.assertEqual(run("run", given=given), Ended(0, lines("err 16 command", "err 1 cell", "val ")))

    def test_3_where_lines_of_a_strict_session_were_refused(self):
        replies, told = lines("err 16 command", "err 1 cell", "val "), lines("refused lines: 2")
        self.assertEqual(run("run", "--strict", given=lines("walk", "get A0", "get A1")), Ended(3, replies, told))

    def test_1_where_a_device_fails(self):
        with open("/dev/full", "wb") as full:
            self.assertEqual(run("run", given=b"get A1\n", stdout=full), Ended(1, b"", DEVICE_FAILED))

    def test_2_without_a_command(self):
        said = ("error: 'sheet' requires a subcommand but one was not provided\n"
                "  [subcommands: run, table, serve, sync, join, follow, talk, squash, help]")
        self.assert_no_command_line([], said, USAGE)

    def test_2_for_an_unknown_command(self):
        self.assert_no_command_line(["fly"], "error: unrecognized subcommand 'fly'", USAGE)

    def test_2_for_an_unknown_option(self):
        said = "error: unexpected argument '--colour' found"
        self.assert_no_command_line(["run", "--colour"], said, RUN_USAGE)
        self.assert_no_command_line(["table", "--colour", "red"], said, TABLE_USAGE)
        self.assert_no_command_line(["--colour"], said, USAGE)

    def test_2_for_a_word_too_many(self):
        self.assert_no_command_line(["run", "A1"], "error: unexpected argument 'A1' found", RUN_USAGE)
        self.assert_no_command_line(["table", "A1"], "error: unexpected argument 'A1' found", TABLE_USAGE)

    def test_2_for_an_option_of_the_other_command(self):
        said = "error: unexpected argument '--replica' found"
        tip = "  tip: a similar argument exists: '--explain'"
        self.assert_no_command_line(["table", "--replica", "2"], said, tip, "Usage: sheet table --explain")

    def test_2_for_an_option_that_is_given_twice(self):
        said = "error: the argument '--replica <replica>' cannot be used multiple times"
        self.assert_no_command_line(["run", "--replica", "1", "--replica", "2"], said, RUN_USAGE)

    def test_2_for_an_option_without_its_number(self):
        said = "error: a value is required for '--replica <replica>' but none was supplied"
        self.assert_no_command_line(["run", "--replica"], said)

    def test_2_for_a_number_out_of_range(self):
        for command, option, most in (("run", "replica", 32), ("run", "workers", 16), ("table", "workers", 16)):
            for number in (0, most + 1, 18_446_744_073_709_551_617):
                with self.subTest(command=command, option=option, number=number):
                    is_any = number <= most + 1
                    reason = f"{number} is not in 1..={most}" if is_any else "number too large to fit in target type"
                    said = f"error: invalid value '{number}' for '--{option} <{option}>': {reason}"
                    self.assert_no_command_line([command, f"--{option}", str(number)], said)

    def test_2_for_a_word_in_place_of_a_number(self):
        said = "error: invalid value 'two' for '--replica <replica>': invalid digit found in string"
        self.assert_no_command_line(["run", "--replica", "two"], said)

    def test_2_for_a_word_that_is_not_utf_8(self):
        said = lines("error: invalid UTF-8 was detected in one or more arguments")
        self.assertEqual(run("run", b"\xff"), Ended(2, b"", said))

    def test_2_for_each_of_these_words(self):
        for words in NO_WORDS:
            with self.subTest(words=words):
                ended = run(*words.split())
                self.assertEqual((ended.status, ended.output), (2, b""))

    def test_2_before_anything_is_read(self):
        self.assertEqual(run("run", "--replica", "33", given=b"get A1\n").output, b"")

    def test_3_where_a_table_is_refused(self):
        self.assertEqual(run("table", given=b"1,=bad\n"), Ended(3, b"", lines("err 3 formula")))
