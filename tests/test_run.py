"""The command `run`: lines in, replies out."""
from program import Ended, ProgramTest, lines, run
from sizes import COLUMNS, LONGEST_LINE

ROWS = 1024


class Lines(ProgramTest):
    def test_no_input_has_no_output(self):
        self.assert_session(b"", b"")

    def test_a_last_line_without_line_feed_is_answered(self):
        self.assert_session(b"set A1 5\nget A1", lines("ok 1", "val 5"))

    def test_carriage_returns_before_line_feeds_are_dropped(self):
        self.assert_session(b"set A1 5\r\nget A1\r\n", lines("ok 1", "val 5"))

    def test_empty_lines_have_no_reply(self):
        self.assert_session(b"\n\nset A1 5\n\r\n\nget A1\n\n", lines("ok 1", "val 5"))

    def test_ends_of_lines_however_they_are_cut(self):
        given = b"set A1 5\r\n\n\r\nget A1\r\nget A1\r"
        self.assert_however_cut(given, lines("ok 1", "val 5", "val 5"))

    def test_one_more_blank_makes_an_empty_word(self):
        given = [
            (b"get  A1", "err 16 command"),
            (b"get ", "err 1 cell"),
            (b"get", "err 16 command"),
            (b" get A1", "err 16 command"),
            (b"get A1 ", "err 16 command"),
            (b"set A1  5", "ok 1"),
            (b"set B1 =COUNT([.A1])", "ok 2"),
            (b"get B1", "val 0"),
            (b"set A1", "ok 3"),
            (b"get A1", "val "),
            (b"add A1 1 1", "err 16 command"),
            (b"add A1", "err 16 command"),
            (b"set A1 \xff", "err 2 text"),
            (b"GET A1", "err 16 command"),
        ]
        self.assert_however_cut(b"".join(line + b"\n" for line, _ in given), lines(*(reply for _, reply in given)))


class Limits(ProgramTest):
    def test_a_line_at_the_limit_is_read_and_a_longer_one_is_dropped(self):
        longest = b"push [" + b" " * (LONGEST_LINE - len(b"push [")) + b"\n"
        self.assert_session(longest + b"get A1\n", lines("err 14 delta", "val "))
        self.assert_session(b" " + longest + b"get A1\n", lines("err 15 line", "val "))

    def test_nothing_of_a_longer_line_is_carried_out(self):
        longest, longer = "x" * LONGEST_LINE, f"set A1 {'x' * (LONGEST_LINE - 6)}"
        self.assert_session(lines(longest, "get A1"), lines("err 16 command", "val "))
        self.assert_session(lines(longer, "get A1"), lines("err 15 line", "val "))

    def test_a_text_has_up_to_64_bytes_and_an_entry_up_to_512(self):
        self.assert_session(lines(f"set A1 {'x' * 65}", "get A1"), lines("err 2 text", "val "))
        self.assert_session(lines(f"set A1 {'x' * 513}", "get A1"), lines("err 4 too-long", "val "))

    def test_one_replica_chooses_256_times_in_a_cell(self):
        given = lines("set A1 @choice", *["choose A1 0"] * 257)
        self.assert_session(given, lines(*(f"ok {version}" for version in range(1, 258)), "err 11 choice-full"))


class Refusals(ProgramTest):
    def test_a_refused_line_is_answered_and_changes_nothing(self):
        for line, refusal in (
            ("set A0 5", "1 cell"),
            ("set a1 5", "1 cell"),
            ("set CZ1025 5", "1 cell"),
            ("set DA1 5", "1 cell"),
            ("get ", "1 cell"),
            ("rows A1", "1 cell"),
            (f"set A1 {'x' * 65}", "2 text"),
            ("set A1 =bad", "3 formula"),
            (f"set A1 {'1' * 513}", "4 too-long"),
            (f"set A1 ={'1+' * 128}1", "4 too-long"),
            ("add A1 5", "5 not-tally"),
            ("choose A1 5", "6 not-choice"),
            ("add A1 0", "7 amount"),
            ("add A1 1000001", "7 amount"),
            ("add A1 -1", "7 amount"),
            ("choose A1 64", "8 option"),
            ("push []", "14 delta"),
            ('push [["A1",[1,33,"5"],[],[]]]', "14 delta"),
            ("walk A1", "16 command"),
            ("get", "16 command"),
            ("get A1 B1", "16 command"),
            (" get A1", "16 command"),
            ("pull 1", "17 version"),
            ("pull x", "17 version"),
            ("pull 0 17", "17 version"),
        ):
            with self.subTest(line=line[:40]):
                replies = lines(f"err {refusal}", "end 0", "val ", "ok 1")
                self.assert_session(lines(line, "pull 0", "get A1", "set A1 5"), replies)

    def test_an_option_that_is_not_in_cannot_be_taken_out(self):
        self.assert_session(lines("set A1 @choice", "unchoose A1 5"), lines("ok 1", "err 12 not-chosen"))


class Replica(ProgramTest):
    EDITS = lines("set A1 5", "set B1 @tally", "add B1 4", "set C1 @choice", "choose C1 7", "pull 0 16")

    def assert_stamps(self, words, replica):
        """The edits of a session started with these words carry this replica's number."""
        cells = [
            f'["A1",[1,{replica},"5"],[],[]]',
            f'["B1",[1,{replica},"@tally"],[[{replica},4,0]],[]]',
            f'["C1",[1,{replica},"@choice"],[],[[7,{replica},1,0]]]',
        ]
        replies = lines("ok 1", "ok 2", "ok 3", "ok 4", "ok 5", f"delta 5 [{','.join(cells)}]")
        self.assert_session(self.EDITS, replies, *words)

    def test_it_is_1_where_no_number_is_given(self):
        self.assert_stamps([], 1)

    def test_it_is_the_number_that_is_given(self):
        self.assert_stamps(["--replica", "2"], 2)
        self.assert_stamps(["--replica=32"], 32)
        self.assert_stamps(["--workers", "3", "--replica", "2"], 2)

    def test_the_greater_one_of_two_that_wrote_at_one_time_is_shown(self):
        for own, other, shown in ((1, 2, "theirs"), (2, 1, "ours")):
            with self.subTest(own=own):
                given = lines("set A1 ours", f'push [["A1",[1,{other},"\'theirs"],[],[]]]', "get A1")
                version = 2 if own < other else 1
                self.assert_session(given, lines("ok 1", f"ok {version}", f"val {shown}"), "--replica", str(own))


class Workers(ProgramTest):
    def test_their_number_changes_no_reply(self):
        given = lines(*(f"set A{row + 1} =[.A{row}]+1" for row in range(1, 50)), "set A1 1", "get A50", "rows A1:A2")
        replies = lines(*(f"ok {version}" for version in range(1, 51)), "val 50", "rows 2", "1", "2")
        for workers in ("1", "2", "16"):
            with self.subTest(workers=workers):
                self.assert_session(given, replies, "--workers", workers)

    def test_a_wide_level_shows_the_same(self):
        names = [f"{column}{row}" for row in range(2, 802) for column in "ABCDEFGHIJKLMNOPQRSTUVWXYZ"]
        given = lines(*(f"set {name} =[.A1]+{number}" for number, name in enumerate(names)), "set A1 5", "rows A1:Z801")
        empty = "," * 25
        shown = [",".join(str(5 + row * 26 + column) for column in range(26)) for row in range(800)]
        replies = lines(*(f"ok {version}" for version in range(1, 20802)), "rows 801", f"5{empty}", *shown)
        for workers in ("1", "2", "16"):
            with self.subTest(workers=workers):
                self.assert_session(given, replies, "--workers", workers)


class Blocks(ProgramTest):
    """More replies to one block of input than a pipe, and what waits in the program, can hold."""

    def test_200_kb_of_short_replies_are_whole_and_in_order(self):
        texts = [f"{number:064}x"[-64:] for number in range(1, 101)]
        asked = [number % 100 for number in range(3000)]
        given = lines(
            *(f"set A{row} {text}" for row, text in enumerate(texts, 1)), *(f"get A{number + 1}" for number in asked)
        )
        replies = lines(*(f"ok {row}" for row in range(1, 101)), *(f"val {texts[number]}" for number in asked))
        self.assertLess(len(given), 65_536)
        self.assertGreater(len(replies), 200_000)
        self.assert_session(given, replies)
        self.assertEqual(run("run", stdin=self.file_of(given)), Ended(0, replies))

    def test_a_reply_of_100_kb_is_whole_and_in_order(self):
        given = lines("set CZ1024 1", "rows A1:CZ1024", "set A1 2", "rows A1:CZ1024", "get A1")
        empty = "," * (COLUMNS - 1)
        first = ["rows 1024", *[empty] * (ROWS - 1), f"{empty}1"]
        second = ["rows 1024", f"2{empty}", *[empty] * (ROWS - 2), f"{empty}1"]
        replies = lines("ok 1", *first, "ok 2", *second, "val 2")
        self.assertGreater(len(replies), 200_000)
        self.assert_session(given, replies)

    def test_1_mb_of_lines_is_answered_line_by_line(self):
        given = lines(*(f"set A1 {number}" for number in range(1, 80_001)), "get A1")
        self.assertGreater(len(given), 1_000_000)
        self.assert_session(given, lines(*(f"ok {version}" for version in range(1, 80_001)), "val 80000"))
