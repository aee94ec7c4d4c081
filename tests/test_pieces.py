"""Lines at and past their limits, and bytes that are no line, byte by byte: each read finds a single byte."""
from program import ProgramTest, lines
from sizes import LONGEST_DELTA, LONGEST_LINE

DELTA = '[["A1",[1,2,"5"],[],[]]]'
# Two deltas of another replica, which end a cycle and begin another.
CYCLES = (
    '[["B1",[2,2,"4"],[],[]],["D1",[2,2,"=[.C1]"],[],[]]]',
    '[["B1",[3,2,"=[.A1]"],[],[]],["D1",[3,2,"7"],[],[]]]',
)


class Bytewise(ProgramTest):
    def test_a_delta_line_padded_to_the_limit_and_past_it(self):
        given = lines(f"push {DELTA:{LONGEST_DELTA + 1}}", "get A1", f"push {DELTA:{LONGEST_DELTA}}", "get A1")
        self.assert_bytewise(given, lines("err 14 delta", "val ", "ok 1", "val 5"))

    def test_a_line_with_its_carriage_return_at_the_limit_and_past_it(self):
        longest = "x" * (LONGEST_LINE - 1) + "\r"
        given = lines(longest, f"x{longest}", "set A1 5")
        self.assert_bytewise(given, lines("err 16 command", "err 15 line", "ok 1"))

    def test_each_proper_beginning_of_a_delta_line(self):
        for delta in CYCLES:
            with self.subTest(delta=delta):
                beginnings = [f"push {delta[:length]}" for length in range(len(delta))]
                replies = ["err 14 delta"] * len(delta)
                self.assert_bytewise(lines(*beginnings, f"push {delta}"), lines(*replies, "ok 1"))

    def test_200_brackets(self):
        given = lines("push " + "[" * 200, f"push {'[' * 200}{']' * 200}", "push " + '{"a":' * 200, "get A1")
        self.assert_bytewise(given, lines("err 14 delta", "err 14 delta", "err 14 delta", "val "))

    def test_bytes_that_are_not_utf_8(self):
        given = [
            (b'push [["A1",[1,2,"\'\xff"],[],[]]]', "err 14 delta"),
            (b'push [["A1",[1,2,"\'\xc3"],[],[]]]', "err 14 delta"),
            (b'push [["A1",[1,2,"5"],[],[]]]\xff', "err 14 delta"),
            (b'push \xef\xbb\xbf[["A1",[1,2,"5"],[],[]]]', "err 14 delta"),
            (b"set A1 \xff", "err 2 text"),
            (b"set A1 \xed\xa0\x80", "err 2 text"),
            (b"set A1 =\xff", "err 3 formula"),
            (b"set A\xff 5", "err 1 cell"),
            (b"\xff A1", "err 16 command"),
            (b"get\xff A1", "err 16 command"),
            (b"add A1 \xff", "err 7 amount"),
            (b"pull \xff", "err 17 version"),
            (b"get A1", "val "),
            (b"pull 0", "end 0"),
        ]
        self.assert_bytewise(b"".join(line + b"\n" for line, _ in given), lines(*(reply for _, reply in given)))

    def test_deep_formulas(self):
        given = lines(
            f"set A1 ={'(' * 127}1{')' * 127}", "get A1", f"set A1 ={'(' * 128}2{')' * 128}", "get A1",
            f"set B1 ={'-' * 254}1", "get B1", f"set B1 ={'-' * 255}2", "get B1",
        )
        replies = lines("ok 1", "val 1", "err 4 too-long", "val 1", "ok 2", "val 1", "err 4 too-long", "val 1")
        self.assert_bytewise(given, replies)

    def test_deep_formulas_of_a_delta_line(self):
        deep = [f"={'(' * depth}1{')' * depth}" for depth in (127, 128)]
        given = lines(*(f'push [["A1",[{time},2,"{text}"],[],[]]]' for time, text in enumerate(deep, 1)), "get A1")
        self.assert_bytewise(given, lines("ok 1", "err 14 delta", "val 1"))
