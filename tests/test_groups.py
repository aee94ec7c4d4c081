"""How many deltas of long texts a pull joins to one line."""
from program import Ended, ProgramTest, lines, run
from sizes import COLUMNS, LONGEST_DELTA, name

LONG = "=" + "+".join(["[.CZ1024]"] * 25)
# So many cells with that formula take more than half of a line, and less than all of it.
CELLS = 800
# The same in less than a third of a line.
FEWER = 250


class Groups(ProgramTest):
    def assert_pulled(self, deltas, count):
        """A pull of sixteen of these deltas, which are pushed in order, hands out the first so many joined."""
        pushed = "".join(f"push {delta}\n" for delta in deltas).encode()
        ended = run("run", given=pushed + b"pull 0 16\n")
        replies = lines(*(f"ok {version}" for version in range(1, len(deltas) + 1)))
        self.assertEqual(ended, Ended(0, replies + ended.output[len(replies):]))
        reply = ended.output[len(replies):]
        self.assertEqual(reply[:reply.index(b"[")], f"delta {count} ".encode())
        line = reply[reply.index(b"["):-1]
        self.assertLessEqual(len(line), LONGEST_DELTA)
        return line

    def delta(self, first, cells, time, content):
        """A delta of so many cells from one on, each with the content."""
        parts = (f'["{name(k % COLUMNS, k // COLUMNS + 1)}",[{time},2,"{content}"],[],[]]'
                 for k in range(first, first + cells))
        return f"[{','.join(parts)}]"

    def test_other_cells(self):
        """No two fit a line; of the smaller ones three do."""
        self.assert_pulled([self.delta(k * CELLS, CELLS, 1, LONG) for k in range(16)], 1)
        self.assert_pulled([self.delta(k * FEWER, FEWER, 1, LONG) for k in range(16)], 3)

    def test_the_same_cells(self):
        """All fit a line, which is that of the last."""
        last = self.delta(0, CELLS, 16, LONG)
        self.assertEqual(self.assert_pulled([self.delta(0, CELLS, k + 1, LONG) for k in range(16)], 16), last.encode())

    def test_texts_that_are_taken_away(self):
        """The last delta takes away what the ten others have, so all fit a line, though no two to ten do."""
        longer = [self.delta(k * CELLS, CELLS, 1, LONG) for k in range(10)]
        shorter = self.delta(0, 10 * CELLS, 2, "")
        self.assertEqual(self.assert_pulled([*longer, shorter], 11), shorter.encode())

    def test_texts_of_which_some_stay(self):
        """The last delta takes away what eight of the ten others have, but the two left don't fit a line."""
        longer = [self.delta(k * CELLS, CELLS, 1, LONG) for k in range(10)]
        shorter = self.delta(0, 8 * CELLS, 2, "")
        self.assert_pulled([*longer, shorter], 1)
