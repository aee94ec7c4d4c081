"""Damage to a kept file: what was changed or lost in it is seen at the next start, by its digest lines."""
import random

import peers
from hunt import kept
from keeping import KeepingTest, replies_to, text_of
from program import Ended, lines, run

EDITS = (
    *(f"set A{row} {row * 7}" for row in range(1, 9)), "set B1 =SUM([.A1:.A8])", "set C1 @tally", "add C1 7", "sub C1 2",
    "set D1 @choice", "choose D1 3", "choose D1 63", "unchoose D1 3", "set B2 it's \"tea\"", "set A1 70", "set B1 =[.A1]*2",
    *(f"set E{row} text {row}" for row in range(1, 9)), "add C1 100", "set A2 @tally", "add A2 1",
    # formulas in chains, of ranges, with each fault, and numbers at the edges
    *(f"set F{row} =[.A{row}]*{row}-[.F{row + 1}]" for row in range(1, 9)), "set F9 11", "set F10 =MOD(1;0)",
    "set F11 =[.E2]+1", "set F12 =[.F13]", "set F13 =[.F12]", "set A9 9223372036854775807", "set A10 =[.A9]+1",
    "set A11 -9223372036854775808", "set A12 =IF([.A1]>[.A3];COUNT([.A1:.E8]);MAX([.C1:.C2]))",
    *(f"set C{row} =SUM([.A1:.A{row}])" for row in range(3, 9)), *(f"set D{row} =[.C{row}]-[.F1]" for row in range(3, 9)),
    # texts of each kind, and cells that are cleared and set again
    *(f"set E{row} {text}" for row, text in enumerate(("'11", "'=1", "a,b", "äöü 日本", "x" * 64, "\\ 1", "1.5"), 9)),
    "set E9 ", "set E1 ", "set E1 1", "set F2 ", "set E16 first", "set E16 second", "set E16 @tally", "set E16 ",
    # counters, and sets with several options
    "set C2 @tally", *(f"{verb} C2 {amount}" for amount in (1, 12, 1000000) for verb in ("add", "sub", "add")),
    "set D2 @choice", *(f"choose D2 {option}" for option in (0, 1, 10, 21, 63)), "unchoose D2 10", "choose D2 10",
    # what other replicas made: a later content, parts of a counter and of a set, and several cells at once
    'push [["A3",[90,2,"17"],[],[]]]', 'push [["C1",null,[[2,41,1]],[]]]', 'push [["D1",null,[],[[7,31,1,0],[63,1,1,1]]]]',
    'merge [["C2",[1,9,"@tally"],[[9,12,3]],[]],["B3",[1,9,"=[.C1]"],[],[]],["B4",[2,9,"\'1"],[],[]]]', "set A3 21",
    "sub C1 1", "unchoose D1 63", "set B3 over", *(f"set B{row} =-[.D{row}]" for row in range(5, 9)),
)
LOOKS = ("rows A1:F16", "entries A1:F16", "get CZ1024")
SEED = 714
# So many changes the file has at least.
CHANGES = 100


class Damaged(KeepingTest):
    """A file of edits: some waited for their replies, and some came at once."""

    def setUp(self):
        super().setUp()
        half = len(EDITS) // 2
        with peers.on_pipes("run", "--keep", str(self.file)) as peer:
            for line in EDITS[:half]:
                peer.ask(line)
            peer.stop_sending()
            self.assertEqual(peer.ended().status, 0)
        self.assertEqual(self.run_kept(lines(*EDITS[half:])).status, 0)
        self.content = self.file.read_bytes()
        self.shown = replies_to(*EDITS, *LOOKS)[len(replies_to(*EDITS)):]
        self.chance = random.Random(SEED)

    def assert_seen(self, content, **case):
        """A start on these bytes is refused and leaves them, or shows what there was. Returns whether it is refused."""
        self.file.write_bytes(content)
        ended = self.run_kept(lines(*LOOKS))
        with self.subTest(**case):
            if ended.status == 0:
                self.assertEqual(ended.output, self.shown)
                return False
            self.assertEqual((ended.status, ended.output), (3, b""))
            self.assertEqual(self.file.read_bytes(), content)
            return True

    def test_each_sync_writes_one_digest_line(self):
        self.assertEqual(kept.without_digests(self.content), text_of(*EDITS))
        self.assertGreaterEqual(kept.changes_in(self.content), CHANGES)
        digests = self.content.count(b"\n") - text_of(*EDITS).count(b"\n")
        # the first line, each edit that waited, and those that came at once
        self.assertEqual(digests, 1 + len(EDITS) // 2 + 1)
        self.assertFalse(self.assert_seen(self.content))

    def test_a_single_edit_writes_at_most_40_bytes_more(self):
        for line in ("set A1 5", "set A1 6", "add C1 1"):
            before, kept_before = len(self.file.read_bytes()), len(self.lines_kept())
            self.assertEqual(self.run_kept(lines(line)).status, 0)
            self.assertLessEqual(len(self.file.read_bytes()) - before - (len(self.lines_kept()) - kept_before), 40)

    def test_a_flipped_bit(self):
        refused = 0
        for _ in range(600):
            content = bytearray(self.content)
            place, bit = self.chance.randrange(len(content)), self.chance.randrange(8)
            content[place] ^= 1 << bit
            refused += self.assert_seen(bytes(content), place=place, bit=bit)
        self.assertGreater(refused, 590)

    def test_another_byte(self):
        refused = 0
        for _ in range(600):
            content = bytearray(self.content)
            place = self.chance.randrange(len(content))
            content[place] = (content[place] + self.chance.randrange(1, 256)) % 256
            refused += self.assert_seen(bytes(content), place=place)
        self.assertGreater(refused, 590)

    def rows(self):
        """The lines of the file, with their line feeds."""
        return self.content.splitlines(keepends=True)

    def test_a_missing_line(self):
        for place in range(len(self.rows())):
            rows = self.rows()
            del rows[place]
            is_refused = self.assert_seen(b"".join(rows), place=place)
            # without the last line the lines of the last sync have no digest
            self.assertEqual(is_refused, place < len(rows), place)

    def test_lines_that_changed_places(self):
        for _ in range(200):
            rows = self.rows()
            one, two = self.chance.sample(range(len(rows)), 2)
            rows[one], rows[two] = rows[two], rows[one]
            self.assertTrue(self.assert_seen(b"".join(rows), one=one, two=two))

    def test_a_doubled_line(self):
        for place in range(len(self.rows())):
            rows = self.rows()
            rows.insert(place, rows[place])
            self.assertTrue(self.assert_seen(b"".join(rows), place=place))

    def test_a_lost_last_line_feed_and_a_lost_end(self):
        """As after a crash: the last sync's lines stand without a digest, and the next sync writes one over them."""
        for count in range(1, len(self.rows()[-1]) + 1):
            self.assertFalse(self.assert_seen(self.content[:-count], count=count))
            self.assertEqual(self.run_kept(b"set A8 1\n").status, 0)
            self.assertEqual(self.lines_kept(), text_of(*EDITS, "set A8 1"))

    def test_it_says_at_which_line(self):
        """That of the first digest line which isn't due, counted in the file."""
        rows = self.rows()
        for place, row in enumerate(rows[:-1]):
            if row.startswith(b"push"):
                number = next(later for later in range(place, len(rows)) if rows[later].startswith(b"replica ")) + 1
                content = b"".join([*rows[:place], row.replace(b"1", b"2", 1), *rows[place + 1:]])
                self.file.write_bytes(content)
                self.assertEqual(self.run_kept(), Ended(3, b"", self.damaged(number)))

    def test_another_faulty_line_has_its_number_in_the_file(self):
        for faulty in (b"walk", b"push []", b"replica 2", b""):
            content = self.content + faulty + b"\n"
            self.file.write_bytes(content)
            told = lines("err 14 delta", f"line {content.count(bytes([10]))} of {self.file}")
            self.assertEqual(self.run_kept(), Ended(3, b"", told))

    def test_a_file_without_digests_gets_them_from_the_next_sync_on(self):
        self.file.write_bytes(text_of(*EDITS))
        self.assertEqual(self.run_kept(lines(*LOOKS)), Ended(0, self.shown, self.opened(len(replies_to(*EDITS).split(b"\n")) - 1)))
        self.assertEqual(self.file.read_bytes(), text_of(*EDITS))
        self.run_kept(b"set A8 1\n")
        content = self.file.read_bytes()
        self.assertTrue(content.startswith(text_of(*EDITS, "set A8 1") + b"replica "))
        self.assertEqual(kept.without_digests(content), text_of(*EDITS, "set A8 1"))
        # .. which cover what was there before
        self.content, self.shown = content, replies_to(*EDITS, "set A8 1", *LOOKS)[len(replies_to(*EDITS, "set A8 1")):]
        content = content.replace(b'"A3",[1,1,"21"]', b'"A3",[1,1,"22"]')
        self.assertTrue(self.assert_seen(content))

    def test_a_session_takes_its_lines(self):
        ended = run("run", "--strict", given=self.content + lines(*LOOKS))
        self.assertEqual(ended.status, 0, ended.output)
        self.assertTrue(ended.output.endswith(self.shown))

    def test_a_squash_of_it(self):
        small = run("squash", given=self.content)
        self.assertEqual(small, run("squash", given=text_of(*EDITS)))
        self.assertEqual(run("squash", "--keep", str(self.file)).status, 0)
        self.assertEqual(self.lines_kept(), small.output)

    def test_a_squash_of_a_damaged_file_is_refused(self):
        content = self.content.replace(b'"A3",[1,1,"21"]', b'"A3",[1,1,"22"]')
        self.file.write_bytes(content)
        number = content[:content.index(b"\nreplica", content.index(b'"A3"')) + 1].count(b"\n") + 1
        self.assertEqual(run("squash", "--keep", str(self.file)), Ended(3, b"", self.damaged(number)))
        self.assertEqual(self.file.read_bytes(), content)
