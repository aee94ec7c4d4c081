"""`sheet squash`: many delta lines in, the few that say the same out.

What the lines hold together, and the text of each line, comes from the plain model of `hunt/deltas.py`.
"""
import contextlib
import errno
import functools
import os
import random
import resource
import signal
import stat
import subprocess
import time

import peers
import preloaded
from hunt.deltas import State, delta_line, joined_deltas, read_delta
from preloaded import PROGRAM
from program import DEVICE_FAILED, LIMIT, Ended, ProgramTest, lines, run, started, unusable
from sizes import COLUMNS, LONGEST_DELTA, LONGEST_LINE, name, pushes

SEED = 39
# A squash of 100,000 lines takes some two seconds of a machine that has nothing else to do.
LONGEST = 40
REFUSED = b"err 14 delta\nline %d\n"
LONG = "=" + "+".join(["[.CZ1024]"] * 25)
# Lines of a kept file that say nothing of its sheet. (The second one's digits are a number, too, and the last one's are
# that of a replica.)
DIGESTS = (b"replica 0123456789abcdef", b"replica 9876543210987654", b"replica 0000000000000003")


def grouped(state):
    """The lines that push a joined state, in order: to each is added what still fits it."""
    line, size = {}, 1
    for cell in sorted(state):
        # without a bracket, and with what comes after it
        more = len(delta_line({cell: state[cell]})) - 1
        if line and size + more > LONGEST_DELTA:
            yield line
            line, size = {}, 1
        line[cell] = state[cell]
        size += more
    if line:
        yield line


def squashed(*texts):
    """What `squash` is to write for these delta lines."""
    state = joined_deltas([read_delta(text) for text in texts])
    return b"".join(b"push " + delta_line(line) + b"\n" for line in grouped(state))


def without(replica, delta):
    """The delta without what this replica assigned, counted and chose."""
    kept = {}
    for cell, state in delta.items():
        register = () if state.register and state.register[1] == replica else state.register
        counts = {other: count for other, count in state.counts.items() if other != replica}
        pairs = {pair: mark for pair, mark in state.pairs.items() if pair[1] != replica}
        if register or counts or pairs:
            kept[cell] = State(register, counts, pairs)
    return kept


def in_part(texts, until=None, replica=None):
    """How `squash` is to end with these options, for these delta lines."""
    deltas, told = [read_delta(text) for text in texts], []
    if until is not None:
        told.append(f"squash: left out {max(len(texts) - until, 0)} of {len(texts)} lines")
        deltas = deltas[:until]
    if replica is not None:
        rest = [without(replica, delta) for delta in deltas]
        lost = {cell for delta, kept in zip(deltas, rest) for cell in delta if delta[cell] != kept.get(cell)}
        told.append(f"squash: left out parts of {len(lost)} cells")
        deltas = rest
    text = b"".join(b"push " + delta_line(line) + b"\n" for line in grouped(joined_deltas(deltas)))
    return Ended(0, text, lines(*told))


def chosen(replicas, sequences, options):
    """The line of a set with so many pairs of each replica."""
    pairs = ",".join(f"[{option},{replica},{sequence},{(option + sequence) % 2}]" for option in range(options)
                     for replica in range(1, replicas + 1) for sequence in range(1, sequences + 1))
    return f'[["B2",[1,4,"@choice"],[],[{pairs}]]]'.encode()


class Squash(ProgramTest):
    def assert_squashed(self, given, wanted):
        """`./sheet squash` writes this for these bytes, and for that the same again."""
        self.assertEqual(run("squash", given=given), Ended(0, wanted))
        self.assertEqual(run("squash", given=wanted), Ended(0, wanted))

    def made(self, chance, replica, edits):
        """The lines that an own session of this replica makes by edits, by chance, of a few cells."""
        given = ["set A1 @tally", "set B2 @choice", "set C1 5"]
        for _ in range(edits):
            cell = chance.choice(("A1", "A1", "B2", "B2", "C1", "D5", "CZ1024"))
            given.append(chance.choice((
                f"set {cell} {chance.randrange(90)}", f"set {cell} it's", f"set {cell} =[.C1]+1", f"set {cell} @tally",
                f"set {cell} @choice", f"add {cell} 3", f"sub {cell} 1", f"add {cell} 2", f"choose {cell} 7",
                f"choose {cell} {chance.randrange(64)}", f"unchoose {cell} 7", f"set {cell} ")))
        asked = [f"pull {number} {chance.choice((1, 1, 3))}" for number in range(edits + 3)]
        ended = run("run", "--replica", str(replica), given=lines(*given, *asked))
        return [reply.split(b" ", 2)[2] for reply in ended.output.split(b"\n") if reply.startswith(b"delta ")]

    def test_the_lines_that_edits_make(self):
        """By chance, of three replicas, mixed, some twice, some with blanks, with `push` and without."""
        for round in range(4):
            chance = random.Random(f"{SEED}/{round}")
            texts = [text for replica in (1, 2, 9) for text in self.made(chance, replica, 40)]
            chance.shuffle(texts)
            texts += texts[:30]
            given = b"".join(chance.choice((b"", b"push ")) + text.replace(b",", chance.choice((b",", b" , "))) + end
                             for text in texts for end in (chance.choice((b"\n", b"\r\n", b"\n\n", b"\n\r\n")),))
            small = squashed(*texts)
            self.assert_squashed(given, small)
            pushed = b"".join(b"push " + text + b"\n" for text in texts)
            looks = lines("rows A1:CZ1024", "entries A1:CZ1024", "choose B2 9", "unchoose B2 7", "add A1 2", "sub A1 9",
                          "set C1 3", "rows A1:CZ1024", "entries A1:CZ1024")
            shown = [run("run", "--replica", "2", given=those + looks).output.split(b"rows ", 1)[1]
                     for those in (pushed, small)]
            # (the numbers of changes differ)
            self.assertEqual(*[[line for line in text.split(b"\n") if not line.startswith(b"ok ")] for text in shown])

    def test_parts_that_only_joins_keep(self):
        """What each replica counted, a pair that is removed, and the greater of two contents, of any two lines."""
        self.assert_squashed(
            lines('[["A1",[1,2,"@tally"],[[1,5,0]],[]]]', 'push [["A1",[1,1,"@tally"],[[1,3,2],[4,1,0]],[]]]',
                  '[["B1",null,[],[[7,1,1,0],[8,1,2,0]]]]', 'push [["B1",null,[],[[7,1,1,1]]]]',
                  '[["C1",[2,1,"6"],[],[]]]', 'push [["C1",[1,9,"5"],[],[]]]'),
            lines('push [["A1",[1,2,"@tally"],[[1,5,2],[4,1,0]],[]],["B1",null,[],[[7,1,1,1],[8,1,2,0]]],'
                  '["C1",[2,1,"6"],[],[]]]'))

    def test_the_first_line_of_a_kept_file(self):
        """It stays, and the lines after it are squashed as without it, though there are none."""
        given = lines('push [["A1",[1,1,"5"],[],[]]]', '[["B1",[1,2,"7"],[],[]]]', 'push [["A1",[2,1,"6"],[],[]]]')
        small = lines('push [["A1",[2,1,"6"],[],[]],["B1",[1,2,"7"],[],[]]]')
        for replica in (1, 3, 9, 10, 29, 32):
            first = b"replica %d\n" % replica
            with self.subTest(replica=replica):
                self.assert_squashed(first + given, first + small)
                self.assert_squashed(first.replace(b"\n", b"\r\n") + given, first + small)
                for empty in (b"", b"\n", b"\r\n\n"):
                    self.assert_squashed(first + empty, first)
                self.assert_squashed(first[:-1], first)

    def test_a_replica_anywhere_else(self):
        """Which of two lines would hold isn't known: it is refused as any line that is none of a delta."""
        good = b'push [["A1",[1,1,"5"],[],[]]]\n'
        for before in (b"replica 1\n", b"replica 2\n", good, b"\n", b"\r\n", DIGESTS[0] + b"\n"):
            for after in (b"", good):
                with self.subTest(before=before, after=after):
                    self.assertEqual(run("squash", given=before + b"replica 1\n" + after),
                                     Ended(3, b"", REFUSED % 2))
        self.assertEqual(run("squash", given=b"replica 1\n" + good * 15 + b"replica 1"), Ended(3, b"", REFUSED % 17))
        self.assertEqual(run("squash", given=b"replica 1\nx\n"), Ended(3, b"", REFUSED % 2))

    def test_a_first_line_that_tells_no_replica(self):
        """Only what a kept file begins with is taken."""
        for faulty in (b"replica", b"replica ", b"replica 0", b"replica 33", b"replica 03", b"replica 3 ",
                       b"replica  3", b" replica 3", b"replica 3\r", b"Replica 3", b"replica +3", b"replica 3 4",
                       b"replica 320", b"replica x", b"push replica 3", b"replica 3" + b" " * LONGEST_LINE):
            with self.subTest(faulty=faulty[:40]):
                self.assertEqual(run("squash", given=faulty + b"\r\n" + b'push [["A1",[1,1,"5"],[],[]]]\n'),
                                 Ended(3, b"", REFUSED % 1))

    def test_digests_are_passed_over(self):
        """Wherever they stand, with a carriage return or at the end without a line feed; none is written."""
        given = lines('push [["A1",[1,1,"5"],[],[]]]', '[["B1",[1,2,"7"],[],[]]]', 'push [["A1",[2,1,"6"],[],[]]]')
        small = lines('push [["A1",[2,1,"6"],[],[]],["B1",[1,2,"7"],[],[]]]')
        for digest in DIGESTS:
            for end in (b"\n", b"\r\n", b"\n" + DIGESTS[0] + b"\n", b"\n\n"):
                with self.subTest(digest=digest, end=end):
                    between = b"".join(line + b"\n" + digest + end for line in given.splitlines())
                    self.assert_squashed(between, small)
                    self.assert_squashed(digest + end + between, small)
                    self.assert_squashed(b"replica 3\n" + digest + end + between, b"replica 3\n" + small)
                    self.assert_squashed(b"replica 3\n" + given + digest, b"replica 3\n" + small)
                    self.assert_squashed(b"replica 3\n" + digest + end, b"replica 3\n")
                    self.assert_squashed(digest + end, b"")

    def test_lines_are_counted_with_digests(self):
        """The number of a refused line is that in the input."""
        good = b'push [["A1",[1,1,"5"],[],[]]]\n'
        for digest in DIGESTS:
            given = b"replica 1\n" + (good + digest + b"\n") * 8
            with self.subTest(digest=digest):
                for faulty in (b"x", b"replica 1", b"push " + digest):
                    self.assertEqual(run("squash", given=given + faulty + b"\n" + good), Ended(3, b"", REFUSED % 18))

    def test_what_is_no_digest(self):
        """Other digits, or not just sixteen, or another blank: the line is no delta's."""
        good = b'push [["A1",[1,1,"5"],[],[]]]\n'
        for faulty in (b"replica 0123456789abcde", b"replica 0123456789abcdef0", b"replica 0123456789ABCDEF",
                       b"replica 0123456789abcdeF", b"replica 0123456789abcdeg", b"replica 0123456789abcde:",
                       b"replica 0123456789abcde`", b"replica /123456789abcdef", b"replica  0123456789abcdef",
                       b"replica 0123456789abcdef ", b" replica 0123456789abcdef", b"replica 0123456789abcdef\r",
                       b"Replica 0123456789abcdef", b"replica0123456789abcdef", b"replica 0123456789abcdef 1"):
            with self.subTest(faulty=faulty):
                self.assertEqual(run("squash", given=good + faulty + b"\r\n" + good), Ended(3, b"", REFUSED % 2))

    def test_a_kept_sheet(self):
        """Squashed between two runs it is a shorter file of the same replica, with the same sheet."""
        path = self.folder() / "plan.lines"
        looks = lines("replica", "rows A1:C9", "entries A1:C9")
        edits = lines("set A1 @tally", *["add A1 2"] * 40, *[f"set B{k % 9 + 1} {k}" for k in range(60)])
        shown = run("run", "--replica", "7", "--keep", str(path), given=edits + looks).output.split(b"replica ", 1)[1]
        for _ in range(2):
            small = run("squash", given=path.read_bytes())
            self.assertEqual((small.status, small.output.count(b"\n")), (0, 2))
            self.assertTrue(small.output.startswith(b"replica 7\n"))
            path.write_bytes(small.output)
            again = run("run", "--replica", "7", "--keep", str(path), given=looks)
            self.assertEqual((again.status, again.output.split(b"replica ", 1)[1]), (0, shown))

    def test_lines_of_several_replicas(self):
        """With `push` and without, a counter of two, a pair that is removed, a later content; worked by hand."""
        given = (b'[["A1",[1,2,"@tally"],[[1,5,0]],[]]]\r\n\npush [["A1",null,[[1,3,2],[4,1,0]],[]]]\n'
                 b'[["B1",null,[],[[7,1,1,0]]]]\npush [["B1",null,[],[[7,1,1,1]]],["C1",[2,1,"6"],[],[]]]\n'
                 b'[["C1",[1,9,"5"],[],[]]]')
        due = (b'push [["A1",[1,2,"@tally"],[[1,5,2],[4,1,0]],[]],["B1",null,[],[[7,1,1,1]]],'
               b'["C1",[2,1,"6"],[],[]]]\n')
        self.assert_squashed(given, due)

    def test_nothing_says_nothing(self):
        for given in (b"", b"\n", b"\r\n\n", b"\r"):
            with self.subTest(given=given):
                self.assertEqual(run("squash", given=given), Ended(0))

    def test_a_faulty_line_is_named(self):
        """Whatever is wrong with it, and though what comes before and after it is well; nothing is written."""
        good = b'push [["A1",[1,1,"5"],[],[]]]\n'
        for faulty in (b"set A1 5", b"push", b"push ", b"push []", b" push [[\"A1\",[1,1,\"5\"],[],[]]]", b"[]", b"x",
                       b'[["A1",[1,33,"5"],[],[]]]', b'[["A1",null,[],[]]]', b'push push [["A1",[1,1,"5"],[],[]]]',
                       b"[" + b" " * LONGEST_LINE, b"[" + b" " * (LONGEST_DELTA + 1), b"\xff", b"pull 0"):
            for before, after in ((0, 0), (16, 3), (1, 1)):
                with self.subTest(faulty=faulty[:40], before=before):
                    ended = run("squash", given=good * before + faulty + b"\n" + good * after)
                    self.assertEqual(ended, Ended(3, b"", REFUSED % (before + 1)))
        empty = run("squash", given=b"\n" * 16 + b"x\n")
        self.assertEqual(empty, Ended(3, b"", REFUSED % 17))

    def test_a_torn_last_line(self):
        """It is whole where only its line feed is missing; else it is refused like any other."""
        given = b'push [["A1",[1,1,"5"],[],[]]]\npush [["A1",[2,1,"6"],[],[]]]\n'
        wanted = b'push [["A1",[2,1,"6"],[],[]]]\n'
        for cut in range(given.index(b"\n") + 2, len(given) + 1):
            with self.subTest(cut=cut):
                whole = cut >= len(given) - 1
                self.assertEqual(run("squash", given=given[:cut]),
                                 Ended(0, wanted) if whole else Ended(3, b"", REFUSED % 2))

    def test_lines_are_as_full_as_they_can_be(self):
        """Of cells with long formulas, of sets with many pairs, and of cells that fill a line to the byte."""
        wide = [line.removeprefix("push ").encode() for line in pushes(lambda column, row: LONG, range(1, 25))]
        small = squashed(*wide)
        self.assert_squashed(b"".join(line + b"\n" for line in wide), small)
        # (one line of all would be as long as these together, without their brackets)
        self.assertEqual(small.count(b"\n"), -(-sum(map(len, wide)) // LONGEST_DELTA))
        fitting = [f'[["{name(k % COLUMNS, k // COLUMNS + 1)}",[1,1,"{k}"],[],[]]]'.encode() for k in range(9000)]
        self.assert_squashed(b"\n".join(fitting), squashed(*fitting))
        self.assert_squashed(chosen(32, 256, 1) + b"\n" + fitting[0], squashed(chosen(32, 256, 1), fitting[0]))

    def test_a_line_that_is_full_to_the_byte(self):
        """The last cell that has room in a line, and the same where its text is one byte longer."""
        for more, count in ((0, 1), (1, 2)):
            cells, size, k = [], 1, 0
            while LONGEST_DELTA - size > 1000:
                text = f'["{name(k % COLUMNS, k // COLUMNS + 1)}",[1,1,"{LONG}"],[],[]]'
                cells.append(f"[{text}]".encode())
                size += len(text) + 1
                k += 1
            # cells with texts of some bytes, until what is left is the room of one more
            while LONGEST_DELTA - size > 90:
                text = f'["{name(k % COLUMNS, k // COLUMNS + 1)}",[1,1,"\'x"],[],[]]'
                cells.append(f"[{text}]".encode())
                size += len(text) + 1
                k += 1
            last = f'["{name(k % COLUMNS, k // COLUMNS + 1)}",[1,1,"\'"],[],[]]'
            filled = LONGEST_DELTA - size - len(last) - 1 + more
            cells.append(f"[{last}]".replace("'", "'" + "y" * filled).encode())
            small = squashed(*cells)
            self.assertEqual(small.count(b"\n"), count)
            self.assert_squashed(b"\n".join(cells), small)

    def test_a_cell_that_no_line_has_room_for(self):
        """A set with four options for each sequence, which no replica makes."""
        given = b"".join(chosen(32, 256, 1).replace(b"[0,", b"[%d," % option) + b"\n" for option in range(4))
        self.assertEqual(run("squash", given=given), Ended(3, b"", b"err 4 too-long\n"))

    def test_a_hundred_thousand_lines(self):
        """Of five hundred cells; in reasonable time."""
        texts = [f'[["{name(k % 50, k // 50 % 10 + 1)}",[{k + 1},{k % 32 + 1},"{k}"],[],[]]]'.encode()
                 for k in range(100_000)]
        wanted = squashed(*texts[-500:])
        begin = time.monotonic()
        self.assertEqual(run("squash", given=b"".join(b"push " + text + b"\n" for text in texts)), Ended(0, wanted))
        self.assertLess(time.monotonic() - begin, LONGEST)


class InPart(ProgramTest):
    """`squash --until N` and `--without R`: what they take, and what they say is lost."""

    FIRST, HOSTILE = '[["A1",[1,1,"5"],[],[]]]', '[["A1",[9007199254740991,7,"\'gone"],[],[]]]'

    def assert_in_part(self, given, texts, **asked):
        """`squash` with these options takes that part of these delta lines."""
        words = [word for name, option in (("until", "--until"), ("replica", "--without")) if name in asked
                 for word in (option, str(asked[name]))]
        self.assertEqual(run("squash", *words, given=given), in_part(texts, **asked))

    def test_the_lines_that_edits_make(self):
        """By chance, of three replicas, mixed: the first lines, those of two replicas, and both."""
        chance = random.Random(SEED)
        texts = [text for replica in (1, 2, 9) for text in Squash.made(self, chance, replica, 40)]
        chance.shuffle(texts)
        # (what is no change line isn't counted)
        given = b"".join(chance.choice((b"", b"\n")) + b"push " + text + b"\n" for text in texts)
        for until in (1, 2, len(texts) // 2, len(texts) - 1, len(texts), len(texts) + 1, 1_000_000_000):
            with self.subTest(until=until):
                self.assert_in_part(given, texts, until=until)
        for replica in (1, 2, 3, 9):
            with self.subTest(replica=replica):
                self.assert_in_part(given, texts, replica=replica)
                self.assert_in_part(given, texts, until=len(texts) // 2, replica=replica)

    def test_a_cell_is_usable_again(self):
        """A line set it to its last time: before that line, and without that replica, it can be set."""
        given = lines(*[f"push {text}" for text in (self.FIRST, self.HOSTILE, '[["B1",[1,1,"6"],[],[]]]')])
        looks = lines("rows A1:B1", "set A1 8")
        for words, shown in ((("--until", "1"), b"5,"), (("--without", "7"), b"5,6")):
            with self.subTest(words=words):
                small = run("squash", *words, given=given).output
                self.assertEqual(run("run", given=small + looks).output.split(b"\n", 1)[1],
                                 b"rows 1\n" + shown + b"\nok 2\n")

    def test_what_only_joins_keep(self):
        """Of the counts and pairs of one line those of the others stay, and who took a pair out isn't known."""
        text = '[["A1",[1,2,"@tally"],[[1,5,0],[2,3,1]],[[7,1,1,1],[7,2,1,0],[8,2,2,1]]],["B1",[3,2,"6"],[],[]]]'
        self.assertEqual(run("squash", "--without", "2", given=text.encode()),
                         Ended(0, lines('push [["A1",null,[[1,5,0]],[[7,1,1,1]]]]'), lines("squash: left out parts of 2 cells")))
        self.assertEqual(run("squash", "--without", "1", given=b'[["B1",[3,1,"6"],[],[]]]'),
                         Ended(0, b"", lines("squash: left out parts of 1 cells")))

    def test_the_first_line_of_a_kept_file(self):
        """It stays, whichever replica is left out, and is no change line."""
        given = lines("replica 7", f"push {self.HOSTILE}", f"push {self.FIRST}")
        self.assertEqual(run("squash", "--until", "1", given=given),
                         Ended(0, lines("replica 7", f"push {self.HOSTILE}"), lines("squash: left out 1 of 2 lines")))
        self.assertEqual(run("squash", "--without", "7", given=given),
                         Ended(0, lines("replica 7", f"push {self.FIRST}"), lines("squash: left out parts of 1 cells")))

    def test_digests_are_no_change_lines(self):
        """`--until` doesn't count them."""
        digest = DIGESTS[0].decode()
        given = lines("replica 7", digest, f"push {self.HOSTILE}", digest, digest, f"push {self.FIRST}", digest)
        self.assertEqual(run("squash", "--until", "1", given=given),
                         Ended(0, lines("replica 7", f"push {self.HOSTILE}"), lines("squash: left out 1 of 2 lines")))
        self.assertEqual(run("squash", "--without", "7", given=given),
                         Ended(0, lines("replica 7", f"push {self.FIRST}"), lines("squash: left out parts of 1 cells")))

    def test_a_faulty_line_after_them(self):
        """It is refused by its number all the same."""
        self.assertEqual(run("squash", "--until", "1", given=lines(f"push {self.FIRST}", "push []")),
                         Ended(3, b"", REFUSED % 2))

    def test_a_file_in_its_place(self):
        """Both are refused with status 2, and the file stays."""
        file = self.folder() / "plan.lines"
        content = lines("replica 1", f"push {self.FIRST}", f"push {self.HOSTILE}")
        file.write_bytes(content)
        for words in (("--until", "1"), ("--without", "7"), ("--until", "1", "--without", "7")):
            with self.subTest(words=words):
                ended = run("squash", "--keep", str(file), *words)
                self.assertEqual((ended.status, ended.output, file.read_bytes()), (2, b"", content))
                self.assertIn(b"write a new file", ended.error)


# What is beside a kept file while it is squashed.
UNFINISHED = ".squashing"
EDITS = ("set A1 @tally", *["add A1 2"] * 40, "set B2 @choice", "choose B2 7", "unchoose B2 7", "choose B2 9",
         *[f"set C{k % 9 + 1} {k}" for k in range(60)], "set D1 =SUM([.C1:.C9])", "set D2 it's \"tea\", \\n")
LOOKS = lines("replica", "rows A1:D9", "entries A1:D9")


class InPlace(ProgramTest):
    """`squash --keep FILE`."""

    def setUp(self):
        self.place = self.folder()
        self.file = self.place / "plan.lines"

    def keep(self, given, *words):
        """What `run --keep` replies to these lines, and tells."""
        ended = run("run", "--keep", str(self.file), *words, given=given)
        self.assertEqual(ended.status, 0)
        return ended.output, ended.error

    def shown(self, replica=1):
        """What the kept sheet shows and holds."""
        return self.keep(LOOKS, "--replica", str(replica))[0]

    def squash(self, **how):
        """How `squash --keep` ends."""
        files = {"stdin": subprocess.DEVNULL, "stdout": subprocess.PIPE}
        with started("squash", "--keep", str(self.file), **files, **how) as session:
            output, error = session.communicate(timeout=LIMIT)
            return Ended(session.returncode, output, error)

    def told(self, before, after):
        """That the file's changes became so many."""
        return Ended(0, b"", lines(f"squashed {self.file}, {before} changes to {after}"))

    def assert_alone(self):
        """Nothing is beside the file."""
        self.assertEqual([path.name for path in self.place.iterdir()], [self.file.name])

    def assert_untouched(self, content, ended):
        """A file of these bytes isn't squashed, and stays as it was."""
        self.file.write_bytes(content)
        before = self.file.stat()
        self.assertEqual(self.squash(), ended)
        self.assertEqual(self.file.read_bytes(), content)
        self.assertEqual((self.file.stat().st_ino, self.file.stat().st_mtime_ns), (before.st_ino, before.st_mtime_ns))
        self.assert_alone()

    def test_the_sheet_is_the_same_in_fewer_changes(self):
        """As much as the pipe makes of the file, and once more nothing changes."""
        for replica in (1, 32):
            self.file.unlink(missing_ok=True)
            self.keep(lines(*EDITS), "--replica", str(replica))
            content, shown = self.file.read_bytes(), self.shown(replica)
            self.assertEqual(self.squash(), self.told(len(EDITS), 1))
            small = self.file.read_bytes()
            self.assertEqual(Ended(0, small), run("squash", given=content))
            self.assertEqual(small.split(b"\n", 1)[0], b"replica %d" % replica)
            self.assertEqual(self.shown(replica), shown)
            self.assert_untouched(small, self.told(1, 1))

    def test_a_sheet_goes_on_with_it(self):
        """Edits after it are as if it hadn't been."""
        more = lines("add A1 3", "choose B2 8", "unchoose B2 9", "set C1 7", "set D2 new")
        self.keep(lines(*EDITS))
        content = self.file.read_bytes()
        self.keep(more)
        shown = self.shown()
        self.file.write_bytes(content)
        self.squash()
        self.keep(more)
        self.assertEqual(self.shown(), shown)

    def test_others_changes_stay(self):
        """What several replicas made, pushed in any spelling."""
        self.keep(lines(*EDITS))
        theirs = [text for replica in (2, 9) for text in Squash.made(self, random.Random(SEED), replica, 20)]
        self.keep(b"".join(b"push %s\n" % text.replace(b",", b" , ") for text in theirs))
        shown = self.shown()
        self.assertEqual(self.squash().status, 0)
        self.assertEqual(self.shown(), shown)

    def test_a_torn_end_is_cut_off(self):
        """As a start does."""
        self.keep(lines("set A1 5", "set A2 6"))
        content = self.file.read_bytes()
        self.file.write_bytes(content + b'push [["A3",[1,1,')
        self.assertEqual(self.squash(), self.told(2, 1))
        self.assertEqual(self.file.read_bytes(), run("squash", given=content).output)

    def test_a_file_without_changes(self):
        for content in (b"", b"replica 1\n", b"replica 9\n"):
            self.assert_untouched(content, self.told(0, 0))

    def test_what_a_start_refuses(self):
        """By the first line that is wrong; the file stays, to the byte."""
        first, push = b"replica 1\n", b'push [["A1",[1,1,"5"],[],[]]]\n'
        for content, number in (
                (b"hello", 1), (push, 1), (b"\n" + first + push, 1), (b"replica 33\n", 1), (b"replica 1\r\n" + push, 1),
                (first + push + push, 3), (first + push + b"\n" + push, 3), (first + first, 2), (first + b"set A1 5\n", 2),
                (first + push[5:], 2), (first + push + b"push [[\n", 3),
                # (which a start takes, and no law says that it is read as the line without it)
                (first + push[:-1] + b"\r\n", 2)):
            with self.subTest(content=content):
                none = ": it is no kept sheet" if number == 1 else ""
                self.assert_untouched(content, Ended(3, b"", lines("err 14 delta", f"line {number} of {self.file}{none}")))

    def test_what_is_no_file(self):
        self.assertEqual(self.squash(), Ended(1, b"", unusable(self.file, errno.ENOENT)))
        self.assertEqual(list(self.place.iterdir()), [])
        self.file.mkdir()
        self.assertEqual(self.squash(), Ended(1, b"", unusable(self.file, errno.EISDIR)))
        self.assertEqual(list(self.file.iterdir()), [])

    def test_a_file_that_another_program_keeps(self):
        """It is refused by name; once the other one has ended it is squashed."""
        files = {"stdin": subprocess.PIPE, "stdout": subprocess.PIPE}
        with started("run", "--keep", str(self.file), **files) as session:
            peer = peers.Peer(session, session.stdin.fileno(), session.stdout.fileno())
            for number in (1, 2, 3):
                self.assertEqual(peer.ask(f"set A1 {number}"), f"ok {number}")
            content = self.file.read_bytes()
            busy = Ended(1, b"", DEVICE_FAILED + lines(f"{self.file} is kept by another program"))
            self.assertEqual(self.squash(), busy)
            self.assertEqual(self.file.read_bytes(), content)
            self.assert_alone()
            self.assertEqual(peer.ask("set A1 4"), "ok 4")
            session.stdin.close()
            session.stdin = None
            session.wait(LIMIT)
        self.assertEqual(self.squash(), self.told(4, 1))

    def test_its_rights_and_its_link_stay(self):
        """The new file has the old one's rights, and a link to it stays a link."""
        self.keep(lines("set A1 5", "set A1 6"))
        self.file.chmod(0o640)
        target = self.place / "other"
        self.file.rename(target)
        self.file.symlink_to(target.name)
        self.assertEqual(self.squash(), self.told(2, 1))
        self.assertTrue(self.file.is_symlink())
        self.assertEqual(stat.S_IMODE(target.stat().st_mode), 0o640)
        self.assertEqual(target.read_bytes(), b'replica 1\npush [["A1",[2,1,"6"],[],[]]]\n')
        self.assertEqual(len(list(self.place.iterdir())), 2)

    def test_its_owner_stays(self):
        """Also where the system's manager squashes it."""
        self.keep(lines("set A1 5", "set A1 6"))
        owner = 65_534 if os.geteuid() == 0 else os.geteuid()
        os.chown(self.file, owner, -1)
        self.assertEqual(self.squash(), self.told(2, 1))
        self.assertEqual(self.file.stat().st_uid, owner)

    def test_a_disk_that_is_full(self):
        """The file stays, and nothing is left beside it."""
        self.keep(lines(*(f"set A{row} {'x' * 60}" for row in range(1, 200)), "set A1 5"))
        content = self.file.read_bytes()

        def limit():
            signal.signal(signal.SIGXFSZ, signal.SIG_IGN)
            resource.setrlimit(resource.RLIMIT_FSIZE, (5000, 5000))

        self.assertEqual(self.squash(preexec_fn=limit), Ended(1, b"", unusable(self.file, errno.EFBIG)))
        self.assertEqual(self.file.read_bytes(), content)
        self.assert_alone()

    @functools.cached_property
    def library(self):
        """The library of `syncs.c`."""
        return preloaded.build("syncs.c", self.folder() / "syncs.so")

    @contextlib.contextmanager
    def noting(self, fails=0):
        """How a program is started whose sync of this number fails, and what it has noted: its syncs and renames."""
        with open(os.memfd_create("notes"), "r+b") as notes:
            told = {"SYNCS_NOTES": str(notes.fileno()), "SYNCS_FAIL": str(fails)}
            how = {"program": PROGRAM, "env": preloaded.before(self.library, **told), "pass_fds": [notes.fileno()]}
            yield how, lambda: os.pread(notes.fileno(), 4_096, 0).decode().splitlines()

    def test_the_new_file_is_synced_before_its_rename_and_the_folder_after_it(self):
        """Each once, the file with all its bytes and rights. Before both comes the sync of a folder at any start."""
        self.keep(lines(*EDITS))
        content = self.file.read_bytes()
        small = run("squash", given=content).output
        for target in (self.file, self.folder() / "other"):
            with self.subTest(target=target.name), self.noting() as (how, noted):
                if target != self.file:
                    self.file.unlink()
                    self.file.symlink_to(target)
                target.write_bytes(content)
                target.chmod(0o640)
                self.assertEqual(self.squash(**how), self.told(len(EDITS), 1))
                self.assertEqual(target.read_bytes(), small)
                new = target.stat().st_ino
                self.assertEqual(noted(), [
                    f"folder {self.place.stat().st_ino}", f"file {new} {len(small)} 640", f"rename {new}",
                    f"folder {target.parent.stat().st_ino}",
                ])

    def test_a_sync_that_fails(self):
        """Before the rename the old file stays, after it the new one is there. It is reported either way."""
        self.keep(lines(*EDITS))
        content = self.file.read_bytes()
        small, calls = run("squash", given=content).output, ["folder", "file", "rename", "folder"]
        for fails, made, stands in ((1, 1, content), (2, 2, content), (3, 4, small)):
            with self.subTest(fails=fails), self.noting(fails) as (how, noted):
                self.file.write_bytes(content)
                before = self.file.stat().st_ino
                self.assertEqual(self.squash(**how), Ended(1, b"", unusable(self.file, errno.EIO)))
                self.assertEqual([it.split()[0] for it in noted()], calls[:made])
                self.assertEqual((self.file.read_bytes(), self.file.stat().st_ino == before), (stands, stands == content))
                self.assert_alone()
                # the next one finishes it
                self.assertEqual(self.squash(), self.told(1 if stands == small else len(EDITS), 1))
                self.assertEqual(self.file.read_bytes(), small)

    def test_a_sync_that_fails_at_a_start(self):
        """With `--squash`. What the squash couldn't sync the start does, or it is refused."""
        self.keep(lines(*EDITS))
        content, shown = self.file.read_bytes(), self.shown()
        small = run("squash", given=content).output
        squashed, begun = ["folder", "file", "rename", "folder"], ["folder", "file"]
        for fails, calls, changes in (
            (0, squashed + begun, 1), (1, squashed[:1] + begun, len(EDITS)), (2, squashed[:2] + begun, len(EDITS)),
            (3, squashed + begun, 1), (4, squashed + begun[:1], None), (5, squashed + begun, None),
        ):
            with self.subTest(fails=fails), self.noting(fails) as (how, noted):
                self.file.write_bytes(content)
                files = {"stdin": self.file_of(LOOKS), "stdout": subprocess.PIPE}
                with started("run", "--keep", str(self.file), "--squash", **files, **how) as session:
                    output, error = session.communicate(timeout=LIMIT)
                due = Ended(1, b"", unusable(self.file, errno.EIO)) if changes is None else Ended(
                    0, shown, lines(f"opened {self.file}, {changes} changes"))
                self.assertEqual(Ended(session.returncode, output, error), due)
                self.assertEqual([it.split()[0] for it in noted()], calls)
                self.assertEqual(self.file.read_bytes(), content if changes == len(EDITS) else small)
                self.assert_alone()

    def test_killed_at_any_moment(self):
        """The file is the old one or the new one, whole; what an earlier one left is replaced."""
        pushes = b"".join(b'push [["%s",[%d,1,"%d"],[],[]]]\n' % (name(k % 50, k // 50 % 10 + 1).encode(), k + 1, k)
                          for k in range(8_000))
        old = b"replica 1\n" + pushes
        new = run("squash", given=old).output
        chance = random.Random(SEED)
        self.file.write_bytes(old)
        begin = time.monotonic()
        self.assertEqual(self.squash(), self.told(8_000, 1))
        longest = time.monotonic() - begin
        words, found = ("squash", "--keep", str(self.file)), []
        for _ in range(30):
            self.file.write_bytes(old)
            with started(*words, stdin=subprocess.DEVNULL, stdout=subprocess.DEVNULL) as session:
                time.sleep(chance.random() * longest * 1.1)
                if session.poll() is None:
                    os.killpg(session.pid, signal.SIGKILL)
            found.append(self.file.read_bytes())
            self.assertIn(found[-1], (old, new))
            beside = {path.name for path in self.place.iterdir()} - {self.file.name}
            self.assertLessEqual(beside, {self.file.name + UNFINISHED})
        self.assertIn(old, found)
        # a piece that an earlier one left
        (self.place / (self.file.name + UNFINISHED)).write_bytes(old * 2)
        self.file.write_bytes(old)
        self.assertEqual(self.squash(), self.told(8_000, 1))
        self.assertEqual(self.file.read_bytes(), new)
        self.assert_alone()

    def test_squashed_at_the_start(self):
        """With `--squash`, where that makes the file at most half as long."""
        edits = lines(*EDITS)
        self.keep(edits)
        shown = self.shown()
        replies, told = self.keep(LOOKS, "--squash")
        self.assertEqual((replies, told), (shown, lines(f"opened {self.file}, 1 changes")))
        self.assertEqual(self.file.read_bytes().count(b"\n"), 2)
        self.assert_alone()
        # two of three changes stay, so it isn't half as long
        self.file.unlink()
        self.keep(lines("set A1 5", "set B1 6", "set A1 7"))
        content = self.file.read_bytes()
        self.assertEqual(self.keep(b"get A1\n", "--squash"), (b"val 7\n", lines(f"opened {self.file}, 3 changes")))
        self.assertEqual(self.file.read_bytes(), content)
        # .. and where there is none yet
        self.file.unlink()
        self.assertEqual(self.keep(b"", "--squash"), (b"", lines(f"opened {self.file}, 0 changes")))

    def test_a_way_back(self):
        """The first lines of a kept file are the sheet as it was then, whatever was pushed after them."""
        self.keep(lines(*EDITS))
        shown, count = self.shown(), self.file.read_bytes().count(b"\n")
        self.keep(lines('push [["A1",[1000000000,9,"0"],[],[]],["C1",[1000000000,9,"0"],[],[]]]', "add A1 7"))
        self.assertNotEqual(self.shown(), shown)
        ended = subprocess.run(["head", "-n", str(count), self.file], stdout=subprocess.PIPE, check=True, timeout=LIMIT)
        self.file.write_bytes(ended.stdout)
        self.assertEqual(self.shown(), shown)
        self.assertEqual(self.squash(), self.told(len(EDITS), 1))
        self.assertEqual(self.shown(), shown)

    def test_a_start_that_is_refused_squashes_nothing(self):
        """Of another replica, and with a line that may not stand there."""
        self.keep(lines(*EDITS), "--replica", "3")
        content = self.file.read_bytes()
        for words, more in ((("--replica", "2"), b""), (("--replica", "3"), b"x\n")):
            self.file.write_bytes(content + more)
            self.assertEqual(run("run", "--keep", str(self.file), "--squash", *words).status, 3)
            self.assertEqual(self.file.read_bytes(), content + more)
