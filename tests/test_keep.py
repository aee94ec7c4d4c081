"""`run --keep FILE`: what the file has, what a start makes of it, and what it refuses."""
import contextlib
import errno
import os
import shutil
import socket
import stat
import subprocess

import peers
from keeping import KeepingTest, replies_to, text_of, without_rights
from preloaded import PROGRAM, before, build
from program import LIMIT, Ended, lines, run, started, unusable

EDITS = (
    "set A1 5", "set B1 =[.A1]*2", "set A2 it's \"tea\", \\n", "set A3 äöü 漢字", "set C1 @tally", "add C1 7",
    "sub C1 2", "set D1 @choice", "choose D1 3", "choose D1 63", "unchoose D1 3", "set A2 ", "set E1 =SUM([.A1:.C1])",
)
PUSHES = (
    """push [["A1",[9,2,"'theirs"],[],[]],["F1",[1,2,"=[.A1]"],[],[]]]""",
    'push  [["G1", null, [[3,5,1]], []]]',
    'push [["C1",null,[[2,4,0],[32,1,1]],[]]]',
)
# Lines that change nothing.
OTHERS = (
    "get A1", "rows A1:B2", "entry B1", "pull 0 16", "walk", "get A0", "set A1 =bad", "add A1 1", "push []", "",
    "replica", PUSHES[0],
)
ALL_LINES = (*EDITS, *PUSHES, *OTHERS, *(line for pair in zip(EDITS, OTHERS) for line in pair))
LOOKS = ("rows A1:G3", "entries A1:G3", "get C1", "pull 0 16")
FIRST, SECOND = 'push [["A1",[1,1,"5"],[],[]]]\n', 'push [["B1",[1,1,"6"],[],[]]]\n'


class Keeps(KeepingTest):
    def test_the_file_has_the_number_and_each_change_in_order(self):
        self.assert_kept(lines(*ALL_LINES), replies_to(*ALL_LINES), text_of(*ALL_LINES))

    def test_the_file_is_a_script_of_the_sheet(self):
        self.run_kept(lines(*ALL_LINES))
        content = self.file.read_bytes()
        shown = replies_to(*content.decode().split("\n")[:-1], *LOOKS)
        self.assertEqual(run("run", given=content + lines(*LOOKS)), Ended(0, shown))
        # with any number
        given = content + b"rows A1:G3\n"
        self.assertEqual(run("run", "--replica", "7", given=given).output, b"replica 7\n" + replies_to(
            *given.decode().split("\n")[1:-1], replica=7))

    def test_it_is_made_where_there_is_none_and_where_it_is_empty(self):
        self.assert_kept(b"", b"", text_of())
        self.file.write_bytes(b"")
        self.assert_kept(b"", b"", text_of())

    def test_questions_and_refused_lines_keep_nothing(self):
        self.assert_kept(lines(*OTHERS[:-1]), replies_to(*OTHERS[:-1]), text_of())

    def test_it_goes_on_where_it_was(self):
        for count in range(0, len(ALL_LINES) + 1, 7):
            with self.subTest(count=count):
                self.file.unlink(missing_ok=True)
                first, second = ALL_LINES[:count], (*ALL_LINES[count:], *LOOKS)
                self.run_kept(lines(*first))
                replies = replies_to(*first, *second)[len(replies_to(*first)):]
                opened = text_of(*first).count(b"\npush ")
                self.assert_kept(lines(*second), replies, text_of(*ALL_LINES), opened)

    def test_each_edit_by_itself(self):
        for count, line in enumerate(EDITS):
            replies = replies_to(*EDITS[:count + 1])[len(replies_to(*EDITS[:count])):]
            self.assert_kept(lines(line), replies, text_of(*EDITS[:count + 1]), count)

    def test_its_replica(self):
        words, content = ("--replica", "32"), text_of(*EDITS, replica=32)
        self.assert_kept(lines(*EDITS), replies_to(*EDITS, replica=32), content, 0, *words)
        self.assert_kept(b"replica\n", b"replica 32\n", content, len(EDITS), *words)

    def test_with_several_workers(self):
        self.assert_kept(lines(*ALL_LINES), replies_to(*ALL_LINES), text_of(*ALL_LINES), 0, "--workers", "16")

    def test_a_last_line_without_line_feed(self):
        self.assert_kept(b"set A1 5", b"ok 1\n", text_of("set A1 5"))

    def test_a_long_delta(self):
        text = "x" * 60
        cells = ",".join(f'["{column}{row}",[1,2,"\'{text}"],[],[]]' for row in range(1, 90) for column in "ABCDEFGH")
        long = f"push [{cells}]"
        self.assert_kept(lines(long, "set A1 5"), replies_to(long, "set A1 5"), text_of(long, "set A1 5"))
        self.assert_kept(b"get A1\n", b"val 5\n", text_of(long, "set A1 5"), 2)

    def test_a_peer_that_waits_has_its_reply(self):
        with peers.on_pipes("run", "--keep", str(self.file)) as peer:
            for version in range(1, 50):
                self.assertEqual(peer.ask(f"set A1 {version}"), f"ok {version}")
                self.assertEqual(self.count_in_file(), version)
                self.assertEqual(peer.ask("get A1"), f"val {version}")
            peer.stop_sending()
            self.assertEqual(peer.ended(), Ended(0, b"", self.opened(0)))

    def test_lines_in_another_spelling_are_read_and_stay(self):
        content = b'replica 1\npush [ ["A\\u0031", [1, 1, "5"], [], []] ]\r\n'
        self.file.write_bytes(content)
        self.assert_kept(b"get A1\n", b"val 5\n", content, 1)

    def test_a_file_whose_lines_were_squashed_is_opened_again(self):
        self.run_kept(lines(*ALL_LINES))
        first, _, rest = self.file.read_bytes().partition(b"\n")
        small = run("squash", given=rest)
        self.assertEqual((small.status, small.output.count(b"\n")), (0, 1))
        self.file.write_bytes(first + b"\n" + small.output)
        shown = replies_to(*ALL_LINES, *LOOKS[:3])[len(replies_to(*ALL_LINES)):]
        self.assert_kept(lines(*LOOKS[:3]), shown, first + b"\n" + small.output, 1)


class Meanwhile(KeepingTest):
    """Another program keeps the same file while this one starts."""

    @contextlib.contextmanager
    def halted(self, call):
        """A program that has halted at this call of `halt.c`, and what has it go on and gives how it ends."""
        library = build("halt.c", self.place / "halt.so")
        ours, theirs = socket.socketpair()
        with ours, theirs:
            env = before(library, HALT_CALL=call, HALT_FILE=str(theirs.fileno()), HALT_SKIP="0")
            files = {"stdin": subprocess.PIPE, "stdout": subprocess.PIPE}
            words = ("run", "--keep", str(self.file))
            with started(*words, program=PROGRAM, env=env, pass_fds=[theirs.fileno()], **files) as session:
                theirs.close()
                ours.settimeout(LIMIT)
                self.assertEqual(ours.recv(1), call.encode())

                def ended(given):
                    ours.send(b"!")
                    output, error = session.communicate(given, timeout=LIMIT)
                    return Ended(session.returncode, output, error)

                yield ended

    def test_what_another_one_wrote_before_the_lock_was_had_is_read(self):
        given = ("set A1 5", "set A1 6", "get A1", "set A1 7")
        self.run_kept(lines(given[0]))
        with self.halted("l") as ended:
            self.assert_kept(lines(given[1]), b"ok 2\n", text_of(*given[:2]), 1)
            self.assertEqual(ended(lines(*given[2:])), Ended(0, b"val 6\nok 3\n", self.opened(2)))
        self.assertEqual(self.lines_kept(), text_of(*given))

    def test_a_file_that_another_one_has_just_made_is_read(self):
        given = ("set A1 5", "get A1", "set A1 6")
        with self.halted("o") as ended:
            self.assert_kept(lines(given[0]), b"ok 1\n", text_of(given[0]))
            self.assertEqual(ended(lines(*given[1:])), Ended(0, b"val 5\nok 2\n", self.opened(1)))
        self.assertEqual(self.lines_kept(), text_of(*given))


    def test_a_file_that_was_replaced_before_the_lock_was_had_is_refused(self):
        """What would be written to it would be lost."""
        given = ("set A1 5", "set A1 6")
        self.run_kept(lines(*given))
        with self.halted("l") as ended:
            self.assertEqual(run("squash", "--keep", str(self.file)).status, 0)
            small = self.file.read_bytes()
            self.assertEqual(ended(b"set A1 7\n"),
                             Ended(1, b"", unusable(self.file, "it was removed meanwhile")))
        self.assertEqual(self.file.read_bytes(), small)
        self.assertEqual(self.run_kept(b"set A1 7\n"), Ended(0, b"ok 2\n", self.opened(1)))


class Elsewhere(KeepingTest):
    def assert_told(self, *given, told=b"", opened=0, replica=1, words=()):
        """These lines have their replies, and standard error has this once the file was opened."""
        ended = self.run_kept(lines(*given), "--replica", str(replica), *words)
        before = replies_to(*self.before, replica=replica)
        replies = replies_to(*self.before, *given, replica=replica)[len(before):]
        self.assertEqual(ended, Ended(0, replies, self.opened(opened) + told))

    def setUp(self):
        super().setUp()
        self.before = ()

    def test_each_kind_of_change_of_its_own_replica(self):
        for part in ('[1,1,"5"],[],[]', "null,[[1,0,3]],[]", "null,[],[[7,1,1,0]]",
                     '[9,1,"@tally"],[[1,2,0]],[[0,1,1,0]]', "null,[],[[7,1,1,1]]", '[2,2,"5"],[[1,0,3]],[]',
                     '[1,1,"5"],[[2,1,1]],[[7,2,1,0]]', "null,[[1,1,0],[2,1,0]],[]", "null,[],[[7,1,1,0],[7,2,1,1]]"):
            with self.subTest(part=part):
                self.file.unlink(missing_ok=True)
                self.assert_told(f'push [["B2",{part}]]', "rows A1:B2", told=self.warned())

    def test_it_is_told_once_and_at_once(self):
        with peers.on_pipes("run", "--keep", str(self.file)) as peer:
            self.assertEqual(peer.ask("set A1 5"), "ok 1")
            for version in range(2, 5):
                self.assertEqual(peer.ask(f'push [["A1",[{version},1,"7"],[],[]]]'), f"ok {version}")
                if version == 2:
                    told = self.opened(0) + self.warned()
                    self.assertEqual(os.read(peer.session.stderr.fileno(), 4096), told)
            peer.stop_sending()
            self.assertEqual(peer.ended(), Ended(0, b"", b""))

    def test_what_it_has_already_is_not_told(self):
        own = ("set A1 5", "set A1 6", "set B1 @tally", "add B1 3", "set C1 @choice", "choose C1 7", "unchoose C1 7")
        deltas = ('["A1",[1,1,"9"],[],[]]', '["A1",[2,1,"6"],[],[]]', '["B1",null,[[1,3,0]],[]]',
                  '["B1",null,[[1,1,0]],[]]', '["C1",null,[],[[7,1,1,0]]]', '["C1",null,[],[[7,1,1,1]]]')
        pushes = tuple(f"push [{delta}]" for delta in deltas)
        self.assert_told(*own, *pushes, "pull 0 16", "rows A1:C1")
        # .. nor at the next start, at which the file has all of it
        self.before = own
        self.assert_told(*pushes, opened=len(own))
        # .. nor amid new changes of others
        others = 'push [["A1",[2,1,"5"],[[2,4,0]],[]],["B1",[5,2,"@tally"],[[1,3,0],[2,1,0]],[]]]'
        self.assert_told(others, "rows A1:B1", opened=len(own))

    def test_changes_of_others_are_not_told(self):
        # (the option is taken out by the other one, which has the pair of this one)
        self.assert_told("set C1 @choice", "choose C1 7", *PUSHES, 'push [["C1",null,[],[[7,1,1,1]]]]', "get C1")
        # a line that joins what this one has with changes of another, as each group of a pull may
        self.before = ("set C1 @choice", "choose C1 7", *PUSHES, 'push [["C1",null,[],[[7,1,1,1]]]]')
        both = 'push [["C1",[1,1,"@choice"],[],[]],["E5",[1,2,"3"],[],[]]]'
        self.assert_told(both, "get E5", opened=len(self.before))

    def test_a_new_part_of_its_own_amid_changes_of_others(self):
        own = ("set C1 @choice", "choose C1 7")
        self.assert_told(*own)
        self.before = own
        others = '["A1",[1,2,"3"],[[3,1,0]],[]],["B1",[1,1,"5"],[],[]],["D1",null,[],[[7,2,1,0]]]'
        self.assert_told(f"push [{others}]", "rows A1:D1", told=self.warned(), opened=len(self.before))

    def test_by_its_number(self):
        push = 'push [["A1",[1,{0},"5"],[[{0},1,0]],[[0,{0},1,0]]]]'
        for own in (1, 7, 32):
            self.file.unlink(missing_ok=True)
            others = [push.format(other) for other in range(1, 33) if other != own]
            self.assert_told(*others, replica=own)
            self.before = (*others,)
            self.assert_told(push.format(own), told=self.warned(own), opened=len(others), replica=own)
            self.before = ()

    def test_beside_hints_and_where_it_is_strict(self):
        given = lines("walk", 'push [["A1",[1,1,"5"],[],[]]]', "set A2 1.5")
        ended = self.run_kept(given, "--explain", "--strict")
        self.assertEqual((ended.status, ended.output), (3, b"err 16 command\nok 1\nok 2\n"))
        first, walk, warned, text, last = ended.error.splitlines(keepends=True)
        self.assertEqual((first, warned, last), (self.opened(0), self.warned(), b"refused lines: 1\n"))
        self.assertTrue(walk.startswith(b"line 1: ") and text.startswith(b"line 3: "))

    def test_a_sheet_that_is_not_kept(self):
        for line in ('push [["A1",[1,1,"5"],[],[]]]', 'push [["A1",null,[[1,5,0]],[]]]'):
            self.assertEqual(run("run", given=lines(line)), Ended(0, b"ok 1\n"))


class Refuses(KeepingTest):
    def test_a_file_of_another_replica(self):
        for own, words, other in ((3, (), 1), (1, ("--replica", "3"), 3), (32, ("--replica", "31"), 31)):
            for given in ((), EDITS):
                with self.subTest(own=own, other=other, given=len(given)):
                    told = lines("err 9 replica", f"{self.file} is of replica {own}")
                    self.assert_untouched(Ended(3, b"", told), text_of(*given, replica=own), *words)

    def test_a_line_that_is_no_push_of_a_delta(self):
        first, whole = b"replica 1\n", text_of(*EDITS)
        rows = whole.splitlines(keepends=True)
        for faulty in (b"set A1 5", b"", b"push", b"push ", b"push []", b"pull 0", b"replica 1", b"replica", b"ok 1",
                       b"\xff", rows[1].strip(), b'[["A1",[1,1,"5"],[],[]]]', b' push [["Z9",[1,1,"5"],[],[]]]',
                       b'push [["Z9",[1,33,"5"],[],[]]]'):
            for place in (2, 3, len(rows), len(rows) + 1):
                with self.subTest(faulty=faulty, place=place):
                    content = b"".join([*rows[:place - 1], faulty + b"\n", *rows[place - 1:]])
                    if place == 2 and faulty == rows[1].strip():
                        # (the second of the same lines is the one that brings nothing)
                        continue
                    told = lines("err 14 delta", f"line {place} of {self.file}")
                    self.assert_untouched(Ended(3, b"", told), content)
        self.assertEqual(rows[0], first)

    def test_a_first_line_that_tells_no_replica(self):
        for first in (b"replica 0", b"replica 33", b"replica 01", b"replica", b"replica x", b"replica 1 1", b" replica 1", b"",
                      b"hello", FIRST.strip().encode(), b"\xff\xfe"):
            for rest in (b"", FIRST.encode()):
                with self.subTest(first=first, rest=rest):
                    told = lines("err 14 delta", f"line 1 of {self.file}: it is no kept sheet")
                    self.assert_untouched(Ended(3, b"", told), first + b"\n" + rest)

    def test_a_file_without_a_line_that_is_no_beginning_of_the_first(self):
        for content in (b"hello", b"replica 3", b"replica 1\r", b"\0" * 100, b"push [["):
            with self.subTest(content=content):
                told = lines("err 14 delta", f"line 1 of {self.file}: it is no kept sheet")
                self.assert_untouched(Ended(3, b"", told), content)

    def test_a_file_that_another_program_keeps(self):
        with peers.on_pipes("run", "--keep", str(self.file)) as peer:
            self.assertEqual(peer.ask("set A1 5"), "ok 1")
            content = self.file.read_bytes()
            told = lines("err 20 device", f"{self.file} is kept by another program")
            for words in (("run",), ("serve", "--port", "1", "--sessions", "1")):
                ended = run(*words, "--keep", str(self.file), given=b"set A1 6\n")
                self.assertEqual(ended, Ended(1, b"", told))
            self.assertEqual(self.file.read_bytes(), content)
            self.assertEqual(peer.ask("set A1 7"), "ok 2")
            # the lock ends with the program
            peer.session.kill()
            peer.session.wait(timeout=LIMIT)
            self.assert_kept(b"get A1\n", b"val 7\n", text_of("set A1 5", "set A1 7"), 2)

    def test_what_is_no_file(self):
        (self.place / "folder").mkdir()
        os.mkfifo(self.place / "pipe")
        (self.place / "dangling").symlink_to(self.place / "nothing" / "there")
        other = "it is no regular file"
        for path, reason in (("folder", errno.EISDIR), ("pipe", other), ("dangling", errno.ENOENT),
                             ("none/plan.lines", errno.ENOENT), ("", errno.ENOENT), ("/dev/null", other),
                             ("/dev/zero", other), ("x" * 300, errno.ENAMETOOLONG)):
            with self.subTest(path=path):
                self.file = self.place / path if path else ""
                self.assertEqual(self.run_kept(b"set A1 5\n"), Ended(1, b"", unusable(self.file, reason)))
        self.assertFalse((self.place / "nothing").exists())

    def test_what_may_not_be_written(self):
        # (by the program at a place that anybody may read)
        self.place.chmod(0o755)
        program = shutil.copy(PROGRAM, self.place / "sheet")
        self.run_kept(lines(*EDITS))
        content = self.file.read_bytes()
        self.file.chmod(stat.S_IRUSR | stat.S_IRGRP | stat.S_IROTH)
        words = [program, "run", "--keep", str(self.file)]
        ran = subprocess.run(words, input=b"get A1\n", capture_output=True, timeout=LIMIT, **without_rights())
        self.assertEqual(Ended(ran.returncode, ran.stdout, ran.stderr),
                         Ended(1, b"", unusable(self.file, errno.EACCES)))
        self.assertEqual(self.file.read_bytes(), content)

    def test_other_commands_keep_nothing(self):
        for words in (("table",), ("sync", "--from", "1", "--to", "2"), ("join", "--from", "1", "--to", "2"),
                      ("follow", "--from", "1"), ("talk", "--to", "1")):
            with self.subTest(words=words):
                self.assertEqual(run(*words, "--keep", str(self.file)).status, 2)
        self.assertEqual(run("run", "--keep").status, 2)
        self.assertEqual(run("run", "--keep", str(self.file), "--keep", str(self.file)).status, 2)
        self.assertFalse(self.file.exists())

    def test_the_help_tells_of_it(self):
        for command in ("run", "serve"):
            self.assertIn(b"--keep <", run(command, "--help").output)


class Torn(KeepingTest):
    def test_a_file_that_is_cut_at_any_byte(self):
        given = ("set A1 5", "set A2 äö", "push [[\"B1\",[1,2,\"=[.A1]\"],[],[]]]", "set A3 x")
        content = text_of(*given)
        ends = [place for place in range(len(content) + 1) if content[:place].endswith(b"\n")]
        for cut in range(len(content) + 1):
            with self.subTest(cut=cut):
                self.file.write_bytes(content[:cut])
                count = max(0, sum(end <= cut for end in ends) - 1)
                # the number of changes goes on, and what comes next is a line of its own
                whole = (*given[:count], "set C1 7")
                shown = replies_to(*whole, "rows A1:C3")[len(replies_to(*given[:count])):]
                self.assert_kept(lines("set C1 7", "rows A1:C3"), shown, text_of(*whole), count)

    def test_what_a_start_left_is_read_the_same(self):
        content = text_of(*EDITS)
        self.file.write_bytes(content + b"push [[\"A1\",[7")
        for _ in range(3):
            self.assert_kept(b"get C1\n", b"val 5\n", content, len(EDITS))

    def test_a_torn_end_that_is_long_or_no_text(self):
        for torn in (b"x" * 1_000_000, b"\0" * 5_000, b"\xff", b"push " + b"[" * 300_000, b"replica 1"):
            with self.subTest(torn=torn[:10]):
                self.file.write_bytes(text_of(*EDITS) + torn)
                self.assert_kept(b"", b"", text_of(*EDITS), len(EDITS))

    def test_a_whole_last_line_stays(self):
        self.file.write_bytes(text_of(*EDITS))
        self.assert_kept(b"", b"", text_of(*EDITS), len(EDITS))
