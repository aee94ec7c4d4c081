"""Standard input, output and error that are closed when the program starts: no file and no connection takes their
places."""
import itertools
import os
import subprocess

from hunt import kept
from program import DEVICE_FAILED, LIMIT, SHEET, Ended, ProgramTest, lines, run
from servers import Client, free_port, page_of, serving
from test_sync import FakePeer

STREAMS = {0: "input", 1: "output", 2: "error"}
EACH = [closed for count in range(len(STREAMS) + 1) for closed in itertools.combinations(STREAMS, count)]
LINE = b"set A1 5\n"
PUSHED = b'push [["A1",[1,1,"5"],[],[]]]\n'
# A kept file that a squash makes much shorter, and what it makes of it.
LONG = b"replica 1\n" + b"".join(b'push [["A1",[%d,1,"%d"],[],[]]]\n' % (number, number) for number in range(1, 5))
SHORT = b'replica 1\npush [["A1",[4,1,"4"],[],[]]]\n'
# A change of another replica.
THEIRS = '[["B1",[1,3,"6"],[],[]]]'


def opened(words, closed, stdin=subprocess.PIPE):
    """The program under way with these words and these streams closed."""
    return subprocess.Popen([SHEET, *words], stdin=stdin, stdout=subprocess.PIPE, stderr=subprocess.PIPE,
                            preexec_fn=lambda: [os.close(stream) for stream in closed])


class Closed(ProgramTest):
    def ended(self, closed, *words, given=LINE, stdin=subprocess.PIPE):
        """How the program ended with these words and these streams closed. The input is `given`, or a file."""
        with opened(words, closed, stdin) as session:
            output, error = session.communicate(given if stdin == subprocess.PIPE else None, timeout=LIMIT)
            self.assertTrue(1 not in closed or output == b"", output)
            self.assertTrue(2 not in closed or error == b"", error)
            return Ended(session.returncode, output, error)

    def assert_ended(self, closed, status, error, *words, given=b"", output=b"", stdin=subprocess.PIPE):
        """The program ends so. If this output can't be written, it ends with 1, and standard error has that, too."""
        if output and 1 in closed:
            status, output, error = 1, b"", error + DEVICE_FAILED
        due = Ended(status, output, b"" if 2 in closed else error)
        self.assertEqual(self.ended(closed, *words, given=given, stdin=stdin), due)

    def each(self):
        """Each combination of closed streams, as a subtest."""
        for closed in EACH:
            with self.subTest(closed=[STREAMS[stream] for stream in closed]):
                yield closed

    def assert_ends(self, closed, *words, given, written):
        """The program writes this, and ends well; or with 1 where it can't write it; and without input it is at its end."""
        status, output, _ = self.ended(closed, *words, given=given)
        due = b"" if 0 in closed and given else written
        self.assertEqual((status, output), (1, b"") if due and 1 in closed else (0, due))

    def test_run(self):
        for closed in self.each():
            self.assert_ends(closed, "run", given=LINE, written=b"ok 1\n")

    def test_run_of_a_kept_sheet(self):
        for closed in self.each():
            file = self.folder() / "kept.lines"
            self.assert_ends(closed, "run", "--keep", str(file), given=LINE, written=b"ok 1\n")
            content = b"replica 1\n" + (b"" if 0 in closed else PUSHED)
            self.assertEqual(kept.without_digests(file.read_bytes()), content)
            # and the next start takes it
            self.assertEqual(run("run", "--keep", str(file)).status, 0)

    def test_table_and_squash(self):
        for closed in self.each():
            self.assert_ends(closed, "table", given=b"2,=[.A1]*3\n", written=b"2,6\n")
            self.assert_ends(closed, "squash", given=PUSHED, written=PUSHED)

    def files(self, content):
        """Each combination of closed streams, with a file of these bytes that is alone in its folder."""
        for closed in self.each():
            file = self.folder() / "kept.lines"
            file.write_bytes(content)
            yield closed, file
            self.assertEqual(list(file.parent.iterdir()), [file])

    def test_squash_of_a_kept_sheet(self):
        for closed, file in self.files(LONG):
            words = ("squash", "--keep", str(file))
            self.assert_ended(closed, 0, lines(f"squashed {file}, 4 changes to 1"), *words)
            self.assertEqual(file.read_bytes(), SHORT)
            self.assert_ended(closed, 0, lines(f"squashed {file}, 1 changes to 1"), *words)
            self.assertEqual(file.read_bytes(), SHORT)

    def test_squash_of_a_kept_sheet_that_is_refused(self):
        """What is said of the file doesn't get into it."""
        damaged = LONG + b"replica 0123456789abcdef\n"
        for content, said in ((b"walk\n" + LONG, "line 1 of {}: it is no kept sheet"), (LONG + b"walk\n", "line 6 of {}"),
                              (damaged, "line 6 of {}: it is not the digest of the lines before it. No line is known to be "
                                        'whole: see docs/USING.md, "A damaged file"')):
            for closed, file in self.files(content):
                error = lines("err 14 delta", said.format(file))
                self.assert_ended(closed, 3, error, "squash", "--keep", str(file))
                self.assertEqual(file.read_bytes(), content)

    def test_run_of_a_kept_sheet_that_is_squashed(self):
        for closed, file in self.files(LONG):
            words = ("run", "--squash", "--keep", str(file))
            output = b"" if 0 in closed else b"ok 2\n"
            self.assert_ended(closed, 0, lines(f"opened {file}, 1 changes"), *words, given=LINE, output=output)
            content = SHORT + (b"" if 0 in closed else b'push [["A1",[5,1,"5"],[],[]]]\n')
            self.assertEqual(kept.without_digests(file.read_bytes()), content)
            # and the next start takes it
            self.assertEqual(run("run", "--keep", str(file)).status, 0)

    def test_run_of_a_kept_sheet_that_is_squashed_and_refused(self):
        """What is said of the file doesn't get into it, and nothing is squashed."""
        for closed, file in self.files(LONG):
            error = lines("err 9 replica", f"{file} is of replica 1")
            self.assert_ended(closed, 3, error, "run", "--squash", "--keep", str(file), "--replica", "2", given=LINE)
            self.assertEqual(file.read_bytes(), LONG)

    def test_join_of_lines(self):
        """The server is asked for its changes, and told those of the input, and hears nothing else."""
        delta, given = PUSHED[5:-1].decode(), ("get A1", f"merge {THEIRS}")
        merged = {f"merge {THEIRS}": b"ok 2\n", "pull 0 1": lines(f"delta 1 {delta}"), "pull 2 16": b"end 2\n"}
        pulled = {"pull 0 16": lines(f"delta 1 {delta}"), "pull 1 16": b"end 1\n"}
        for closed in self.each():
            replies = pulled if 0 in closed else merged
            error = b"" if 0 in closed else lines("line 1: err 16 command")
            for more in ((), ("--once",)):
                peer = FakePeer(replies.get)
                self.addCleanup(peer.close)
                # (of a file all lines are there at once, so that no pull comes between them)
                self.assert_ended(closed, 0, error, "join", "--with", str(peer.port), "--lines", *more,
                                  stdin=self.file_of(lines(*given)), output=lines(f"merge {delta}"))
                # it ends at the first line that it can't write
                self.assertEqual(peer.asked, [*replies][:-1] if 1 in closed else [*replies])

    def test_join_that_checks(self):
        """Both servers are asked for their changes, and hear nothing else."""
        held, nothing = {"pull 0 16": lines(f"delta 1 {THEIRS}"), "pull 1 16": b"end 1\n"}, {"pull 0 16": b"end 0\n"}
        for closed in self.each():
            for second, status, output in ((held, 0, b"in step at 1 and 1\n"), (nothing, 3, b"differ 1 B1\n")):
                peers = [FakePeer(replies.get) for replies in (held, second)]
                for peer in peers:
                    self.addCleanup(peer.close)
                first, last = (str(peer.port) for peer in peers)
                self.assert_ended(closed, status, b"", "join", "--from", first, "--to", last, "--check", output=output)
                self.assertEqual([peer.asked for peer in peers], [[*held], [*second]])

    def test_serve(self):
        for closed in self.each():
            for keeps in (False, True):
                file, port = self.folder() / "kept.lines", free_port()
                words = ["serve", "--port", str(port), "--sessions", "1", *(["--keep", str(file)] if keeps else [])]
                with opened(words, closed) as server:
                    if 1 not in closed:
                        self.assertEqual(server.stdout.readline(), lines(f"listening {port}"))
                        client = Client(port)
                        self.assertEqual(client.ask("set A1 5"), "ok 1")
                        client.leave()
                    output, error = server.communicate(timeout=LIMIT)
                    self.assertEqual((server.returncode, output), (1, b"") if 1 in closed else (0, lines("closed 1")))
                    self.assertEqual(error.startswith(page_of(port)), not {1, 2}.intersection(closed), error)
                if keeps:
                    content = b"replica 1\n" + (b"" if 1 in closed else PUSHED)
                    self.assertEqual(kept.without_digests(file.read_bytes()), content)

    def test_sync_join_follow_and_talk(self):
        with serving(None) as first, serving(None, "--replica", "2") as second:
            self.assertEqual(first.client().ask("set A1 5"), "ok 1")
            there = str(first.port)
            for closed in self.each():
                self.assert_ends(closed, "sync", "--from", there, "--to", str(second.port), given=b"", written=b"synced 1\n")
                self.assert_ends(closed, "join", "--from", there, "--to", str(second.port), "--once", given=b"",
                                 written=b"joined\n")
                self.assert_ends(closed, "follow", "--from", there, "--until-now", given=b"", written=PUSHED)
                self.assert_ends(closed, "talk", "--to", there, given=b"get A1\n", written=b"val 5\n")

    def test_help_and_words_that_are_none(self):
        for closed in self.each():
            self.assertEqual(self.ended(closed, "--version", given=b"").status, 1 if 1 in closed else 0)
            self.assertEqual(self.ended(closed, "fly", given=b"").status, 1 if 2 in closed else 2)
