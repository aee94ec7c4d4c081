"""Devices that fail: `err 20 device` on standard error, status 1, and of the output a beginning of what was due. And
those that do little at a time, which don't fail."""
import errno
import os
import subprocess

import peers
from hunt import shortages
from preloaded import PROGRAM
from program import DEVICE_FAILED, LIMIT, Ended, ProgramTest, lines, run

FAILED = Ended(1, b"", DEVICE_FAILED)
DELTA = b'[["A1",[1,1,"5"],[],[]]]\n'
# Of each call that does a byte at a time there are more than this.
MILLION = 2**20


class Input(ProgramTest):
    def test_an_input_that_is_a_folder(self):
        folder = os.open(self.folder(), os.O_RDONLY)
        self.addCleanup(os.close, folder)
        self.assertEqual(run("run", stdin=folder), FAILED)
        self.assertEqual(run("table", stdin=folder), FAILED)
        self.assertEqual(run("squash", stdin=folder), FAILED)


class FullOutput(ProgramTest):
    def setUp(self):
        self.full = open("/dev/full", "wb")
        self.addCleanup(self.full.close)

    def test_replies(self):
        self.assertEqual(run("run", given=b"set A1 5\nget A1\n", stdout=self.full), FAILED)

    def test_the_reply_to_a_last_line_without_line_feed(self):
        self.assertEqual(run("run", given=b"get A1", stdout=self.full), FAILED)

    def test_more_replies_than_wait_in_memory(self):
        self.assertEqual(run("run", given=b"rows A1:CZ1024\n" * 3, stdout=self.full), FAILED)

    def test_a_table(self):
        self.assertEqual(run("table", given=b"1,2\n", stdout=self.full), FAILED)

    def test_lines_that_are_squashed(self):
        self.assertEqual(run("squash", given=DELTA, stdout=self.full), FAILED)
        self.assertEqual(run("squash", given=b"replica 1\n", stdout=self.full), FAILED)

    def test_the_help(self):
        self.assertEqual(run("--help", stdout=self.full), FAILED)
        self.assertEqual(run("run", "--help", stdout=self.full), FAILED)

    def test_nothing_to_write_is_no_failure(self):
        self.assertEqual(run("run", given=b"\n\n", stdout=self.full), Ended(0))
        self.assertEqual(run("table", given=b"\n\n", stdout=self.full), Ended(0))
        self.assertEqual(run("squash", given=b"\n\n", stdout=self.full), Ended(0))

    def test_what_is_refused_is_refused_all_the_same(self):
        self.assertEqual(run("table", given=b"=bad\n", stdout=self.full), Ended(3, b"", b"err 3 formula\n"))
        self.assertEqual(run("squash", given=DELTA + b"x\n", stdout=self.full),
                         Ended(3, b"", b"err 14 delta\nline 2\n"))


class ClosedOutput(ProgramTest):
    def test_a_reader_that_closes_before_the_first_reply(self):
        with peers.on_pipes("run") as peer:
            peer.stop_receiving()
            peer.send(b"get A1\n")
            self.assertEqual(peer.ended(), FAILED)

    def test_a_reader_that_closes_after_the_first_reply(self):
        with peers.on_pipes("run") as peer:
            self.assertEqual(peer.ask("set A1 5"), "ok 1")
            peer.stop_receiving()
            peer.send(b"get A1\n")
            self.assertEqual(peer.ended(), FAILED)

    def test_a_reader_that_closes_amid_a_long_reply(self):
        with peers.on_pipes("run") as peer:
            self.assertEqual(peer.ask("rows A1:CZ1024"), "rows 1024")
            peer.stop_receiving()
            self.assertEqual(peer.ended()._replace(output=b""), FAILED)

    def test_a_reader_that_closes_amid_a_table(self):
        # a table of 100 KB, too
        with peers.on_pipes("table") as peer:
            peer.send(b"," * 103 + b"\n" + b"1\n" * 1023)
            peer.stop_sending()
            self.assertEqual(peer.reply(), "," * 103)
            peer.stop_receiving()
            self.assertEqual(peer.ended()._replace(output=b""), FAILED)


class SmallCalls(ProgramTest):
    """Reads and writes that are interrupted, or take a byte each, change nothing."""

    def setUp(self):
        self.library = shortages.library(self.folder())

    def spoilt(self, given, *fault):
        """How `./sheet run` with this fault of its calls ends for this input, and how many such calls it made."""
        with self.file_of(b"") as output, shortages.spoiling(self.library, fault) as (how, counts):
            files = {"stdin": self.file_of(given), "stdout": output, "stderr": subprocess.PIPE}
            ran = subprocess.run([PROGRAM, "run"], timeout=LIMIT, **files, **how)
            output.seek(0)
            return Ended(ran.returncode, output.read(), ran.stderr), shortages.counted(counts).calls

    def test_a_million_reads(self):
        ended, calls = self.spoilt(b"\n" * MILLION + b"get A1\n", "r", 1, shortages.ALL, 0)
        self.assertEqual(ended, Ended(0, b"val \n"))
        self.assertGreater(calls, MILLION)

    def test_a_million_writes(self):
        reply = b"rows 1024\n" + (b"," * 103 + b"\n") * 1024
        ended, calls = self.spoilt(b"rows A1:CZ1024\n" * 10, "w", 1, shortages.ALL, 0)
        self.assertTrue(ended == Ended(0, reply * 10), ended.error)
        self.assertGreater(calls, MILLION)

    def test_interrupted_calls(self):
        for letter in "rw":
            with self.subTest(letter=letter):
                ended, calls = self.spoilt(b"set A1 5\nget A1\n", letter, 1, 3, errno.EINTR)
                self.assertEqual(ended, Ended(0, lines("ok 1", "val 5")))
                self.assertGreater(calls, 3)
