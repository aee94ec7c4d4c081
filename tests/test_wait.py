"""The line `wait` of `sheet serve`: what ends a wait, and what it doesn't hold up."""
import time
from pathlib import Path
from tempfile import TemporaryDirectory

from program import Ended, ProgramTest, lines, run
from preloaded import PROGRAM
from servers import comes_to, serving
from test_seats import Memory

# The longest wait, in seconds, what is surely less, and for how long it is looked whether a wait goes on.
LONGEST, SOON, LOOK = 25, 10, 0.4
# For how many seconds it is looked what waits cost, and the most turns of a processor that a server has meanwhile,
# whoever waits.
QUIET, MOST_TURNS = 3, 10
# So many edits come at once, so many sessions wait for more changes than these, and the most turns meanwhile.
EDITS, WAITING, MOST_TURNS_OF_EDITS = 5_000, 15, 2_500


class Waits(ProgramTest):
    def answers_soon(self, client, *replies):
        """These replies come long before a wait would end by itself."""
        begun = time.monotonic()
        for reply in replies:
            self.assertEqual(client.reply(), reply)
        self.assertLess(time.monotonic() - begun, SOON)

    def test_at_a_sheet_of_its_own_it_answers_at_once(self):
        given = lines("wait 7", "set A1 5", "wait 1", "wait 0", "wait", "wait x", "wait 1 2")
        replies = lines("version 0", "ok 1", "version 1", "version 1",
                        "err 16 command", "err 17 version", "err 16 command")
        begun = time.monotonic()
        self.assertEqual(run("run", given=given), Ended(0, replies, b""))
        self.assertLess(time.monotonic() - begun, SOON)

    def test_a_change_of_another_ends_it(self):
        for kept in (False, True):
            with self.subTest(kept=kept), TemporaryDirectory() as room:
                words = ("--keep", str(Path(room) / "kept")) if kept else ()
                with serving(2, *words) as server:
                    reader, writer = server.client(), server.client()
                    for number in range(1, 4):
                        reader.send(b"wait %d\n" % (number - 1))
                        self.assertFalse(reader.is_answered_within(LOOK))
                        self.assertEqual(writer.ask(f"set A1 {number}"), f"ok {number}")
                        self.answers_soon(reader, f"version {number}")
                        self.assertEqual(reader.ask("get A1"), f"val {number}")
                    self.assertEqual((reader.leave(), writer.leave()), (b"", b""))

    def test_changes_that_follow_each_other_end_it(self):
        with serving(2) as server:
            reader, writer = server.client(), server.client()
            reader.send(b"wait 2\n")
            self.assertFalse(reader.is_answered_within(LOOK))
            writer.send(lines("set A1 1", "set A1 2", "set A1 3"))
            self.answers_soon(writer, "ok 1", "ok 2", "ok 3")
            self.answers_soon(reader, "version 3")
            self.assertEqual((reader.leave(), writer.leave()), (b"", b""))

    def test_what_is_there_ends_it_at_once(self):
        with serving(1) as server:
            client = server.client()
            self.assertEqual(client.ask("set A1 1"), "ok 1")
            client.send(b"wait 0\n")
            self.answers_soon(client, "version 1")
            self.assertEqual(client.leave(), b"")

    def test_replies_ahead_of_it_are_sent_before(self):
        with serving(1) as server:
            client = server.client()
            client.send(lines("set A1 1", "get A1", "wait 1"))
            self.answers_soon(client, "ok 1", "val 1")
            self.assertFalse(client.is_answered_within(LOOK))
            client.send(b"get A1\n")
            self.answers_soon(client, "version 1", "val 1")
            self.assertEqual(client.leave(), b"")

    def test_lines_behind_it_end_it(self):
        with serving(1) as server:
            client = server.client()
            client.send(lines("set A1 1", "wait 1", "wait 7", "get A1"))
            self.answers_soon(client, "ok 1", "version 1", "version 1", "val 1")
            self.assertEqual(client.leave(), b"")

    def test_a_client_that_leaves_ends_it(self):
        with serving(2) as server:
            client = server.client()
            client.send(b"wait 0\n")
            self.assertFalse(client.is_answered_within(LOOK))
            begun = time.monotonic()
            self.assertEqual(client.leave(), lines("version 0"))
            client = server.client()
            client.send(b"wait 0\n")
            self.assertFalse(client.is_answered_within(LOOK))
            client.reset()
            self.assertEqual(server.ended().status, 0)
            self.assertLess(time.monotonic() - begun, SOON)

    def test_those_who_wait_hold_nobody_up(self):
        with serving(9) as server:
            readers = [server.client() for _ in range(8)]
            writer = server.client()
            for reader in readers:
                reader.send(b"wait 0\n")
            self.assertFalse(readers[-1].is_answered_within(LOOK))
            self.assertEqual(writer.ask("get A1"), "val ")
            self.assertEqual(writer.ask("set A1 1"), "ok 1")
            for reader in readers:
                self.answers_soon(reader, "version 1")
                self.assertEqual(reader.leave(), b"")
            self.assertEqual(writer.leave(), b"")

    def test_those_who_wait_take_no_turn_of_a_processor(self):
        with serving(None, program=PROGRAM) as server:
            process, readers = Memory(server.session.pid), [server.client() for _ in range(20)]
            for reader in readers:
                # one before it, so that each has its slot
                self.assertEqual(reader.ask("get A1"), "val ")
                reader.send(b"wait 0\n")
            self.assertFalse(readers[-1].is_answered_within(LOOK))
            before = process.turns()
            time.sleep(QUIET)
            self.assertLessEqual(process.turns() - before, MOST_TURNS)
            # and no file or thread is left of a wait
            threads, files = process.threads(), process.files()
            self.assertEqual(server.client().ask("set A1 1"), "ok 1")
            for reader in readers:
                self.answers_soon(reader, "version 1")
                self.assertEqual(reader.ask("wait 0"), "version 1")
            self.assertTrue(comes_to(lambda: (process.threads(), process.files()) == (threads + 1, files + 1)))

    def test_edits_that_come_at_once_wake_those_who_wait_far_more_seldom_than_each(self):
        with serving(None, program=PROGRAM) as server:
            process, readers = Memory(server.session.pid), [server.client() for _ in range(WAITING)]
            for reader in readers:
                self.assertEqual(reader.ask("get A1"), "val ")
                reader.send(lines(f"wait {2 * EDITS}"))
            writer = server.client()
            self.assertEqual(writer.ask("get A1"), "val ")
            before = process.turns()
            writer.send(lines(*(f"set A1 {number}" for number in range(EDITS)), "get A1"))
            for number in range(EDITS):
                self.assertEqual(writer.reply(), f"ok {number + 1}")
            self.assertEqual(writer.reply(), f"val {EDITS - 1}")
            self.assertLess(process.turns() - before, MOST_TURNS_OF_EDITS)

    def test_a_server_at_which_nothing_happens_takes_no_turn_of_a_processor(self):
        for kept in (False, True):
            with self.subTest(kept=kept), TemporaryDirectory() as room:
                words = ("--keep", str(Path(room) / "kept")) if kept else ()
                with serving(None, "--seats", "1", "--wait", "60", *words, program=PROGRAM) as server:
                    # one has the slot, one waits for it, and one hasn't said anything yet
                    sitting, late, _ = server.client(), server.client(), server.client()
                    self.assertEqual(sitting.ask("get A1"), "val ")
                    late.send(b"get A1\n")
                    self.assertFalse(late.is_answered_within(LOOK))
                    process = Memory(server.session.pid)
                    before = process.turns()
                    time.sleep(QUIET)
                    self.assertLessEqual(process.turns() - before, MOST_TURNS)
                    self.assertEqual(sitting.leave(), b"")
                    self.answers_soon(late, "val ")
                    self.assertEqual(late.leave(), b"")

    def test_one_that_vanishes_leaves_its_slot_within_a_second(self):
        for way in ("close", "reset", "stop_sending"):
            with self.subTest(way=way), serving(None, "--seats", "1", "--wait", "1") as server:
                for number in range(3):
                    client = server.client()
                    self.assertEqual(client.ask(f"set A1 {number}"), f"ok {number + 1}")
                    client.send(lines(f"wait {number + 1}"))
                    self.assertFalse(client.is_answered_within(LOOK))
                    getattr(client, way)()

    def test_bytes_of_before_end_no_wait(self):
        with serving(2) as server:
            reader, writer = server.client(), server.client()
            for number in range(1, 40):
                # the wait begins while bytes that were just read may still be reported
                reader.send(lines("get A1", f"wait {number - 1}"))
                self.assertEqual(reader.reply(), f"val {number - 1 or ''}")
                self.assertFalse(reader.is_answered_within(0.02))
                self.assertEqual(writer.ask(f"set A1 {number}"), f"ok {number}")
                self.answers_soon(reader, f"version {number}")
            self.assertEqual((reader.leave(), writer.leave()), (b"", b""))

    def test_it_ends_by_itself(self):
        with serving(1) as server:
            client = server.client()
            begun = time.monotonic()
            client.send(b"wait 0\n")
            self.assertEqual(client.reply(), "version 0")
            lasted = time.monotonic() - begun
            self.assertTrue(LONGEST - 1 < lasted < LONGEST + SOON, lasted)
            self.assertEqual(client.leave(), b"")

    def test_a_server_that_ends_ends_it(self):
        # it ends by itself, since the file is gone in which it keeps the changes
        with TemporaryDirectory() as room, serving(None, "--keep", str(Path(room) / "kept")) as server:
            waiting, writer = [server.client() for _ in range(3)], server.client()
            for client in waiting:
                client.send(b"wait 0\n")
                self.assertFalse(client.is_answered_within(LOOK))
            (Path(room) / "kept").unlink()
            begun = time.monotonic()
            writer.send(b"set A1 1\n")
            self.assertEqual(server.ended().status, 1)
            self.assertLess(time.monotonic() - begun, SOON)
            # what isn't kept is reported to nobody
            self.assertEqual([client.rest() for client in (*waiting, writer)], [b""] * 4)
