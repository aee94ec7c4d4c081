"""Devices that fail below a kept sheet, and how often it waits for one: what was acknowledged is in the file."""
import contextlib
import errno
import random
import subprocess
import time
from pathlib import Path

import peers
from hunt import kept
from keeping import ALL, KeepingTest, Spoilt, replies_to, session_of, sizes_limited, text_of
from preloaded import PROGRAM
from program import DEVICE_FAILED, LIMIT, Ended, lines, started, unusable
from shortage import build, run_short

EDITS = tuple(line for turn in range(1, 9) for line in (
    f"set A1 {turn}", f"set B{turn} =[.A1]+{turn}", "get B1", f"set C{turn} {'text' * turn}", "rows A1:C2", "walk"))


class Failing(Spoilt):
    def assert_acknowledged_is_kept(self, given, ended, is_cut=False):
        """What was answered is a beginning of what is due, the file has the changes of these lines and a beginning of
        those after them, and a next start goes on from there. Returns how many lines were answered. Where the file was
        cut it has no other line, and no piece of one."""
        due = replies_to(*given)
        self.assertTrue(due.startswith(ended.output), ended.output[-300:])
        self.assertTrue(ended.output.endswith(b"\n") or not ended.output)
        answered = max((int(it[3:]) for it in ended.output.split(b"\n") if it.startswith(b"ok ")), default=0)
        content = self.file.read_bytes()
        wanted = text_of(*given)
        self.assertTrue(wanted.startswith(kept.whole_lines(kept.without_digests(content))))
        count = kept.changes_in(content)
        self.assertGreaterEqual(count, answered)
        if is_cut:
            self.assertEqual((count, kept.whole_lines(content)), (answered, content))
        before = session_of(*given).sheet.history[:count]
        shown = self.run_kept(b"pull %d\nset Z1 7\n" % count)
        self.assertEqual(shown, Ended(0, lines(f"end {count}", f"ok {count + 1}"), self.opened(count)))
        self.assertTrue(self.lines_kept().startswith(kept.text_of(1, before)))
        return answered

    def one_by_one(self, given, **how):
        """How a session ends that is asked these lines one after another, until one isn't answered."""
        files = {"stdin": subprocess.PIPE, "stdout": subprocess.PIPE}
        with started("run", "--keep", str(self.file), program=PROGRAM, **files, **how) as session:
            with contextlib.suppress(EOFError, BrokenPipeError):
                peer = peers.Peer(session, session.stdin.fileno(), session.stdout.fileno())
                output = b""
                for line in given:
                    output += peer.ask(line).encode() + b"\n"
                    for _ in range(int(line.startswith("rows")) * 2):
                        output += peer.reply().encode() + b"\n"
            session.stdin.close()
            session.stdin = None
            rest, error = session.communicate(timeout=LIMIT)
            return Ended(session.returncode, output + rest, error)

    def each_way(self, given, fault=None, **how):
        """How the same ends that is asked line by line, and given all at once, each on a file that isn't there yet."""
        for start in (lambda **how: self.one_by_one(given, **how), lambda **how: self.run_kept(lines(*given), **how)):
            self.file.unlink(missing_ok=True)
            if fault is None:
                yield start(**how), None
                continue
            with self.spoiling(*fault) as (spoilt, counted):
                yield start(**spoilt), counted()

    def test_a_file_that_may_not_grow(self):
        sizes = [self.file.stat().st_size for _ in self.each_way(EDITS)]
        for limit in (*range(0, max(sizes), 37), *(size - 1 for size in sizes), *sizes):
            for size, (ended, _) in zip(sizes, self.each_way(EDITS, **sizes_limited(limit))):
                with self.subTest(limit=limit, size=size):
                    if limit >= size:
                        self.assertEqual(ended, Ended(0, replies_to(*EDITS), self.opened(0)))
                        continue
                    self.assertEqual(ended.status, 1)
                    failed = (unusable(self.file, errno.EFBIG), self.opened(0) + self.lost(errno.EFBIG))
                    self.assertIn(ended.error, failed)
                    self.assert_acknowledged_is_kept(EDITS, ended, is_cut=True)

    def assert_fails_at_each(self, letter, error):
        """Each call of these in turn fails, alone and with all after it."""
        with self.spoiling(letter, 0, 0, 0) as (how, counted):
            self.assertEqual(self.one_by_one(EDITS, **how), Ended(0, replies_to(*EDITS), self.opened(0)))
            calls = counted().calls
        self.assertGreater(calls, len(session_of(*EDITS).sheet.history))
        answered = set()
        for first in range(1, calls + 1):
            for last in (first, ALL):
                for ended, _ in self.each_way(EDITS, (letter, first, last, error)):
                    with self.subTest(letter=letter, first=first, last=last):
                        if ended == Ended(0, replies_to(*EDITS), self.opened(0)):
                            # (all at once takes fewer of them)
                            continue
                        self.assertEqual(ended.status, 1)
                        self.assertIn(ended.error, (unusable(self.file, error), self.opened(0) + self.lost(error)))
                        answered.add(self.assert_acknowledged_is_kept(EDITS, ended, is_cut=True))
        # each change was once the last one that was answered, or none was
        self.assertEqual(answered, {*range(len(session_of(*EDITS).sheet.history))})

    def test_a_sync_that_fails_is_not_tried_again(self):
        self.assert_fails_at_each("s", errno.EIO)

    def test_a_start_whose_sync_fails_is_refused(self):
        # that of the folder, that of the file, and that of the first line where there was none
        for content, syncs in ((None, 3), (text_of(*EDITS), 2)):
            for number in range(1, syncs + 1):
                fault = ("s", number, number, errno.EIO)
                with self.subTest(content=content, number=number), self.spoiling(*fault) as (how, _):
                    self.file.unlink(missing_ok=True)
                    if content is not None:
                        self.file.write_bytes(content)
                    ended = self.run_kept(b"get A1\n", **how)
                    self.assertEqual((ended.status, ended.output), (1, b""))
                    self.assertIn(ended.error, (DEVICE_FAILED, unusable(self.file, errno.EIO)))

    def test_a_write_that_fails(self):
        self.assert_fails_at_each("f", errno.ENOSPC)

    def test_after_a_sync_that_failed_the_file_has_what_was_answered_alone(self):
        # the syncs of a start, and that of the first edit
        with self.spoiling("s", 0, 0, 0) as (how, counted):
            self.run_kept(b"", **how)
            start = counted().syncs
        self.file.unlink()
        with self.spoiling("s", start + 2, start + 2, errno.EIO) as (how, counted):
            ended = self.one_by_one(("set A1 1", "set A1 2", "set A1 3", "set A1 4"), **how)
            self.assertEqual(ended, Ended(1, b"ok 1\n", self.opened(0) + self.lost(errno.EIO)))
            self.assertEqual(counted().syncs, start + 2)
        # what no sync has confirmed is cut off, since a later one may go well though the system dropped it
        self.assertEqual(self.lines_kept(), text_of("set A1 1"))

    def test_a_file_that_another_program_wrote_to_is_not_cut(self):
        foreign = lines('push [["B1",[1,2,"5"],[],[]]]')
        files = {"stdin": subprocess.PIPE, "stdout": subprocess.PIPE}
        # the syncs of a start on a new file, and that of the first edit
        with self.spoiling("s", 5, 5, errno.EIO) as (how, _):
            with started("run", "--keep", str(self.file), program=PROGRAM, **files, **how) as session:
                peer = peers.Peer(session, session.stdin.fileno(), session.stdout.fileno())
                self.assertEqual(peer.ask("set A1 1"), "ok 1")
                with self.file.open("ab") as file:
                    file.write(foreign)
                _, error = session.communicate(lines("set A1 2"), timeout=LIMIT)
                self.assertEqual((session.returncode, error), (1, self.opened(0) + self.lost(errno.EIO)))
        content = self.file.read_bytes()
        self.assertEqual(kept.without_any_digests(content), text_of("set A1 1") + foreign + text_of("set A1 1", "set A1 2")[len(text_of("set A1 1")):])
        # (the program's last digest knows nothing of the other's line)
        self.assertEqual(self.run_kept(b"rows A1:B1\n"), Ended(3, b"", self.damaged(content.count(b"\n"))))

    def test_writes_and_reads_that_take_a_byte_at_a_time_change_nothing(self):
        for letter in "fr":
            for ended, _ in self.each_way(EDITS, (letter, 1, ALL, 0)):
                with self.subTest(letter=letter):
                    self.assertEqual(ended, Ended(0, replies_to(*EDITS), self.opened(0)))
                    self.assertEqual(self.lines_kept(), text_of(*EDITS))

    def test_writes_that_are_interrupted_are_made_again(self):
        for ended, _ in self.each_way(EDITS, ("f", 1, 5, errno.EINTR)):
            self.assertEqual(ended, Ended(0, replies_to(*EDITS), self.opened(0)))
            self.assertEqual(self.lines_kept(), text_of(*EDITS))

    def test_a_file_that_cannot_be_read(self):
        self.file.write_bytes(text_of(*EDITS))
        with self.spoiling("r", 1, ALL, errno.EIO) as (how, _):
            self.assertEqual(self.run_kept(b"set A1 5\n", **how),
                             Ended(1, b"", unusable(self.file, errno.EIO)))
        self.assertEqual(self.file.read_bytes(), text_of(*EDITS))

    def test_an_output_that_fails(self):
        with open("/dev/full", "wb") as full:
            files = {"stdin": subprocess.PIPE, "stdout": full}
            with started("run", "--keep", str(self.file), program=PROGRAM, **files) as session:
                _, error = session.communicate(lines(*EDITS), timeout=LIMIT)
                self.assertEqual((session.returncode, error), (1, self.opened(0) + DEVICE_FAILED))
        # nothing of what was kept was answered, and nothing of it is broken
        self.assert_acknowledged_is_kept(EDITS, Ended(1))

    def test_a_reader_that_closes_after_the_first_reply(self):
        files = {"stdin": subprocess.PIPE, "stdout": subprocess.PIPE}
        with started("run", "--keep", str(self.file), program=PROGRAM, **files) as session:
            peer = peers.Peer(session, session.stdin.fileno(), session.stdout.fileno())
            output = lines(peer.ask(EDITS[0]))
            session.stdout.close()
            _, error = session.communicate(lines(*EDITS[1:]), timeout=LIMIT)
            self.assertEqual((session.returncode, error), (1, self.opened(0) + DEVICE_FAILED))
        self.assertEqual(self.assert_acknowledged_is_kept(EDITS, Ended(1, output)), 1)

    def test_memory_that_is_refused(self):
        library = build(self.place)
        given = self.place / "given"
        given.write_bytes(lines(*EDITS))
        words = ["run", "--keep", str(self.file)]
        requests = run_short(library, words, given, ALL, ALL).requests
        for first in range(1, requests + 1, 3):
            for last in (first, ALL):
                with self.subTest(first=first, last=last):
                    self.file.unlink(missing_ok=True)
                    ended = run_short(library, words, given, first, last).ended
                    refused = [place for place, reply in enumerate(self.replies(ended.output))
                               if reply == b"err 19 memory"]
                    asked = [line for place, line in enumerate(EDITS) if place not in refused]
                    self.assertIn(ended.status, (0, 1, 3))
                    output = ended.output.replace(b"err 19 memory\n", b"")
                    if self.file.exists():
                        self.assert_acknowledged_is_kept(asked, ended._replace(output=output))
                    else:
                        self.assertEqual(output, b"")
                    if ended.status == 0:
                        self.assertEqual(output, replies_to(*asked))

    def replies(self, output):
        """The replies, those to `rows` with the two lines that follow them."""
        rows = iter(output.split(b"\n")[:-1])
        for row in rows:
            if row.startswith(b"rows "):
                next(rows, None), next(rows, None)
            yield row


class Syncs(Spoilt):
    def syncs(self, counted):
        """How many there were since the last time."""
        before, self.before = getattr(self, "before", 0), counted().syncs
        return self.before - before

    def test_an_edit_that_waits_for_its_reply_takes_one_and_a_question_none(self):
        files = {"stdin": subprocess.PIPE, "stdout": subprocess.PIPE}
        with self.spoiling() as (how, counted):
            with started("run", "--keep", str(self.file), program=PROGRAM, **files, **how) as session:
                peer = peers.Peer(session, session.stdin.fileno(), session.stdout.fileno())
                self.assertEqual(peer.ask("get A1"), "val ")
                self.assertGreater(self.syncs(counted), 0)
                known = 'push [["B1",[1,2,"5"],[],[]]]'
                for line, reply, wanted in (
                    ("set A1 5", "ok 1", 1), ("get A1", "val 5", 0), ("set A1 6", "ok 2", 1),
                    ("walk", "err 16 command", 0), ("set A0 6", "err 1 cell", 0),
                    ("pull 0", 'delta 1 [["A1",[1,1,"5"],[],[]]]', 0), (known, "ok 3", 1), (known, "ok 3", 0),
                    ("entry A1", "entry 6", 0), ("replica", "replica 1", 0), ("set A1 6", "ok 4", 1),
                ):
                    with self.subTest(line=line):
                        self.assertEqual(peer.ask(line), reply)
                        self.assertEqual(self.syncs(counted), wanted)

    def test_many_edits_that_come_at_once_take_few(self):
        given = lines(*(f"set A{number % 900 + 1} {number}" for number in range(20_000)))
        with self.spoiling() as (how, counted):
            ended = self.run_kept(given, **how)
            self.assertEqual((ended.status, ended.error), (0, self.opened(0)))
            self.assertLess(counted().syncs, 1_000)
        self.assertEqual(self.count_in_file(), 20_000)

    def test_a_start_takes_one_of_the_folder_and_one_of_the_file(self):
        """So that a file that was made is there after a crash, and what is shown of one that was found."""
        whole = text_of(*EDITS)
        # .. and one of the first line, where there was none yet
        for content, wanted in ((None, 3), (b"", 3), (whole, 2), (whole + b"push [[", 2)):
            with self.subTest(content=content), self.spoiling() as (how, counted):
                if content is not None:
                    self.file.write_bytes(content)
                self.run_kept(b"", **how)
                self.assertEqual((counted().syncs, counted().folder), (wanted, self.place.stat().st_ino))

    def test_a_name_without_a_folder_has_the_current_one_synced(self):
        self.file = Path(self.file.name)
        with self.spoiling() as (how, counted):
            self.assertEqual(self.run_kept(b"", cwd=self.place, **how), Ended(0, b"", self.opened(0)))
            self.assertEqual(counted().folder, self.place.stat().st_ino)
        self.assertEqual(kept.without_digests((self.place / self.file).read_bytes()), text_of())


class Killed(KeepingTest):
    ROUNDS, SECONDS, LINES = 60, 30, 20_000

    def test_at_any_moment_of_lines_that_come_at_once(self):
        """What was answered is kept, and the file is a beginning of what was given."""
        given = [f"set A{number % 50 + 1} {number}" for number in range(self.LINES)]
        wanted, due = text_of(*given), replies_to(*given)
        (self.place / "given").write_bytes(lines(*given))
        chance, deadline = random.Random(39), time.monotonic() + self.SECONDS
        rounds = answered_at_all = unfinished = 0
        while rounds < self.ROUNDS and time.monotonic() < deadline:
            self.file.unlink(missing_ok=True)
            found = self.kill_amid(chance)
            self.assertTrue(due.startswith(found))
            answered = found.count(b"\n")
            answered_at_all += answered
            content = self.file.read_bytes() if self.file.exists() else b""
            self.assertTrue(wanted.startswith(kept.without_digests(content)))
            count = kept.changes_in(content)
            self.assertGreaterEqual(count, answered)
            unfinished += count < self.LINES
            self.assertEqual(self.run_kept(b"pull %d\n" % count), Ended(0, lines(f"end {count}"), self.opened(count)))
            self.assertEqual(self.lines_kept(), kept.whole_lines(kept.without_digests(content)) or text_of())
            rounds += 1
        self.assertGreater(min(rounds, answered_at_all, unfinished), 5)

    def kill_amid(self, chance):
        """Kills a program that is given the lines after some replies, or after some time. Returns all its replies."""
        files = {"stdin": subprocess.PIPE, "stdout": subprocess.PIPE}
        with started("run", "--keep", str(self.file), program=PROGRAM, **files) as session:
            with subprocess.Popen(["cat", self.place / "given"], stdout=session.stdin):
                session.stdin.close()
                session.stdin = None
                found = b""
                if chance.random() < 0.5:
                    found = session.stdout.read(chance.randrange(1, 100_000))
                else:
                    time.sleep(chance.random() * chance.choice((0.001, 0.01, 0.03)))
                session.kill()
                found += session.stdout.read()
                session.wait(LIMIT)
        # (a reply that the system was handed a part of doesn't count)
        return found[:found.rfind(b"\n") + 1]
