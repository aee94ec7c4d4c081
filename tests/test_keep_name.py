"""A kept file that is removed, moved, replaced, cut or written to while a program keeps it: nothing more is
acknowledged."""
import contextlib
import errno
import os
import socket
import subprocess
from itertools import product

import peers
from hunt import kept
from keeping import MOVED, RESIZED, UNNAMED, KeepingTest, replies_to, text_of
from preloaded import PROGRAM, before, build
from program import LIMIT, Ended, lines, run, started, unusable
from servers import free_port, serving

COMMANDS = ("run", "serve")
FIRST = ("set A1 1", "set A2 two", "set A3 =[.A1]*3")
THEN = ("set A1 4", "set B2 5", "get A3")
FOREIGN = text_of("set B1 8")
# What another program does to the file, $1, with a file of its own, $2: the file is gone,
REPLACED = {
    "removed": 'rm "$1"',
    "another one moved over it": 'mv "$2" "$1"',
    "another one moved to where it was moved from": 'mv "$1" "$1.old" && mv "$2" "$1" && rm "$1.old"',
    "saved by an editor": 'cp "$1" "$1.new" && echo >> "$1.new" && mv "$1.new" "$1"',
}
# its name leads to no file or another one, and it has a name elsewhere,
ELSEWHERE = {
    "moved away": 'mv "$1" "$1.old"',
    "moved away, and another one moved to its place": 'mv "$1" "$1.old" && mv "$2" "$1"',
    "removed, with another name": 'ln -f "$1" "$1.old" && rm "$1"',
}
# its path can't be followed, for this reason of the system,
UNFOLLOWED = {
    "a file in the folder's place": ('mv "${1%/*}" "$2" && : > "${1%/*}"', errno.ENOTDIR),
    "a link to itself": ('rm "$1" && ln -s "$1" "$1"', errno.ELOOP),
}
# it has other bytes,
CHANGED = {
    "emptied": ': > "$1"',
    "cut by a byte": 'truncate -s -1 "$1"',
    "another one copied over it": 'cp "$2" "$1"',
    "written to": 'tail -n 1 "$2" >> "$1"',
}
# or all its lines are there, under its name.
ALL_THERE = {
    "moved away and back": 'mv "$1" "$1.old" && mv "$1.old" "$1"',
    "copied and read": 'cp "$1" "$1.old" && cat "$1" > "$2" && touch "$1"',
    "with another name": 'ln "$1" "$1.link"',
}


class Beside(KeepingTest):
    """A test with a program that keeps the file, and another one beside it."""

    def setUp(self):
        super().setUp()
        self.other = self.place / "other.lines"

    @contextlib.contextmanager
    def keeping(self, command, *words):
        """A peer of a program that keeps the file, and how that program ends once the peer has left."""
        words = ("--keep", str(self.file), *words)
        if command == "run":
            with peers.on_pipes("run", *words) as peer:
                yield peer, peer.ended
        else:
            with serving(1, *words) as server:
                yield server.client(), server.ended

    def assert_answered(self, peer, *given, before=()):
        """Each of these lines has its reply, after those before it."""
        replies = replies_to(*before, *given)[len(replies_to(*before)):]
        for line, reply in zip(given, replies.decode().splitlines(), strict=True):
            self.assertEqual(peer.ask(line), reply)


class Taken(Beside):
    @contextlib.contextmanager
    def case(self, **which):
        """A case of its own: the file isn't there yet, and the other one is."""
        with self.subTest(**which):
            for file in (self.file, self.moved(), self.file.with_name("plan.lines.link")):
                file.unlink(missing_ok=True)
            self.other.write_bytes(FOREIGN)
            yield

    def moved(self):
        """Where the file is once it was moved away."""
        return self.file.with_name(self.file.name + ".old")

    def do(self, script):
        """Another program does this to the file."""
        subprocess.run(["sh", "-c", script, "sh", self.file, self.other], check=True, timeout=LIMIT)

    def assert_not_acknowledged(self, command, script, reason):
        """After this no line is answered, and it ends for this reason. Returns what the name led to meanwhile, what it
        leads to now, and what the file has that was there."""
        with self.keeping(command) as (peer, ended):
            self.assert_answered(peer, *FIRST)
            with self.file.open("rb") as was:
                self.do(script)
                left = self.content()
                peer.send(lines(*THEN))
                with self.assertRaises((EOFError, ConnectionError)):
                    peer.reply()
                self.assertEqual(ended(), Ended(1, b"", self.opened(0) + self.lost(reason)))
                return left, self.content(), was.read()

    def content(self):
        """What the file of this name has, if there is one."""
        return self.file.read_bytes() if self.file.exists() else None

    def test_a_file_that_was_removed_or_replaced(self):
        """What was acknowledged is in the file that was there, and the other one stays as it is."""
        for command, name in product(COMMANDS, REPLACED):
            with self.case(command=command, name=name):
                left, now, was = self.assert_not_acknowledged(command, REPLACED[name], UNNAMED)
                self.assertEqual(now, left)
                self.assertEqual(kept.without_digests(was), text_of(*FIRST))

    def test_a_file_that_was_moved(self):
        """What was acknowledged is in the file that was moved, and what is under its name now stays as it is."""
        for command, name in product(COMMANDS, ELSEWHERE):
            with self.case(command=command, name=name):
                left, now, was = self.assert_not_acknowledged(command, ELSEWHERE[name], MOVED)
                self.assertEqual(now, left)
                self.assertEqual(self.moved().read_bytes(), was)
                self.assertEqual(kept.without_digests(was), text_of(*FIRST))

    def test_a_file_whose_folder_was_moved(self):
        """The path leads to nothing, or to another file in another folder."""
        for command, script in product(COMMANDS, ('mv "${1%/*}" "$2"', 'mv "${1%/*}" "$2" && mkdir "${1%/*}" && : > "$1"')):
            with self.subTest(command=command, script=script):
                place = self.folder()
                self.file, moved = place / "within" / "plan.lines", place / "elsewhere"
                self.file.parent.mkdir()
                self.other = moved
                self.assert_not_acknowledged(command, script, MOVED)
                self.assertEqual(kept.without_digests((moved / "plan.lines").read_bytes()), text_of(*FIRST))

    def test_a_path_that_cannot_be_followed(self):
        """A path that was a link leads through a file, or to itself."""
        for command, (name, (script, reason)) in product(COMMANDS, UNFOLLOWED.items()):
            with self.subTest(command=command, name=name):
                place = self.folder()
                self.file, there = place / "within" / "plan.lines", place / "there.lines"
                self.file.parent.mkdir()
                there.touch()
                self.file.symlink_to(there)
                self.other = place / "elsewhere"
                self.assert_not_acknowledged(command, script, reason)
                self.assertEqual(kept.without_digests(there.read_bytes()), text_of(*FIRST))

    def test_a_link_that_leads_elsewhere(self):
        """A path that is a link leads to the file, and then to another one."""
        for command in COMMANDS:
            with self.case(command=command):
                self.moved().touch()
                self.file.symlink_to(self.moved())
                _, now, was = self.assert_not_acknowledged(command, 'ln -sf "$2" "$1"', MOVED)
                self.assertEqual(now, FOREIGN)
                self.assertEqual(kept.without_digests(was), text_of(*FIRST))

    def test_a_file_that_was_cut_or_written_to(self):
        """It has what the other program left, and isn't cut."""
        for command, name in product(COMMANDS, CHANGED):
            with self.case(command=command, name=name):
                left, now, was = self.assert_not_acknowledged(command, CHANGED[name], RESIZED)
                self.assertTrue(now.startswith(left))
                added = kept.without_any_digests(now[len(left):])
                self.assertEqual(added, text_of(*FIRST, *THEN)[len(text_of(*FIRST)):])
                self.assertEqual(was, now)

    def test_a_file_of_the_same_number_on_another_device(self):
        """The path leads to that one. (The start syncs the first line.)"""
        library = build("mount.c", self.place / "mount.so")
        ended = self.run_kept(b"set A1 5\n", env=before(library, MOUNT_PATH=str(self.file)))
        self.assertEqual(ended, Ended(1, b"", unusable(self.file, MOVED)))

    def test_amid_a_sync(self):
        """What has happened by the end of the sync is noticed."""
        library = build("halt.c", self.place / "halt.so")
        for script, reason in ((REPLACED["removed"], UNNAMED), (ELSEWHERE["moved away"], MOVED),
                               (CHANGED["written to"], RESIZED)):
            ours, theirs = socket.socketpair()
            with self.case(reason=reason), ours, theirs:
                # (before the sync of the first edit, after those of a start)
                env = before(library, HALT_CALL="s", HALT_FILE=str(theirs.fileno()), HALT_SKIP="3")
                how = {"env": env, "pass_fds": [theirs.fileno()], "stdin": subprocess.PIPE, "stdout": subprocess.PIPE}
                with started("run", "--keep", str(self.file), program=PROGRAM, **how) as session:
                    theirs.close()
                    ours.settimeout(LIMIT)
                    session.stdin.write(lines(FIRST[0]))
                    session.stdin.flush()
                    self.assertEqual(ours.recv(1), b"s")
                    self.do(script)
                    ours.send(b"!")
                    output, error = session.communicate(timeout=LIMIT)
                    self.assertEqual(Ended(session.returncode, output, error),
                                     Ended(1, b"", self.opened(0) + self.lost(reason)))

    def test_the_next_start_after_a_removal_begins_anew(self):
        self.assert_not_acknowledged("serve", REPLACED["removed"], UNNAMED)
        self.assert_kept(b"get A1\n", b"val \n", text_of())

    def test_the_next_start_after_a_move_has_the_other_file(self):
        self.other.write_bytes(FOREIGN)
        self.assert_not_acknowledged("run", REPLACED["another one moved over it"], UNNAMED)
        self.assert_kept(b"get B1\n", b"val 8\n", FOREIGN, 1)

    def test_a_file_that_is_all_there(self):
        for command, (name, script) in product(COMMANDS, ALL_THERE.items()):
            with self.case(command=command, name=name):
                with self.keeping(command) as (peer, ended):
                    self.assert_answered(peer, *FIRST)
                    self.do(script)
                    self.assert_answered(peer, *THEN, before=FIRST)
                    peer.stop_sending()
                    closed = lines("closed 5") if command == "serve" else b""
                    self.assertEqual(ended(), Ended(0, closed, self.opened(0)))
                self.assertEqual(self.lines_kept(), text_of(*FIRST, *THEN))

    def test_all_sessions_of_a_server_end(self):
        with serving(None, "--keep", str(self.file)) as server:
            one, silent, asking = server.client(), server.client(), server.client()
            self.assert_answered(one, *FIRST)
            self.assertEqual((silent.ask("get A1"), asking.ask("get A3")), ("val 1", "val 3"))
            self.file.unlink()
            one.send(lines(*THEN))
            self.assertEqual([client.told() for client in (one, silent, asking)], [b""] * 3)
            self.assertEqual(server.ended(), Ended(1, b"", self.opened(0) + self.lost(UNNAMED)))

    def test_amid_lines_that_come_at_once(self):
        """The file that was there has just what was answered."""
        given = [f"set A{number % 50 + 1} {number}" for number in range(20_000)]
        (self.place / "given").write_bytes(lines(*given))
        with open(self.place / "given", "rb") as stdin:
            words = ("run", "--keep", str(self.file))
            with started(*words, program=PROGRAM, stdin=stdin, stdout=subprocess.PIPE) as session:
                # (what nobody reads yet fills the pipe, and the program waits)
                answered = os.read(session.stdout.fileno(), 100)
                with self.file.open("rb") as was:
                    self.file.unlink()
                    rest, error = session.communicate(timeout=LIMIT)
                    answered += rest
                    self.assertEqual((session.returncode, error), (1, self.opened(0) + self.lost(UNNAMED)))
                    count = answered.count(b"\n")
                    self.assertLess(count, len(given))
                    self.assertEqual(answered, lines(*(f"ok {number}" for number in range(1, count + 1))))
                    self.assertEqual(kept.without_digests(was.read()), text_of(*given[:count]))


class Own(Beside):
    """What this program itself does to the file, or is kept from doing, is no change of another one."""

    def assert_goes_on(self, command, before, opened, *words):
        """A start on this content is changed once more."""
        with self.keeping(command, *words) as (peer, ended):
            count = opened + 1
            self.assertEqual(peer.ask("set C1 7"), f"ok {count}")
            peer.stop_sending()
            closed = lines(f"closed {count}") if command == "serve" else b""
            self.assertEqual(ended(), Ended(0, closed, self.opened(opened)))
        self.assertTrue(self.lines_kept().startswith(before))
        self.assertEqual(self.count_in_file(), count)

    def test_a_torn_end_that_a_start_cuts_off(self):
        for command in COMMANDS:
            for torn in (b"", b"push [[", b"x" * 100_000):
                with self.subTest(command=command, torn=torn[:8]):
                    self.file.write_bytes(text_of(*FIRST) + torn)
                    self.assert_goes_on(command, text_of(*FIRST), len(FIRST))
        self.file.write_bytes(b"repl")
        self.assert_goes_on("run", text_of(), 0)

    def test_a_file_that_a_start_squashes(self):
        self.file.write_bytes(text_of(*(f"set A1 {number}" for number in range(1, 200))))
        self.assert_goes_on("serve", text_of(), 1, "--squash")

    def test_a_squash_and_a_start_beside_it_are_refused(self):
        busy = Ended(1, b"", lines("err 20 device", f"{self.file} is kept by another program"))
        for command in COMMANDS:
            self.file.unlink(missing_ok=True)
            with self.subTest(command=command), self.keeping(command) as (peer, ended):
                self.assert_answered(peer, *FIRST)
                for words in (("squash",), ("run",), ("serve", "--squash", "--port", str(free_port()))):
                    self.assertEqual(run(*words, "--keep", str(self.file)), busy)
                self.assert_answered(peer, *THEN, before=FIRST)
                peer.stop_sending()
                self.assertEqual(ended().status, 0)
            self.assertEqual(self.lines_kept(), text_of(*FIRST, *THEN))
