"""A server that may have too few files: it goes on, and takes connections again once there are files."""
import errno
import resource
import select
import time

from browser_socket import answer, request
from hunt import shortages
from preloaded import PROGRAM
from program import DEVICE_FAILED, Ended, ProgramTest, lines
from servers import comes_to, serving

# What standard error has, once.
CROWDED = lines("no more connections for now: too many files are open (ulimit -n), or memory is lacking")
# The longest that a server takes to see that something has changed, in seconds, on a machine that does much else.
SOON = 30


def limited(most):
    """How a program is started that may have so many files open."""
    def limit():
        resource.setrlimit(resource.RLIMIT_NOFILE, (most, most))

    return {"program": PROGRAM, "preexec_fn": limit}


class FewFiles(ProgramTest):
    def test_it_goes_on_and_says_so_once(self):
        # (a connection has two files: the last one may be lacking for either)
        for most in (24, 25):
            with self.subTest(most=most):
                self.is_crowded(most)

    def is_crowded(self, most):
        """A server that may have so many files goes on while more connections come than it has files for."""
        with serving(None, **limited(most)) as server:
            sessions = []
            for number in range(4):
                sessions.append(server.client())
                self.assertEqual(sessions[-1].ask(f"set A{number + 1} 1"), f"ok {number + 1}")
            # more than there are files for, and some of them stay unaccepted
            others = [server.client() for _ in range(2 * most)]
            self.assertTrue(select.select([server.session.stderr], [], [], SOON)[0])
            time.sleep(1)
            self.assertTrue(server.is_running())
            # those that have a session go on
            for number, session in enumerate(sessions, 5):
                self.assertEqual(session.ask("set B1 1"), f"ok {number}")
            for other in others:
                other.close()
            self.assertTrue(comes_to(lambda: self.is_served(server), SOON))
            for session in sessions:
                session.leave()
            self.assertEqual(answer(server.port, request(server.port))[0], 200)
            server.session.terminate()
            self.assertEqual(server.ended().error, CROWDED)

    def is_served(self, server):
        """Whether a session is answered."""
        client = server.client()
        client.send(lines("get A4"))
        client.stop_sending()
        return client.told() == lines("val 1")

    def test_it_says_nothing_where_files_are_enough(self):
        with serving(None, **limited(200)) as server:
            sessions = [server.client() for _ in range(20)]
            for number, session in enumerate(sessions, 1):
                self.assertEqual(session.ask(f"set A{number} 1"), f"ok {number}")
            server.session.terminate()
            self.assertEqual(server.ended().error, b"")

    def test_each_reason_that_passes(self):
        library = shortages.library(self.folder())
        for error in (errno.EMFILE, errno.ENFILE, errno.ENOMEM):
            # (the call for the first connection, and some more)
            for words in ((), ("--keep", str(self.folder() / "kept.lines"))):
                with self.subTest(error=error, words=words):
                    with shortages.spoiling(library, ("a", 2, 6, error)) as (how, _):
                        with serving(None, *words, program=PROGRAM, **how) as server:
                            first = server.client()
                            self.assertEqual(first.ask("set A1 1"), "ok 1")
                            self.assertEqual(server.client().ask("get A1"), "val 1")
                            self.assertEqual(first.ask("set A1 2"), "ok 2")
                            server.session.terminate()
                            self.assertEqual(server.ended().error.count(CROWDED), 1)

    def test_a_server_for_some_sessions_ends(self):
        library = shortages.library(self.folder())
        most = 40
        with shortages.spoiling(library, ("a", most, shortages.ALL, errno.EMFILE)) as (how, _):
            with serving(3, "--seats", "1", "--wait", "60", program=PROGRAM, **how) as server:
                client, other = server.client(), server.client()
                self.assertEqual(client.ask("set A1 1"), "ok 1")
                other.send(b"get A1\n")
                self.assertFalse(other.is_answered_within(1))
                # one that comes and leaves has it look for others
                for _ in range(most):
                    server.client().close()
                self.assertEqual(other.told(), lines("err 21 seat"))
                self.assertEqual(client.ask("get A1"), "val 1")
                client.leave()
                self.assertEqual(server.ended(), Ended(1, b"", DEVICE_FAILED))
