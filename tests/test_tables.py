"""A session that reads a large table beside one that edits. It measures time, and so runs by itself."""
import statistics
import threading
import time

from program import Ended, ProgramTest, lines
from servers import serving
from sizes import COLUMNS, pushes

HIGH, WIDE, TRIES = 1024, COLUMNS - 1, 10
# The most of the time that a text takes by which an edit may wait, in the median of the tries: one that waited for the
# text would take nearly all of it.
MOST = 0.6


class Edits:
    """Edits that a session makes one after another, with the moments at which each began and ended."""

    def __init__(self, client):
        self.client, self.times, self.is_over = client, [], threading.Event()
        self.thread = threading.Thread(target=self.make)

    def make(self):
        """Edits a cell until it is over."""
        while not self.is_over.is_set():
            begun = time.monotonic()
            assert self.client.ask("set A1 1").startswith("ok ")
            self.times.append((begun, time.monotonic()))

    def __enter__(self):
        self.thread.start()
        return self

    def __exit__(self, *_):
        self.is_over.set()
        self.thread.join()


class Tables(ProgramTest):
    def test_edits_wait_for_no_text_of_a_table(self):
        for command, content in (("rows", "x" * 64), ("entries", "'" + "x" * 64)):
            with self.subTest(command=command), serving(2) as server:
                writer, reader = server.client(), server.client()
                for line in pushes(lambda *_: "'" + "x" * 64, range(1, HIGH + 1)):
                    self.assertRegex(writer.ask(line), "^ok ")
                parts, count = [], HIGH
                for _ in range(TRIES):
                    with Edits(writer) as edits:
                        while not edits.times:
                            time.sleep(0.001)
                        asked = time.monotonic()
                        # the cell that is edited lies outside, so each reply has as many bytes
                        self.assertEqual(reader.ask(f"{command} B1:CZ{HIGH}"), f"{command} {HIGH}")
                        answered = time.monotonic()
                        self.drain(reader, HIGH * WIDE * (len(content) + 1))
                    count += len(edits.times)
                    meanwhile = [end - begun for begun, end in edits.times if end > asked and begun < answered]
                    parts.append(max(meanwhile) / (answered - asked))
                self.assertLess(statistics.median(parts), MOST, parts)
                writer.leave()
                reader.leave()
                self.assertEqual(server.ended(), Ended(0, lines(f"closed {count}")))

    def drain(self, client, left):
        """Receives so many more bytes."""
        left -= len(client.received)
        client.received = b""
        while left:
            piece = client.connection.recv(min(left, 1 << 20))
            self.assertTrue(piece)
            left -= len(piece)
