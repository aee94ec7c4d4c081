"""The sessions of `transcripts/`, each on an empty sheet: whole, byte by byte, and cut into two pieces.

A transcript begins with `#` and its title. A line `$ ./sheet run ..` after it has the further words of the command
line, where there are any. The other lines are those of the session, each after `> `, and their replies. A `␣` is a
blank at the end of a line. An empty line ends a transcript.
"""
from typing import NamedTuple

from program import TOP, ProgramTest, lines

FILES = sorted((TOP / "tests/transcripts").glob("*.txt"))


class Transcript(NamedTuple):
    """A session on an empty sheet: its title, the further words of the command line, its lines, and their replies."""

    title: str
    words: list
    given: bytes
    replies: bytes


def transcript(text):
    """The transcript with this text."""
    title, *rest = text.replace("␣", " ").splitlines()
    words, given, replies = [], [], []
    for line in rest:
        if line.startswith("$ ./sheet run "):
            words = line.split()[3:]
        elif line.startswith("> "):
            given.append(line.removeprefix("> "))
        else:
            replies.append(line)
    return Transcript(title.removeprefix("# "), words, lines(*given), lines(*replies))


class Transcripts(ProgramTest):
    def test_each_has_its_replies(self):
        self.assertTrue(FILES)
        for file in FILES:
            for text in file.read_text().split("\n\n"):
                session = transcript(text)
                with self.subTest(file=file.name, title=session.title):
                    self.assertTrue(text.startswith("# ") and session.given)
                    self.assert_however_cut(session.given, session.replies, *session.words)
