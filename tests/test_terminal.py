"""Standard output at a terminal: what a cell holds, or a peer sends, commands no terminal."""
import os
import pty
import subprocess

from preloaded import PROGRAM
from program import LIMIT, ProgramTest, lines
from test_sync import FakePeer, in_turn

# Texts with U+009B, which begins a command at some terminals, and what a terminal gets of them.
GIVEN = "x\u009b31m", "\u0080y\u009f", "\u00a9 \u0100"
SHOWN = "x\\u{9b}31m", "\\u{80}y\\u{9f}", "\u00a9 \u0100"
# What a peer may send in place of a value.
HOSTILE = b"val \x1b[31m\x07\x7f\tred\xc2\x9b\n"
SPELLED = "val \\u{1b}[31m\\u{7}\\u{7f}\tred\\u{9b}\n".encode()


class Terminal(ProgramTest):
    def at_terminal(self, words, given, stream="stdout", status=0):
        """What the program writes on this stream at a terminal, in which a line feed stays one."""
        outer, inner = pty.openpty()
        with open(outer, "rb", buffering=0) as shown:
            subprocess.run(["stty", "-opost"], stdin=inner, check=True, timeout=LIMIT)
            streams = {"stdout": subprocess.PIPE, "stderr": subprocess.PIPE, stream: inner}
            ran = subprocess.Popen([PROGRAM, *words], stdin=subprocess.PIPE, **streams)
            os.close(inner)
            ran.communicate(given, timeout=LIMIT)
            found = b""
            try:
                while piece := shown.read(65_536):
                    found += piece
            except OSError:
                # (the end of a terminal whose programs have ended)
                pass
        self.assertEqual(ran.returncode, status)
        return found

    def test_texts_of_cells(self):
        given = [f"set A{row} {text}" for row, text in enumerate(GIVEN, 1)] + [f"get A{row}" for row in (1, 2, 3)]
        replies = [f"ok {row}" for row in (1, 2, 3)]
        self.assertEqual(self.at_terminal(["run"], lines(*given)), lines(*replies, *(f"val {text}" for text in SHOWN)))
        table = "".join(f"{text}\n" for text in GIVEN).encode()
        self.assertEqual(self.at_terminal(["table"], table), lines(*SHOWN))

    def test_hints(self):
        """What somebody else's script or table has, repeated by a hint."""
        given, hint = "=\u009b31m".encode() + b"\n", b"a formula has no \\u{9b}"
        self.assertIn(hint, self.at_terminal(["run", "--explain"], b"set A1 " + given, "stderr"))
        self.assertIn(hint, self.at_terminal(["table", "--explain"], given, "stderr", 3))

    def test_replies_of_a_peer(self):
        peer = FakePeer(in_turn(HOSTILE))
        self.addCleanup(peer.close)
        self.assertEqual(self.at_terminal(["talk", "--to", str(peer.port)], b"get A1\n"), SPELLED)

    def test_elsewhere_every_byte_passes(self):
        given = lines(*(f"set A{row} {text}" for row, text in enumerate(GIVEN, 1)), "get A1", "get A2", "get A3")
        shown = lines("ok 1", "ok 2", "ok 3", *(f"val {text}" for text in GIVEN))
        self.assertEqual(subprocess.run([PROGRAM, "run"], input=given, capture_output=True, timeout=LIMIT).stdout, shown)
