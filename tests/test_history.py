"""`sheet serve`: what each session is answered on its own connection, and that the history is just what sessions made.

Sessions run side by side and send all of their lines before they read a reply. Each sets a cell of its own, so each
reply tells whose it is; in the end another session pulls each change by itself.
"""
import threading

from program import LIMIT, Ended, ProgramTest, lines
from servers import serving
from sizes import COLUMNS, name

REPLICA = 7
SESSIONS = 6
ROUNDS = 200
# Rows of the table that each session asks for last: some 100 KB, more than the system keeps for a reader.
TABLE_ROWS = 960


class Script:
    """The lines of a session, and what is known of each reply before they are sent. An edit has the delta that it
    makes, without the number in its reply."""

    def __init__(self, number):
        self.column = number
        self.given, self.replies, self.deltas = [], [], []
        for turn in range(1, ROUNDS + 1):
            self.edit(turn)
            self.ask(f"get {self.cell}", f"val {self.text(turn)}")
            self.ask(f"add {self.cell} 1", "err 5 not-tally")
            self.ask(f"walk {number} {turn}", "err 16 command")
        self.ask(f"push {self.deltas[0]}", None)

    @property
    def cell(self):
        """The session's own cell."""
        return name(self.column, 1000)

    def text(self, turn):
        """What the session sets its cell to."""
        return f"{self.column} has {turn}"

    def ask(self, line, reply):
        """One more line with its reply, or with `ok` and some number."""
        self.given.append(line)
        self.replies.append(reply)

    def edit(self, turn):
        """An edit of the session's own cell."""
        self.ask(f"set {self.cell} {self.text(turn)}", None)
        self.deltas.append(f'[["{self.cell}",[{turn},{REPLICA},"\'{self.text(turn)}"],[],[]]]')


class Connections(ProgramTest):
    def assert_replies(self, script, found):
        """These are all replies to the script, in order, and a table. Returns the numbers of its edits."""
        self.assertEqual(found[-1:], b"\n")
        replies = found.decode().split("\n")[:-1]
        table = replies[len(script.replies):]
        self.assertEqual(table, [f"rows {TABLE_ROWS}", *["," * (COLUMNS - 1)] * TABLE_ROWS])
        numbers = []
        for line, wanted, reply in zip(script.given, script.replies, replies):
            if wanted is None:
                self.assertRegex(reply, r"\Aok [0-9]+\Z", line)
                numbers.append(int(reply.split()[1]))
            else:
                self.assertEqual(reply, wanted, line)
        # the last one is of a delta that is there already
        self.assertEqual(numbers, sorted(numbers))
        return numbers[:-1]

    def test_replies_are_whole_and_in_order_and_the_history_is_what_the_sessions_made(self):
        scripts = [Script(number) for number in range(SESSIONS)]
        found = [b""] * SESSIONS
        with serving(SESSIONS + 1, "--replica", str(REPLICA), "--workers", "2") as server:
            clients = [server.client(room=10_000) for _ in scripts]

            def talk(place):
                clients[place].send(lines(*scripts[place].given, f"rows A1:CZ{TABLE_ROWS}"))
                clients[place].stop_sending()
                found[place] = clients[place].rest()

            threads = [threading.Thread(target=talk, args=(place,), daemon=True) for place in range(SESSIONS)]
            for thread in threads:
                thread.start()
            for thread in threads:
                thread.join(LIMIT)
            made = {}
            for script, replies in zip(scripts, found):
                made |= dict(zip(self.assert_replies(script, replies), script.deltas))
            count = SESSIONS * ROUNDS
            self.assertEqual(sorted(made), list(range(1, count + 1)))
            last = server.client()
            last.send(lines(*(f"pull {version}" for version in range(count + 1))))
            pulled = [f"delta {number} {made[number]}" for number in sorted(made)]
            self.assertEqual(last.leave(), lines(*pulled, f"end {count}"))
            self.assertEqual(server.ended(), Ended(0, lines(f"closed {count}")))

    def test_a_server_without_a_change_has_no_history(self):
        with serving(2, "--replica", "7") as server:
            first, second = server.client(), server.client()
            first.send(lines("add A1 5", "get A1", "push []", "rows A1:B1", "set A0 5"))
            replies = lines("err 5 not-tally", "val ", "err 14 delta", "rows 1", ",", "err 1 cell")
            self.assertEqual(first.leave(), replies)
            second.send(lines("pull 0", "pull 0 16"))
            self.assertEqual(second.leave(), lines("end 0", "end 0"))
            self.assertEqual(server.ended(), Ended(0, lines("closed 0")))

    def test_each_kind_of_edit_has_the_stamps_of_the_replica(self):
        edits = (
            "set A1 5", "set B1 @tally", "add B1 4", "sub B1 1", "set C1 @choice", "choose C1 3", "unchoose C1 3",
        )
        for replica in (1, 7, 32):
            with self.subTest(replica=replica), serving(1, "--replica", str(replica)) as server:
                client = server.client()
                client.send(lines(*edits, "pull 0 16"))
                cells = (f'["A1",[1,{replica},"5"],[],[]]', f'["B1",[1,{replica},"@tally"],[[{replica},4,1]],[]]',
                         f'["C1",[1,{replica},"@choice"],[],[[3,{replica},1,1]]]')
                replies = [f"ok {version + 1}" for version in range(len(edits))]
                self.assertEqual(client.leave(), lines(*replies, f"delta {len(edits)} [{','.join(cells)}]"))
                self.assertEqual(server.ended(), Ended(0, lines(f"closed {len(edits)}")))
