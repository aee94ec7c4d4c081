"""Lines that take no memory, and when an edit takes it, by the requests that the program makes.

No clause says that a read, a refused edit, and a change that is made or given up once it is worked out take none. This
can be seen from outside:

- Lines that take none make no request, however many there are.
- The refusal of each request of an edit is the reply to it, so none is made once something has changed.
- After a request that was refused there is no other.

A number that is set in a cell of a plain sheet, and an amount that is added to a counter or taken off it, ask for the
room of the history alone, which doubles. A pull makes no more for a delta of many cells than for one of a single cell,
except the room of its text, which doubles.
"""
import math

from program import Ended, ProgramTest, lines
from shortage import ALL, build, each, run_short, serve_after
from sizes import pushes

REFUSED = "err 19 memory"
# Cells of each kind, one at its last time, a counter at its limit, and a set whose sequences are used up.
OPENING = (
    "set A1 5", "set B1 item", "set C1 =[.A1]*2", "set D1 @tally", "add D1 5", "set E1 @choice", "choose E1 7",
    "set F1 =[.F1]", 'push [["G1",[9007199254740991,2,"5"],[],[]]]',
    'push [["H1",[1,1,"@tally"],[[1,1099511627776,0]],[]],["I1",[1,1,"@choice"],[],[[0,1,256,0]]]]',
)
# Lines that take no memory, each with its reply.
WITHOUT = {
    "get A1": "val 5", "get B1": "val item", "get C1": "val 10", "get D1": "val 5", "get E1": "val {7}",
    "get F1": "val #CYCLE!", "get CZ1024": "val ", "get A0": "err 1 cell", "get": "err 16 command",
    "walk": "err 16 command", "set DA1 7": "err 1 cell", "rows A1": "err 1 cell", "choose E1 x": "err 8 option",
    "entry A0": "err 1 cell", "entries A1": "err 1 cell", "entry": "err 16 command",
    "add A1 5": "err 5 not-tally", "choose D1 3": "err 6 not-choice", "add D1 0": "err 7 amount",
    "choose E1 64": "err 8 option", "unchoose E1 9": "err 12 not-chosen", "set G1 5": "err 13 clock-full",
    "add H1 1": "err 10 tally-full", "choose I1 1": "err 11 choice-full",
    "pull 10": "end 10", "pull 10 16": "end 10", "pull 11": "err 17 version", "pull 0 17": "err 17 version",
}
TIMES = 1_000
# The room that a text has at first, in bytes.
FIRST_ROOM = 128
# Edits and a pushed delta. (`sub` and `unchoose` aren't among them: of a merged list the room that is left over is
# given back, which is a request too, and where that is refused they make do.)
CHANGES = (
    "set A1 6", "set A1 ", "set A1 text", "set A9 7", "set C1 =[.A1]*3", "set A1 =[.C1]", "set F1 1", "add D1 5",
    "choose E1 8", 'push [["A1",[9,2,"7"],[],[]],["B9",[1,2,"=[.A1]"],[],[]]]',
)
# Those of them that may ask for nothing, where the history has room for one more.
QUIET = ("set A1 6", "set A1 ", "set F1 1", "add D1 5")
LOOKS = ("get A1", "get B1", "get C1", "get D1", "get E1", "get F1", "get G1", "get A9", "get B9")


class Requests(ProgramTest):
    """The same of a session of `run` and of one of `serve`, each with one worker."""

    def setUp(self):
        self.files = self.folder()
        self.library = build(self.files)

    def by_run(self, opening, script):
        """A session of `run` with these lines, to be started with the requests that are refused."""
        given = self.files / "given"
        given.write_bytes(lines(*opening, *script))

        def start(first=ALL, last=ALL):
            short = run_short(self.library, ["run"], given, first, last)
            self.assertEqual((short.ended.status, short.ended.error), (0, b""))
            return short.ended.output.decode().splitlines(), short.requests

        return start

    def by_serve(self, opening, script):
        """The same at a server, which ends well. The requests are those after the opening."""
        def start(first=ALL, last=ALL):
            short = serve_after(self.library, opening, script, first, last)
            replies = short.replies[0].decode().splitlines()
            versions = [int(reply.split()[1]) for reply in replies if reply.startswith("ok ")]
            self.assertEqual(short.ended, Ended(0, lines(f"closed {max(versions)}")))
            return replies, short.requests

        return start

    def each_way(self):
        """How a session is started, of each command."""
        for how in (self.by_run, self.by_serve):
            with self.subTest(how=how.__name__):
                yield how

    def test_reads_and_refused_lines_make_no_request_however_many_there_are(self):
        for how in self.each_way():
            opening, requests = how(OPENING, ())()
            self.assertEqual(opening, [f"ok {version + 1}" for version in range(len(OPENING))])
            for line, reply in WITHOUT.items():
                with self.subTest(line=line):
                    replies, found = how(OPENING, [line] * TIMES)()
                    self.assertEqual(replies, [*opening, *[reply] * TIMES])
                    self.assertEqual(found - requests, 0)

    def test_a_pull_makes_the_same_requests_whatever_its_delta_holds_but_for_its_text(self):
        # one cell, and 104 that a line has room for
        one, row = 'push [["A1",[1,2,"5"],[],[]]]', *pushes(lambda column, row: f"=[.A{row}]+{column}", (2,))
        # how often the room of the longer text doubles
        doubled = math.ceil(math.log2(len(row) / FIRST_ROOM))
        for how in self.each_way():
            self.assertLessEqual(self.requests_of_a_pull(how, row) - self.requests_of_a_pull(how, one), doubled)

    def requests_of_a_pull(self, how, change):
        """How many requests each pull of this change makes."""
        few, many = (how((change,), ["pull 0"] * times)() for times in (TIMES // 2, TIMES))
        self.assertEqual(many[0][1:], [f"delta 1 {change.removeprefix('push ')}"] * TIMES)
        return (many[1] - few[1]) / (TIMES - TIMES // 2)

    def assert_requests_come_first(self, how, opening, changes, looks, quiet=()):
        """Each request of one of these changes comes before anything changes, and none after one that is refused.

        Each of them makes one, except those that may be quiet.
        """
        before, known = how(opening, looks)()
        for line in changes:
            start = how(opening, (line, *looks))
            after, requests = start()
            self.assertEqual(after[len(opening)], f"ok {len(opening) + 1}")
            self.assertGreater(requests + (line in quiet), known, line)
            # the looks take none
            spans = [(number, last) for number in range(known + 1, requests + 1) for last in (number, ALL)]
            for span, (replies, found) in zip(spans, each(start, spans)):
                with self.subTest(line=line, span=span):
                    self.assertEqual(replies, [*before[:len(opening)], REFUSED, *before[len(opening):]])
                    self.assertEqual(found, span[0])

    def filled(self, how):
        """The opening, and edits after it, until the history has no room for one more."""
        opening = [*OPENING, "set A9 7"]
        while how(opening, ("set A9 7",))()[1] == how(opening, ())()[1]:
            opening.append("set A9 7")
            self.assertLess(len(opening), TIMES)
        return opening

    def test_each_request_of_an_edit_comes_before_anything_changes_and_none_after_one_that_is_refused(self):
        for how in self.each_way():
            self.assert_requests_come_first(how, OPENING, CHANGES, LOOKS, QUIET)

    def test_the_same_where_the_history_has_no_room_for_one_more(self):
        for how in self.each_way():
            self.assert_requests_come_first(how, self.filled(how), CHANGES, LOOKS)

    def test_the_same_of_an_edit_after_which_2_000_cells_show_other_values(self):
        opening = ("set A1 5", *pushes(lambda column, row: f"=[.A1]+{row}", range(2, 22)))
        for how in self.each_way():
            looks = ("get A1", "get A2", "get CZ21")
            self.assert_requests_come_first(how, opening, ("set A1 6", "set A1 text"), looks, QUIET)

    def test_numbers_and_amounts_ask_for_the_room_of_the_history_alone(self):
        _, requests = self.by_run(OPENING, ())()
        for line in ("set A1 6", "add D1 5", "sub D1 5"):
            with self.subTest(line=line):
                replies, found = self.by_run(OPENING, [line] * TIMES)()
                self.assertEqual(replies[-1], f"ok {len(OPENING) + TIMES}")
                self.assertLess(found - requests, 10)

    def test_changes_that_come_at_once_are_shown_together(self):
        """What waits to be shown has its room once for 64 changes, and anew after a look has shown it."""
        (_, requests), (_, found), (_, looked) = (self.by_serve(OPENING, script)() for script in (
            (), ["set A1 6"] * TIMES, ["set A1 6", "set A1 7", "get A1"] * TIMES))
        self.assertLess(found - requests, TIMES / 16)
        self.assertGreater(looked - requests, TIMES)
