"""Memory that is refused: the line says so, nothing half done stays, and the session goes on, alone or at a server.

Each single request for memory is refused in turn; then all requests from some of them on, at which the program has none
left for anything. What comes is compared with what comes where memory is ample.
"""
import os

from program import Ended, ProgramTest, lines
from shortage import ALL, build, each, run_short, serve_short
from sizes import COLUMNS, LONGEST_LINE, name, pushes
from test_join import Scripted, join_words
from test_sync import FakePeer, in_turn

OUT_OF_MEMORY = b"err 19 memory\n"
FAILED = Ended(3, b"", OUT_OF_MEMORY)
# How far apart the requests are from which on all are refused.
APART = 5
# How many of the last requests of a server may not come each time.
FEW = 4
# The formulas of a level at which a second worker has its part.
WIDE = 8_192


def edits():
    """Lines that give cells contents of each kind, and change them."""
    yield from (f"set A{row} {row * row - 20}" for row in range(1, 13))
    yield from (f"set B{row} item {row}" for row in range(1, 7))
    yield from ("set B7 '5", f"set B8 {'t' * 64}", "set B9 äöü", "set B1 a longer name", "set B2 ")
    yield from (f"set C{row} =[.A{row}]*2+[.A{row + 1}]" for row in range(1, 9))
    yield from ("set D1 =SUM([.A1:.C9];[.F1])", "set D2 =[.D3]", "set D3 =[.D2]+1", "set D4 =COUNT([.B1:.B9])")
    yield from (f"set D5 ={'(' * 127}1{')' * 127}", "set D6 =IF([.A1]<0;[.D1];MAX([.A1:.A12]))", "set D2 7")
    yield from ("set D7 =SUM([.A1:.CZ1024])", "set D7 of:= - 2 * sum ( [.$A$1:.B2] ; 007 )", "set D8 =[.A1]")
    yield from ("set E1 @tally", "add E1 5", "sub E1 2", "add E1 1000000", "set E2 @tally", "sub E2 9", "set E3 =[.E1]")
    yield from ("set F1 @choice", "choose F1 7", "choose F1 63", "unchoose F1 7", "choose F1 0", "set F2 =[.F1]+1")
    yield from (f"choose F1 {option}" for option in range(10, 20))
    yield from ("set E1 closed", "set E1 @tally", "set F1 =[.F2]", "set F1 @choice", "set A1 =[.D1]", "set A1 3")


def deltas():
    """Lines of other replicas: of a cell and of many, with each part, again, with blanks, at the limit and past it."""
    yield """push [["A1",[9,2,"'theirs"],[],[]]]"""
    yield 'push [["A2",[1,2,"5"],[],[]]]'
    yield 'push [["A2",[1,2,"5"],[],[]]]'
    yield 'push [["D2",[5,2,"=[.D3]"],[],[]],["D3",[5,2,"4"],[],[]]]'
    yield 'push [["E1",null,[[2,5,1],[32,7,0]],[]],["F1",null,[],[[3,2,1,0],[7,1,1,1],[9,32,256,1]]]]'
    row = (f'["{name(column, 20)}",[1,3,"=[.A{column % 12 + 1}]+{column}"],[],[]]' for column in range(40))
    yield f"push [{','.join(row)}]"
    pairs = ",".join(f"[{option},4,{sequence},{sequence % 2}]" for option in range(16) for sequence in range(1, 9))
    yield f'push [["F3",[1,4,"@choice"],[],[{pairs}]]]'
    yield 'push [ ["G1", [1,2,"\\u0035"], [], []] ]' + " " * 20_000
    yield "push [" + " " * (LONGEST_LINE - 6)
    yield "push [" + " " * (LONGEST_LINE - 5)


def refusals():
    """Lines that are refused, each for a cause of its own."""
    yield from ("walk", "get", "get A0", "get DA1", "set A1025 1", "set A1 =bad", "set A1 " + "x" * 65, "rows A1")
    yield from ("set A1 " + "1" * 513, f"set A1 ={'(' * 128}1{')' * 128}", "set A1 '", "set A1 \x7f")
    yield from ("pull 999", "pull x")
    yield from ("add A1 5", "choose A1 5", "add E1 0", "add E1 1000001", "choose F1 64", "unchoose F1 33", "pull 0 17")
    yield from ("push []", "push [" * 40, 'push [["A1",[1,33,"5"],[],[]]]', 'push [["A1",[1,1,"=[.$A$1]"],[],[]]]')


def changes():
    """Lines that change what formulas refer to."""
    yield from (f"set A{row} {100 + row}" for row in range(1, 13))
    yield from ("set B1 9", "add E1 4", "choose F1 33", "set D3 5", "set G1 ")


def looks():
    """Lines that show the cells and the history."""
    yield from ("rows A1:G20", "rows A1:CZ3", "rows G1:G1")
    yield from ("entries A1:G20", "entries G1:G1", "entry A1", "entry B8", "entry D5", "entry E1", "entry G1")
    yield from (f"get {name(column, row)}" for column in range(7) for row in range(1, 8))
    yield from (f"pull {version} 16" for version in range(0, 112, 16))
    yield from ("pull 0", "pull 3", "pull 80 3", "get AN20", "get A20")


def shared():
    """Lines of each kind for a shared sheet. Each that changes it comes again, and after each some cells are shown."""
    wide = ",".join(f'["{name(column, 5)}",[9,2,"=[.A{column % 4 + 1}]+1"],[],[]]' for column in range(12))
    changing = (
        "set A1 5", "set A2 item", f"set A3 {'t' * 64}", "set B1 =[.A1]*2", "set B2 =SUM([.A1:.B1])", "set A2 ",
        "set C1 @tally", "add C1 5", "sub C1 2", "set D1 @choice", "choose D1 7", "unchoose D1 7", "set B1 =[.B2]",
        """push [["A4",[9,2,"'theirs"],[],[]]]""", f"push [{wide}]",
        'push [["C1",null,[[2,5,1]],[]],["D1",null,[],[[3,2,1,0],[7,1,1,1]]]]',
    )
    for line in changing:
        for _ in range(2):
            yield from (line, *(f"get {shown}" for shown in ("A1", "A2", "A3", "A4", "B1", "B2", "C1", "D1", "L5")))
    yield from ("rows A1:E5", "rows A1:CZ2", "entries A1:E5", "entry A3", "entry B1")
    yield from ("walk", "get A0", "set A1 =bad", "add A1 5", "choose C1 5", "push []", "pull 999", "rows A1")
    yield from ("get A1", "get B1", "get D1", "pull 0", "pull 0 16", "pull 16 16", "pull 999 16")


SCRIPT = tuple(line.encode() for line in (*edits(), *deltas(), *refusals(), *changes(), *looks()))
# Two sessions, one after the other.
SESSIONS = (
    tuple(line.encode() for line in shared()),
    tuple(line.encode() for line in ("rows A1:E5", "set E1 =[.B2]", "get C1", "pull 0 16", "pull 16 16", "get E1")),
)
TABLE = lines(
    "name,price,count,total",
    '"tea, green",7,3,=[.B2]*[.C2]',
    '"earl ""grey""",-5,=2*2,=[.B3]*[.C3]',
    ",,,=SUM([.D2:.D3])",
    "@tally,@choice,'5,=[.D5]",
    "",
    *(f"{row},=[.A{row}]+1,text {row},=SUM([.A1:.B{row}])" for row in range(6, 40)),
)


def text(script):
    """The bytes of these lines."""
    return b"".join(line + b"\n" for line in script)


def split(replies):
    """The replies one by one, those to `rows` and `entries` with the lines that follow them."""
    rest = replies.splitlines(keepends=True)
    while rest:
        count = 1 + (int(rest[0].split()[1]) if rest[0].startswith((b"rows", b"entries")) else 0)
        yield b"".join(rest[:count])
        rest = rest[count:]


def takes_memory(line, reply):
    """Whether memory may be taken for a line that has this reply where there is enough."""
    if reply.startswith((b"val ", b"end ", b"err 1 ", b"err 15 ", b"err 16 ")):
        return False
    return line.startswith((b"set ", b"push ")) or not reply.startswith(b"err ")


class Refused(ProgramTest):
    def setUp(self):
        self.files = self.folder()
        self.library = build(self.files)
        self.known = {}

    def file(self, given):
        """The path of a new file of these bytes."""
        path = self.files / str(len(list(self.files.iterdir())))
        path.write_bytes(given)
        return path

    def ample(self, words, given):
        """How the program with these words ends on these bytes where nothing is refused, and its requests."""
        return run_short(self.library, words, self.file(given), ALL, ALL)

    def check_each(self, check, words, given, first=1):
        """Runs the program with these words on these bytes again and again, and refuses each request from this one on:
        first it alone, then with all after it.

        Hands `check` the first and the last request that is refused, and how the program ended.
        """
        file = self.file(given)

        def start(*span):
            return run_short(self.library, words, file, *span)

        for span, short in self.each(start, first):
            with self.subTest(words=words, span=span):
                self.assertGreaterEqual(short.requests, span[0])
                check(*span, short.ended)

    def each(self, start, first=1):
        """Starts a program again and again, and refuses each request from this one on: first it alone, then with all
        after it. Gives each span of refused requests, and what it came to."""
        last = start(ALL, ALL).requests
        self.assertGreaterEqual(last, first)
        spans = [(number, number) for number in range(first, last + 1)]
        spans += [(number, ALL) for number in range(first, last + 1, APART)]
        return zip(spans, each(start, spans))

    def replies_of(self, script, ended):
        """The replies to these lines, one for each, of a program that ended well."""
        self.assertEqual((ended.status, ended.error), (0, b""))
        replies = list(split(ended.output))
        self.assertEqual(len(replies), len(script))
        return replies

    def replies(self, script):
        """The replies to these lines where nothing is refused."""
        if script not in self.known:
            self.known[script] = self.replies_of(script, self.ample(["run"], text(script)).ended)
        return self.known[script]

    def refused_of(self, script, ended):
        """The places of the lines that were refused memory. The others have the replies of a script without these."""
        return self.refused_in(script, self.replies_of(script, ended))

    def refused_in(self, script, replies):
        """The places of the lines that these replies refuse memory. The others are those to a script without these."""
        refused = [place for place, reply in enumerate(replies) if reply == OUT_OF_MEMORY]
        others = tuple(line for place, line in enumerate(script) if place not in refused)
        self.assertEqual([reply for reply in replies if reply != OUT_OF_MEMORY], self.replies(others))
        return refused

    def test_a_session(self):
        replies = self.replies(SCRIPT)
        opening = self.ample(["run"], b"").requests

        def check(first, last, ended):
            if first <= opening and (last == ALL or ended.status != 0):
                self.assertEqual(ended, FAILED)
                return
            refused = self.refused_of(SCRIPT, ended)
            if last == ALL:
                self.assertNotIn(b"get", [SCRIPT[place].split()[0] for place in refused])
            else:
                # there is none where the program makes do, as where it can't give room back
                self.assertLessEqual(len(refused), 1)
                self.assertTrue(all(takes_memory(SCRIPT[place], replies[place]) for place in refused))

        self.check_each(check, ["run"], text(SCRIPT))

    def test_a_thread_that_cannot_be_started(self):
        rows = range(2, WIDE // COLUMNS + 3)
        sheet = tuple(line.encode() for line in pushes(lambda column, row: f"=[.A1]+{row}", rows))
        script = (*sheet, b"set A1 5", b"get CZ2", b"get A80")
        self.assertEqual(self.replies(script)[-3:], [b"ok 80\n", b"val 7\n", b"val 85\n"])
        words = ["run", "--workers", "2"]
        refused = []
        first = self.ample(words, text(sheet)).requests + 1
        self.check_each(lambda *run: refused.append(self.refused_of(script, run[-1])), words, text(script), first)
        # the part of a thread that isn't there is done all the same
        self.assertIn([], refused)
        self.assertIn([len(sheet)], refused)

    def check_server(self, last, short):
        """Checks a server that was refused requests up to the last, and tells where that met it first."""
        if short.ended.status != 0:
            self.assertEqual((short.replies, short.ended), ([b""] * len(SESSIONS), FAILED))
            return "opening"
        # a session that finds no memory at its start is closed unread, and the others go on
        read = [place for place, replies in enumerate(short.replies) if replies]
        script = tuple(line for place in read for line in SESSIONS[place])
        replies = [reply for place in read for reply in split(short.replies[place])]
        self.assertEqual(len(replies), len(script))
        refused = self.refused_in(script, replies)
        versions = [int(reply.split()[1]) for reply in replies if reply.startswith(b"ok ")]
        self.assertEqual(short.ended, Ended(0, lines(f"closed {max(versions, default=0)}")))
        if last == ALL:
            self.assertNotIn(b"get", [script[place].split()[0] for place in refused])
        else:
            ample = self.replies(script)
            self.assertLessEqual(len(SESSIONS) - len(read) + len(refused), 1)
            self.assertTrue(all(takes_memory(script[place], ample[place]) for place in refused))
        if not short.replies[0]:
            return "start"
        return "line" if refused else "nowhere"

    def test_the_sessions_of_a_server(self):
        scripts = [text(script) for script in SESSIONS]
        met, unmet = {}, []
        for span, short in self.each(lambda *span: serve_short(self.library, scripts, *span)):
            with self.subTest(span=span):
                where = self.check_server(span[1], short)
                if short.requests < span[0]:
                    # (a thread that has just ended may leave its room to the next, which then asks for none)
                    unmet.append(span[0])
                    self.assertEqual(where, "nowhere")
                elif span[1] != ALL:
                    met.setdefault(where, []).append(span[0])
        self.assertLessEqual(len(unmet), FEW)
        self.assertLess(max(met["opening"]), min(met["start"]))
        self.assertLess(max(met["start"]), min(met["line"]))

    def test_a_sync(self):
        deltas = [f'[["A{row}",[{row},1,"{row}"],[],[]]]' for row in (1, 2)]
        pulled = [lines(f"delta {version} {delta}") for version, delta in enumerate(deltas, 1)]
        ends = {b"end 2\n": Ended(0, b"synced 2\n"), b"err 17 version\n": Ended(3, b"", b"err 17 version\n")}
        for last_reply, said in ends.items():
            pushed = {}

            def start(*span):
                peers = (FakePeer(in_turn(*pulled, last_reply)), FakePeer(lambda _: b"ok 1\n"))
                words = ["sync", "--from", str(peers[0].port), "--to", str(peers[1].port)]
                short = run_short(self.library, words, os.devnull, *span)
                for peer in peers:
                    peer.close()
                pushed[span] = peers[1].asked
                return short

            for span, short in self.each(start):
                with self.subTest(said=said, span=span):
                    self.assertIn(short.ended, (said, FAILED))
                    done = len(deltas) if short.ended == said else len(pushed[span])
                    self.assertEqual(pushed[span], [f"push {delta}" for delta in deltas[:done]])

    def test_a_join(self):
        delta = '[["A1",[1,1,"1"],[],[]]]'
        replies = [lines(f"delta 1 {delta}"), b"end 1\n", b"ok 2\n"], [b"same 1\n", lines(f"delta 1 {delta}")]
        whole = ["pull 0 16", "pull 1 16", f"merge {delta}"], [f"merge {delta}", "pull 0 16", "pull 1 16"]
        ends = {b"end 1\n": Ended(0, b"joined\n"), b"err 17 version\n": Ended(3, b"", b"err 17 version\n")}
        for last_reply, said in ends.items():
            asked = {}

            def start(*span):
                peers = (FakePeer(in_turn(*replies[0])), FakePeer(in_turn(*replies[1], last_reply)))
                once = [*join_words(*(peer.port for peer in peers)), "--once"]
                short = run_short(self.library, once, os.devnull, *span)
                for peer in peers:
                    peer.close()
                asked[span] = tuple(peer.asked for peer in peers)
                return short

            for span, short in self.each(start):
                with self.subTest(said=said, span=span):
                    self.assertIn(short.ended, (said, FAILED))
                    done = asked[span] if short.ended == FAILED else whole
                    self.assertEqual(asked[span], tuple(all_of[:len(part)] for all_of, part in zip(whole, done)))

    def test_a_join_that_goes_on(self):
        """It goes on without memory to tell of an end that it lost, and ends where it has none to connect again."""

        def start(*span, more=()):
            # (closed again and again, once both are joined)
            peers = [Scripted(*[[b"end 0\n"]] * 9) for _ in range(2)]
            ports = [peer.port for peer in peers]
            short = run_short(self.library, [*join_words(*ports), *more], os.devnull, *span)
            for peer in peers:
                peer.close()
            told = {f"joined {ports[0]} and {ports[1]}", *(f"port {port}: the connection ended" for port in ports)}
            return short.ended, short.requests, told

        ended, last, _ = start(ALL, ALL, more=["--once"])
        self.assertEqual(ended, Ended(0, b"joined\n"))
        spans = [(number, ALL) for number in range(1, last + 1, APART)]
        for span, (ended, _, told) in zip(spans, each(start, spans)):
            with self.subTest(span=span):
                self.assertTrue(ended.error.endswith(OUT_OF_MEMORY), ended)
                said = ended.error.removesuffix(OUT_OF_MEMORY)
                self.assertEqual(ended, Ended(3, b"", said + OUT_OF_MEMORY))
                self.assertLessEqual(set(said.decode().splitlines()), told)

    def test_a_follow(self):
        deltas = [f'[["A{row}",[{row},1,"{row}"],[],[]]]' for row in (1, 2)]
        pulled = [lines(f"delta {version} {delta}") for version, delta in enumerate(deltas, 1)]
        written = lines(*(f"push {delta}" for delta in deltas))
        ends = {b"end 2\n": Ended(0, written), b"err 17 version\n": Ended(3, written, b"err 17 version\n")}
        for last_reply, said in ends.items():

            def start(*span):
                peer = FakePeer(in_turn(*pulled, last_reply))
                short = run_short(self.library, ["follow", "--from", str(peer.port), "--until-now"], os.devnull, *span)
                peer.close()
                return short

            for span, short in self.each(start):
                with self.subTest(said=said, span=span):
                    self.assertIn(short.ended, (said, FAILED, FAILED._replace(output=written)))

    def test_a_table(self):
        shown = self.ample(["table"], TABLE).ended
        self.assertEqual((shown.status, shown.output.splitlines()[3]), (0, b",,,1"))
        self.check_each(lambda _, last, ended: self.assertIn(ended, (shown, FAILED)), ["table"], TABLE)

    def test_a_squash(self):
        given = lines("replica 1", *list(deltas())[:5])
        said = self.ample(["squash"], given).ended
        self.assertEqual((said.status, said.output.count(b"\n")), (0, 2))
        self.check_each(lambda _, last, ended: self.assertIn(ended, (said, FAILED)), ["squash"], given)

    def test_a_command_line(self):
        for words in (["--help"], ["run", "--help"], ["run", "--workers", "17"], ["walk"]):
            said = self.ample(words, b"").ended
            self.check_each(lambda _, last, ended, said=said: self.assertIn(ended, (said, FAILED)), words, b"")
