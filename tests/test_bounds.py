"""What one line can take: stack, time and memory. The bounds that `docs/FORMATS.md` tells."""
import contextlib
import os
import select
import subprocess
import time
from pathlib import Path

import peers
from browser_socket import TEXT, WebSocket, frame
from preloaded import PROGRAM
from program import LIMIT, SHEET, Ended, ProgramTest, lines
from servers import comes_to, serving
from sizes import COLUMNS, LARGEST_TABLE, LONGEST_DELTA, name, pushes

# A sheet of 100,048 cells.
ROWS = 962
# The longest that a line may take, in seconds of a processor where the machine does other work too, and how often it is
# tried.
BOUND = 0.1
TRIES = 10
# .. and the longest for a delta line of any length that is refused.
REFUSED = 0.1
# How many times the time of a formula beside 20,000 others one beside 80,000 may take.
GROWTH = 2
STACK_KB = 2_048
ENDLESS_KB = 1_024
# In this the dearest table is refused for what is at fault in it.
TABLE_KB = 3_000_000


def after_the_one_before(column, row):
    """The formula of a chain in order, which A1 begins."""
    if column > 0:
        return f"=[.{name(column - 1, row)}]+1"
    return f"=[.{name(COLUMNS - 1, row - 1)}]+1" if row > 1 else "0"


def run_within(limit, *words, **given):
    """How `./sheet` with these words ends where the shell's `ulimit` holds for it."""
    command = ["sh", "-c", f'ulimit {limit}; exec "$0" "$@"', SHEET, *words]
    ran = subprocess.run(command, capture_output=True, timeout=LIMIT, **given)
    return Ended(ran.returncode, ran.stdout, ran.stderr)


class Stack(ProgramTest):
    def assert_replies(self, given, replies, *words):
        """A session in a stack of 2 MB has these replies."""
        self.assertEqual(run_within(f"-s {STACK_KB}", "run", *words, input=given), Ended(0, replies))

    def test_the_deepest_formulas(self):
        for formula in (
            f"{'(' * 127}1{')' * 127}", f"{'-' * 254}1", f"{'ABS(' * 50}1{')' * 50}", f"{'IF(1;' * 42}1{')' * 42}"
        ):
            given = lines(f"set A1 ={formula}", "get A1", f'push [["B1",[1,2,"={formula}"],[],[]]]', "get B1")
            self.assert_replies(given, lines("ok 1", "val 1", "ok 2", "val 1"))

    def test_deeper_ones_that_are_refused(self):
        deeper = [f"{'(' * 255}1{')' * 255}", f"{'-' * 510}1", f"{'ABS(' * 102}1{')' * 102}"]
        unclosed = ["(" * 511, "-" * 511, "ABS(" * 127, "IF(1;" * 102]
        given = lines(*(f"set A1 ={formula}" for formula in (*deeper, *unclosed)))
        self.assert_replies(given, lines(*["err 4 too-long"] * len(deeper), *["err 3 formula"] * len(unclosed)))

    def test_the_deepest_json(self):
        deep = ["[" * LONGEST_DELTA, '{"a":' * 52_000, "[" * 131_000 + "]" * 131_000, '[["A1",' * 37_000]
        self.assert_replies(lines(*(f"push {text}" for text in deep)), lines(*["err 14 delta"] * len(deep)))

    def test_a_chain_and_a_cycle_of_100_048_cells(self):
        last = name(COLUMNS - 1, ROWS)
        rows = [f"ok {version}" for version in range(1, ROWS + 1)]
        given = lines(
            *pushes(after_the_one_before, range(1, ROWS + 1)),
            "set A1 5", f"get {last}", f"set A1 =[.{last}]", "get B1", "set A1 6", f"get {last}",
        )
        replies = lines(
            *rows, f"ok {ROWS + 1}", "val 100052", f"ok {ROWS + 2}", "val #CYCLE!", f"ok {ROWS + 3}", "val 100053"
        )
        self.assert_replies(given, replies)

    def test_deep_formulas_of_several_workers(self):
        rows = range(2, 161)
        deep = f"={'(' * 125}[.A1]{')' * 125}"
        given = lines(*pushes(lambda *_: deep, rows), "set A1 5", "get CZ160")
        replies = lines(*(f"ok {version}" for version in range(1, len(rows) + 2)), "val 5")
        self.assert_replies(given, replies, "--workers", "16")


def processor_time(process):
    """The seconds of processors that a process has had so far; where the system doesn't tell, the time."""
    try:
        # the number of the clock of a process, as the C library makes it
        return time.clock_gettime(~process << 3 | 2)
    except OSError:
        return time.monotonic()


def repeated(part, begin="[", end="]"):
    """The longest delta line that has this part again and again."""
    count = (LONGEST_DELTA - len(begin) - len(end) + 1) // (len(part) + 1)
    return f"{begin}{','.join([part] * count)}{end}"


def out_of_order(state):
    """The longest delta line of cells with this state whose last cell stands there twice."""
    cells, length = [], 2
    for index in range(COLUMNS * 1024):
        cell = f'["{name(index % COLUMNS, index // COLUMNS + 1)}",{state}]'
        length += len(cell) + 1
        if length + len(cell) > LONGEST_DELTA:
            break
        cells.append(cell)
    return f"[{','.join([*cells, cells[-1]])}]"


def refused_lines():
    """Delta lines of the greatest length that are refused late: after all their cells, as JSON, or as a tree."""
    for content in (
        "1", "'a", "=[.A1]", "=1+1", f"=1{'+1' * 110}", f"={'-' * 200}1", f"={'(' * 120}1{')' * 120}", r"'\"a",
    ):
        yield out_of_order(f'[1,2,"{content}"],[],[]')
    yield out_of_order(f"null,[{','.join(f'[{replica},1,1]' for replica in range(1, 33))}],[]")
    yield repeated("[0,1,1,0]", '[["A1",null,[],[', "]]]")
    yield from (repeated(part) for part in ("1", "1.5", "[]", '""', '{"a":1}', "[" * 100 + "]" * 100))
    yield "{" + ",".join(f'"{key:05}":1' for key in range(26_000, 0, -1)) + "}"
    yield from ("[" * LONGEST_DELTA, "1" * LONGEST_DELTA, f"0.{'1' * (LONGEST_DELTA - 2)}")


class Time(ProgramTest):
    def assert_in_time(self, peer, line, replies, bound=BOUND, expected="(?!err)"):
        """One of several tries of this line has all its lines of replies within the bound, the first as
        expected. A `#` in it is another number each time, so that each try has as much to do."""
        tries = []
        while len(tries) < TRIES and min(tries, default=bound) >= bound:
            asked = line.replace("#", str(len(tries) + 1))
            begun, had = time.monotonic(), processor_time(peer.session.pid)
            self.assertRegex(peer.ask(asked), f"^{expected}")
            for _ in range(replies - 1):
                peer.reply()
            tries += [time.monotonic() - begun, processor_time(peer.session.pid) - had]
        self.assertLess(min(tries), bound, line[:60])

    def test_the_longest_delta_lines_that_are_refused(self):
        with peers.on_pipes("run") as peer:
            for line in refused_lines():
                with self.subTest(line[:60]):
                    self.assertLessEqual(len(line), LONGEST_DELTA)
                    self.assert_in_time(peer, f"push {line}", 1, REFUSED, "err 14 delta$")

    def test_lines_on_a_sheet_of_100_048_cells(self):
        rows = range(2, ROWS + 2)
        everything = ";".join(["[.A2:.CZ963]"] * 19)
        with peers.on_pipes("run") as peer:
            for line in pushes(lambda column, row: column * row, rows):
                self.assertRegex(peer.ask(line), "^ok ")
            self.assert_in_time(peer, f"set A1 =SUM({everything})", 1)
            self.assert_in_time(peer, "set A2 #", 1)
            self.assertRegex(peer.ask("set A2 1"), "^ok ")
            self.assertEqual(peer.ask("get A1"), f"val {19 * (sum(range(COLUMNS)) * sum(rows) + 1)}")
            self.assert_in_time(peer, "rows A1:CZ1024", 1 + 1024)
            self.assert_in_time(peer, "pull 0 16", 1)

    def test_an_edit_that_728_sums_of_100_048_cells_refer_to(self):
        """What they sum is remembered, and not gone through for each of them."""
        rows = range(2, ROWS + 2)
        with peers.on_pipes("run") as peer:
            for line in pushes(lambda column, row: column * row, rows):
                self.assertRegex(peer.ask(line), "^ok ")
            for line in pushes(lambda column, row: f"=SUM([.A2:.CZ963])+{row}", range(970, 977)):
                self.assertRegex(peer.ask(line), "^ok ")
            self.assert_in_time(peer, "set A2 #", 1)
            self.assertRegex(peer.ask("set A3 7"), "^ok ")
            number = int(peer.ask("get A2").split()[1])
            for row in (970, 976):
                whole = sum(range(COLUMNS)) * sum(rows) + number + 7 + row
                self.assertEqual(peer.ask(f"get CZ{row}"), f"val {whole}")


# How many others are at a server, and how often each asks for the whole sheet and reads nothing.
OTHERS, ASKED = 4, 60
# Beside their tables, so many edits of the tries wait for less than this part of the time of the first text.
MOSTLY, PART = 8, 0.6
# The bytes of such a reply, and how many of them a server holds for each, at the most.
REPLY, HELD = 6_920_000, 4


class Beside(ProgramTest):
    """What others ask for holds up nobody for long, and takes a bounded memory."""

    def setUp(self):
        with contextlib.ExitStack() as stack:
            self.server = stack.enter_context(serving(None, program=PROGRAM))
            self.addCleanup(stack.pop_all().close)

    def fill(self, content):
        """Has the server fill the sheet with this, except A1's row."""
        client = self.server.client()
        for line in pushes(lambda *_: content, range(2, 1_025)):
            self.assertRegex(client.ask(line), "^ok ")
        client.leave()

    def arrivals(self, clients):
        """When each of these has the first bytes of its reply."""
        times = {}
        while len(times) < len(clients):
            left = [it.connection for it in clients if it.connection not in times]
            ready = select.select(left, [], [], LIMIT)[0]
            self.assertTrue(ready)
            times.update((it, time.monotonic()) for it in ready)
        return [times[it.connection] for it in clients]

    def test_an_edit_while_others_ask_for_long_tables(self):
        """Tables of 25 MB are made without the lock: most edits beside them are done long before the first such text."""
        self.fill("=" + "+".join(["[.CZ1024]"] * 25))
        client, others, parts = self.server.client(), [self.server.client() for _ in range(OTHERS)], []
        for number in range(TRIES):
            asked = time.monotonic()
            for other in others:
                other.send(b"entries A1:CZ1024\n")
            # (so that they are under way)
            time.sleep(0.02)
            begun = time.monotonic()
            client.send(lines(f"set A1 {number}"))
            edited, *answered = self.arrivals([client, *others])
            self.assertRegex(client.reply(), "^ok ")
            parts.append((edited - begun) / (min(answered) - asked))
            for other in others:
                due = 1 + 1_024
                while due:
                    due -= other.connection.recv(1 << 20).count(b"\n")
        self.assertLess(sorted(parts)[MOSTLY - 1], PART, parts)

    def test_replies_that_nobody_reads(self):
        """Of browsers and sessions that ask again and again, a server holds some replies each."""
        self.fill("'" + "x" * 64)
        before = self.most()
        asked = [*((WebSocket(self.server.port, room=4_096), frame(TEXT, b"rows A1:CZ1024")) for _ in range(OTHERS)),
                 *((self.server.client(room=4_096), b"rows A1:CZ1024\n") for _ in range(OTHERS))]
        for opened, _ in asked:
            opened.connection.setblocking(False)
            self.addCleanup(opened.connection.close)
        for _ in range(ASKED):
            for opened, line in asked:
                with contextlib.suppress(OSError):
                    opened.connection.send(line)
            time.sleep(0.02)
        self.assertGreater(self.most() - before, len(asked) * REPLY)
        self.assertLess(self.most() - before, len(asked) * REPLY * HELD)

    def most(self):
        """The most memory that the server had so far, in bytes."""
        with open(f"/proc/{self.server.session.pid}/status") as status:
            return next(int(line.split()[1]) for line in status if line.startswith("VmHWM:")) * 1_024


# How many lines those who read nothing send at once, and how many do so.
AT_ONCE, UNREADING = 100_000, 4
# The bytes that a session reserves for replies (`ROOM`): twice those that may wait (`PIECE_BYTES`).
RESERVED = 131_072
# The bytes of the entries of the sheet, and what threads and their stacks take besides.
ENTRIES, BESIDES = 7_030_000, 1_000_000


class Unread(ProgramTest):
    """Who sends many lines at once and reads no reply takes a bounded memory, of a server that keeps its sheet, too."""

    # How often a session of lines takes the room of a reply at the most: as it is made, as it waits, and once more that
    # the allocator hasn't given back.
    COPIES = 3

    def opened(self, server):
        """A session that has its slot."""
        client = server.client(room=4_096)
        self.assertRegex(client.ask("get A2"), "^val ")
        return client

    def given(self, line):
        """The bytes of so many of this line."""
        return lines(line) * AT_ONCE

    def assert_held(self, server, line, reply, least=0):
        """Sessions send this line many times and read nothing. The server holds a few replies of so many bytes for each,
        and at least so many bytes in all."""
        opened = [self.opened(server) for _ in range(UNREADING)]
        process = server.session.pid
        before, most = server.memory(), UNREADING * (self.COPIES * reply + RESERVED) + BESIDES
        # (which forgets the most memory so far)
        Path(f"/proc/{process}/clear_refs").write_text("5")
        for one in opened:
            one.connection.settimeout(1)
            with contextlib.suppress(TimeoutError):
                one.connection.sendall(self.given(line))

        def held():
            return server.status("VmHWM:") - before

        def is_over():
            """Whether the server does nothing more, or holds too much."""
            used = processor_time(process)
            time.sleep(0.3)
            return held() > most or processor_time(process) == used and held() >= least

        self.assertTrue(comes_to(is_over), held())
        self.assertLess(held(), most)
        for one in opened:
            one.connection.close()

    def test_replies_that_nobody_reads(self):
        for keeps in (False, True):
            words = ("--keep", str(self.folder() / "plan.lines")) if keeps else ()
            with self.subTest(keeps=keeps), serving(None, *words, program=PROGRAM) as server:
                client = server.client()
                client.send(lines(*pushes(lambda *_: "'" + "x" * 64, range(2, 1_025))))
                for number in range(1, 1_024):
                    self.assertEqual(client.reply(), f"ok {number}")
                self.assert_held(server, "get A2", 69)
                self.assert_held(server, "entries A1:CZ1024", ENTRIES, least=UNREADING * ENTRIES)


class UnreadByBrowsers(Unread):
    # .. and one of a browser: as it waits, as the message, as the bytes of its frame, and that one
    COPIES = 4

    def opened(self, server):
        """A browser that has its slot."""
        socket = WebSocket(server.port, room=4_096)
        self.addCleanup(socket.connection.close)
        self.assertRegex(socket.ask("get A2"), "^val ")
        return socket

    def given(self, line):
        """The frames of so many of this line."""
        return frame(TEXT, line.encode()) * AT_ONCE


# Ranges of so many rows are walked cell by cell, and of longer ones each 57 rows are remembered.
WALKED = 113
# How much longer an edit under sums of all rows may take than one under sums of these: cell by cell it were 8 times.
LONGER = 3
# The numbers that are summed.
PRODUCTS = list(pushes(lambda column, row: column * row, range(2, ROWS + 1)))
# How often an edit is timed, and how often two times are compared, on a machine that does other work too.
EDITS, COMPARED = 5, 3


def summing(last, columns=COLUMNS, rows=1):
    """Lines that fill rows of the sheet's end with formulas, each the sum of 17 ranges, which end at this row."""
    ranges = ";".join(f"[.A{first}:.{name(columns - 1, last)}]" for first in range(2, 19))
    return list(pushes(lambda *_: f"=SUM({ranges})", range(1_024 - rows, 1_024)))


def later(line, time):
    """A line of `pushes` whose assignments have this time."""
    return line.replace(",[1,2,", f",[{time},2,")


class Growth(ProgramTest):
    """An edit does no work again that the edits before it have done."""

    def seconds(self, given, *edits):
        """The processor time that each of these edits takes after these lines, one after another: the least of several
        tries. A `#` in them is another number each time."""
        with peers.on_pipes("run") as peer:
            for line in given:
                self.assertRegex(peer.ask(line), "^ok ")
            tries = []
            for number in range(EDITS):
                before = processor_time(peer.session.pid)
                for edit in edits:
                    self.assertRegex(peer.ask(edit.replace("#", str(2_000 + number))), "^ok ")
                tries.append(processor_time(peer.session.pid) - before)
            return min(tries) / len(edits)

    def assert_short(self, seconds, bound):
        """What the first call tells is less than what the second does, at one try of a few."""
        times = []
        while len(times) < COMPARED and all(found >= most for found, most in times):
            times.append((seconds(), bound()))
        self.assertTrue(any(found < most for found, most in times), times)

    def assert_remembered(self, numbers, given, **sums):
        """An edit under sums of all rows of these numbers takes about as long as one under sums of a few."""
        self.assert_short(lambda: self.seconds([*numbers, *given, *summing(ROWS, **sums)], "set A19 #"),
                          lambda: LONGER * self.seconds([*numbers, *summing(WALKED, **sums)], "set A19 #"))

    def test_sums_of_all_columns(self):
        self.assert_remembered(PRODUCTS, [])

    def test_sums_of_three_columns(self):
        self.assert_remembered(PRODUCTS, [], columns=3, rows=10)

    def test_sums_after_one_of_the_last_rows(self):
        self.assert_remembered(PRODUCTS, ["set A1 =SUM([.A800:.CZ962])"])

    def test_sums_after_edits_of_the_least_number_of_each_57_rows(self):
        numbers = list(pushes(lambda column, row: row, range(2, ROWS + 1)))
        edits = [later(line, time) for time in (2, 3) for line in pushes(lambda *_: -time, range(2, ROWS + 1, 50))]
        self.assert_remembered(numbers, ["set A1 =SUM([.A2:.CZ962])", *edits])

    def assert_as_without(self, fault):
        """An edit under sums of all rows takes about as long beside these faults as without a fault."""
        self.assert_short(lambda: self.seconds([*PRODUCTS, *fault, *summing(ROWS)], "set A19 #"),
                          lambda: LONGER * self.seconds([*PRODUCTS, *summing(ROWS)], "set A19 #"))

    def test_sums_beside_a_fault(self):
        self.assert_as_without(["set BA500 =MOD(1;0)"])

    def test_sums_beside_a_fault_in_each_column(self):
        faults = pushes(lambda column, row: "=MOD(1;0)" if row == 958 else row, [958])
        self.assert_as_without([later(line, 2) for line in faults])

    def test_edits_of_one_cell_to_which_100_048_formulas_refer(self):
        """Which these are is found once, and not again while the one cell is edited."""
        given = ["set C1 =0*[.A1]+0*[.B1]", *pushes(lambda *_: "=[.C1]", range(2, ROWS + 2))]
        self.assert_short(lambda: self.seconds(given, "set A1 #", "set A1 -#"),
                          lambda: self.seconds(given, "set A1 #", "set B1 #") / 4)


class Memory(ProgramTest):
    def test_101_088_references_to_one_column(self):
        """They are taken in like a few."""
        formula = "=" + "+".join(f"[.A{row}]" for row in range(10, 82, 2))
        rows = range(ROWS, ROWS + 27)
        replies = lines(*(f"ok {number}" for number in range(1, len(rows) + 2)), "val 1")
        given = lines(*pushes(lambda *_: formula, rows), "set A10 1", f"get CZ{ROWS + 26}")
        self.assert_session(given, replies)

    def test_a_line_without_end(self):
        with peers.on_pipes("run") as peer:
            self.assertEqual(peer.ask("get A1"), "val ")
            before = self.most_kb(peer)
            for _ in range(1024):
                peer.send(b"x" * 65_536)
            self.assertEqual(peer.ask(""), "err 15 line")
            self.assertLess(self.most_kb(peer) - before, ENDLESS_KB)

    def test_replies_to_lines_that_come_at_once(self):
        """A hundred lines that are read at once have 10 MB of replies, which never wait all together."""
        for words in ([], ["--keep", str(self.folder() / "plan.lines")]):
            with self.subTest(words=words), peers.on_pipes("run", *words) as peer:
                self.read_tables(peer, 1)
                before = self.most_kb(peer)
                self.read_tables(peer, 100)
                self.assertLess(self.most_kb(peer) - before, ENDLESS_KB)

    def test_a_table_of_commas(self):
        for kb, refusal in ((TABLE_KB, "18 csv"), (TABLE_KB // 2, "19 memory")):
            with self.subTest(kb=kb):
                given = self.file_of(b"," * LARGEST_TABLE)
                ended = run_within(f"-v {kb}", "table", stdin=given)
                self.assertEqual(ended, Ended(3, b"", lines(f"err {refusal}")))

    def read_tables(self, peer, count):
        """Asks for the whole sheet so often, all at once, and reads the replies."""
        peer.send(b"rows A1:CZ1024\n" * count)
        for _ in range(count):
            self.assertEqual(peer.reply(), "rows 1024")
            for _ in range(1024):
                self.assertEqual(peer.reply(), "," * (COLUMNS - 1))

    def most_kb(self, peer):
        """The most memory that the session had so far, in KB."""
        with open(f"/proc/{peer.session.pid}/status") as status:
            return next(int(line.split()[1]) for line in status if line.startswith("VmHWM:"))


def filled_down(count):
    """Formulas that refer to one cell, entered down the columns from B on."""
    return [f"set {name(1 + index // 1024, index % 1024 + 1)} =[.A1]*2" for index in range(count)]


def of_their_rows(count):
    """Formulas that refer to two cells of their row, entered down the columns from C on."""
    rows = (index % 1024 + 1 for index in range(count))
    return [f"set {name(2 + index // 1024, row)} =[.A{row}]*[.B{row}]" for index, row in enumerate(rows)]


class Entered(ProgramTest):
    """Formulas cost as much beside many others as beside few."""
    def seconds(self, given):
        """The least processor time of three sessions with this input."""
        tries = []
        for _ in range(3):
            with subprocess.Popen(
                [SHEET, "run", "--workers", "1"], stdin=subprocess.PIPE, stdout=subprocess.DEVNULL
            ) as session:
                session.stdin.write(given)
                session.stdin.close()
                _, status, used = os.wait4(session.pid, 0)
                session.returncode = os.waitstatus_to_exitcode(status)
            self.assertEqual(session.returncode, 0)
            tries.append(used.ru_utime + used.ru_stime)
        return min(tries)

    def test_a_formula_beside_many_costs_as_much_as_one_beside_few(self):
        for entered in (filled_down, of_their_rows):
            with self.subTest(entered.__name__):
                few, many = (self.seconds(lines(*entered(count))) / count for count in (20_000, 80_000))
                self.assertLess(many, GROWTH * few)
