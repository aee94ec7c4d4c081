#!/usr/bin/env python3
"""Measures an office: so many browsers, which each edit a cell of their own each second, and have a picture of a
screen after each change. It tells, as a median and as the 99th of a hundred:

- from an edit to its reply;
- from an edit to a picture with it at all browsers;

and the memory, threads and processor time of all that serves them, also while nobody edits.

office.py [BROWSERS [SECONDS [FORMER]]]   200 browsers for 20 seconds where it isn't given

They are at one `./sheet serve --keep --seats 256`, and ask what its page asks. They look after an edit of their own,
and at the news, once in 40 ms at most. Now and then they ask how many are here, and give a sign of life.

FORMER is a program that still has `page`. Then 56 browsers at most are also measured at four of its servers in a ring,
each with a gateway. Its page looks five times a second.

The browsers are WebSockets of four processes. It tells the processor time of the busiest, too: near 100 % the times are
its own.
"""
import collections
import contextlib
import heapq
import multiprocessing
import selectors
import statistics
import subprocess
import sys
import tempfile
import time
from pathlib import Path
from typing import NamedTuple

TOP = Path(__file__).resolve().parent.parent
sys.path.insert(0, str(TOP / "tests"))
from browser_socket import TEXT, Ended, WebSocket, answer, frame, request
from program import started
from servers import free_port, serving

ROWS, COLUMNS, SCREEN = range(1, 29), "ABCDEFGHIJK", "A1:K28"
NAMES = [f"{column}{row}" for row in ROWS for column in COLUMNS]
# What the page waits between looks and before it asks aside, in seconds.
GAP, POLL, ABOUT, SIGN = 0.04, 0.2, 5, 10
SERVERS, CLIENTS = 4, 4
LOOK = frame(TEXT, f"rows {SCREEN}".encode()) + frame(TEXT, f"entries {SCREEN}".encode())
now = time.monotonic


class Setup(NamedTuple):
    """What serves an office: its name, the ports that browsers open, whether they have `/news`, and its processes."""

    name: str
    ports: list
    has_news: bool
    processes: list

    def sum_of(self, figure):
        """A figure of all processes together."""
        return sum(figure(process.pid) for process in self.processes)


@contextlib.contextmanager
def one_server(folder):
    """One server of the program."""
    with serving(None, "--keep", f"{folder}/kept.lines", "--seats", "256") as server:
        yield Setup("one server", [server.port], True, [server.session])


@contextlib.contextmanager
def ring(program, folder):
    """Four servers of a former program, each with a gateway, and with a pipe to the next."""
    with contextlib.ExitStack() as stack:
        processes = []

        def start(*words, stdin=subprocess.DEVNULL, stdout=subprocess.PIPE):
            processes.append(stack.enter_context(started(*words, program=program, stdin=stdin, stdout=stdout)))
            return processes[-1].stdout

        servers, gateways = ([str(free_port()) for _ in range(SERVERS)] for _ in range(2))
        for number, (server, gateway) in enumerate(zip(servers, gateways), 1):
            start("serve", "--port", server, "--replica", str(number), "--keep", f"{folder}/{number}.lines").readline()
            start("page", "--from", server, "--port", gateway, "--browsers", "14").readline()
        for server, following in zip(servers, servers[1:] + servers[:1]):
            start("talk", "--to", following, stdin=start("follow", "--from", server), stdout=subprocess.DEVNULL)
        yield Setup("four servers in a ring", [int(gateway) for gateway in gateways], False, processes)


class Socket:
    """A WebSocket whose messages are taken as they come, without waiting."""

    def __init__(self, port, path):
        opened = WebSocket(port, path)
        self.connection, self.bytes, self.pieces, self.size = opened.connection, opened.bytes, [], 0
        self.connection.setblocking(False)

    def send(self, frames):
        self.connection.sendall(frames)

    def messages(self):
        """The messages that are whole by now."""
        with contextlib.suppress(BlockingIOError):
            piece = self.connection.recv(1 << 20)
            if not piece:
                raise Ended("the server closed a connection")
            self.bytes += piece
            self.size += len(piece)
        place = 0
        while (end := self.end_of_frame(place)) is not None:
            begin, size, is_last = end
            self.pieces.append(self.bytes[begin:begin + size])
            place = begin + size
            if is_last:
                yield b"".join(self.pieces).decode()
                self.pieces.clear()
        self.bytes = self.bytes[place:]

    def end_of_frame(self, place):
        """Where the bytes of the frame at this place begin, how many they are, and whether its message ends; nothing
        where it isn't whole."""
        head = self.bytes[place:place + 10]
        if len(head) < 2:
            return None
        more = {126: 2, 127: 8}.get(head[1], 0)
        size = int.from_bytes(head[2:2 + more], "big") if more else head[1]
        begin = place + 2 + more
        return (begin, size, head[0] & 0x80) if begin + size <= len(self.bytes) else None


class Edits:
    """When each edit was sent, how many browsers have had a picture with it, and when the last of them had. An edit is
    a browser's number and the value that it put into its cell: 1, 2 and so on."""

    def __init__(self):
        self.sent, self.replies = {}, []
        self.came, self.last = collections.Counter(), {}

    def add(self, other):
        """Adds those of other browsers."""
        self.sent |= other.sent
        self.replies += other.replies
        self.came += other.came
        for edit, last in other.last.items():
            self.last[edit] = max(last, self.last.get(edit, 0))

    def show(self, number, before, value):
        """A browser's picture has this value of another browser, after an earlier one."""
        for edit in range(before + 1, value + 1):
            self.came[number, edit] += 1
            self.last[number, edit] = now()

    def times(self, browsers):
        """How long each edit took to reach the pictures of so many browsers, of those that have."""
        return [last - self.sent[edit] for edit, last in self.last.items() if self.came[edit] == browsers]


class Browser:
    """A browser: a session, and the news where the server has any."""

    def __init__(self, port, number, edits, has_news):
        self.port, self.number, self.edits, self.value = port, number, edits, 0
        self.live = Socket(port, "/live")
        self.news = Socket(port, "/news") if has_news else None
        self.under_way = collections.deque()
        self.picture = ["," * (len(COLUMNS) - 1)] * len(ROWS)
        self.looks = self.is_stale = False
        self.looked, self.heard, self.pictures = now(), 0, 0

    def edit(self):
        """Edits its cell."""
        self.value += 1
        self.under_way.append(now())
        self.edits.sent[self.number, self.value] = self.under_way[-1]
        self.live.send(frame(TEXT, f"set {NAMES[self.number]} {self.value}".encode()))

    def look(self):
        """Asks for a picture; where one is under way, after it."""
        self.is_stale = self.looks
        if not self.looks:
            self.looks = True
            self.live.send(LOOK)

    def hear(self):
        """Takes the news that have come."""
        for message in self.news.messages():
            self.heard = int(message.split()[1])

    def look_at_news(self):
        """Looks at all news that have come."""
        self.hear()
        self.looked = now()
        self.look()

    def ask_about(self):
        """Asks how many are here."""
        answer(self.port, request(self.port, path="/about"))

    def give_sign(self):
        """Gives a sign of life."""
        self.live.send(frame(TEXT, f"pull {self.heard} 1".encode()))

    def take(self):
        """Takes the replies that have come. A message has one or several."""
        for message in self.live.messages():
            lines = message.removesuffix("\n").split("\n")
            while lines:
                word, count, *_ = lines[0].split()
                size = 1 + int(count) if word in ("rows", "entries") else 1
                self.take_reply(word, lines[:size])
                del lines[:size]

    def take_reply(self, word, lines):
        """Takes a reply by its first word."""
        if word == "ok":
            self.edits.replies.append(now() - self.under_way.popleft())
            self.look()
        elif word == "rows":
            self.take_picture(lines[1:])
        elif word == "entries":
            self.looks = False
            if self.is_stale:
                self.look()
        elif word == "err":
            raise Ended(lines[0])

    def take_picture(self, picture):
        """Takes what the cells show."""
        self.pictures += 1
        for row, (before, after) in enumerate(zip(self.picture, picture)):
            if before != after:
                for column, (old, new) in enumerate(zip(before.split(","), after.split(","))):
                    self.edits.show(row * len(COLUMNS) + column, int(old or 0), int(new or 0))
        self.picture = picture


class Turns:
    """Does something for each browser in turn, so often a second for each, after some seconds."""

    def __init__(self, browsers, often, action, delay=0):
        self.browsers, self.action = browsers, action
        self.pause, self.count, self.begun = 1 / (often * len(browsers)), 0, now() + delay

    def next(self):
        """When the next turn is."""
        return self.begun + self.count * self.pause

    def take(self):
        """Does what is due."""
        while self.next() <= now():
            self.action(self.browsers[self.count % len(self.browsers)])
            self.count += 1


class Client:
    """The browsers of these numbers, which have each asked for a first picture."""

    def __init__(self, ports, numbers, has_news, selector):
        self.edits, self.selector, self.due = Edits(), selector, []
        self.browsers = {}
        for number in numbers:
            self.browsers[number] = it = Browser(ports[number % len(ports)], number, self.edits, has_news)
            selector.register(it.live.connection, selectors.EVENT_READ, it.take)
            if has_news:
                self.await_news(it)
            it.look()
        turns = [(ABOUT, Browser.ask_about), (SIGN, Browser.give_sign)] if has_news else [(POLL, Browser.look)]
        self.turns = [Turns([*self.browsers.values()], 1 / pause, action) for pause, action in turns]

    def await_news(self, browser):
        """Has a browser look at the news that come next, and leaves them unread until then."""
        def come():
            self.selector.unregister(browser.news.connection)
            heapq.heappush(self.due, (max(now(), browser.looked + GAP), browser.number))

        self.selector.register(browser.news.connection, selectors.EVENT_READ, come)

    def attend(self, seconds, turns):
        """Takes what comes, what is due, and these turns, for so long."""
        end = now() + seconds
        while now() < end:
            wait = min([end, *(it.next() for it in turns), *(time for time, _ in self.due[:1])]) - now()
            for key, _ in self.selector.select(max(0, wait)):
                key.data()
            for it in turns:
                it.take()
            while self.due and self.due[0][0] <= now():
                browser = self.browsers[heapq.heappop(self.due)[1]]
                browser.look_at_news()
                self.await_news(browser)

    def measured(self, seconds, delay):
        """Attends for so long, with edits after this delay, unless it is none: the share of a processor that this took,
        and how many pictures, and bytes of replies, have come in all."""
        began, browsers = time.process_time(), [*self.browsers.values()]
        edits = [] if delay is None else [Turns(browsers, 1, Browser.edit, delay)]
        self.attend(seconds, self.turns + edits)
        came = [sum(it.pictures for it in browsers), sum(it.live.size for it in browsers)]
        return (time.process_time() - began) / seconds, *came


def work(pipe, *how):
    """A client's process: it attends as long as the other end of the pipe says, and again, then tells its edits."""
    with selectors.DefaultSelector() as selector:
        client = Client(*how, selector)
        while asked := pipe.recv():
            pipe.send(client.measured(*asked))
        pipe.send(client.edits)


class Office:
    """So many browsers at a set-up, in some processes."""

    def __init__(self, setup, count):
        self.setup, self.count, self.pipes, self.came = setup, count, [], (0, 0)
        for client in range(CLIENTS):
            here, there = multiprocessing.Pipe()
            how = there, setup.ports, range(client, count, CLIENTS), setup.has_news
            multiprocessing.get_context("fork").Process(target=work, args=how, daemon=True).start()
            there.close()
            self.pipes.append(here)

    def attend(self, seconds, is_editing=False):
        """Attends for so long: the share of a processor of the busiest process, and how many pictures and bytes came."""
        for client, pipe in enumerate(self.pipes):
            pipe.send((seconds, client / self.count if is_editing else None))
        shares, *came = zip(*(pipe.recv() for pipe in self.pipes))
        before, self.came = self.came, [sum(each) for each in came]
        return max(shares), *(after - each for each, after in zip(before, self.came))

    def measure(self, name, seconds, is_editing=False):
        """Tells what the set-up takes meanwhile."""
        began = self.setup.sum_of(processor_time)
        client, pictures, size = self.attend(seconds, is_editing)
        share = (self.setup.sum_of(processor_time) - began) / seconds
        print(f"{name}: {100 * share:.1f} % of a processor, {self.setup.sum_of(memory) / 1e6:.1f} MB,"
              f" threads: {self.setup.sum_of(threads)}, {pictures / seconds:.0f} pictures and"
              f" {size / seconds / 1e6:.2f} MB of replies a second; the busiest client {100 * client:.0f} %")

    def edits(self):
        """The edits of all, whose processes end."""
        edits = Edits()
        for pipe in self.pipes:
            pipe.send(None)
            edits.add(pipe.recv())
        return edits

    def measure_all(self, seconds):
        """Measures for so long while nobody edits, and then while all do."""
        self.attend(2)
        self.measure("idle", seconds)
        self.measure("editing", seconds, is_editing=True)
        self.attend(2)
        edits = self.edits()
        tell("edit to reply", edits.replies)
        tell("edit to all pictures", edits.times(self.count))


def processor_time(pid):
    """The seconds of processors that a process has had."""
    return time.clock_gettime(~pid << 3 | 2)


def memory(pid):
    """The bytes of memory that a process has, with its part of what it shares."""
    return number_of(f"/proc/{pid}/smaps_rollup", "Pss:") * 1024


def threads(pid):
    """How many threads a process has."""
    return number_of(f"/proc/{pid}/status", "Threads:")


def number_of(file, name):
    """A number that the system has by this name."""
    with open(file) as status:
        return next(int(row.split()[1]) for row in status if row.startswith(name))


def tell(name, times):
    """The median and the 99th of a hundred of some times, in a line."""
    times = sorted(times)
    if times:
        print(f"{name}: median {1e3 * statistics.median(times):.1f} ms, 99 of 100 within"
              f" {1e3 * times[len(times) * 99 // 100]:.1f} ms, of {len(times)}")


def main(count=200, seconds=20, former=None):
    """Measures so many browsers for so long at one server, and at four of a former program, too."""
    for opening in [one_server] + ([lambda folder: ring(former, folder)] if former else []):
        with tempfile.TemporaryDirectory() as folder, opening(folder) as setup:
            print(f"{count} browsers at {setup.name}; memory before them {setup.sum_of(memory) / 1e6:.1f} MB")
            Office(setup, int(count)).measure_all(float(seconds))


if __name__ == "__main__":
    main(*sys.argv[1:])
