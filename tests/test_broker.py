"""The recipes of `docs/USING.md` over a broker: servers that know nothing of each other, at a real broker each time."""
import contextlib
import getpass
import os
import re
import shutil
import signal
import socket
import subprocess
import time
from pathlib import Path

from pages import indented
from program import LIMIT, NO_BROKER, SHEET, ProgramTest
from servers import HERE, comes_to, free_port, serving

# The blocks of the page: the broker's file, what each machine runs at MQTT, how one asks, and what each runs at Redis.
BLOCKS = indented("docs/USING.md", "## More machines: a broker")
# How soon all have all, in seconds, once a line has reached the broker.
IN_STEP = 15


def with_these(folder):
    """The environment in which the programs of this folder are found first."""
    return {**os.environ, "PATH": f"{folder}:{os.environ['PATH']}"}


class Machine:
    """A server, and what runs beside it."""

    def __init__(self, number, server, folder):
        self.number, self.server, self.folder = number, server, folder
        self.client = server.client()
        self.count = 0
        self.beside = None

    def edit(self):
        """Types an entry into a cell of its own, and adds one to the counter of all."""
        self.count += 1
        said = [self.client.ask(line) for line in (f"set A{self.number} {self.count}", "set B1 @tally", "add B1 1")]
        return all(reply.startswith("ok ") for reply in said)

    def shown(self):
        """What it shows."""
        self.client.send(b"rows A1:B4\n")
        head = self.client.reply()
        return [head, *(self.client.reply() for _ in range(int(head.split()[1])))]

    def said(self):
        """What was said beside its server."""
        return (self.folder / f"log{self.number}").read_text()

    def run(self, commands):
        """Runs the commands of the page beside the server, which have this machine's number."""
        with open(self.folder / f"log{self.number}", "ab") as log:
            how = {"cwd": self.folder, "stdin": subprocess.DEVNULL, "stdout": log, "stderr": log, "start_new_session": True}
            commands = re.sub(r"\b7001\b", str(self.server.port), commands).replace("plan2", f"plan{self.number}")
            self.beside = subprocess.Popen(["bash", "-c", f"{commands}\nwait"], env=with_these(self.folder), **how)

    def halt(self):
        """Ends these commands."""
        if self.beside is not None:
            with contextlib.suppress(ProcessLookupError):
                os.killpg(self.beside.pid, signal.SIGKILL)
            self.beside.wait(LIMIT)

    def kill_join(self):
        """Kills the join that runs beside the server, and nothing else."""
        for process in Path("/proc").glob("[0-9]*"):
            with contextlib.suppress(OSError):
                is_join = b"\0join\0--with\0" in (process / "cmdline").read_bytes()
                if is_join and os.getpgid(int(process.name)) == self.beside.pid:
                    os.kill(int(process.name), signal.SIGKILL)
                    # (a line that came before its end would be read by nobody)
                    assert comes_to(lambda: is_over(process))
                    return
        raise AssertionError(self.said())


def is_over(process):
    """Whether the process of this folder has ended."""
    try:
        return (process / "stat").read_text().rsplit(")", 1)[1].split()[0] in "ZX"
    except OSError:
        return True


class Agreement(ProgramTest):
    """A test of machines, each with a number, the count of its edits, what it shows, and what was said there."""

    def assert_agree(self, machines):
        """All show what all typed, soon."""
        typed = [machine.count for machine in machines]
        rows = [f"{count or ''},{sum(typed) if row == 0 else ''}" for row, count in enumerate(typed + [0] * (4 - len(typed)))]
        wanted = ["rows 4", *rows]
        begun = time.monotonic()
        for machine in machines:
            left = max(0.1, IN_STEP - (time.monotonic() - begun))
            if not comes_to(lambda: machine.shown() == wanted, left):
                self.assertEqual(machine.shown(), wanted, machine.said())


class BrokerTest(Agreement):
    """A test over a broker, with programs that ask it, and how it is started: the program's words."""

    programs, broker = (), ()

    def setUp(self):
        if any(shutil.which(program) is None for program in (*self.programs, self.broker[0])):
            self.skipTest(NO_BROKER)
        self.place, self.port = self.folder(), free_port()
        os.symlink(SHEET, self.place / "sheet")
        for program in self.programs:
            # (the page has the broker at its usual port)
            file = self.place / program
            file.write_text(f'#!/bin/sh\nexec {shutil.which(program)} -p {self.port} "$@"\n')
            file.chmod(0o755)
        self.running, self.machines = None, []
        self.open = self.enterContext(contextlib.ExitStack())
        self.addCleanup(self.stop_broker)
        self.start_broker()

    def start_broker(self):
        """Starts the broker, and waits until it listens."""
        self.log = self.place / "broker.log"
        with open(self.log, "wb") as log:
            how = {"cwd": self.place, "stdin": subprocess.DEVNULL, "stdout": log, "stderr": subprocess.STDOUT}
            self.running = subprocess.Popen([word.replace("PORT", str(self.port)) for word in self.broker], **how)
        self.assertTrue(comes_to(self.is_listening), self.log.read_text())

    def is_listening(self):
        """Whether the broker takes connections."""
        with socket.socket() as look:
            return look.connect_ex((HERE, self.port)) == 0

    def stop_broker(self):
        """Kills the broker."""
        if self.running is not None:
            self.running.kill()
            self.running.wait(LIMIT)

    def restart_broker(self):
        """Kills the broker, and starts it again."""
        self.stop_broker()
        self.start_broker()

    def machine(self, commands):
        """One more machine, which runs these commands."""
        number = len(self.machines) + 1
        words = ("--replica", str(number), "--keep", str(self.place / f"plan{number}.lines"))
        server = self.open.enter_context(serving(None, *words))
        made = Machine(number, server, self.place)
        self.open.callback(made.halt)
        self.machines.append(made)
        made.run(commands)

    def assert_in_step(self):
        """All machines show what all typed, soon."""
        self.assert_agree(self.machines)


class MqttTest(BrokerTest):
    """A test over MQTT."""

    programs, broker = ("mosquitto_sub", "mosquitto_pub"), ("mosquitto", "-v", "-c", "broker.conf")

    def start_broker(self):
        # (what root starts goes on as another, who may not write here)
        user = f"user {getpass.getuser()}\n"
        (self.place / "broker.conf").write_text(BLOCKS[0].replace("1883", str(self.port)) + user)
        super().start_broker()

    def save(self):
        """Has the broker write what it keeps, which it does by itself soon after each line."""
        saved = self.log.read_text().count("Saving in-memory database")
        self.running.send_signal(signal.SIGUSR1)
        self.assertTrue(comes_to(lambda: self.log.read_text().count("Saving in-memory database") > saved))
        # (it says so before it writes)
        time.sleep(1)

    def wait_for(self, machines):
        """Waits until so many machines are at the broker, with the two that listen of each."""
        self.assertTrue(comes_to(lambda: self.log.read_text().count("Sending SUBACK") >= 2 * machines), self.log.read_text())


class Mqtt(MqttTest):
    def begin(self, machines):
        """Begins with so many machines. Each types something that all get."""
        for _ in range(machines):
            self.machine(BLOCKS[1])
        self.wait_for(machines)
        for machine in self.machines:
            self.assertTrue(machine.edit())
        self.assert_in_step()

    def ask(self):
        """Asks for all that the replicas have, as the page says."""
        subprocess.run(["bash", "-c", BLOCKS[2]], env=with_these(self.place), check=True, timeout=LIMIT)

    def test_three_machines_a_new_one_and_a_broker_that_is_killed(self):
        self.begin(3)
        self.machine(BLOCKS[1])
        self.wait_for(4)
        self.ask()
        self.assert_in_step()
        self.stop_broker()
        for machine in self.machines:
            self.assertTrue(machine.edit())
        self.start_broker()
        self.assert_in_step()

    def test_a_machine_that_is_away_gets_what_was_sent_meanwhile(self):
        self.begin(3)
        away, *others = self.machines
        away.halt()
        for machine in others:
            self.assertTrue(machine.edit())
        # (they agree, so the broker has had their lines)
        self.assertTrue(comes_to(lambda: others[0].shown() == others[1].shown()))
        self.save()
        self.restart_broker()
        self.assertTrue(away.edit())
        away.run(BLOCKS[1])
        self.assert_in_step()

    def test_a_join_that_is_killed_alone(self):
        self.begin(2)
        self.machines[0].kill_join()
        for machine in self.machines:
            self.assertTrue(machine.edit())
        self.assert_in_step()

    def test_what_came_in_is_not_published_again(self):
        published = self.place / "published"
        with open(published, "wb") as out:
            heard = subprocess.Popen(["mosquitto_sub", "-t", "plan", "-q", "1"], env=with_these(self.place), stdout=out)
        self.open.callback(heard.wait, LIMIT)
        self.open.callback(heard.kill)
        for _ in range(4):
            self.machine(BLOCKS[1])
        # (one more than those of the machines listens)
        self.assertTrue(comes_to(lambda: self.log.read_text().count("Sending SUBACK") >= 9), self.log.read_text())
        for _ in range(10):
            for machine in self.machines:
                self.assertTrue(machine.edit())
        self.assert_in_step()
        changes = 3 * sum(machine.count for machine in self.machines)
        self.assertLessEqual(len(published.read_bytes().splitlines()), 1.1 * changes)


class RedisTest(BrokerTest):
    """A test over Redis."""

    programs = ("redis-cli",)
    broker = ("redis-server", "--port", "PORT", "--bind", HERE, "--save", "", "--appendonly", "no")


class Redis(RedisTest):
    def test_three_machines_a_new_one_and_a_broker_that_is_killed(self):
        for _ in range(3):
            self.machine(BLOCKS[3])
        for machine in self.machines:
            self.assertTrue(machine.edit())
        self.assert_in_step()
        self.machine(BLOCKS[3])
        self.assertTrue(self.machines[3].edit())
        self.assert_in_step()
        # what the stream had is lost with it
        self.stop_broker()
        for machine in self.machines:
            self.assertTrue(machine.edit())
        self.start_broker()
        self.assert_in_step()

    def test_a_machine_that_is_away_goes_on_where_it_was(self):
        for _ in range(2):
            self.machine(BLOCKS[3])
        for machine in self.machines:
            self.assertTrue(machine.edit())
        self.assert_in_step()
        self.machines[0].halt()
        # (Redis has how far it was, so what it has read needn't be there any more)
        self.assertIn("plan1", self.cli("XINFO", "GROUPS", "plan"))
        self.cli("XTRIM", "plan", "MAXLEN", "0")
        for machine in self.machines:
            self.assertTrue(machine.edit())
        self.machines[0].run(BLOCKS[3])
        self.assert_in_step()

    def test_what_wasnt_acknowledged_is_read_again(self):
        self.machine(BLOCKS[3])
        self.assertTrue(self.machines[0].edit())
        self.machine(BLOCKS[3])
        self.assertTrue(self.machines[1].edit())
        self.assert_in_step()
        # what is read and not taken in, as by one that is killed meanwhile
        self.machines[1].halt()
        self.assertTrue(self.machines[0].edit())
        read = "XREADGROUP", "GROUP", "plan2", "plan2", "STREAMS", "plan", ">"
        self.assertTrue(comes_to(lambda: '"A1",[2,1,' in self.cli(*read)))
        self.machines[1].run(BLOCKS[3])
        self.assert_in_step()

    def test_a_join_that_is_killed_alone(self):
        for _ in range(2):
            self.machine(BLOCKS[3])
        for machine in self.machines:
            self.assertTrue(machine.edit())
        self.assert_in_step()
        self.machines[0].kill_join()
        for machine in self.machines:
            self.assertTrue(machine.edit())
        self.assert_in_step()

    def cli(self, *words):
        """What Redis answers to these words."""
        return subprocess.run([self.place / "redis-cli", *words], capture_output=True, text=True, check=True).stdout
