"""The units of `packaging/`: whatever is killed, systemd starts it again, and all machines agree without a hand."""
import configparser
import contextlib
import os
import re
import shlex
import signal
import subprocess
import threading
import unittest

from program import LIMIT, SHEET, TOP, lines
from servers import Client, comes_to, free_port
from test_broker import BLOCKS, Agreement, MqttTest, RedisTest, with_these

UNITS = TOP / "packaging"
SETTINGS = {
    "Unit": {"Description", "Documentation", "StartLimitIntervalSec", "Wants", "After"},
    "Service": {"Type", "Environment", "ExecStartPre", "ExecStart", "Restart", "RestartSec", "RestartPreventExitStatus"},
    "Timer": {"OnActiveSec", "OnUnitActiveSec"},
    "Install": {"WantedBy"},
}
# How long a service rests before it is started again, in seconds, instead of five.
REST = 0.2


def read(name):
    """The sections of a unit, each with its settings."""
    parser = configparser.RawConfigParser(delimiters="=")
    parser.optionxform = str
    parser.read_string((UNITS / name).read_text())
    return {section: dict(parser[section]) for section in parser.sections()}


def again(command):
    """The loop of a recipe that runs this command again and again."""
    return f"while :; do {command}; sleep 5; done &"


def services():
    """The services, each with its name and its settings."""
    return {file.name: read(file.name)["Service"] for file in sorted(UNITS.glob("*.service"))}


class Service:
    """Runs a service as systemd does, again and again. `place` is the account's home; in `bin` it has programs."""

    def __init__(self, name, place, ports, rest=REST, **words):
        settings = read(name)["Service"]
        self.place, self.ports, self.rest = place, ports, rest
        self.words = {**dict(word.split("=", 1) for word in settings.get("Environment", "").split()), **words}
        self.commands = [self.expanded(settings[part]) for part in ("ExecStartPre", "ExecStart") if part in settings]
        self.is_over, self.running = threading.Event(), None
        self.thread = threading.Thread(target=self.go_on, daemon=True)
        self.thread.start()

    def expanded(self, command):
        """The words of a command, with these words and ports instead of the unit's."""
        command = re.sub(r"\$\{(\w+)\}", lambda found: self.words[found[1]], command.replace("%h", str(self.place)))
        command = command.replace("$$", "$")
        first, *rest = shlex.split(re.sub(r"\b700[12]\b", lambda found: str(self.ports[int(found[0])]), command))
        here = self.place / "bin" / os.path.basename(first)
        return [str(here) if here.exists() else first, *rest]

    def go_on(self):
        """Starts it again whenever it ends."""
        with open(self.place / "log", "ab") as log:
            how = {"stdin": subprocess.DEVNULL, "stdout": log, "stderr": log, "start_new_session": True}
            while not self.is_over.is_set():
                for command in self.commands:
                    environment = {**with_these(self.place / "bin"), **self.words}
                    self.running = subprocess.Popen(command, env=environment, cwd=self.place, **how)
                    self.running.wait()
                self.is_over.wait(self.rest)

    def kill(self):
        """Kills what runs, as a crash would, and waits until it is gone."""
        running = self.running
        with contextlib.suppress(ProcessLookupError):
            os.killpg(running.pid, signal.SIGKILL)
        running.wait(LIMIT)

    def end(self):
        """Ends it for good."""
        self.is_over.set()
        while self.thread.is_alive():
            self.kill()
            self.thread.join(REST)


class Machine:
    """A machine with a server, and with these services beside it."""

    def __init__(self, test, number, names, programs=(), office=None):
        self.number, self.count, self.place, self.port = number, 0, test.folder(), free_port()
        found = self.place / "bin"
        found.mkdir()
        for program in ("sheet", *programs):
            os.symlink(SHEET if program == "sheet" else test.place / program, found / program)
        script = found / "sheet-redis"
        script.write_text((UNITS / "sheet-redis").read_text().replace("7001", str(self.port)))
        script.chmod(0o755)
        self.services = {}
        for name in ("sheet.service", *names):
            ports = {7001: self.port, 7002: office and office.port}
            self.services[name] = Service(name, self.place, ports, REPLICA=str(number))
            test.addCleanup(self.services[name].end)

    def said(self):
        """What its services said."""
        return (self.place / "log").read_text()

    @contextlib.contextmanager
    def client(self):
        """A session at its server, as soon as that listens."""
        found = []

        def connects():
            with contextlib.suppress(OSError):
                found.append(Client(self.port))
            return found

        if not comes_to(connects):
            raise AssertionError(self.said())
        yield found[0]
        found[0].leave()

    def edit(self):
        """Types an entry into a cell of its own, and adds one to the counter of all. Returns whether that was answered."""
        self.count += 1
        given = (f"set A{self.number} {self.count}", "set B1 @tally", "add B1 1")
        with self.client() as client:
            return all(client.ask(line).startswith("ok ") for line in given)

    def shown(self):
        """What it shows."""
        with self.client() as client:
            client.send(lines("rows A1:B4"))
            head = client.reply()
            return [head, *(client.reply() for _ in range(int(head.split()[1])))]


class Killed(Agreement):
    def assert_agree_after(self, machines, kills):
        """After each of these kills all type, and all agree."""
        for kill in (lambda: None, *kills):
            kill()
            for machine in machines:
                self.assertTrue(machine.edit())
            self.assert_agree(machines)


class Units(unittest.TestCase):
    def test_their_settings_are_known(self):
        for file in (*UNITS.glob("*.service"), *UNITS.glob("*.timer")):
            for section, settings in read(file.name).items():
                self.assertEqual(settings.keys() - SETTINGS[section], set(), file.name)

    def test_what_they_want_is_there(self):
        for file in UNITS.glob("*.service"):
            for name in read(file.name)["Unit"].get("Wants", "").split():
                self.assertTrue((UNITS / name).is_file(), name)

    def test_each_is_started_again_or_by_a_timer(self):
        for name, settings in services().items():
            is_timed = (UNITS / name).with_suffix(".timer").is_file()
            self.assertEqual(settings.get("Restart"), None if is_timed else "always", name)

    def test_they_run_what_the_page_has(self):
        page = [" ".join(block.replace("./sheet", "sheet").split()) for block in BLOCKS]
        names = "sheet-mqtt.service", "sheet-mqtt-all.service"
        commands = (shlex.split(services()[name]["ExecStart"])[-1].replace("$$", "$") for name in names)
        loops = " ".join(again(command.replace("plan${REPLICA}", "plan2")) for command in commands)
        self.assertEqual(loops, page[1])
        self.assertEqual(services()["sheet-mqtt-ask.service"]["ExecStart"], f"/usr/bin/{page[2]}")
        script = (UNITS / "sheet-redis").read_text().split("set -o pipefail\n")[1].replace("plan$REPLICA", "plan2")
        *functions, last = script.splitlines()
        self.assertEqual(f"{' '.join(' '.join(functions).split())} {again(last)}", page[3])

    def test_all_of_a_machine_have_its_number(self):
        for name, settings in services().items():
            if "REPLICA" in settings["ExecStart"]:
                self.assertEqual(settings["Environment"], "REPLICA=1", name)


class Office(Killed):
    def test_a_laptop(self):
        office = Machine(self, 1, ())
        # (there is no ssh: the port of the tunnel is the office's own)
        laptop = Machine(self, 2, ["sheet-join.service"], office=office)
        kills = [service.kill for machine in (office, laptop) for service in machine.services.values()]
        self.assert_agree_after([office, laptop], kills)


class OverMqtt(MqttTest, Killed):
    def test_three_machines(self):
        names = ["sheet-mqtt.service", "sheet-mqtt-all.service"]
        machines = [Machine(self, number, names, self.programs) for number in (1, 2, 3)]
        # (a broker that is killed may lose what it has just taken; sooner than the timer)
        self.addCleanup(Service("sheet-mqtt-ask.service", machines[0].place, {}, 2).end)
        self.wait_for(3)
        self.assert_agree_after(machines, [self.restart_broker, *(service.kill for service in machines[0].services.values())])


class OverRedis(RedisTest, Killed):
    def test_three_machines(self):
        machines = [Machine(self, number, ["sheet-redis.service"], self.programs) for number in (1, 2, 3)]
        self.assert_agree_after(machines, [self.restart_broker, *(service.kill for service in machines[0].services.values())])
