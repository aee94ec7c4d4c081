"""Firefox without a window, driven over its own protocol, Marionette, with the standard library alone."""
import json
import shutil
import socket
import subprocess
import tempfile
import time
from pathlib import Path

from program import LIMIT
from servers import HERE, free_port

NAMES = ["firefox-esr", "firefox"]
# What the protocol calls keys that are no letters.
KEYS = {"Enter": "\ue007", "Tab": "\ue004", "Escape": "\ue00c", "Delete": "\ue017", "ArrowDown": "\ue015",
        "ArrowUp": "\ue013", "ArrowLeft": "\ue012", "ArrowRight": "\ue014", "Control": "\ue009", "Shift": "\ue008"}
# What keeps a start short: one process for pages, none in advance, and nothing asked of the network.
PREFERENCES = {"dom.ipc.processCount": 1, "dom.ipc.processPrelaunch.enabled": False, "browser.startup.page": 0,
               "network.captive-portal-service.enabled": False, "app.normandy.enabled": False,
               "datareporting.policy.dataSubmissionEnabled": False, "browser.shell.checkDefaultBrowser": False}
# How long a start may take at most, in seconds: on a busy machine it is long.
LONGEST_START = 5 * LIMIT


def program():
    """The path of a browser, or none."""
    return next((found for found in map(shutil.which, NAMES) if found), None)


class Firefox:
    """A browser with one page, which leaves nothing once it is ended."""

    def __init__(self):
        self.folder = tempfile.TemporaryDirectory(prefix="sheet-firefox-", ignore_cleanup_errors=True)
        self.port, self.count, self.bytes = free_port(), 0, b""
        preferences = {**PREFERENCES, "marionette.port": self.port}
        Path(self.folder.name, "user.js").write_text("".join(
            f'user_pref("{name}", {json.dumps(value)});\n' for name, value in preferences.items()))
        self.process = subprocess.Popen(
            [program(), "--headless", "--marionette", "--no-remote", "--profile", self.folder.name],
            stdin=subprocess.DEVNULL, stdout=subprocess.DEVNULL, stderr=subprocess.DEVNULL, start_new_session=True)
        try:
            self.connection = self.connected()
            self.receive()
            self.call("WebDriver:NewSession", capabilities={"alwaysMatch": {}})
            self.connection.settimeout(LIMIT)
        except BaseException:
            self.end()
            raise

    def connected(self):
        """A connection to the browser, once it listens."""
        deadline = time.monotonic() + LONGEST_START
        while True:
            try:
                return socket.create_connection((HERE, self.port), timeout=LONGEST_START)
            except OSError:
                if time.monotonic() > deadline:
                    raise
                time.sleep(0.1)

    def receive(self):
        """The next message: its length in digits, a colon and JSON."""
        while b":" not in self.bytes:
            self.bytes += self.more()
        size, _, self.bytes = self.bytes.partition(b":")
        while len(self.bytes) < int(size):
            self.bytes += self.more()
        text, self.bytes = self.bytes[:int(size)], self.bytes[int(size):]
        return json.loads(text)

    def more(self):
        """Further bytes."""
        piece = self.connection.recv(65536)
        if not piece:
            raise EOFError("the browser has gone")
        return piece

    def call(self, name, **parameters):
        """Has the browser do something, and returns its result."""
        self.count += 1
        text = json.dumps([0, self.count, name, parameters]).encode()
        self.connection.sendall(b"%d:%s" % (len(text), text))
        _, number, error, result = self.receive()
        if error or number != self.count:
            raise AssertionError(f"{name}: {error}")
        return result

    def open(self, url):
        """Goes to an address."""
        self.call("WebDriver:Navigate", url=url)

    def value(self, expression):
        """The value of an expression over the page's document."""
        return self.call("WebDriver:ExecuteScript", script=f"return {expression};", args=[])["value"]

    def wait_for(self, expression, wanted=True):
        """Waits until an expression has a value."""
        deadline = time.monotonic() + LIMIT
        while (last := self.value(expression)) != wanted:
            if time.monotonic() > deadline:
                raise AssertionError(f"{expression} is {last!r} and not {wanted!r}")
            time.sleep(0.02)

    def keys(self, *names):
        """Presses keys down one after another, and lets them go: letters, keys by name, several at once."""
        downs = [{"type": "keyDown", "value": KEYS.get(name, name)} for name in names]
        ups = [{"type": "keyUp", "value": KEYS.get(name, name)} for name in reversed(names)]
        self.call("WebDriver:PerformActions", actions=[{"type": "key", "id": "keys", "actions": downs + ups}])

    def type(self, text):
        """Types a text."""
        for letter in text:
            self.keys(letter)

    def click(self, expression):
        """Clicks at the middle of an element."""
        middle = "(box => [box.left + box.width / 2, box.top + box.height / 2])"
        x, y = self.value(f"{middle}(({expression}).getBoundingClientRect())")
        self.call("WebDriver:PerformActions", actions=[{"type": "pointer", "id": "mouse", "actions": [
            {"type": "pointerMove", "x": round(x), "y": round(y)}, {"type": "pointerDown", "button": 0},
            {"type": "pointerUp", "button": 0}]}])

    def end(self):
        """Ends the browser."""
        self.process.terminate()
        try:
            self.process.wait(timeout=LIMIT)
        except subprocess.TimeoutExpired:
            self.process.kill()
            self.process.wait(timeout=LIMIT)
        if hasattr(self, "connection"):
            self.connection.close()
        self.folder.cleanup()
