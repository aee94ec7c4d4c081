"""Chromium without a window, driven over its DevTools port with the standard library alone."""
import base64
import contextlib
import json
import os
import shutil
import subprocess
import tempfile
import time
import urllib.parse
import urllib.request
from pathlib import Path

from browser_socket import WebSocket, request
from program import LIMIT

NAMES = ["chromium", "chromium-browser", "google-chrome"]
ALT, CONTROL, SHIFT = 1, 2, 8
# What a letter does with Control.
COMMANDS = {"c": "copy", "v": "paste", "x": "cut"}
# The code that a browser gives each key that isn't a letter.
KEYS = {"Enter": 13, "Tab": 9, "Escape": 27, "Backspace": 8, "Delete": 46, "Home": 36, "PageUp": 33, "PageDown": 34,
        "ArrowLeft": 37, "ArrowUp": 38, "ArrowRight": 39, "ArrowDown": 40, "End": 35, "F1": 112, "F2": 113, "F6": 117, " ": 32}


def program():
    """The path of a browser, or none."""
    return next((found for found in map(shutil.which, NAMES) if found), None)


def processor_time(session):
    """How many seconds of processor time all processes of a session have had."""
    ticks = 0
    for path in Path("/proc").glob("[0-9]*/stat"):
        try:
            fields = path.read_text().rpartition(")")[2].split()
        except OSError:
            continue
        if int(fields[3]) == session:
            ticks += int(fields[11]) + int(fields[12])
    return ticks / os.sysconf("SC_CLK_TCK")


def devtools(port, target):
    """The WebSocket over which a page, or the whole browser, is driven."""
    path = urllib.parse.urlparse(target["webSocketDebuggerUrl"]).path
    return WebSocket(port, path, head=request(port, path=path, fields=[
        "Connection: Upgrade", "Upgrade: websocket", "Sec-WebSocket-Version: 13",
        "Sec-WebSocket-Key: dGhlIHNhbXBsZSBub25jZQ=="]))


class Page:
    """A page in the browser."""

    def __init__(self, port, target):
        self.port, self.id = port, target["id"]
        self.socket = devtools(port, target)
        self.count = 0
        self.problems = []
        self.call("Runtime.enable")
        self.call("Log.enable")
        self.call("Page.enable")

    def call(self, method, **parameters):
        """Has the browser do something, and returns its result."""
        self.count += 1
        self.socket.send(json.dumps({"id": self.count, "method": method, "params": parameters}))
        while True:
            message = json.loads(self.socket.receive())
            self.note(message)
            if message.get("id") == self.count:
                if "error" in message:
                    raise AssertionError(f"{method}: {message['error']}")
                return message["result"]

    def note(self, message):
        """Keeps what the browser reports of scripts that failed."""
        if message.get("method") == "Runtime.exceptionThrown":
            self.problems.append(message["params"]["exceptionDetails"])
        if message.get("method") == "Log.entryAdded":
            entry = message["params"]["entry"]
            if entry["source"] in ("security", "javascript"):
                self.problems.append(entry["text"])

    def value(self, expression):
        """The value of an expression of the page's script."""
        result = self.call("Runtime.evaluate", expression=expression, returnByValue=True, awaitPromise=True)
        if "exceptionDetails" in result:
            raise AssertionError(f"{expression}: {result['exceptionDetails']}")
        return result["result"].get("value")

    def wait_for(self, expression, wanted=True, most=LIMIT):
        """Waits until an expression has a value, for some seconds at most, and returns how long that took."""
        began = time.monotonic()
        while (last := self.value(expression)) != wanted:
            if time.monotonic() - began > most:
                raise AssertionError(f"{expression} is {last!r} and not {wanted!r}")
            time.sleep(0.01)
        return time.monotonic() - began

    def open(self, url):
        """Goes to an address, and waits until it is there."""
        self.call("Page.navigate", url=url)
        self.wait_for("document.readyState", "complete")

    def key(self, name, modifiers=0):
        """Presses a key."""
        text = {"Enter": "\r"}.get(name, name if len(name) == 1 and not modifiers & CONTROL else "")
        code = KEYS.get(name) or (ord(name.upper()) if name.isalnum() and name.isascii() else 0)
        parameters = {"key": name, "modifiers": modifiers, "windowsVirtualKeyCode": code, "code": name}
        if modifiers & CONTROL and name in COMMANDS:
            parameters["commands"] = [COMMANDS[name]]
        self.call("Input.dispatchKeyEvent", type="keyDown" if text else "rawKeyDown", **parameters,
                  **({"text": text} if text else {}))
        self.call("Input.dispatchKeyEvent", type="keyUp", **parameters)

    def type(self, text):
        """Types a text."""
        for letter in text:
            self.key(letter)

    def mouse(self, kind, x, y, **more):
        """Moves the pointer, or presses or releases its button."""
        self.call("Input.dispatchMouseEvent", type=kind, x=x, y=y, button="left", **more)

    def click(self, x, y, times=1, modifiers=0):
        """Clicks at a place."""
        for count in range(1, times + 1):
            self.mouse("mousePressed", x, y, clickCount=count, modifiers=modifiers)
            self.mouse("mouseReleased", x, y, clickCount=count, modifiers=modifiers)

    def middle(self, expression):
        """Where the middle of an element is."""
        return self.value(f"(() => {{ const b = ({expression}).getBoundingClientRect();"
                          " return [b.left + b.width / 2, b.top + b.height / 2] })()")

    def picture(self):
        """The picture of the page, as a PNG."""
        return base64.b64decode(self.call("Page.captureScreenshot", format="png")["data"])

    def close(self):
        """Closes the page."""
        with contextlib.suppress(OSError):
            urllib.request.urlopen(f"http://127.0.0.1:{self.port}/json/close/{self.id}", timeout=LIMIT).close()
        self.socket.connection.close()


class Browser:
    """A browser that leaves nothing once the block is left."""

    def __init__(self, core=None):
        """Starts a browser with a new profile, on one core where that is named."""
        words = ["taskset", "-c", str(core)] if core is not None else []
        self.folder = tempfile.TemporaryDirectory(prefix="sheet-browser-", ignore_cleanup_errors=True)
        self.process = subprocess.Popen(
            [*words, program(), "--headless=new", "--no-sandbox", "--disable-gpu", "--disable-dev-shm-usage", "--no-first-run",
             "--disable-background-networking", "--disable-extensions", "--disable-renderer-backgrounding",
             "--disable-backgrounding-occluded-windows", "--disable-background-timer-throttling",
             "--remote-debugging-port=0", f"--user-data-dir={self.folder.name}", "--window-size=1200,720",
             "about:blank"],
            stdin=subprocess.DEVNULL, stdout=subprocess.DEVNULL, stderr=subprocess.DEVNULL, start_new_session=True)
        self.port = self.found_port()

    def found_port(self):
        """The port that the browser has written into its folder."""
        written = Path(self.folder.name) / "DevToolsActivePort"
        end = time.monotonic() + LIMIT
        while time.monotonic() < end and self.process.poll() is None:
            with contextlib.suppress(OSError, ValueError, IndexError):
                return int(written.read_text().split("\n")[0])
            time.sleep(0.05)
        self.end()
        raise AssertionError("the browser doesn't start")

    def page(self, url="about:blank"):
        """A new page at an address."""
        page = Page(self.port, self.new_window())
        if url != "about:blank":
            page.open(url)
        return page

    def told(self, path):
        """What the browser tells of itself at a path."""
        with urllib.request.urlopen(f"http://127.0.0.1:{self.port}{path}", timeout=LIMIT) as reply:
            return json.load(reply)

    def new_window(self):
        """A new window, so that each page counts as seen."""
        with devtools(self.port, self.told("/json/version")) as browser:
            browser.send(json.dumps({"id": 1, "method": "Target.createTarget",
                                     "params": {"url": "about:blank", "newWindow": True}}))
            made = json.loads(browser.receive())["result"]["targetId"]
        return next(target for target in self.told("/json/list") if target["id"] == made)

    def end(self):
        """Ends the browser."""
        self.process.terminate()
        try:
            self.process.wait(timeout=LIMIT)
        except subprocess.TimeoutExpired:
            self.process.kill()
            self.process.wait(timeout=LIMIT)
        self.folder.cleanup()
