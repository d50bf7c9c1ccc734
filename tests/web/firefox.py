"""Drives a headless Firefox over its own protocol, Marionette. It needs nothing but Python, and has what the checks of
the live page ask of a browser.
"""
import json
import os
import shutil
import socket
import subprocess
import tempfile
import time

from browser import PATIENCE, BrowserError

NAMES = ["firefox-esr", "firefox"]
HOST = "127.0.0.1"
PORT_FILE = "MarionetteActivePort"
# A port of its own choice, and no word of the world outside.
SETTINGS = {
    "marionette.port": 0, "datareporting.policy.dataSubmissionEnabled": False, "app.normandy.enabled": False,
    "network.captive-portal-service.enabled": False, "network.connectivity-service.enabled": False,
    "browser.shell.checkDefaultBrowser": False, "browser.startup.page": 0,
}
# The value of an expression, or what was thrown; a promise is waited for.
VALUE = """const [done] = [...arguments].slice(-1);
(async () => (%s))().then((value) => done([value ?? null]), (error) => done(String(error)));"""


def program():
    """The path of the browser, or None."""
    return next(filter(None, map(shutil.which, NAMES)), None)


class Firefox:
    """A browser with one page. Use it with `with`."""

    def __init__(self):
        self.room = tempfile.mkdtemp()
        self.sent = 0
        self.rest = b""

    def __enter__(self):
        with open(f"{self.room}/user.js", "w", encoding="utf-8") as it:
            it.writelines(f"user_pref({json.dumps(name)}, {json.dumps(value)});\n" for name, value in SETTINGS.items())
        words = [program(), "--headless", "--marionette", "--no-remote", "--profile", self.room]
        quiet = subprocess.DEVNULL
        self.process = subprocess.Popen(words, stdin=quiet, stdout=quiet, stderr=quiet)
        try:
            self.connect()
        except BaseException:
            self.__exit__()
            raise
        return self

    def connect(self):
        """Waits until the browser tells its port, and begins a session there."""
        path, end = f"{self.room}/{PORT_FILE}", time.monotonic() + PATIENCE
        while not os.path.exists(path) or not (port := self.port(path)):
            if time.monotonic() > end or self.process.poll() is not None:
                raise BrowserError("Firefox doesn't open its port")
            time.sleep(0.05)
        self.socket = socket.create_connection((HOST, port), timeout=PATIENCE)
        self.receive()
        self.version = self.ask("WebDriver:NewSession")["capabilities"]["browserVersion"]
        self.ask("WebDriver:SetTimeouts", script=PATIENCE * 1000)

    @staticmethod
    def port(path):
        with open(path, encoding="utf-8") as it:
            return int(it.read() or 0)

    def __exit__(self, *_):
        self.process.terminate()
        try:
            self.process.wait(PATIENCE)
        except subprocess.TimeoutExpired:
            self.process.kill()
            self.process.wait()
        shutil.rmtree(self.room, ignore_errors=True)

    def receive(self):
        """The next message of the browser: its length, a colon, and JSON."""
        while b":" not in self.rest:
            self.more()
        length, _, self.rest = self.rest.partition(b":")
        while len(self.rest) < int(length):
            self.more()
        said, self.rest = self.rest[: int(length)], self.rest[int(length) :]
        return json.loads(said)

    def more(self):
        piece = self.socket.recv(1 << 16)
        if not piece:
            raise BrowserError("Firefox ended")
        self.rest += piece

    def ask(self, command, **params):
        """Sends a command, and returns its result."""
        self.sent += 1
        said = json.dumps([0, self.sent, command, params]).encode()
        self.socket.sendall(str(len(said)).encode() + b":" + said)
        _, _, error, result = self.receive()
        if error:
            raise BrowserError(f"{command}: {error.get('message')}")
        return result

    def go(self, address):
        """Opens an address, and waits until its scripts have run."""
        self.ask("WebDriver:Navigate", url="about:blank")
        self.ask("WebDriver:Navigate", url=address)
        self.until("document.readyState === 'complete' && Boolean(globalThis.page?.show)")

    def run(self, script):
        """The value of an expression in the page; a promise is waited for."""
        said = self.ask("WebDriver:ExecuteAsyncScript", script=VALUE % script, args=[])["value"]
        if isinstance(said, str):
            raise BrowserError(said)
        return said[0]

    def until(self, script):
        """Waits until an expression is true."""
        end = time.monotonic() + PATIENCE
        while not self.run(script):
            if time.monotonic() > end:
                raise BrowserError(f"never true: {script}")
            time.sleep(0.05)

    def rest_drawn(self):
        """Waits until what was asked for is on the screen."""
        self.run("new Promise((done) => requestAnimationFrame(() => requestAnimationFrame(done)))")
