"""Drives a headless Chromium over its debugging pipe. It needs nothing but Python."""
import base64
import json
import os
import select
import shutil
import subprocess
import tempfile
import time

NAMES = ["chromium", "chromium-browser", "google-chrome", "google-chrome-stable"]
FLAGS = [
    "--headless",
    "--no-sandbox",
    "--disable-gpu",
    "--disable-dev-shm-usage",
    "--hide-scrollbars",
    "--force-color-profile=srgb",
    "--remote-debugging-pipe",
]
PATIENCE = 120


def program():
    """The path of the browser, or None."""
    return next(filter(None, map(shutil.which, NAMES)), None)


class BrowserError(Exception):
    """The browser is gone, is silent, or refuses a command."""


class Browser:
    """A browser with one page. Use it with `with`."""

    def __init__(self, width=1440, height=900):
        self.size = (width, height)
        self.room = tempfile.mkdtemp()
        self.sent = 0
        self.rest = b""
        self.events = []

    def __enter__(self):
        theirs_in, self.to = os.pipe()
        self.come, theirs_out = os.pipe()
        size = "--window-size={},{}".format(*self.size)
        words = [program(), *FLAGS, size, f"--user-data-dir={self.room}", "about:blank"]

        def connect():
            # Chromium reads commands from descriptor 3 and writes to 4.
            high_in, high_out = os.dup2(theirs_in, 20), os.dup2(theirs_out, 21)
            os.dup2(high_in, 3)
            os.dup2(high_out, 4)

        quiet = subprocess.DEVNULL
        self.process = subprocess.Popen(
            words, stdin=quiet, stdout=quiet, stderr=quiet, close_fds=False, preexec_fn=connect
        )
        os.close(theirs_in)
        os.close(theirs_out)
        self.session = None
        page = next(it for it in self.ask("Target.getTargets")["targetInfos"] if it["type"] == "page")
        attached = self.ask("Target.attachToTarget", targetId=page["targetId"], flatten=True)
        self.session = attached["sessionId"]
        for domain in ("Page", "Runtime", "Log", "DOM", "Network"):
            self.ask(f"{domain}.enable")
        self.resize(*self.size)
        return self

    def __exit__(self, *_):
        self.process.terminate()
        self.process.wait()
        os.close(self.to)
        os.close(self.come)
        shutil.rmtree(self.room, ignore_errors=True)

    def ask(self, method, **params):
        """Sends a command, and returns its result."""
        self.sent += 1
        said = {"id": self.sent, "method": method, "params": params}
        if self.session:
            said["sessionId"] = self.session
        rest = json.dumps(said).encode() + b"\0"
        while rest:
            rest = rest[os.write(self.to, rest) :]
        while True:
            came = self.receive()
            if came.get("id") == self.sent:
                break
            self.events.append(came)
        if "error" in came:
            raise BrowserError(f"{method}: {came['error'].get('message')}")
        return came["result"]

    def receive(self):
        """The next message of the browser."""
        end = time.monotonic() + PATIENCE
        while b"\0" not in self.rest:
            if not select.select([self.come], [], [], max(0, end - time.monotonic()))[0]:
                raise BrowserError(f"no word for {PATIENCE} s")
            piece = os.read(self.come, 1 << 20)
            if not piece:
                raise BrowserError("the browser ended")
            self.rest += piece
        said, self.rest = self.rest.split(b"\0", 1)
        return json.loads(said)

    def resize(self, width, height, ratio=1):
        self.ask(
            "Emulation.setDeviceMetricsOverride",
            width=width, height=height, deviceScaleFactor=ratio, mobile=False,
        )

    def scheme(self, name):
        """Asks for `light` or `dark`."""
        features = [{"name": "prefers-color-scheme", "value": name}]
        self.ask("Emulation.setEmulatedMedia", features=features)

    def go(self, address):
        """Opens an address, and waits until its scripts have run."""
        self.ask("Page.navigate", url="about:blank")
        self.ask("Page.navigate", url=address)
        self.until("document.readyState === 'complete' && Boolean(globalThis.page?.show)")

    def run(self, script):
        """The value of an expression in the page; a promise is waited for."""
        given = {"expression": script, "awaitPromise": True, "returnByValue": True}
        said = self.ask("Runtime.evaluate", **given)
        if "exceptionDetails" in said:
            error = said["exceptionDetails"]
            raise BrowserError(error.get("exception", {}).get("description", error["text"]))
        return said["result"].get("value")

    def until(self, script):
        """Waits until an expression is true."""
        end = time.monotonic() + PATIENCE
        while not self.run(script):
            if time.monotonic() > end:
                raise BrowserError(f"never true: {script}")
            time.sleep(0.02)

    def rest_drawn(self):
        """Waits until what was asked for is on the screen."""
        self.run("new Promise((done) => requestAnimationFrame(() => requestAnimationFrame(done)))")

    def choose_file(self, query, path):
        """Chooses a file in an input of the page."""
        root = self.ask("DOM.getDocument")["root"]["nodeId"]
        node = self.ask("DOM.querySelector", nodeId=root, selector=query)["nodeId"]
        self.ask("DOM.setFileInputFiles", nodeId=node, files=[os.path.realpath(path)])

    def key(self, key, code=None, text=None):
        """Presses a key and lets it go."""
        given = {"key": key, "code": code or key}
        if text:
            given["text"] = text
        self.ask("Input.dispatchKeyEvent", type="keyDown", **given)
        self.ask("Input.dispatchKeyEvent", type="keyUp", key=key, code=code or key)

    def mouse(self, kind, x, y, **more):
        self.ask("Input.dispatchMouseEvent", type=kind, x=x, y=y, **more)

    def picture(self, path, clip=None):
        """Writes what is on the screen to a PNG; `clip` is x, y, width, height, scale."""
        self.rest_drawn()
        more = {}
        if clip:
            more["clip"] = dict(zip(("x", "y", "width", "height", "scale"), clip))
        said = self.ask("Page.captureScreenshot", format="png", captureBeyondViewport=bool(clip), **more)
        with open(path, "wb") as it:
            it.write(base64.b64decode(said["data"]))

    def complaints(self):
        """What the page's console was told as an error, and each address that it asked for."""
        self.run("0")
        errors, asked = [], []
        for it in self.events:
            params = it.get("params", {})
            if it.get("method") == "Runtime.exceptionThrown":
                errors.append(params["exceptionDetails"].get("exception", {}).get("description", "?"))
            if it.get("method") == "Log.entryAdded" and params["entry"]["level"] == "error":
                errors.append(params["entry"]["text"])
            if it.get("method") == "Network.requestWillBeSent":
                asked.append(params["request"]["url"])
        return errors, asked
