"""Controls a headless Chromium over a pipe, in Python alone: opens pages, runs scripts in them, and takes screenshots."""
import base64
import json
import os
import shutil
import subprocess
import tempfile

PROGRAMS = ("chromium", "chromium-browser", "google-chrome")
# The time zone of the browsers, which isn't UTC.
ZONE = {"TZ": "Europe/Berlin"}


def program():
    """Returns the path of Chromium, or None."""
    return next(filter(None, map(shutil.which, PROGRAMS)), None)


class Browser:
    """A Chromium with one page. `requests` has the address of each request that the page made."""

    name = "Chromium"
    program = staticmethod(program)

    def __init__(self):
        self.folder = tempfile.mkdtemp()
        commands, self.to = os.pipe()
        self.of, answers = os.pipe()
        words = [program(), "--headless=new", "--no-sandbox", "--disable-gpu", "--disable-dev-shm-usage", "--no-first-run",
                 "--disable-background-networking", f"--user-data-dir={self.folder}", "--remote-debugging-pipe", "about:blank"]
        # Chromium reads commands from 3 and answers on 4.
        shell = f'exec 3<&{commands} 4>&{answers} && exec "$@"'
        quiet = {"stdin": subprocess.DEVNULL, "stdout": subprocess.DEVNULL, "stderr": subprocess.DEVNULL}
        self.process = subprocess.Popen(["bash", "-c", shell, "bash", *words], pass_fds=(commands, answers), env={**os.environ, **ZONE}, **quiet)
        os.close(commands)
        os.close(answers)
        self.rest, self.number, self.session, self.requests = b"", 0, None, []
        self.version = self.call("Browser.getVersion")["product"]

    def __enter__(self):
        return self

    def __exit__(self, *_):
        self.session = None
        try:
            self.call("Browser.close")
            self.process.wait(10)
        except (RuntimeError, OSError, subprocess.TimeoutExpired):
            self.process.kill()
        os.close(self.to)
        os.close(self.of)
        shutil.rmtree(self.folder, ignore_errors=True)

    def read(self):
        """Returns the next message."""
        parts = [self.rest]
        while b"\0" not in parts[-1]:
            parts.append(os.read(self.of, 1 << 20))
            if not parts[-1]:
                raise RuntimeError("Chromium ended")
        message, _, self.rest = b"".join(parts).partition(b"\0")
        return json.loads(message)

    def call(self, method, **words):
        self.number += 1
        message = {"id": self.number, "method": method, "params": words} | ({"sessionId": self.session} if self.session else {})
        data = memoryview(json.dumps(message).encode() + b"\0")
        while data:
            data = data[os.write(self.to, data) :]
        while True:
            told = self.read()
            if told.get("method") == "Network.requestWillBeSent":
                self.requests.append(told["params"]["request"]["url"])
            if told.get("id") == self.number:
                if "error" in told:
                    raise RuntimeError(f"{method}: {told['error']}")
                return told["result"]

    def open(self, address):
        self.session = None
        target = self.call("Target.createTarget", url="about:blank")["targetId"]
        self.session = self.call("Target.attachToTarget", targetId=target, flatten=True)["sessionId"]
        for domain in ("Page", "Runtime", "Network"):
            self.call(f"{domain}.enable")
        self.call("Page.navigate", url=address)

    def run(self, script):
        """Runs a script in the page, and returns its result."""
        told = self.call("Runtime.evaluate", expression=script, awaitPromise=True, returnByValue=True)
        if "exceptionDetails" in told:
            raise RuntimeError(json.dumps(told["exceptionDetails"])[:1000])
        return told["result"].get("value")

    def install(self, script):
        """Runs statements in the page."""
        self.run(f"{script}; 0")

    def insert(self, text):
        self.call("Input.insertText", text=text)

    def look_like(self, width, height, scheme):
        """Gives the page a size, and a dark or a light scheme."""
        self.call("Emulation.setDeviceMetricsOverride", width=width, height=height, deviceScaleFactor=1, mobile=False)
        self.call("Emulation.setEmulatedMedia", features=[{"name": "prefers-color-scheme", "value": scheme}])

    def click(self, x, y):
        for kind in ("mousePressed", "mouseReleased"):
            self.call("Input.dispatchMouseEvent", type=kind, x=x, y=y, button="left", clickCount=1)

    def key(self, name):
        for kind in ("keyDown", "keyUp"):
            self.call("Input.dispatchKeyEvent", type=kind, key=name, code=name)

    def shot(self, path):
        with open(path, "wb") as file:
            file.write(base64.b64decode(self.call("Page.captureScreenshot")["data"]))
