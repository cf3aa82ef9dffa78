"""Controls Firefox and WebKitGTK for `tools/page --test`, in Python alone: Firefox by WebDriver BiDi over a socket, WebKitGTK by its
WebKitWebDriver, with a display of Xvfb. Their pages have the methods of browser.Browser that the test calls."""
import base64
import glob
import http.client
import json
import os
import shutil
import socket
import subprocess
import tempfile
import time

import browser

QUIET = {"stdin": subprocess.DEVNULL, "stdout": subprocess.DEVNULL, "stderr": subprocess.DEVNULL}
BROWSERS = "/usr/lib/*/webkit2gtk-4.*/MiniBrowser"
# The characters by which WebDriver names keys.
KEYS = {"ArrowLeft": "\ue012", "ArrowUp": "\ue013", "ArrowRight": "\ue014", "ArrowDown": "\ue015", "Home": "\ue011", "End": "\ue010",
        "PageUp": "\ue00e", "PageDown": "\ue00f", "Enter": "\ue007"}
SECONDS = 600  # to wait for an answer


def free_port():
    with socket.socket() as found:
        found.bind(("127.0.0.1", 0))
        return found.getsockname()[1]


def connected(port):
    """Returns a socket to a program that was just started."""
    for _ in range(3000):
        try:
            return socket.create_connection(("127.0.0.1", port), SECONDS)
        except ConnectionRefusedError:
            time.sleep(0.1)
    raise RuntimeError(f"nobody answers at port {port}")


def pressed(at):
    """Returns the actions of a click at a place."""
    moves = [{"type": "pointerMove", "x": int(at[0]), "y": int(at[1])}, {"type": "pointerDown", "button": 0}, {"type": "pointerUp", "button": 0}]
    return [{"type": "pointer", "id": "mouse", "actions": moves}]


def typed(text):
    """Returns the actions of keys, one for each character."""
    return [{"type": "key", "id": "keys", "actions": [{"type": it, "value": c} for c in text for it in ("keyDown", "keyUp")]}]


class Driven:
    """A browser with one page, which a class below drives."""

    requests = ()

    def __init__(self):
        self.folder, self.processes = tempfile.mkdtemp(), []

    def __enter__(self):
        return self

    def __exit__(self, *_):
        for it in reversed(self.processes):
            it.terminate()
            try:
                it.wait(10)
            except subprocess.TimeoutExpired:
                it.kill()
        shutil.rmtree(self.folder, ignore_errors=True)

    def start(self, *words, **more):
        self.processes.append(subprocess.Popen(words, **{**QUIET, "env": {**os.environ, **browser.ZONE}, **more}))
        return self.processes[-1]

    def shot(self, path):
        with open(path, "wb") as file:
            file.write(base64.b64decode(self.picture()))

    def click(self, x, y):
        self.act(pressed((x, y)))

    def key(self, name):
        self.act(typed([KEYS[name]]))

    def insert(self, text):
        self.act(typed(text))


# ---- Firefox


def masked(data, mask=b"mask"):
    """Returns a frame of a WebSocket with a text. Firefox takes no mask of zeros."""
    size, keys = len(data), mask * (len(data) // 4 + 1)
    head = bytes([0x80 | size]) if size < 126 else b"\xfe" + size.to_bytes(2, "big") if size < 65536 else b"\xff" + size.to_bytes(8, "big")
    return b"\x81" + head + mask + (int.from_bytes(data, "big") ^ int.from_bytes(keys[:size], "big")).to_bytes(size, "big")


class Firefox(Driven):
    """A headless Firefox."""

    name = "Firefox"

    @staticmethod
    def program():
        return next(filter(None, map(shutil.which, ("firefox-esr", "firefox"))), None)

    def __init__(self):
        super().__init__()
        port = free_port()
        with open(f"{self.folder}/user.js", "w", encoding="utf-8") as file:
            file.write('user_pref("app.update.enabled", false);\nuser_pref("browser.shell.checkDefaultBrowser", false);\n')
        self.start(self.program(), "--headless", "--no-remote", "--profile", self.folder, f"--remote-debugging-port={port}")
        self.socket, self.number = connected(port), 0
        key = base64.b64encode(os.urandom(16)).decode()
        self.socket.sendall(f"GET /session HTTP/1.1\r\nHost: 127.0.0.1:{port}\r\nUpgrade: websocket\r\nConnection: Upgrade\r\n"
                            f"Sec-WebSocket-Key: {key}\r\nSec-WebSocket-Version: 13\r\n\r\n".encode())
        self.file = self.socket.makefile("rb")
        while self.file.readline().strip():
            pass
        told = self.call("session.new", capabilities={})["capabilities"]
        self.version = f"{told['browserName']} {told['browserVersion']}"
        self.context = self.call("browsingContext.getTree")["contexts"][0]["context"]

    def read(self):
        """Returns the next message."""
        message, is_last = b"", False
        while not is_last:
            first, size = self.file.read(2)
            size = int.from_bytes(self.file.read(2), "big") if size == 126 else int.from_bytes(self.file.read(8), "big") if size == 127 else size
            message, is_last = message + self.file.read(size), first & 0x80
        return json.loads(message)

    def call(self, method, **words):
        self.number += 1
        self.socket.sendall(masked(json.dumps({"id": self.number, "method": method, "params": words}).encode()))
        while True:
            told = self.read()
            if told.get("id") == self.number:
                if told["type"] == "error":
                    raise RuntimeError(f"{method}: {told['message']}")
                return told["result"]

    def open(self, address):
        self.call("browsingContext.navigate", context=self.context, url=address, wait="complete")

    def run(self, script):
        told = self.call("script.evaluate", expression=f"(async () => JSON.stringify(await ({script})))()", target={"context": self.context}, awaitPromise=True)
        if told["type"] != "success":
            raise RuntimeError(told["exceptionDetails"]["text"][:1000])
        return json.loads(told["result"].get("value", "null"))

    def install(self, script):
        self.call("script.evaluate", expression=script, target={"context": self.context}, awaitPromise=False)

    def look_like(self, width, height, _):
        self.call("browsingContext.setViewport", context=self.context, viewport={"width": width, "height": height})

    def act(self, actions):
        self.call("input.performActions", context=self.context, actions=actions)

    def picture(self):
        return self.call("browsingContext.captureScreenshot", context=self.context)["data"]


# ---- WebKitGTK


class WebKit(Driven):
    """A MiniBrowser of WebKitGTK, on a display of its own."""

    name = "WebKitGTK"

    @staticmethod
    def program():
        found = next(iter(glob.glob(BROWSERS)), None)
        return found if shutil.which("WebKitWebDriver") and shutil.which("Xvfb") else None

    def __init__(self):
        super().__init__()
        of, to = os.pipe()
        self.start("Xvfb", "-displayfd", str(to), "-screen", "0", "1600x1800x24", pass_fds=(to,))
        display, self.port = os.read(of, 20).decode().strip(), free_port()
        home = {it: self.folder for it in ("HOME", "XDG_DATA_HOME", "XDG_CACHE_HOME", "XDG_CONFIG_HOME", "XDG_RUNTIME_DIR")}
        plain = {"DISPLAY": f":{display}", "GDK_BACKEND": "x11", "LIBGL_ALWAYS_SOFTWARE": "1", "WEBKIT_DISABLE_SANDBOX_THIS_IS_DANGEROUS": "1"}
        self.start("WebKitWebDriver", f"--port={self.port}", env={**os.environ, **browser.ZONE, **home, **plain})
        connected(self.port).close()
        self.session = ""
        options = {"binary": self.program(), "args": ["--automation"]}
        told = self.call("POST", "/session", capabilities={"alwaysMatch": {"webkitgtk:browserOptions": options, "timeouts": {"script": 1000 * SECONDS}}})
        self.session = f"/session/{told['sessionId']}"
        self.version = f"{told['capabilities']['browserName']} {told['capabilities']['browserVersion']}"

    def __exit__(self, *more):
        try:
            self.call("DELETE", "")
        except (OSError, RuntimeError, http.client.HTTPException):
            pass
        super().__exit__(*more)

    def call(self, method, path, **words):
        connection = http.client.HTTPConnection("127.0.0.1", self.port, timeout=SECONDS)
        connection.request(method, self.session + path, json.dumps(words) if method == "POST" else None, {"Content-Type": "application/json"})
        told = json.loads(connection.getresponse().read())["value"]
        connection.close()
        if isinstance(told, dict) and "error" in told:
            raise RuntimeError(f"{path}: {told['error']}: {told['message']}")
        return told

    def open(self, address):
        self.call("POST", "/url", url=address)

    def run(self, script):
        told = self.call("POST", "/execute/async", args=[], script=f"""const done = arguments[arguments.length - 1];
          (async () => JSON.stringify(await ({script})))().then(it => done([it]), error => done([undefined, String(error)]));""")
        if told[0] is None and len(told) > 1:
            raise RuntimeError(told[1][:1000])
        return json.loads(told[0] or "null")

    def install(self, script):
        self.call("POST", "/execute/sync", args=[], script=script)

    def look_like(self, width, height, _):
        self.call("POST", "/window/rect", x=0, y=0, width=width, height=height)

    def act(self, actions):
        self.call("POST", "/actions", actions=actions)

    def picture(self):
        return self.call("GET", "/screenshot")
