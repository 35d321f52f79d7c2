"""Firefox without a window, which is asked for things by WebDriver BiDi over a plain socket. It is driven as Chromium is by browser.py."""
import base64
import json
import os
import pathlib
import shutil
import socket
import subprocess
import tempfile
import time

from browser import WAITING, Failure, Silence

NAMES = ("firefox-esr", "firefox")
# How long it may take to begin, and to answer, in seconds.
PATIENCE = 180
SETTINGS = {
    "app.update.enabled": False,
    "browser.shell.checkDefaultBrowser": False,
    "datareporting.policy.dataSubmissionEnabled": False,
    "network.captive-portal-service.enabled": False,
    "network.connectivity-service.enabled": False,
}
# How keys that write nothing are named, and those that are held.
KEYS = {"Backspace": "\ue003", "Tab": "\ue004", "Enter": "\ue007", "Escape": "\ue00c", "End": "\ue010", "Home": "\ue011", "ArrowLeft": "\ue012", "ArrowUp": "\ue013"}
KEYS |= {"ArrowRight": "\ue014", "ArrowDown": "\ue015", "Delete": "\ue017", "F1": "\ue031", "F9": "\ue039"}
HELD = {1: "\ue00a", 2: "\ue009", 8: "\ue008"}
# What each byte of a frame is sent as.
MASKED = bytes(it ^ 1 for it in range(256))


def found():
    """The path of a Firefox, or None."""
    return next((shutil.which(name) for name in NAMES if shutil.which(name)), None)


def free_port():
    with socket.socket() as it:
        it.bind(("127.0.0.1", 0))
        return it.getsockname()[1]


class WebSocket:
    """Texts to and from a server of this machine, as RFC 6455 has them."""

    def __init__(self, port, path):
        self.socket = self.connect(port)
        self.socket.sendall(f"GET {path} HTTP/1.1\r\nHost: 127.0.0.1:{port}\r\nUpgrade: websocket\r\nConnection: Upgrade\r\nSec-WebSocket-Key: {base64.b64encode(os.urandom(16)).decode()}\r\nSec-WebSocket-Version: 13\r\n\r\n".encode())
        self.buffer = b""
        while b"\r\n\r\n" not in self.buffer:
            self.more()
        head, _, self.buffer = self.buffer.partition(b"\r\n\r\n")
        if b" 101 " not in head:
            raise Failure(head.decode())

    @staticmethod
    def connect(port):
        for _ in range(10 * PATIENCE):
            try:
                return socket.create_connection(("127.0.0.1", port), PATIENCE)
            except OSError:
                time.sleep(0.1)
        raise Silence("Firefox does not answer")

    def more(self):
        try:
            some = self.socket.recv(1 << 20)
        except ConnectionError:
            some = b""
        except TimeoutError:
            raise Silence(f"Firefox says nothing for {PATIENCE} s") from None
        if not some:
            raise Silence("Firefox has ended")
        self.buffer += some

    def take(self, count):
        while len(self.buffer) < count:
            self.more()
        some, self.buffer = self.buffer[:count], self.buffer[count:]
        return some

    def send(self, some, kind=1):
        """Sends a frame, masked with ones, as there has to be a mask."""
        length = len(some)
        size = bytes([128 | length]) if length < 126 else bytes([254]) + length.to_bytes(2, "big") if length < 1 << 16 else bytes([255]) + length.to_bytes(8, "big")
        self.socket.sendall(bytes([128 | kind]) + size + b"\1\1\1\1" + some.translate(MASKED))

    def read(self):
        """The next text, of one frame or of several."""
        text = b""
        while True:
            first, length = self.take(2)
            if length > 125:
                length = int.from_bytes(self.take(2 if length == 126 else 8), "big")
            some, kind = self.take(length), first & 15
            if kind == 9:
                self.send(some, 10)
            elif kind < 3:
                text += some
                if first & 128:
                    return text


def plain(value):
    """A value of JavaScript as BiDi has it, as one of Python: what JSON has not is None."""
    kind = value["type"]
    if kind in ("string", "boolean", "number"):
        return value["value"]
    if kind == "array":
        return [plain(it) for it in value["value"]]
    if kind == "object":
        return {key: plain(it) for key, it in value["value"]}
    return None


class Browser:
    """One page in a Firefox of its own, which is ended with it."""

    def __init__(self, url, width=1280, height=900, dark=False):
        self.problems, self.asked_to_stay, self.number, self.url = [], 0, 0, url
        self.start(dark)
        self.look(width, height, dark)
        self.open(url)

    def start(self, dark):
        """Starts it, in dark or in light, which cannot be changed while it runs."""
        self.profile, self.socket, self.is_dark, port = tempfile.TemporaryDirectory(ignore_cleanup_errors=True), None, dark, free_port()
        settings = SETTINGS | {"layout.css.prefers-color-scheme.content-override": 0 if dark else 1}
        text = "".join(f"user_pref({json.dumps(key)}, {json.dumps(it)});\n" for key, it in settings.items())
        pathlib.Path(self.profile.name, "user.js").write_text(text)
        words = [found(), "--headless", f"--remote-debugging-port={port}", "--no-remote", "--profile", self.profile.name]
        self.process = subprocess.Popen(words, stdout=subprocess.DEVNULL, stderr=subprocess.DEVNULL)
        try:
            self.begin(port)
        except BaseException:
            self.end()
            raise

    def begin(self, port):
        """Begins to ask it, in a tab of its own: the first one may still be loading."""
        self.socket = WebSocket(port, "/session")
        self.ask("session.new", capabilities={"alwaysMatch": {"unhandledPromptBehavior": {"default": "accept", "beforeUnload": "accept"}}})
        self.ask("session.subscribe", events=["log.entryAdded", "browsingContext.userPromptOpened"])
        self.context = self.ask("browsingContext.create", type="tab")["context"]

    def __enter__(self):
        return self

    def __exit__(self, *_why):
        self.end()

    def end(self):
        if self.socket:
            self.socket.socket.close()
        self.process.terminate()
        try:
            self.process.wait(10)
        except subprocess.TimeoutExpired:
            self.process.kill()
        self.profile.cleanup()

    def note(self, method, parameters):
        """Notes what a page throws, what is an error or a warning on its console, and that a page asks whether to leave it."""
        if method == "log.entryAdded" and parameters["level"] in ("error", "warn"):
            self.problems.append(parameters["text"])
        elif method == "browsingContext.userPromptOpened":
            self.asked_to_stay += parameters["type"] == "beforeunload"

    def ask(self, method, **parameters):
        self.number += 1
        self.socket.send(json.dumps({"id": self.number, "method": method, "params": parameters}).encode())
        while True:
            got = json.loads(self.socket.read())
            if got["type"] == "event":
                self.note(got["method"], got["params"])
            elif got["type"] == "error":
                raise Failure(f"{method}: {got['message']}")
            elif got["id"] == self.number:
                return got["result"]

    def open(self, url):
        """Goes to another page, and waits until it is loaded; another address of the same page loads nothing."""
        self.ask("browsingContext.navigate", context=self.context, url=url, wait="complete")

    def look(self, width, height, dark=False):
        """Sets the size of the page, and whether it is dark: if that is new it begins again, with the page that it began with."""
        if dark != self.is_dark:
            self.end()
            self.start(dark)
            self.open(self.url)
        self.ask("browsingContext.setViewport", context=self.context, viewport={"width": width, "height": height})

    def value(self, expression):
        """What an expression of JavaScript comes to, when its promise is kept."""
        got = self.ask("script.evaluate", expression=expression, target={"context": self.context}, awaitPromise=True)
        if got["type"] == "exception":
            raise Failure(got["exceptionDetails"]["text"])
        return plain(got["result"])

    def wait(self, expression, seconds=150):
        """Waits until an expression holds; answers whether it does."""
        return self.value(WAITING % (1000 * seconds, expression))

    def act(self, kind, actions):
        self.ask("input.performActions", context=self.context, actions=[{"type": kind, "id": kind, "actions": actions}])

    def key(self, key, _code=None, modifiers=0, text=""):
        """Presses a key and lets it go: 1 is Alt, 2 is Ctrl, 8 is Shift."""
        pressed = [*(it for bit, it in HELD.items() if modifiers & bit), KEYS.get(key, key)]
        self.act("key", [*({"type": "keyDown", "value": it} for it in pressed), *({"type": "keyUp", "value": it} for it in reversed(pressed))])

    def type(self, text):
        """Types a text, a key after another."""
        keys = [KEYS["Enter"] if it == "\n" else it for it in text]
        self.act("key", [{"type": kind, "value": it} for it in keys for kind in ("keyDown", "keyUp")])

    def paper(self):
        """The page as it is printed, a PDF."""
        return base64.b64decode(self.ask("browsingContext.print", context=self.context, background=True)["data"])

    def shoot(self, to):
        """Takes a screenshot of what is in sight."""
        pathlib.Path(to).write_bytes(base64.b64decode(self.ask("browsingContext.captureScreenshot", context=self.context)["data"]))
