"""Chromium without a window, which is asked for things by a pipe."""
import base64
import json
import os
import pathlib
import re
import select
import shutil
import subprocess
import tempfile

NAMES = ("chromium", "chromium-browser", "google-chrome")
# No window, no network of its own, and no sandbox, which cannot be had in every container.
WORDS = ["--headless=new", "--no-sandbox", "--disable-gpu", "--hide-scrollbars", "--no-first-run", "--disable-background-networking", "--remote-debugging-pipe"]
# How long the browser may say nothing, in seconds: a machine with much else to do takes its time.
PATIENCE = 180
# A promise that is kept when an expression holds, or after so many milliseconds, and says whether it does.
WAITING = """new Promise(done => {
  const end = performance.now() + %d, look = () => { let is = false; try { is = %s; } catch {} is || performance.now() > end ? done(!!is) : setTimeout(look, 5); };
  look();
})"""


def found():
    """The path of a browser, or None."""
    return next((shutil.which(name) for name in NAMES if shutil.which(name)), None)


class Failure(Exception):
    """What a page threw, or what the browser refused."""


class Silence(Failure):
    """A browser that answers no more, or has ended. The next one may."""


class Browser:
    """One page in a browser of its own, which is ended with it."""

    def __init__(self, url, width=1280, height=900, dark=False):
        self.profile = tempfile.TemporaryDirectory(ignore_cleanup_errors=True)
        to_it, self.write = os.pipe()
        self.read, from_it = os.pipe()
        # it reads from 3 and writes to 4
        words = ["sh", "-c", f'exec "$@" 3<&{to_it} 4>&{from_it}', "sh", found(), *WORDS, f"--user-data-dir={self.profile.name}", "about:blank"]
        self.process = subprocess.Popen(words, pass_fds=(to_it, from_it), stdout=subprocess.DEVNULL, stderr=subprocess.DEVNULL, env=os.environ | {"TMPDIR": self.profile.name})
        os.close(to_it)
        os.close(from_it)
        self.buffer, self.number, self.session = b"", 0, None
        self.problems, self.asked_to_stay, self.is_loaded = [], 0, False
        target = next(it for it in self.ask("Target.getTargets")["targetInfos"] if it["type"] == "page")
        self.session = self.ask("Target.attachToTarget", targetId=target["targetId"], flatten=True)["sessionId"]
        self.look(width, height, dark)
        self.ask("Emulation.setFocusEmulationEnabled", enabled=True)
        for part in ("Page", "Runtime", "Log"):
            self.ask(f"{part}.enable")
        self.open(url)

    def __enter__(self):
        return self

    def __exit__(self, *_why):
        self.process.terminate()
        try:
            self.process.wait(10)
        except subprocess.TimeoutExpired:
            self.process.kill()
        os.close(self.write)
        os.close(self.read)
        self.profile.cleanup()

    def message(self):
        """The next message of the browser."""
        while b"\0" not in self.buffer:
            if not select.select([self.read], [], [], PATIENCE)[0]:
                raise Silence(f"the browser says nothing for {PATIENCE} s")
            more = os.read(self.read, 1 << 20)
            if not more:
                raise Silence("the browser has ended")
            self.buffer += more
        text, _, self.buffer = self.buffer.partition(b"\0")
        return json.loads(text)

    def hear(self, got):
        """Notes a message that says what happened; answers it."""
        if "method" in got:
            self.note(got["method"], got["params"])
        return got

    def note(self, method, parameters):
        """Notes what a page throws, what is an error on its console, and what its policy forbids; and lets go a page that asks whether to leave it."""
        if method == "Runtime.exceptionThrown":
            details = parameters["exceptionDetails"]
            self.problems.append(details.get("exception", {}).get("description", details["text"]))
        elif method == "Runtime.consoleAPICalled" and parameters["type"] in ("error", "assert", "warning"):
            self.problems.append(" ".join(str(it.get("value", it.get("description"))) for it in parameters["args"]))
        elif method == "Log.entryAdded" and parameters["entry"]["level"] in ("error", "warning"):
            self.problems.append(f"{parameters['entry']['source']}: {parameters['entry']['text']}")
        elif method == "Page.loadEventFired":
            self.is_loaded = True
        elif method == "Page.javascriptDialogOpening":
            self.asked_to_stay += parameters["type"] == "beforeunload"
            self.send("Page.handleJavaScriptDialog", accept=True)

    def send(self, method, **parameters):
        """Sends a question, and answers its number."""
        self.number += 1
        asked = {"id": self.number, "method": method, "params": parameters} | ({"sessionId": self.session} if self.session else {})
        text = json.dumps(asked).encode() + b"\0"
        while text:
            text = text[os.write(self.write, text) :]
        return self.number

    def ask(self, method, **parameters):
        number = self.send(method, **parameters)
        while True:
            got = self.hear(self.message())
            if got.get("id") == number:
                if "error" in got:
                    raise Failure(f"{method}: {got['error']['message']}")
                return got["result"]

    def open(self, url):
        """Goes to another page, and waits until it is loaded; another address of the same page loads nothing."""
        self.is_loaded = False
        if "loaderId" in self.ask("Page.navigate", url=url):
            while not self.is_loaded:
                self.hear(self.message())

    def look(self, width, height, dark=False):
        """Sets the size of the page, and whether it is dark."""
        self.ask("Emulation.setDeviceMetricsOverride", width=width, height=height, deviceScaleFactor=1, mobile=False)
        self.ask("Emulation.setEmulatedMedia", features=[{"name": "prefers-color-scheme", "value": "dark" if dark else "light"}])

    def value(self, expression):
        """What an expression of JavaScript comes to, when its promise is kept."""
        got = self.ask("Runtime.evaluate", expression=expression, awaitPromise=True, returnByValue=True)
        if "exceptionDetails" in got:
            details = got["exceptionDetails"]
            raise Failure(details.get("exception", {}).get("description", details["text"]))
        return got["result"].get("value")

    def wait(self, expression, seconds=150):
        """Waits until an expression holds; answers whether it does."""
        return self.value(WAITING % (1000 * seconds, expression))

    def key(self, key, code=None, modifiers=0, text=""):
        """Presses a key and lets it go: 1 is Alt, 2 is Ctrl, 8 is Shift."""
        numbers = {"Enter": 13, "Tab": 9, "Escape": 27, "ArrowLeft": 37, "ArrowRight": 39, "ArrowUp": 38, "ArrowDown": 40, "Home": 36, "End": 35, "F1": 112, "F9": 120, "Backspace": 8, "Delete": 46, ",": 188, ".": 190}
        number = numbers.get(key) or (ord(key.upper()) if re.fullmatch("[a-z0-9 ]", key) else 0)
        it = {"key": key, "code": code or key, "modifiers": modifiers, "windowsVirtualKeyCode": number}
        self.ask("Input.dispatchKeyEvent", type="keyDown", **it, **({"text": text} if text else {}))
        self.ask("Input.dispatchKeyEvent", type="keyUp", **it)

    def type(self, text):
        """Types a text, a key after another."""
        for it in text:
            self.key("Enter" if it == "\n" else it, text="\r" if it == "\n" else it)

    def paper(self):
        """The page as it is printed, a PDF."""
        return base64.b64decode(self.ask("Page.printToPDF", preferCSSPageSize=True)["data"])

    def shoot(self, to):
        """Takes a screenshot of what is in sight."""
        pathlib.Path(to).write_bytes(base64.b64decode(self.ask("Page.captureScreenshot", format="png")["data"]))
