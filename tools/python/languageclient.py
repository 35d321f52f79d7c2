"""A client of a language server, as `.ci/server` needs one: it writes messages in their frames and reads what comes."""
import json
import os
import selectors
import subprocess
import time


class Gone(Exception):
    """The server ended, or says nothing."""


def framed(message):
    """A message, as bytes or as a value, in its frame."""
    body = message if isinstance(message, bytes) else json.dumps(message).encode()
    return b"Content-Length: %d\r\n\r\n%s" % (len(body), body)


class Client:
    """A server that was started, and what it has said."""

    started = []

    def __init__(self, words):
        self.process = subprocess.Popen(words, stdin=subprocess.PIPE, stdout=subprocess.PIPE, stderr=subprocess.PIPE)
        self.bytes, self.number, self.said = b"", 0, []
        Client.started.append(self.process)
        self.selector = selectors.DefaultSelector()
        self.selector.register(self.process.stdout, selectors.EVENT_READ)

    def write(self, data):
        self.process.stdin.write(data)
        self.process.stdin.flush()

    def notify(self, method, **params):
        self.write(framed({"jsonrpc": "2.0", "method": method, "params": params}))

    def read(self, seconds=120):
        """The next message that the server says."""
        end = time.monotonic() + seconds
        while True:
            head, separator, rest = self.bytes.partition(b"\r\n\r\n")
            if separator:
                length = int(head.rpartition(b" ")[2])
                if len(rest) >= length:
                    self.bytes = rest[length:]
                    return json.loads(rest[:length])
            if not self.selector.select(max(0, end - time.monotonic())):
                raise Gone("nothing was said")
            more = os.read(self.process.stdout.fileno(), 1 << 20)
            if not more:
                raise Gone("the server ended")
            self.bytes += more

    def ask(self, method, **params):
        """The answer to a request; what else comes before it is kept."""
        self.number += 1
        self.write(framed({"jsonrpc": "2.0", "id": self.number, "method": method, "params": params}))
        while True:
            message = self.read()
            if message.get("id") == self.number and "method" not in message:
                return message
            self.said.append(message)

    def published(self):
        """What the next message says that was found, of those that come without a request."""
        message = self.said.pop(0) if self.said else self.read()
        assert message["method"] == "textDocument/publishDiagnostics", message
        return message["params"]

    def begin(self):
        answer = self.ask("initialize", processId=None, rootUri=None, capabilities={})
        self.notify("initialized")
        return answer

    def open(self, uri, text):
        self.notify("textDocument/didOpen", textDocument={"uri": uri, "languageId": "toml", "version": 1, "text": text})

    def change(self, uri, text):
        self.notify("textDocument/didChange", textDocument={"uri": uri, "version": 2}, contentChanges=[{"text": text}])

    def at(self, method, uri, line, character):
        """The answer to a request for a place."""
        return self.ask(f"textDocument/{method}", textDocument={"uri": uri}, position={"line": line, "character": character})["result"]

    def end(self, seconds=10):
        """Ends the server as the protocol has it; its status."""
        self.ask("shutdown")
        self.notify("exit")
        return self.status(seconds)

    def status(self, seconds=10):
        self.process.stdin.close()
        status = self.process.wait(seconds)
        self.process.stdout.close()
        self.process.stderr.close()
        return status

    @staticmethod
    def end_all():
        """Ends each server that was started and works still, as after a test that waited in vain."""
        for process in Client.started:
            if process.poll() is None:
                process.kill()
                process.wait()
        Client.started.clear()
