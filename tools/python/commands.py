"""Runs a command over two texts, with a limit of time and of what it may write."""
import dataclasses
import os
import selectors
import signal
import subprocess
import time


class CannotStart(Exception):
    """The command cannot be started at all."""


@dataclasses.dataclass(frozen=True)
class Said:
    """What a command came to: its status (negative: the signal that ended it; None: no answer in time) and what it wrote."""

    status: int | None
    out: bytes
    error: bytes
    too_much: bool


def end_group(child):
    """Ends a command with all that it started."""
    try:
        os.killpg(child.pid, signal.SIGKILL)
    except ProcessLookupError:
        pass


def read_all(child, deadline, most):
    """Reads both streams until they end, time is up (False, False), or standard output has more than `most` bytes (True, True)."""
    chunks = {child.stdout: [], child.stderr: []}
    size = 0
    with selectors.DefaultSelector() as selector:
        for stream in chunks:
            selector.register(stream, selectors.EVENT_READ)
        while selector.get_map():
            ready = selector.select(max(0, deadline - time.monotonic()))
            if not ready:
                return chunks, False, False
            for key, _ in ready:
                chunk = os.read(key.fd, 65536)
                if not chunk:
                    selector.unregister(key.fileobj)
                chunks[key.fileobj].append(chunk)
                size += len(chunk)
            if size > most:
                return chunks, True, True
    return chunks, True, False


def run(command, machine, events, seconds, most):
    """Runs COMMAND MACHINE EVENTS for at most that many seconds, and keeps at most about `most` bytes."""
    words = [*command, str(machine), str(events)]
    try:
        child = subprocess.Popen(words, stdin=subprocess.DEVNULL, stdout=subprocess.PIPE, stderr=subprocess.PIPE, start_new_session=True)
    except OSError as error:
        way_out = "write the path of a program, as ./execsim, or the name of one on PATH"
        raise CannotStart(f"{command[0]}: cannot be started: {error.strerror}; {way_out}") from None
    deadline = time.monotonic() + seconds
    with child:
        chunks, is_in_time, too_much = read_all(child, deadline, most)
        status = None
        if is_in_time and not too_much:
            try:
                status = child.wait(max(0.001, deadline - time.monotonic()))
            except subprocess.TimeoutExpired:
                is_in_time = False
        end_group(child)
    status = child.returncode if too_much else status
    return Said(status if is_in_time else None, b"".join(chunks[child.stdout]), b"".join(chunks[child.stderr]), too_much)
