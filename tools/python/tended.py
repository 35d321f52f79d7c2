"""Does work in a process of its own, with which all ends that the work began, also what has a session of its own, as
daemons have."""
import contextlib
import ctypes
import multiprocessing
import os
import pathlib
import signal
import sys
import tempfile

SET_PDEATHSIG, SET_CHILD_SUBREAPER = 1, 36  # linux/prctl.h
REQUESTS = (signal.SIGINT, signal.SIGTERM, signal.SIGHUP)


def end_early(_number, _frame):
    """A request to end is as Ctrl-C."""
    raise KeyboardInterrupt


def parent_of(pid):
    """The parent of a process, or none if that is gone."""
    try:
        return int(pathlib.Path(f"/proc/{pid}/stat").read_text().rpartition(")")[2].split()[1])
    except OSError:
        return None


def end_children():
    """Kills the children of this process until there are none. The children of one that is killed come to this process,
    and are killed too."""
    while True:
        for pid in [int(it.name) for it in pathlib.Path("/proc").iterdir() if it.name.isdigit()]:
            if parent_of(pid) == os.getpid():
                with contextlib.suppress(ProcessLookupError):
                    os.kill(pid, signal.SIGKILL)
        try:
            os.wait()
            while os.waitpid(-1, os.WNOHANG)[0]:
                pass
        except ChildProcessError:
            return


@contextlib.contextmanager
def tended():
    """All that a block begins ends at its end, at a request to end, and if the parent of this process is gone."""
    system = ctypes.CDLL(None)
    system.prctl(SET_CHILD_SUBREAPER, 1, 0, 0, 0)
    system.prctl(SET_PDEATHSIG, int(signal.SIGTERM), 0, 0, 0)
    for number in REQUESTS:
        signal.signal(number, end_early)
    try:
        yield
    finally:
        for number in REQUESTS:
            signal.signal(number, signal.SIG_IGN)
        end_children()


def do(work, rows):
    """Does some work in a folder that is gone afterwards, and sends what it puts."""
    try:
        with tempfile.TemporaryDirectory() as room, tended():
            work(pathlib.Path(room), lambda *row: rows.send(row))
    except KeyboardInterrupt:
        sys.exit(130)


def apart(work):
    """Has `work(room, put)` done in a process and a folder of its own, and gives what it puts, row by row."""
    context = multiprocessing.get_context("fork")
    received, sent = context.Pipe(duplex=False)
    child = context.Process(target=do, args=(work, sent))
    child.start()
    sent.close()
    try:
        while True:
            yield received.recv()
    except EOFError:
        pass
    finally:
        child.terminate()
        child.join()
    if child.exitcode:
        raise ChildProcessError(f"the work ended with {child.exitcode}")
