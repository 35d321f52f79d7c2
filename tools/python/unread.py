"""Paths at which no text can be read, and what a command says of each: the same of execcheck, execlog and execexplore.

`unread.py PROGRAM` tries a program as execcheck. It says what differs, and at the end `N passed, M failed`, with what was skipped, if any."""
import contextlib
import os
import pathlib
import shutil
import socket
import subprocess
import sys
import tempfile

NOBODY = 65534
# A name that has what a terminal obeys or does not show: an escape, a line feed, and a mark of direction; and how it is shown.
HOSTILE = "\x1b[31m\n\u202e"
SHOWN = r"\u{1b}[31m\n\u{202e}"
NOT_TEXT = b"\xff.toml"

NO_FILE = "there is no such file"
FOLDER = "it is a folder"
NO_PERMISSION = "you have no permission to read it"
TOO_LONG = "it is longer than 4194304 bytes"
FAILED = "the system could not read it"

MACHINE = '[[task]]\nname = "a"\ncode = ["Print 1"]\n'


def fill(room, listener):
    """Makes paths in a folder, and lists them: a title, the path, the path as it is shown, and the reason."""
    (room / "MACHINE").write_text(MACHINE)
    (room / "EVENTS").write_text("run 2\n")
    listener.bind(str(room / "socket"))
    rows = [("below a file", "EVENTS/below", "EVENTS/below", NO_FILE), ("a socket", "socket", "socket", FAILED)]
    for title, name, shown in (("", "x", "x"), (" of a hostile name", HOSTILE, SHOWN)):
        (room / f"folder-{name}").mkdir()
        (room / f"closed-{name}").write_text(MACHINE)
        (room / f"closed-{name}").chmod(0)
        (room / f"long-{name}").write_bytes(b"\n" * 4194305)
        (room / f"link-{name}").symlink_to(f"link-{name}")
        rows += [
            ("no file" + title, f"none-{name}", f"none-{shown}", NO_FILE),
            ("a folder" + title, f"folder-{name}", f"folder-{shown}", FOLDER),
            ("a file that may not be read" + title, f"closed-{name}", f"closed-{shown}", NO_PERMISSION),
            ("a file that is too long" + title, f"long-{name}", f"long-{shown}", TOO_LONG),
            ("a link to itself" + title, f"link-{name}", f"link-{shown}", FAILED),
        ]
    return [(title, f"{room}/{name}", f"{room}/{shown}", why) for title, name, shown, why in rows] + [("no path", "", "", NO_FILE)]


@contextlib.contextmanager
def filled():
    """A folder that anybody may look into, and the paths in it."""
    with tempfile.TemporaryDirectory() as room, socket.socket(socket.AF_UNIX) as listener:
        os.chmod(room, 0o755)
        yield pathlib.Path(room), fill(pathlib.Path(room), listener)


def as_nobody():
    """What runs a command as somebody who may read no file of another: as root `setpriv`, or None if that is missing, and else nothing has to."""
    if os.geteuid() != 0:
        return []
    return ["setpriv", "--reuid", str(NOBODY), "--clear-groups"] if shutil.which("setpriv") else None


def tried(program, command, line):
    """What a program says of each path, as the command of this name, with a command line in which PATH stands for the path, and MACHINE and EVENTS for texts
    that can be read: rows of a title, whether it is right, or None if it could not be tried, and what was said. A report may be longer than a text."""
    nobody = as_nobody()
    with filled() as (room, rows):
        called = shutil.copy(program, room / command)
        os.chmod(called, 0o755)
        texts = {it: str(room / it) for it in ("MACHINE", "EVENTS")}

        def run(path, before=()):
            words = [{**texts, "PATH": path}.get(it, it) for it in line]
            done = subprocess.run([*before, called, *words], capture_output=True, timeout=120, check=False)
            return done.returncode, done.stdout, done.stderr

        for title, path, shown, why in rows:
            if why == NO_PERMISSION and nobody is None:
                yield f"{' '.join(line)}: {title}", None, "setpriv is missing"
            elif why != TOO_LONG or "--sum" not in line:
                got = run(path, nobody if why == NO_PERMISSION else ())
                yield f"{' '.join(line)}: {title}", got == (4, b"", f"{command}: cannot read {shown}: {why}\n".encode()), got
        status, out, err = got = run(NOT_TEXT)
        yield f"{' '.join(line)}: a name that is not text", (status, out) == (2, b"") and err.startswith(b"error: ") and NOT_TEXT[:1] not in err, got


def try_all(program, command, lines, note):
    """Tries command lines, and notes each row by `note`; answers how many could not be tried."""
    skipped = 0
    for line in lines:
        for title, is_right, found in tried(program, command, line):
            if is_right is None:
                skipped += 1
                print(f"{command}: {title}: skipped, {found}")
            else:
                note(title, is_right, found)
    return skipped


def main():
    counts = {True: 0, False: 0}

    def note(title, is_right, found):
        counts[is_right] += 1
        if not is_right:
            print(f"execcheck: {title}: {found}")

    skipped = try_all(sys.argv[1], "execcheck", (["PATH"], ["PATH", "EVENTS"], ["MACHINE", "PATH"]), note)
    print(f"{counts[True]} passed, {counts[False]} failed" + (f", {skipped} skipped" if skipped else ""))
    return 1 if counts[False] else 0


if __name__ == "__main__":
    sys.exit(main())
