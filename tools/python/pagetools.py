"""What the tests of the page are made with: a count of what was as it is wanted, the parts of a page, the native program, a server of files, and pictures."""
import concurrent.futures
import html.parser
import http.server
import os
import pathlib
import re
import struct
import subprocess
import tempfile
import zlib

import callwords

# Limits of time are twice what is asked for, and are judged only if the machine has less to do than it has processors.
TWICE = 2
# How often a time is taken, at most, and for how many parts of a hundred of the last minute some process of a quiet machine waits for a processor.
MOST_TIMES, QUIET = 5, 25


def waiting_for_processors():
    """For how many parts of a hundred of the last minute some process waited for a processor; 0 if the kernel does not say it."""
    try:
        return float(re.search(r"some .*avg60=([0-9.]+)", pathlib.Path("/proc/pressure/cpu").read_text())[1])
    except (OSError, TypeError):
        return 0.0


class Tally:
    """Counts what was as it is wanted, and says what was not."""

    def __init__(self):
        self.passed, self.failed, self.skipped = 0, 0, 0

    def judge(self, title, is_good, said=""):
        if is_good:
            self.passed += 1
        else:
            self.failed += 1
            print(f"page: {title}: {said}"[:1000])

    def same(self, title, got, wanted):
        self.judge(title, got == wanted, f"{got!r}, wanted {wanted!r}"[:900])

    def skip(self, why):
        self.skipped += 1
        print(f"page: SKIPPED: {why}")

    def in_time(self, title, measure, asked):
        """Judges the least of some times, each in milliseconds as `measure` takes it, up to the first that is short enough. If none is, it is a failure
        if the machine has little else to do."""
        times = [measure()]
        while times[-1] > asked and len(times) < MOST_TIMES:
            times.append(measure())
        least, is_quiet = min(times), os.getloadavg()[0] < os.cpu_count() and waiting_for_processors() < QUIET
        print(f"page: {title}: {least:.0f} ms, of {asked} ms that are asked for{'' if is_quiet else ', on a machine with much else to do'}")
        if is_quiet or least <= TWICE * asked:
            self.judge(title, least <= TWICE * asked, f"{times} ms")
        else:
            self.skip(f"{title} was not judged")


class Parts(html.parser.HTMLParser):
    """What is wrong with the parts of a page: names given twice, and parts that a screen reader cannot name."""

    def __init__(self, text):
        super().__init__()
        self.wrong, self.ids, self.labelled, self.fields, self.inside = [], set(), set(), [], []
        self.feed(text)
        self.wrong += [f"{it} has no label" for it in self.fields if it not in self.labelled]

    def handle_starttag(self, tag, attrs):
        found = dict(attrs)
        if "id" in found:
            self.wrong += [f"two parts are {found['id']}"] if found["id"] in self.ids else []
            self.ids.add(found["id"])
        self.wrong += [f"{tag} is fetched: {found[it]}" for it in ("src", "href") if it in found]
        if tag == "label":
            self.labelled.add(found.get("for"))
        if tag in ("input", "select", "textarea") and "aria-label" not in found and "label" not in self.inside:
            self.fields.append(found.get("id"))
        if tag not in ("meta", "input", "br"):
            self.inside.append(tag)

    def handle_endtag(self, tag):
        self.inside.pop()


class Native:
    """The native program, by the name of each command, over two texts that are files of the names that the library gives them."""

    def __init__(self, program, room):
        self.room = pathlib.Path(room)
        for name in ("execsim", "execlog", "execcheck", "execexplore"):
            (self.room / name).symlink_to(program)

    def run(self, command, machine, events, *options):
        """The status and what a library would answer: standard output, or the words of a refusal without the name."""
        with tempfile.TemporaryDirectory(dir=self.room) as folder:
            pathlib.Path(folder, "machine.toml").write_bytes(machine)
            pathlib.Path(folder, "run.events").write_bytes(events)
            words = [self.room / command, *map(str, options), "machine.toml", "run.events"]
            ran = subprocess.run(words, cwd=folder, stdin=subprocess.DEVNULL, capture_output=True, check=False)
        said = callwords.said(ran.stderr.decode(errors="replace")).removeprefix(f"{command}: ").removesuffix("\n")
        step = callwords.alert_step(said) if "--state" in options else None
        if step is not None:
            status, page = self.run(command, machine, events, "--state", step)
            return status, callwords.as_step(page, step, options[1])
        return ran.returncode, ran.stdout or said.encode()

    def all(self, asked):
        """The same for each of a list, several at a time."""
        with concurrent.futures.ThreadPoolExecutor(os.cpu_count()) as pool:
            return list(pool.map(lambda it: self.run(*it), asked))


class Quiet(http.server.SimpleHTTPRequestHandler):
    def log_message(self, *_words):
        pass


def picture_of(file):
    """The width of a picture of the form PNG, and how many bytes of colour differ from their neighbours: 0 if it is of one colour."""
    data = file.read_bytes()
    width = struct.unpack(">I", data[16:20])[0]
    parts, at = b"", 8
    while at < len(data):
        length, kind = struct.unpack(">I4s", data[at : at + 8])
        parts += data[at + 8 : at + 8 + length] if kind == b"IDAT" else b""
        at += length + 12
    return width, len(set(zlib.decompress(parts)))
