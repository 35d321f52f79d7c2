"""Reads what a program that does compiled runs writes: traces between lines that begin with @, as conform/README.md describes."""
import dataclasses
import re

import compiling
import wordheader

HEAD = re.compile(rb"^@conform 1 exec=(\S+) rom=\$([0-9A-F]{8}) quantum=([0-9]+) mode=(plain|strict)\r?$", re.M)
TRACE = re.compile(rb"@trace ([0-9]+) \$([0-9A-F]{8}) \$([0-9A-F]{8})\r?\n")
BEGUN = re.compile(rb"^@run ([0-9]+) ([^\r\n]*)\r?\n", re.M)
CANNOT = re.compile(rb"^@cannot ([0-9]+) ([^\r\n]*)", re.M)
REFUSED = re.compile(rb"^@refused ([^\r\n]*)", re.M)
DONE = re.compile(rb"^@done\r?$", re.M)
NOISE = re.compile(r"^\[")  # AROS says things of its own on the same line


@dataclasses.dataclass
class Said:
    """What came: the traces that are whole by their numbers, what was said of others, and whether all is over."""

    version: str | None
    quantum: int | None
    refused: str | None
    traces: dict
    cannot: dict
    spoiled: set
    last_begun: int | None
    is_done: bool


def trace_at(data, found):
    """The trace after its frame, or None if bytes were lost or changed."""
    text = data[found.end() : found.end() + int(found[2], 16)]
    number = found[1]
    is_whole = len(text) == int(found[2], 16) and data[found.end() + len(text) :].startswith(b"@end " + number + b"\n")
    return text if is_whole and wordheader.text_sum(text) == int(found[3], 16) else None


def read(data):
    """Reads what was written so far."""
    head, refused = HEAD.search(data), REFUSED.search(data)
    said = Said(None, None, None, {}, {}, set(), None, bool(DONE.search(data)))
    if head:
        said.version, said.quantum = head[1].decode(), int(head[3])
    if refused:
        said.refused = refused[1].decode(errors="replace")
    for found in TRACE.finditer(data):
        text = trace_at(data, found)
        if text is None:
            said.spoiled.add(int(found[1]))
        else:
            said.traces[int(found[1])] = text
    for found in CANNOT.finditer(data):
        said.cannot[int(found[1])] = found[2].decode(errors="replace")
    begun = [int(found[1]) for found in BEGUN.finditer(data)]
    said.last_begun = begun[-1] if begun else None
    return said


def lines_at_once(data, number):
    """The lines that came of a run while it ran, each as it was made."""
    found = re.search(rb"^@run %d [^\n]*\n(.*?)(?=^@(?:trace|run|cannot|conform) |\Z)" % number, data, re.M | re.S)
    text = found[1].decode(errors="replace") if found else ""
    whole, _, _ = text.rpartition("\n")
    return [line for line in whole.split("\n") if line and not NOISE.match(line)]


def titles(data):
    """The titles of the runs, as the compiled file has them, by their numbers."""
    return {int(found[1]): found[2].decode(errors="replace") for found in BEGUN.finditer(data)}


def short(name):
    """A name as the title of a run has it."""
    return name.encode(errors="replace")[: compiling.TITLE - 1].decode(errors="replace")
