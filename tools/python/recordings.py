"""The recordings of a real exec: an archive of scenarios, each with the trace that AROS's exec gave."""
import collections
import functools
import pathlib
import tarfile

import lines
import pages
import tables

ARCHIVE = tables.DATA / "real-exec" / "recordings.tar.xz"
GROUPS = {
    "r1": "tasks and signals",
    "r2": "lists, and allocation of signals",
    "r3": "memory",
    "r4": "nesting, and control of tasks",
    "r5": "ports",
    "r6": "semaphores",
    "r7": "interrupts",
}


@functools.cache
def texts():
    """The text of each file of the archive by its path."""
    with tarfile.open(ARCHIVE) as archive:
        return {pathlib.PurePosixPath(one.name): archive.extractfile(one).read() for one in archive if one.isfile()}


def unpack(folder):
    """Writes all recordings into a folder."""
    for path, text in texts().items():
        (folder / path).parent.mkdir(parents=True, exist_ok=True)
        (folder / path).write_bytes(text)


def traces():
    """The group and the trace of each recording."""
    return [(path.parent.name, text.decode()) for path, text in sorted(texts().items()) if path.suffix == ".trace"]


def calls_by_word(words):
    """How many calls of each word the traces have."""
    found = (lines.call_of(line, words) for _, trace in traces() for line in trace.splitlines())
    return collections.Counter(call.word for call in found if call)


def counts_by_group(words):
    """For each group: how many recordings it has, how many lines, and how many of these are calls."""
    counts = {group: [0, 0, 0] for group in GROUPS}
    for group, trace in traces():
        shown = trace.splitlines()
        counts[group][0] += 1
        counts[group][1] += len(shown)
        counts[group][2] += sum(1 for line in shown if lines.call_of(line, words))
    return counts


def group_table(words):
    """REAL-EXEC's table of the groups of recordings."""
    counts = counts_by_group(words)
    rows = [(group, GROUPS[group], *(f"{number:,}" for number in numbers)) for group, numbers in counts.items()]
    rows.append(("all", "", *(f"{sum(column):,}" for column in zip(*counts.values()))))
    return pages.as_table(("Group", "What it adds", "Scenarios", "Lines of trace", "Calls"), rows)
