"""watching.py PID FILE: looks once a second at a process and all that it begins, until it is ended by SIGTERM or that process is gone. FILE then has a
table of the crates that were proved and judged, the processor's seconds and the most memory of each, and the most memory that all held at a time."""
import collections
import os
import pathlib
import re
import signal
import sys
import time

TICK, PAGE = os.sysconf("SC_CLK_TCK"), os.sysconf("SC_PAGE_SIZE")
KINDS = ("proof", "tests", "mutants")


def processes():
    """Each process: its parent, its processor's seconds, its memory in bytes and the moment at which it began, by its number."""
    found = {}
    for it in os.listdir("/proc"):
        if it.isdigit():
            try:
                text = pathlib.Path("/proc", it, "stat").read_text(encoding="utf-8", errors="replace")
            except OSError:
                continue
            fields = text.rpartition(")")[2].split()
            found[int(it)] = int(fields[1]), (int(fields[11]) + int(fields[12])) / TICK, int(fields[21]) * PAGE, int(fields[19])
    return found


def below(found, top):
    """The numbers of a process and of all that it began."""
    children = collections.defaultdict(list)
    for number, (parent, *_) in found.items():
        children[parent].append(number)
    tree, left = set(), [top]
    while left:
        number = left.pop()
        if number in found and number not in tree:
            tree.add(number)
            left += children[number]
    return tree


def purpose(number):
    """Which crate a process proves and what for, or None if it proves nothing."""
    try:
        words = pathlib.Path("/proc", str(number), "cmdline").read_bytes().decode("utf-8", "replace").split("\0")
    except OSError:
        return None
    if not words[0].endswith("/rattle") or "--crate-name" not in words:
        return None
    kind = "mutants" if "--only" in words else "tests" if "--test" in words else "proof"
    return words[words.index("--crate-name") + 1], kind


class Watch:
    """What was seen so far."""

    def __init__(self, top):
        self.top, self.seconds, self.purposes = top, {}, {}
        self.most, self.most_of = 0, collections.Counter()

    def look(self):
        """Looks once; false if the process is gone."""
        found = processes()
        tree = below(found, self.top)
        held = collections.Counter()
        for number in tree:
            # (a number is given to another process once this one is gone)
            key = number, found[number][3]
            if key not in self.purposes:
                self.purposes[key] = purpose(number)
            if self.purposes[key]:
                self.seconds[key] = found[number][1]
                held[self.purposes[key][0]] += found[number][2]
        self.most = max(self.most, sum(found[number][2] for number in tree))
        self.most_of |= held
        return self.top in found

    def table(self):
        """The lines of the table, dearest crates first."""
        sums = collections.defaultdict(collections.Counter)
        for key, seconds in self.seconds.items():
            crate, kind = self.purposes[key]
            sums[crate][kind] += seconds
        yield f"{'crate':16}" + "".join(f"{it:>9}" for it in KINDS) + "   most MB"
        for crate, found in sorted(sums.items(), key=lambda it: -it[1].total()):
            yield f"{crate:16}" + "".join(f"{found[it]:9.0f}" for it in KINDS) + f"{self.most_of[crate] / 1e6:10.0f}"
        total = sum(sums.values(), collections.Counter())
        yield f"{'all':16}" + "".join(f"{total[it]:9.0f}" for it in KINDS) + f"{self.most / 1e6:10.0f}"


def stop(*_):
    raise SystemExit


def main(top, file):
    signal.signal(signal.SIGTERM, stop)
    watch = Watch(int(top))
    try:
        while watch.look():
            time.sleep(1)
    finally:
        pathlib.Path(file).write_text("".join(f"{line}\n" for line in watch.table()), encoding="utf-8")


if __name__ == "__main__":
    main(*sys.argv[1:])
