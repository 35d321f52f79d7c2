"""Which mutants are judged, and the record of those that were, tools/judged.txt. `.ci/judge` and `.ci/judge-definitions` say how one is judged.

Below the name of a crate and a part of it the record has a line for each mutant that was judged as it should be: a digest of the mutant, and of all
texts that its verdict rests on (`sums`). If a stored run shows a mutant, a digest of that run follows. A mutant that has its line is known: it is not
judged, and not counted. But one in SHARE of the known ones is judged again, at least one, so that a false line is found (`sample`).

Nothing here decides a verdict, so no digest is of this file. If a mistake here, or in something that no digest is of, may have let a false line into
the record, raise VERSION: then no line is known.
"""
import contextlib
import fcntl
import hashlib
import json
import re
import subprocess
import sys
from concurrent.futures import ThreadPoolExecutor
from datetime import date
from pathlib import Path

import copies

VERSION = b"1"
SHARE = 20
RECORD = Path("tools/judged.txt")
TITLE = "# The mutants that were judged as they should be, by digests of all that this rests on: docs/PROOFS.md. Written by `.ci/judge --record`.\n"
GROUP = re.compile(r"(\w+) (src/|specs/)")
LINE = re.compile(r"[0-9a-f]{24}(?: [0-9a-f]{24})?")


class Unjudged(Exception):
    """Why a crate is not judged."""


def digest(*texts):
    """A digest of some bytes, and of where each of them ends."""
    return hashlib.sha256(b"".join(hashlib.sha256(it).digest() for it in texts)).digest()


def short(found):
    """A digest as the record has it."""
    return found.hex()[:24]


def sums(scripts):
    """For each crate of crates.txt, those below it first, a digest of its line there and its files, of the crates below it, of the toolchain, and of
    the scripts that decide a verdict."""
    lines = [it for it in Path("crates.txt").read_text(encoding="utf-8").split("\n") if it and it[0] != "#"]
    line_of, told = {it.partition(":")[0].split()[0]: it for it in lines}, {}
    version = subprocess.run(["rt", "version"], stdout=subprocess.PIPE, check=True).stdout
    everywhere = [VERSION, version, *(it.read_bytes() for it in map(Path, ("HANDLES", *scripts)) if it.is_file())]
    for name in sorted(copies.read_crates(), key=lambda it: len(copies.below(it))):
        files = sorted(it for part in ("src", "specs", "proofs") for it in Path("crates", name, part).rglob("*") if it.is_file())
        below = [told[it] for it in copies.read_crates()[name] if it in told]
        told[name] = digest(*everywhere, line_of[name].encode(), *below, *(digest(str(it).encode(), it.read_bytes()) for it in files))
    return told


def groups_in(text):
    """The lines of a record, by crate and part."""
    found, group = {}, []
    for line in text.split("\n"):
        if named := GROUP.fullmatch(line):
            group = found.setdefault(named.groups(), [])
        elif LINE.fullmatch(line):
            group.append(line)
    return found


def text_of(groups):
    """A record of the lines of those crates that have mutants."""
    kept = sorted(it for it in groups if groups[it] and Path("crates", it[0], "mutants").is_file())
    return TITLE + "".join("\n".join([" ".join(it), *sorted(set(groups[it])), ""]) for it in kept)


def write(crate, part, lines):
    """Puts lines in the place of those that the record has of a part of a crate. Other judges may write beside this one."""
    RECORD.parent.mkdir(exist_ok=True)
    with open(RECORD, "a+", encoding="utf-8") as file:
        fcntl.flock(file, fcntl.LOCK_EX)
        file.seek(0)
        groups = groups_in(file.read())
        file.truncate(0)
        file.write(text_of({**groups, (crate, part): lines}))


class Mutants:
    """Those of a part of a crate: which line each known one has in the record, and which ones are judged. `grounds` gives a digest for each stored run
    that is there, of it and of all else that a verdict by it rests on."""

    def __init__(self, crate, part, told, mutants_of, grounds):
        self.crate, self.part, self.told, self.grounds = crate, part, told, grounds
        self.all, self.fault, self.known, self.judged = [], None, {}, []
        try:
            self.all = [it for it in mutants_of(crate) if it.file.startswith(part)]
        except (Unjudged, OSError) as error:
            self.fault = error

    def line(self, mutant, run):
        """A mutant's line, if this run shows it, or if no run does."""
        text = json.dumps([mutant.file, mutant.is_right, mutant.functions, mutant.title, mutant.pairs])
        found = short(digest(self.told, text.encode(), self.grounds()[run] if run else b""))
        return f"{found} {run}" if run else found

    def look_up(self, lines):
        """Finds the mutants that have their line."""
        named = {it.partition(" ")[2] for it in lines}
        runs = [it for it in named if not it or it in self.grounds()]
        for it in self.all:
            found = {self.line(it, run) for run in runs} & lines
            if found:
                self.known[it] = min(found)

    def judge(self, by):
        """Judges what is to be judged: how many are well, and how many are not."""
        try:
            if self.fault:
                raise self.fault
            if self.judged:
                copies.wait_for_libraries(self.crate)
                by(self.crate, self.judged)
        except (Unjudged, OSError) as error:
            self.fault = error  # (what was found before it may rest on what it denies)
            print(f"NOT JUDGED: {self.crate}: {error}", flush=True)
            return 0, max(1, len(self.judged))
        for it in (it for it in self.judged if it in self.known and not it.is_well):
            print(f"FALSE: {RECORD} has a line of {it.place}, which was not judged as that says", flush=True)
        return sum(it.is_well for it in self.judged), sum(not it.is_well for it in self.judged)

    def record(self):
        """Writes a line for each mutant that is known, or was judged as it should be."""
        rest = [line for it, line in self.known.items() if it not in self.judged]
        write(self.crate, self.part, rest + [self.line(it, it.run) for it in self.judged if it.is_well])


def sample(known):
    """One in SHARE of the known mutants, at least one. They stand side by side, and so in few crates, each of which takes a check; HEAD's commit says
    where they begin, and the day if git names none."""
    commit = b""
    with contextlib.suppress(OSError):
        commit = subprocess.run(["git", "rev-parse", "HEAD"], stdout=subprocess.PIPE, stderr=subprocess.DEVNULL, check=False).stdout
    begin = int.from_bytes(digest(commit or str(date.today()).encode()), "big") % max(1, len(known))
    return [*known[begin:], *known[:begin]][: -(-len(known) // SHARE)]


def main(words, part, mutants_of, by, scripts, grounds=dict):
    """Judges the mutants of a part of the crates that are named, or of all: those not known and a sample of the others, or with --anew all."""
    told, named = sums(scripts), [it for it in words if it not in ("--anew", "--record")]
    crates = [it for it in told if it in named or not named and Path(f"crates/{it}/mutants").is_file()]
    parts = [Mutants(it, part, told[it], mutants_of, grounds) for it in crates]
    recorded = groups_in(RECORD.read_text(encoding="utf-8")) if RECORD.is_file() and "--anew" not in words else {}
    for it in parts:
        it.look_up({*recorded.get((it.crate, part), ())})
    known = [mutant for it in parts for mutant in sorted(it.known, key=it.known.get)]
    again = {*sample(known)}
    for it in parts:
        it.judged = [mutant for mutant in it.all if mutant not in it.known or mutant in again]

    def count(it):
        found = it.judge(by)
        if "--record" in words and not it.fault:
            it.record()
        return found

    with ThreadPoolExecutor(max(1, len(parts))) as pool:  # (each waits for its libraries, and for one of copies.PLACES)
        counts = list(pool.map(count, reversed(parts)))
    passed, failed = (sum(it) for it in zip((0, len({*named} - {*crates})), *counts))
    if "--anew" not in words:
        every = sum(len(it.all) for it in parts)
        told = f"{len(known)} of {every} mutants are known by {RECORD} to be refused or proved as they should be, of these texts"
        print(f"{Path(sys.argv[0]).name}: {told}; {len(again)} of these were judged again")
    print(f"{passed} passed, {failed} failed")
    return 0 if passed and not failed else 1
