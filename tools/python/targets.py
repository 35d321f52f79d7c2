"""What compiled runs can be sent to: each target is a class with the methods of `Target`.

A new one is a class here and its line in `TARGETS`: `check` refuses if something is missing, and says how to get it; `answer` is given a compiled
file, and answers all that came of it, in the format that saidtraces reads; `about` is how a report names it.
"""
import os
import pathlib
import select
import shlex
import subprocess
import tempfile
import time

import amigaside
import commands
import emulator
import folders
import lines
import saidtraces


class NoTarget(Exception):
    """A target that there is not, or that cannot be used."""


class Target:
    """One other side."""

    mode = "plain"  # the mode in which its runs are compiled, if the user names none
    together = 75  # the most runs of a compiled file

    def __init__(self, rest):
        self.rest = rest

    def check(self):
        """Refuses a target that cannot be used."""

    def answer(self, file, stop):
        """All that came for a compiled file, once it is done, has ended or is silent; `stop` is an event that ends it early."""
        raise NotImplementedError

    def about(self, version):
        """How a report names it. The version is that of exec.library, or None if none came."""
        return f"exec.library {version}" if version else "no answer"


class Aros(Target):
    """AROS's ROM in Debian's emulator: `aros` boots a disk, and `aros:command` starts the command for systems with dos.library."""

    mode = "strict"

    def check(self):
        if self.rest not in ("", "command"):
            raise NoTarget(f"aros:{lines.visible(self.rest)}: no such way in; there are aros and aros:command")
        emulator.check()
        self.rom, self.image = emulator.rom_name(), amigaside.built(self.rest or "boot")

    def answer(self, file, stop):
        if self.rest:
            return emulator.boot_command(amigaside.hunks(self.image), file, stop)
        with tempfile.TemporaryDirectory(prefix="conform.") as folder:
            disk = amigaside.disk(folder, self.image, file)
        return emulator.boot_disk(disk, stop)

    def about(self, version):
        return f"{super().about(version)}, ROM {self.rom}"


class Command(Target):
    """Any program that is given the path of the compiled file and writes the traces to standard output: an emulator, or another Exec."""

    silence = 20  # seconds

    def check(self):
        self.words = shlex.split(self.rest)
        if not self.words:
            raise NoTarget("command: names no program; write it after the colon, as command:./my-exec")

    def answer(self, file, stop):
        with tempfile.NamedTemporaryFile(prefix="conform.", suffix=".runs") as compiled:
            compiled.write(file)
            compiled.flush()
            try:
                child = subprocess.Popen([*self.words, compiled.name], stdin=subprocess.DEVNULL, stdout=subprocess.PIPE, start_new_session=True)
            except OSError as error:
                raise NoTarget(f"{lines.visible(self.words[0])}: cannot be started: {error.strerror}; write the path of a program after command:") from None
            with child:
                data = self.listen(child, stop)
                commands.end_group(child)
        return data

    def listen(self, child, stop):
        """What it writes until it ends, or is silent."""
        data, heard = b"", time.monotonic()
        while time.monotonic() - heard < self.silence:
            if stop.is_set():
                commands.end_group(child)
                raise emulator.Stopped
            if not select.select([child.stdout], [], [], 0.1)[0]:
                continue
            chunk = os.read(child.stdout.fileno(), 65536)
            if not chunk:
                break
            data, heard = data + chunk, time.monotonic()
        return data


class Files(Target):
    """Traces that were brought from elsewhere: NAME.trace of each run in a folder, or what `conform RUNS TRACES` wrote, as *.traces."""

    def check(self):
        self.folder = pathlib.Path(self.rest)
        if not self.folder.is_dir():
            raise NoTarget(f"files:{lines.visible(self.rest)}: there is no such folder; name one that has NAME.trace for each run, or *.traces")
        self.found, self.version = {}, None
        for path in sorted(self.folder.rglob("*.traces")):
            self.take(path)
        for path in sorted(self.folder.rglob("*.trace")):
            self.found[str(path.relative_to(self.folder).with_suffix(""))] = path.read_bytes()
        if not self.found:
            raise NoTarget(f"files:{lines.visible(self.rest)}: no NAME.trace and no *.traces with a whole trace is there")

    def take(self, path):
        """The traces of a file, by the names of the runs."""
        data = path.read_bytes()
        said = saidtraces.read(data)
        self.version = said.version
        for number, title in saidtraces.titles(data).items():
            if number in said.traces:
                self.found[title] = said.traces[number]

    def trace_of(self, run):
        """The trace of a run, or None: by the name of the run, as a compiled file has it."""
        return self.found.get(run.name, self.found.get(saidtraces.short(run.name)))

    def about(self, version):
        return f"{super().about(self.version)}, {len(self.found)} traces" if self.version else f"{len(self.found)} traces"


TARGETS = {"aros": Aros, "command": Command, "files": Files}


def named(text):
    """The target of a name, as `aros`, `files:FOLDER` or `command:PROGRAM`."""
    kind, _, rest = text.partition(":")
    if kind not in TARGETS:
        raise NoTarget(f"{lines.visible(text)}: no such target; there are aros, files:FOLDER and command:PROGRAM")
    target = TARGETS[kind](rest)
    target.check()
    return target
