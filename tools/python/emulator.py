"""Boots AROS's ROM, which Debian's fs-uae carries: from a disk of ours, with what comes on the serial port, or from a folder, with what a command
writes to a file there."""
import contextlib
import hashlib
import os
import pathlib
import select
import shutil
import signal
import subprocess
import tempfile
import threading
import time
import tty
import zipfile

import amigaside

DATA = pathlib.Path("/usr/share/fs-uae/fs-uae.dat")
ROM, EXTENSION = "share/fs-uae/aros-amiga-m68k-rom.bin", "share/fs-uae/aros-amiga-m68k-ext.bin"
STRICT_ROM = "d44fdc6b"  # the first digits of the SHA-256 of the ROM whose places conform/rom.c names
BEGUN, SILENCE, SLOW, START = b"@conform ", 20, 120, 120  # seconds
BUSY = 5  # seconds of processor that the emulator has had in a silence, or it only was slow
CONFIGURATION = """[fs-uae]
amiga_model = A1200
kickstart_file = {rom}
floppy_drive_count = 1
floppy_drive_speed = 0
floppy_drive_volume = 0
fast_memory = 8192
base_dir = {folder}
fullscreen = 0
window_width = 640
window_height = 512
warp_mode = 1
uae_cpu_speed = max
accuracy = -1
uae_gfx_framerate = 10
{media}
"""


STOPPING = threading.Event()  # set once all boots are to end, in whatever thread they are


class Stopped(Exception):
    """The work was ended from outside."""


def check():
    """Refuses to go on if a package is missing."""
    missing = [name for name in ("fs-uae", "Xvfb") if not shutil.which(name)]
    if missing or not amigaside.is_there() or not DATA.exists():
        what = ", ".join(missing) or "Debian's compiler for m68k"
        raise amigaside.Missing(f"{what} is missing; as root: apt-get install -y --no-install-recommends {amigaside.PACKAGES}")


def rom_name():
    """The first digits of the SHA-256 of the ROM."""
    with zipfile.ZipFile(DATA) as archive:
        return hashlib.sha256(archive.read(ROM)).hexdigest()[:8]


def version():
    """The version of the emulator."""
    said = subprocess.run(["fs-uae", "--version"], capture_output=True, text=True, check=False)
    return (said.stdout + said.stderr).split()[0]


def end(child):
    """Ends a program, and waits until it has."""
    if child.poll() is None:
        child.terminate()
        try:
            child.wait(3)
        except subprocess.TimeoutExpired:
            child.kill()
            child.wait()


def start(words, **options):
    """Starts a program that does not outlive this one, however this one ends."""
    with_parent = ["setpriv", "--pdeathsig", "KILL", *words] if shutil.which("setpriv") else words
    return subprocess.Popen(with_parent, start_new_session=True, stdin=subprocess.DEVNULL, stdout=subprocess.DEVNULL, stderr=subprocess.DEVNULL, **options)


@contextlib.contextmanager
def screen():
    """A display without a screen; it chooses its own number."""
    reader, to = os.pipe()
    child = start(["Xvfb", "-displayfd", str(to), "-screen", "0", "640x512x24", "-nolisten", "tcp"], pass_fds=[to])
    os.close(to)
    try:
        ready, _, _ = select.select([reader], [], [], START)
        number = os.read(reader, 16).decode().strip() if ready else ""
        if not number:
            raise amigaside.Missing("Xvfb does not start; start it by hand to see why: Xvfb -displayfd 1")
        yield f":{number}"
    finally:
        os.close(reader)
        end(child)


def processor_seconds(child):
    """The time of processor that a program has had."""
    try:
        fields = pathlib.Path(f"/proc/{child.pid}/stat").read_text().rpartition(")")[2].split()
    except OSError:
        return 0
    return (int(fields[11]) + int(fields[12])) / os.sysconf("SC_CLK_TCK")


class Silence:
    """How long nothing has come, in time and in the emulator's time of processor."""

    def __init__(self, child):
        self.child, self.has_begun = child, False
        self.heard()

    def heard(self):
        self.since, self.processor = time.monotonic(), processor_seconds(self.child)

    def is_over(self):
        """Whether it has been so long that nothing more comes."""
        passed = time.monotonic() - self.since
        if not self.has_begun:
            return passed > START
        return passed > SLOW or (passed > SILENCE and processor_seconds(self.child) - self.processor > BUSY)


def listen(receive, child, stop):
    """What comes until the runs are done, the emulator ends or is silent, or AROS starts a second time."""
    data, silence = bytearray(), Silence(child)
    while child.poll() is None and not silence.is_over():
        if stop.is_set() or STOPPING.is_set():
            raise Stopped
        chunk = receive()
        if not chunk:
            continue
        data += chunk
        silence.heard()
        silence.has_begun = silence.has_begun or BEGUN in data
        if data.count(BEGUN) > 1:
            del data[data.rfind(BEGUN) :]
            break
        if b"@done" in data[-16:] or (b"@refused" in data[-256:] and data.endswith(b"\n")):
            break
    return bytes(data)


def boot(folder, media, receive, stop, rom="internal", look=lambda display: None):
    """Boots from some media in a folder of its own, and answers all that came. Nothing runs on after it."""
    (folder / "boot.fs-uae").write_text(CONFIGURATION.format(folder=folder, media=media, rom=rom))
    with screen() as display, contextlib.ExitStack() as stack:
        places = {"DISPLAY": display, "HOME": folder, "XDG_CONFIG_HOME": folder, "XDG_DATA_HOME": folder, "XDG_RUNTIME_DIR": folder}
        quiet = {"LIBGL_ALWAYS_SOFTWARE": "1", "SDL_AUDIODRIVER": "dummy", "ALSOFT_DRIVERS": "null"}
        child = start(["fs-uae", str(folder / "boot.fs-uae")], env={**os.environ, **places, **quiet}, cwd=folder)
        stack.callback(end, child)
        look(display)
        return listen(receive, child, stop)


@contextlib.contextmanager
def folder_of_a_boot():
    """A folder for an emulator's files, which is taken away."""
    with tempfile.TemporaryDirectory(prefix="conform.", ignore_cleanup_errors=True) as path:
        yield pathlib.Path(path)


def boot_disk(disk, stop, hear=lambda chunk: chunk, **others):
    """Boots a disk, and answers all that came on the serial port; `hear` may change what comes."""
    ours, theirs = os.openpty()
    tty.setraw(ours)
    tty.setraw(theirs)

    def receive():
        return hear(os.read(ours, 65536)) if select.select([ours], [], [], 0.1)[0] else b""

    try:
        with folder_of_a_boot() as folder:
            (folder / "disk.adf").write_bytes(disk)
            media = f"floppy_drive_0 = {folder}/disk.adf\nserial_port = {os.ttyname(theirs)}"
            return boot(folder, media, receive, stop, **others)
    finally:
        os.close(ours)
        os.close(theirs)


def boot_command(program, file, stop, **others):
    """Boots from a folder of the host, whose startup sequence has a command do a compiled file, and answers what it wrote to its file."""
    with folder_of_a_boot() as folder:
        drive, traces, place = folder / "drive", folder / "drive" / "all.traces", 0
        (drive / "S").mkdir(parents=True)
        (drive / "conform").write_bytes(program)
        (drive / "all.runs").write_bytes(file)
        (drive / "S" / "Startup-Sequence").write_text("conform all.runs all.traces\n")

        def receive():
            nonlocal place
            time.sleep(0.1)
            chunk = traces.read_bytes()[place:] if traces.exists() else b""
            place += len(chunk)
            return chunk

        return boot(folder, f"hard_drive_0 = {drive}\nhard_drive_0_label = Runs", receive, stop, **others)
