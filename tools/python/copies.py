"""Copies of the repository in which `rt` works on one crate, over the libraries that `rt ci` built: after it, or beside it. Then CI_SAID is the path of
what `rt ci` says, and the file CI_SAID.ended is there once it has ended. `copies.py CRATE COMMAND ..` runs a command, with the copy's path as its last
word, as soon as the libraries below the crate are there."""
import contextlib
import functools
import os
import pathlib
import re
import shutil
import subprocess
import sys
import tempfile
import threading
import time

TOOLS = pathlib.Path(__file__).resolve().parent.parent
SAID = os.environ.get("CI_SAID")
# Kilobytes of free memory for each check, and before one begins beside `rt ci`.
MEMORY, BESIDE = 4 << 20, 8 << 20
PROVED = re.compile(r"(?m)^rt: (\w+) (?:proved$|is kept: )")


@functools.cache
def read_crates():
    """What each crate of crates.txt depends on."""
    lines = [it.partition(":") for it in pathlib.Path("crates.txt").read_text(encoding="utf-8").split("\n") if it and it[0] != "#"]
    return {name.split()[0]: words.split() for name, _, words in lines}


@functools.cache
def below(crate):
    """The crates of the repository below a crate."""
    return {it for one in read_crates()[crate] if one in read_crates() for it in (one, *below(one))}


def has_ended():
    """Whether no `rt ci` goes on beside this."""
    return not SAID or os.path.isfile(f"{SAID}.ended") or not os.path.isfile(SAID)


def wait_for(is_there):
    """Waits beside `rt ci` until something is there, or it has ended."""
    while not has_ended() and not is_there():
        time.sleep(1)


def wait_for_libraries(crate):
    """Waits beside `rt ci` until it has proved all crates below a crate, and some one."""

    def are_proved():
        proved = {*PROVED.findall(pathlib.Path(SAID).read_text(encoding="utf-8", errors="replace"))}
        return proved and proved >= below(crate)

    wait_for(are_proved)
    lacking = [it for it in below(crate) if SAID and not os.path.isdir(f"crates/{it}/out/rlib")]
    if lacking:
        raise OSError(f"`rt ci` has not proved {min(lacking)}, which is below it")


def free_memory():
    """How many kilobytes of memory are available."""
    return int(re.search(r"MemAvailable: *(\d+)", pathlib.Path("/proc/meminfo").read_text())[1])


def lanes():
    """How many checks may go on side by side."""
    return max(1, min(int(os.environ.get("RT_JOBS") or os.cpu_count()), free_memory() // MEMORY))


PLACES = threading.Semaphore(lanes())


def link(one, other):
    """Gives a file a second name: `rt` puts another file in the place of one, and writes into none. Only into a stamp does `.ci/libraries` write."""
    with contextlib.suppress(OSError):
        if not one.endswith("/stamp"):
            return os.link(one, other)
    return shutil.copy2(one, other)


@contextlib.contextmanager
def copy_of(crate, kept=None):
    """A copy of the repository in which this crate's files may change, with the libraries below it, and what another check kept. It is in .git, if there
    is one: on the disk of the libraries, where `rt ci` looks for no crate. Sources get no second name: `rt ci` takes such a file for a changed one."""
    with tempfile.TemporaryDirectory(prefix="copy-", dir=os.path.abspath(".git") if os.path.isdir(".git") else "/var/tmp") as room:
        for it in filter(os.path.isfile, ("crates.txt", "HANDLES")):
            shutil.copy(it, room)
        for it in pathlib.Path("crates").iterdir():
            for part in ("src", "specs", "proofs", *["out/rlib"] * (it.name in below(crate))):
                if (it / part).is_dir():
                    shutil.copytree(it / part, pathlib.Path(room, it, part), copy_function=link if part == "out/rlib" else shutil.copy2)
        copy = pathlib.Path(room, "crates", crate)
        if kept:
            shutil.copytree(kept, copy / "out" / "incremental", copy_function=link)
        if SAID:
            subprocess.run([TOOLS.parent / ".ci/libraries", room], check=False)
        yield copy


def said_by(copy, words, has_come_to_an_end):
    """What a check in a copy says. Beside `rt ci` it waits for memory, and is made once more afterwards if it came to no end, as without memory."""
    how = {"cwd": copy, "stdin": subprocess.DEVNULL, "stdout": subprocess.PIPE, "stderr": subprocess.STDOUT, "errors": "replace"}
    with PLACES:
        is_beside = not has_ended()
        wait_for(lambda: free_memory() >= BESIDE)
        said = subprocess.run(words, **how).stdout
    if is_beside and not has_come_to_an_end(said):
        wait_for(lambda: False)
        with PLACES:
            said = subprocess.run(words, **how).stdout
    return said


def main(crate, *command):
    wait_for_libraries(crate)
    wait_for(lambda: free_memory() >= BESIDE)
    with copy_of(crate) as copy:
        return subprocess.run([*command, copy.parent.parent], check=False).returncode


if __name__ == "__main__":
    sys.exit(main(*sys.argv[1:]))
