"""Searches in parts as docs/COMMANDS.md says it: by xargs, by GNU parallel and by an array of Slurm, and what comes of
a part that is missing, that failed or that is of another search. What is run are the lines of that page, in a folder
with its lost.toml and lost.events, and with the program on PATH.

`parted.py PROGRAM` tries a program. It says what differs, and at the end `N passed, M failed`, with what was skipped,
if any."""
import os
import pathlib
import re
import resource
import shutil
import subprocess
import sys
import textwrap

import cluster
import tended

TOP = pathlib.Path(__file__).resolve().parent.parent.parent
LOST = TOP / "crates/runs/data/examples/lost-update"
PATIENCE = 300  # seconds for a search in parts
FEW = 300  # bytes: fewer than a report has
FAILED = "execexplore: write failed\n"
CUT = "execexplore: part.5: this is not a report"
MISSING = "execexplore: part 5 is missing;"
OTHER = "execexplore: part.5: this report is of other texts, other options or another number of parts"
DONE = (0, b"", "")


def block(*marks):
    """The one block of code of the page's part on execexplore that has some texts."""
    page = (TOP / "docs/COMMANDS.md").read_text(encoding="utf-8")
    part = page.partition("\n## execexplore\n")[2].partition("\n## ")[0]
    blocks = map(textwrap.dedent, re.findall(r"(?m)(?:^    .*\n)+", part))
    found = [it for it in blocks if all(mark in it for mark in marks)]
    assert len(found) == 1, f"the part on execexplore of docs/COMMANDS.md has {len(found)} blocks of code with {marks}"
    return found[0]


class Bench:
    """Where searches run: a folder of folders, the environment of the commands in them, and the report of one run."""

    def __init__(self, room, program, note):
        self.room, self.note, self.environment = room, note, dict(os.environ)
        (room / "bin").mkdir()
        (room / "bin/execexplore").symlink_to(program)
        self.whole = self.run("execexplore --extra 4 lost.toml lost.events", self.folder("whole"))

    def folder(self, name):
        """A new folder with the two texts."""
        made = self.room / name
        made.mkdir()
        for ending in ("toml", "events"):
            shutil.copy(f"{LOST}.{ending}", made / f"lost.{ending}")
        return made

    def run(self, command, folder, **more):
        """The status, standard output and standard error of a command of the shell."""
        path = os.pathsep.join([f"{self.room}/bin", self.environment.get("PATH", os.defpath)])
        options = {"cwd": folder, "env": {**self.environment, "PATH": path}, "timeout": PATIENCE, **more}
        done = subprocess.run(["sh", "-c", command], capture_output=True, check=False, **options)
        return done.returncode, done.stdout, done.stderr.decode()

    def makes(self, title, command, folder):
        """A command makes all parts that it is to make."""
        got = self.run(command, folder)
        self.note(f"{title}: the parts", got == DONE, got)

    def sums(self, title, folder, command=None):
        """The sum of the parts in a folder is the report of one run."""
        got = self.run(command or block("--sum part.*"), folder)
        self.note(f"{title}: the sum", got == self.whole and got[0] == 3, got)

    def refuses(self, title, folder, said):
        """The parts in a folder have no sum, and the line that says why begins so."""
        status, out, err = got = self.run(block("--sum part.*"), folder)
        is_right = (status, out) == (2, b"") and err.startswith(said) and err.count("\n") == 1
        self.note(f"{title}: no sum", is_right, got)


def by_xargs(bench):
    """All parts by the page's line of xargs; and with a full disk for one of them."""
    line, folder = block("xargs"), bench.folder("xargs")
    bench.makes("xargs", line, folder)
    bench.sums("xargs", folder)
    (folder / "part.5").unlink()
    (folder / "part.5").symlink_to("/dev/full")
    got = bench.run(line, folder)
    bench.note("xargs with a full disk", got == (123, b"", FAILED), got)


def by_parallel(bench):
    """All parts by the page's line of GNU parallel; and with a full disk for one of them, which then is made alone."""
    line, folder = block("parallel ", "::: 1 2"), bench.folder("parallel")
    bench.makes("GNU parallel", line, folder)
    bench.sums("GNU parallel", folder)
    title, folder = "GNU parallel with a full disk", bench.folder("parallel on a full disk")
    part = folder / "part.5"
    part.symlink_to("/dev/full")
    got = bench.run(line, folder)
    bench.note(title, got == (1, b"", FAILED), got)
    part.unlink()
    bench.refuses(f"{title} and no file", folder, MISSING)
    part.touch()
    bench.refuses(f"{title} and an empty file", folder, CUT)
    bench.makes(f"{title} and then room", block("parallel ", "::: 5"), folder)
    bench.sums(f"{title} and then room", folder)


def orders_and_others(bench, folder):
    """The parts in a folder have the same sum in another order, and none with a part of another text of that name."""
    bench.sums("another order", folder, "execexplore --sum part.8 part.3 part.1 part.7 part.2 part.5 part.6 part.4")
    other = bench.folder("other")
    (other / "lost.toml").write_text("\n" + (other / "lost.toml").read_text())
    bench.run("execexplore --extra 4 --part 5/8 lost.toml lost.events >part.5", other)
    shutil.copy(other / "part.5", folder)
    bench.refuses("a part of another file", folder, OTHER)


def job_folder(bench, name):
    """A new folder with the two texts and the page's job script."""
    folder = bench.folder(name)
    (folder / "explore.sh").write_text(block("#SBATCH"))
    return folder


def submitted(bench, folder, command, **more):
    """The status of `sbatch --wait`, or all that it said, if that is more than the number of the job."""
    status, out, err = got = bench.run(command, folder, **more)
    return status if re.fullmatch(rb"Submitted batch job \d+\n", out) and err == "" else got


def by_array(bench):
    """All parts by the page's job script."""
    folder = job_folder(bench, "array")
    got = submitted(bench, folder, block("sbatch --wait explore.sh"))
    bench.note("an array: the parts", got == 0, got)
    bench.sums("an array", folder)
    orders_and_others(bench, folder)


def with_few_bytes():
    """Lets a program, and what it submits, write no file of more than some bytes: what goes on is killed."""
    resource.setrlimit(resource.RLIMIT_FSIZE, (FEW, resource.getrlimit(resource.RLIMIT_FSIZE)[1]))


def size_of(file):
    """The bytes of a file, or none if it is not there."""
    return file.stat().st_size if file.exists() else None


def by_failing_array(bench):
    """An array without one part, which then meets a full disk, is killed as it writes, and at last is made."""
    folder, again = job_folder(bench, "failing array"), block("sbatch", "--array=5")
    part = folder / "part.5"
    got = submitted(bench, folder, "sbatch --wait --array=1-4,6-8 explore.sh")
    bench.note("an array without a part", got == 0, got)
    bench.refuses("an array without a part", folder, MISSING)
    part.symlink_to("/dev/full")
    got = submitted(bench, folder, again), *(it.read_text() for it in folder.glob("slurm-*_5.out"))
    bench.note("an array with a full disk", got == (1, FAILED), got)
    part.unlink()
    got = submitted(bench, folder, again, preexec_fn=with_few_bytes), size_of(part)
    bench.note("an array of which a part is killed", got == (1, FEW), got)
    bench.refuses("an array of which a part is killed", folder, CUT)
    got = submitted(bench, folder, again)
    bench.note("an array and then the part", got == 0, got)
    bench.sums("an array and then the part", folder)


def by_slurm(bench):
    """The arrays of a cluster of this machine."""
    room = bench.room / "slurm"
    room.mkdir()
    try:
        bench.environment = cluster.start(room)
    except cluster.NotStarted as error:
        bench.note("a cluster of this machine", False, error)
        return
    by_array(bench)
    by_failing_array(bench)


def no_parallel():
    """Why GNU parallel cannot be tried, or none. Debian's moreutils have another program of this name."""
    if shutil.which("parallel"):
        said = subprocess.run(["parallel", "--version"], capture_output=True, check=False).stdout
        if said.startswith(b"GNU parallel"):
            return None
    return "parallel is missing; as root: apt-get install -y --no-install-recommends parallel"


def try_here(program, room, note):
    """Tries a program, in a folder, and notes each thing: whether it is right, or none and why it cannot be tried."""
    bench = Bench(room, program, note)
    by_xargs(bench)
    tests = ("GNU parallel", no_parallel(), by_parallel), ("an array of Slurm", cluster.lacking(), by_slurm)
    for title, reason, test in tests:
        if reason:
            note(f"parts by {title}", None, reason)
        else:
            test(bench)


def try_all(program, note):
    """Tries a program by its path, and notes each thing by `note`; answers how many parts could not be tried."""
    skipped = 0
    for title, is_right, found in tended.apart(lambda room, put: try_here(program, room, put)):
        if is_right is None:
            skipped += 1
            print(f"explore: {title}: skipped, {found}")
        else:
            note(title, is_right, found)
    return skipped


def main():
    counts = {True: 0, False: 0}

    def note(title, is_right, found):
        counts[is_right] += 1
        if not is_right:
            print(f"explore: {title}: {found}")

    skipped = try_all(pathlib.Path(sys.argv[1]).resolve(), note)
    print(f"{counts[True]} passed, {counts[False]} failed" + (f", {skipped} skipped" if skipped else ""))
    return 1 if counts[False] else 0


if __name__ == "__main__":
    sys.exit(main())
