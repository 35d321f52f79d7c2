"""What the other words of a group have: files that name most of them, and files whose path has the name of one of most.
A new word may be wanted there, too."""
import collections
import pathlib
import re
import subprocess

import wordgroups

# Runs name words by chance, and what is made at a release is made of the rest.
LEFT_OUT = ("crates/runs/data/", "dist/", ".ci/adding")


def files(top):
    """The files of a checkout, as paths from its top: those of git, and those that are new."""
    words = ["git", "ls-files", "-co", "--exclude-standard"]
    said = subprocess.run(words, cwd=top, capture_output=True, text=True, check=True)
    return [it for it in said.stdout.splitlines() if pathlib.Path(top, it).is_file()]


def most(words):
    """How many of some words are most of them: two thirds, and three if there are as many."""
    return max(min(3, len(words)), -(-2 * len(words) // 3))


def naming(top, words):
    """The files that name most of some words."""
    for file in files(top):
        if not file.startswith(LEFT_OUT):
            text = pathlib.Path(top, file).read_text(encoding="utf-8", errors="replace")
            if len({*words} & {*re.findall(r"\w+", text)}) >= most(words):
                yield file


def named_after(top, words):
    """The paths that there are with most of some words as a folder, with WORD in its place."""
    counted = collections.Counter()
    for name in map(wordgroups.function_name, words):
        counted.update(it.replace(f"/{name}/", "/WORD/") for it in files(top) if f"/{name}/" in it)
    return sorted(path for path, number in counted.items() if number >= most(words))
