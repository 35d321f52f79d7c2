"""A copy of the project to which words are added, for `.ci/adding`: its files, the changes of .ci/adding.toml there,
and what scripts of the copy say, which read the copy alone."""
import json
import shutil
import subprocess
import sys

import anchored
import tables
import wordgroups
import wordneighbours
import wordplaces

TOP = tables.TOP
CHANGES = TOP / ".ci" / "adding.toml"


class Broken(Exception):
    """A script of the copy that ended badly."""


def copy_to(room):
    """Copies the project."""
    for file in wordneighbours.files(TOP):
        place = room / file
        place.parent.mkdir(parents=True, exist_ok=True)
        shutil.copy2(TOP / file, place, follow_symlinks=False)


def changes(*parts):
    """The changes of these parts."""
    return [it for it in anchored.read_changes(CHANGES) if it["part"] in parts]


def add(room, *parts):
    """Makes the changes of these parts, and says what does not fit."""
    for change in changes(*parts):
        try:
            anchored.apply(room, change)
        except anchored.Unfit as why:
            yield f".ci/adding.toml: {why}"


def run(room, line):
    """What a script of the copy says, and its status."""
    return subprocess.run(
        line.split(), cwd=room, capture_output=True, text=True, stdin=subprocess.DEVNULL, check=False
    )


def refusal(room, line):
    """What a script of the copy says if it ends badly."""
    said = run(room, line)
    return [f"{line}: {(said.stdout + said.stderr).strip()[-2000:]}"] if said.returncode else []


def places_in(room):
    """The places of a checkout that lack a word, or say that it is none."""
    said = run(room, f"{sys.executable} -B tools/python/wordplaces.py")
    if said.returncode:
        raise Broken(f"tools/python/wordplaces.py in the copy: {said.stderr.strip()[-2000:]}")
    return [wordplaces.Place(*it) for it in json.loads(said.stdout)]


def with_row(text, group, word):
    """The text of a group's rows with one more, before the first."""
    row = next(it for it in text.split("\n") if f"{group.enum}::{group.words[0]} => " in it)
    return text.replace(row, f'            {group.enum}::{word} => Row::answering("{word}", &[]),\n{row}')


def places_of_groups(room):
    """Adds a word to the rows of each group, and takes it out again: each place that lacks one, with its group."""
    groups, kept = {f"New{it.enum}": it for it in wordgroups.groups()}, {}
    for word, group in groups.items():
        file = room / "crates" / "script" / "src" / "word" / f"{group.name}.rt"
        kept[file] = file.read_text(encoding="utf-8")
        file.write_text(with_row(kept[file], group, word), encoding="utf-8")
    places = places_in(room)
    for file, text in kept.items():
        file.write_text(text, encoding="utf-8")
    return [(place, groups[place.word]) for place in places if place.word in groups]


def contents(room):
    """The bytes of each file that the project has, in the copy."""
    return {file: (room / file).read_bytes() for file in wordneighbours.files(TOP) if (room / file).is_file()}
