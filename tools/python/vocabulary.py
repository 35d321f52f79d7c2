"""The words of docs/words.json, and the choice of some of them by name or by group."""
import json

import tables

WORDS = tables.TOP / "docs" / "words.json"


class NoWord(Exception):
    """A name that is neither a word nor a group of words."""


def load(path=WORDS):
    """Each word's description by its name."""
    return {word["name"]: word for word in json.loads(path.read_text())["words"]}


def chosen(words, text):
    """The words that a list names, as `ports,Wait`: words, groups, or `all`. `signals` is the group task_signals."""
    groups = {}
    for name, word in words.items():
        groups.setdefault(word["group"], []).append(name)
    groups["signals"], groups["all"] = groups["task_signals"], list(words)
    found = set()
    for name in filter(None, text.split(",")):
        if name not in groups and name not in words:
            raise NoWord(f"{name}: neither a word nor a group; the groups are {', '.join(sorted(groups))}")
        found.update(groups.get(name, [name]))
    if not found:
        raise NoWord(f"no word is named; name words or groups, with commas between them; the groups are {', '.join(sorted(groups))}")
    return [name for name in words if name in found]
