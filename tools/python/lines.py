"""Lines of a trace, and the sources of a machine file: what the tools read of them."""
import dataclasses
import re

VALUE = re.compile(r"\$[0-9A-F]{8}")


@dataclasses.dataclass(frozen=True)
class Call:
    """A line of a call: who calls, the word, the arguments as they are printed, and the answer, if it has one."""

    caller: str
    word: str
    arguments: tuple
    answer: str | None
    waits: bool


def call_of(line, words):
    """The call of a line, or None if the line is none. `words` has each word's description by its name."""
    fields = line.split(" ")
    if len(fields) < 2 or fields[1] not in words:
        return None
    caller, word, *rest = fields
    answer, waits = None, False
    if len(rest) >= 2 and rest[-2] == "->":
        *rest, _, answer = rest
    elif rest and rest[-1] == "waits":
        rest, waits = rest[:-1], True
    if len(rest) != len(words[word]["arguments"]):
        return None
    return Call(caller, word, tuple(rest), answer, waits)


def alert_of(line):
    """The alert of a line as (code, word), or None."""
    fields = line.split(" ")
    return (fields[1], fields[3]) if len(fields) == 4 and fields[0] == "alert" else None


def visible(text):
    """A text as a terminal can show it in one line: characters that do not print are escaped, those of a path that are no UTF-8 among them."""
    return "".join(character if character.isprintable() else repr(character)[1:-1] for character in str(text))
