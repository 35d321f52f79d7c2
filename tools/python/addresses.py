"""Whether two traces are the same up to addresses: each object has a name by its kind and the order in which it first appears.

An address is named when it first appears as an argument or an answer whose kind is a kind of object, and anew when a word that makes an
object answers an address of which the object has ended. So two programs may give out memory in different ways. Masks, sizes and other
numbers have to be the same. A value that may be anything, as that of Print, is the same if both numbers are, or both are addresses of
objects of one name.
"""
import lines

OBJECTS = ("list", "node", "port", "message", "semaphore", "library", "request", "block", "list/node", "message/request")
ZERO = "$00000000"


class Names:
    """The names of the objects of one trace."""

    def __init__(self):
        self.names, self.ended, self.counts = {}, set(), {}

    def named(self, address, kind):
        """The name of the object at an address; a new one if none was seen there."""
        if address == ZERO:
            return ZERO
        if address not in self.names:
            self.name_anew(address, kind)
        return self.names[address]

    def name_anew(self, address, kind):
        number = self.counts[kind] = self.counts.get(kind, 0) + 1
        self.names[address] = f"{kind} {number}"
        self.ended.discard(address)

    def made(self, address, kind):
        """The name of an object that was made at an address. While one lives there the name stays, so that a clash is seen."""
        if address != ZERO and (address not in self.names or address in self.ended):
            self.name_anew(address, kind)
        return self.named(address, kind)

    def opened(self, base, library):
        """The name of a library that was opened: it has its own, wherever it is loaded."""
        if base == ZERO:
            return ZERO
        self.names[base] = f"library {library}"
        self.ended.discard(base)
        return self.names[base]

    def end(self, address):
        self.ended.add(address)

    def known(self, value):
        """The name of the object at a value that may be anything, or None."""
        return self.names.get(value)


def argument_shown(names, value, meaning):
    """What is compared of an argument: (its text, the name of the object or None)."""
    if meaning in OBJECTS:
        return names.named(value, meaning), None
    return value, names.known(value) if meaning == "any" else None


def answer_shown(names, call, word):
    """What is compared of an answer."""
    answer = word["answer"]
    if call.answer is None or answer is None:
        return call.answer, None
    if call.word == "OpenLibrary":
        return names.opened(call.answer, call.arguments[0]), None
    if answer["new"]:
        return names.made(call.answer, answer["is"]), None
    return argument_shown(names, call.answer, answer["is"])


def shown(names, line, words):
    """What is compared of a line: its parts, each with the name of the object that it may be."""
    call = lines.call_of(line, words)
    if call is None:
        fields = line.split(" ")
        if len(fields) == 2 and fields[0] == "timer" and lines.VALUE.fullmatch(fields[1]):
            return [("timer", None), (names.named(fields[1], "request"), None)]
        return [(line, None)]
    word = words[call.word]
    parts = [(f"{call.caller} {call.word}", None)]
    parts += [argument_shown(names, value, one["is"]) for value, one in zip(call.arguments, word["arguments"], strict=True)]
    parts += [answer_shown(names, call, word), ("waits" if call.waits else "", None)]
    if word["ends"] is not None:
        names.end(call.arguments[word["ends"]])
    return parts


def same_part(one, other):
    """Whether two parts are the same, by their texts or by the names of the objects."""
    return one[0] == other[0] or (one[1] is not None and one[1] == other[1])


def first_difference(wanted, got, words):
    """The number from 1 of the first line in which two traces, as lists of lines, differ up to addresses, or None."""
    ours, theirs = Names(), Names()
    for number, (one, other) in enumerate(zip(wanted, got), 1):
        left, right = shown(ours, one, words), shown(theirs, other, words)
        if len(left) != len(right) or not all(map(same_part, left, right)):
            return number
    return None if len(wanted) == len(got) else min(len(wanted), len(got)) + 1
