"""What a command says, in the words of the library for C: of a number each of its options gives, a call is given it by another name."""
import re

NAMES = {"--from": "from", "--to": "to", "--state": "step", "--events": "outcome"}


def said(text):
    """The words of a call for those of a command."""
    return re.sub("|".join(NAMES), lambda it: NAMES[it[0]], text)


def alert_step(words):
    """The step whose alert ended a run, if a command says so and has no later one. The library shows the end of that run under each later number."""
    ended = re.search(r"the alert of step (\d+) ended the run; give a number", words)
    return int(ended[1]) if ended else None


def as_step(page, shown, number):
    """The page of what a machine shows after a step, under the number of another one."""
    return page.replace(b"after step %d of" % shown, b"after step %d of" % number, 1)
