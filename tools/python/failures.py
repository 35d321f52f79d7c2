"""failures.py FILE: says in at most MOST lines what failed and what was skipped in a run of the gate. Each line of FILE is a part, how many of its cases
failed, how many were skipped, the status that it ended with, and the file of what it said, with tabs between them. Of a part that failed the lines are
shown that say what: all but those that say what passed, or how long something took. What is long is cut, and what is left out is counted."""
import pathlib
import re
import sys

MOST, WIDTH = 50, 400
# Lines that say nothing of a failure, though other lines of the same part do.
PASSED = re.compile(
    r"(passed|refused|proved|shown|run|rt): |\s*$|.*\btook [0-9,.]+ m?s\b|.*: not tried, since |.*: (skipped|SKIPPED): |\d+ passed, \d+ failed"
    r"|equations: \d+ |judge(-definitions)?: \d+ of "
)
# Lines of `rt ci`, and of checks that it shows, that say what failed: a verdict, and what else has a word of failure and is not the name of what was proved.
VERDICT = re.compile(r"(rt: )?(FAILED: |.*\b(NOT PROVED|FAILED)\b)")
FAILED = re.compile(r"(?i)(?!.*: proved$)(?!\s*by-macro: ).*\b(error|refused|not proved|not tried|bad edit|differs|failed|fails|failure|killed|panicked|timed out|wanted)\b")
SKIPPED = re.compile(r".*: not tried, since |.*: (skipped|SKIPPED): |.*\bskipped\b|.*cannot be compared|.*not (compared|made here|tried)")


def read(file):
    """The lines of what a part said."""
    return pathlib.Path(file).read_text(encoding="utf-8", errors="replace").split("\n")


def said_of(part, file):
    """The lines of a part that say what failed, verdicts first; its last ones if none is such."""
    lines = [it for it in read(file) if it.strip() and not re.match(r"\d+ passed, ", it)]
    if part == "rt ci":
        found = sorted((it for it in lines if FAILED.match(it)), key=lambda it: not VERDICT.match(it))
    else:
        found = [it for it in lines if not PASSED.match(it)]
    return found or lines[-6:]


def shown(text):
    """A line, cut, with an escape in the place of each character that a terminal obeys."""
    text = "".join(it if it.isprintable() or it == "\t" else f"\\x{ord(it):02x}" for it in text)
    return text if len(text) <= WIDTH else f"{text[:WIDTH]} .."


def share(wanted, most):
    """How many lines each may show, so that all are at most so many: those that want fewer than their share leave it to others."""
    given = [0] * len(wanted)
    while sum(given) < most and any(it < most_of for it, most_of in zip(given, wanted)):
        for at, most_of in enumerate(wanted):
            if given[at] < most_of and sum(given) < most:
                given[at] += 1
    return given


def summary(parts):
    """The lines for parts, each a tuple as FILE has it."""
    failed = [it for it in parts if it[1]]
    skipped = [it for it in parts if it[2]]
    heads = len(failed) + bool(skipped)
    found = [said_of(part, file) for part, _, _, _, file in failed]
    given = share([len(it) for it in found], max(MOST - heads - len(failed), 0))
    for (part, count, _, status, _), lines, number in zip(failed, found, given):
        yield f"run: FAILED: {part}: {count} failed, and it ended with status {status}:"
        yield from (f"  {shown(it)}" for it in lines[:number])
        if number < len(lines):
            yield f"  and {len(lines) - number} lines more, above"
    if skipped:
        yield f"run: skipped, as is said above: {', '.join(f'{part} {count}' for part, _, count, _, _ in skipped)}"


def main(file):
    rows = [it.split("\t") for it in pathlib.Path(file).read_text(encoding="utf-8").split("\n") if it]
    for it in list(summary([(part, int(failed), int(skipped), status, said) for part, failed, skipped, status, said in rows]))[:MOST]:
        print(it)


if __name__ == "__main__":
    main(sys.argv[1])
