"""Compares what a command says of each run of a folder with what is stored there."""
import concurrent.futures
import dataclasses
import signal

import addresses
import commands

# The results, in the order of a summary.
SAME, ADDRESSES, DIFFERS, STATUS, SILENT = "same", "same up to addresses", "differs", "status differs", "no answer"
RESULTS = (SAME, ADDRESSES, DIFFERS, STATUS, SILENT)

# A comparison ends if this many runs, the first ones, all have no answer.
HOPELESS = 10

# What a command may write beyond the stored trace before it is ended.
SLACK = 1 << 20
END = "(the end of the trace)"


@dataclasses.dataclass(frozen=True)
class Compared:
    """The result of a run: the first line that differs with both texts, if one does, and both statuses."""

    run: object
    result: str
    line: int | None
    wanted: str | None
    got: str | None
    status: int | None
    message: str


def status_text(status):
    """How a report names a status: the number, or the signal that ended the command."""
    if status is None or status >= 0:
        return str(status)
    try:
        return f"{signal.Signals(-status).name}, which ended the command"
    except ValueError:
        return f"signal {-status}, which ended the command"


def lines_of(text):
    """The lines of a trace. One that ends without a line feed is not the same as one that has it."""
    *shown, last = text.split("\n")
    return [*shown, last + " (without a line feed)"] if last else shown


def line_at(texts, number):
    return texts[number - 1] if number <= len(texts) else END


def first_raw(wanted, got):
    """The number of the first line in which two lists differ, or None."""
    number = next((number for number, pair in enumerate(zip(wanted, got), 1) if pair[0] != pair[1]), None)
    if number is None and len(wanted) != len(got):
        number = min(len(wanted), len(got)) + 1
    return number


def compare_traces(run, trace, words):
    """Whether the traces are the same, are so up to addresses, or the number of the first line that is not."""
    wanted, got = lines_of(run.trace.decode()), lines_of(trace.decode(errors="backslashreplace"))
    if run.trace == trace:
        return SAME, None, wanted, got
    if addresses.first_difference(wanted, got, words) is None:
        return ADDRESSES, first_raw(wanted, got), wanted, got
    return DIFFERS, addresses.first_difference(wanted, got, words), wanted, got


def compared_lines(run, trace, words):
    """The result of a trace: whether it is the same, and the first line that is not, with its number and both texts."""
    result, number, wanted, got = compare_traces(run, trace, words)
    return (result, number, line_at(wanted, number), line_at(got, number)) if number else (result, None, None, None)


def judged_trace(run, trace, words):
    """The result of a run of which a trace came, and no status."""
    return Compared(run, *compared_lines(run, trace, words), None, "")


def judged(run, said, words, seconds):
    """The result of a run whose command said this."""
    if said.status is None:
        return Compared(run, SILENT, None, None, None, None, f"no answer in {seconds:g} seconds")
    result, *lines = compared_lines(run, said.out, words)
    if said.too_much:
        return Compared(run, DIFFERS, *lines, said.status, "the command wrote far more than the trace, and was ended")
    if said.status != run.status:
        error = said.error.decode(errors="backslashreplace").strip().split("\n")[-1]
        message = f"status {status_text(said.status)}, wanted {run.status}" + (f"; it said: {error}" if error else "")
        return Compared(run, STATUS, *lines, said.status, message)
    return Compared(run, result, *lines, said.status, "")


def compare_run(run, command, words, seconds):
    said = commands.run(command, run.machine, run.events, seconds, len(run.trace) + SLACK)
    return judged(run, said, words, seconds)


def compare_all(runs, command, words, seconds, jobs, progress):
    """Compares all runs, up to that number side by side; the results are in the order of the runs."""
    results = []
    with concurrent.futures.ThreadPoolExecutor(jobs) as pool:
        futures = [pool.submit(compare_run, run, command, words, seconds) for run in runs]
        try:
            for future in futures:
                results.append(future.result())
                progress(len(results), len(runs))
                if len(results) == HOPELESS and all(one.result == SILENT for one in results):
                    raise commands.CannotStart(f"no answer to the first {HOPELESS} runs; if the command builds itself first, start it once by hand")
        except BaseException:
            pool.shutdown(cancel_futures=True)
            raise
    return results


def counts_of(results):
    """How many runs have each result."""
    return {result: sum(one.result == result for one in results) for result in RESULTS}


def counts_by_word(results):
    """For each word of any run, how many of the runs that use it have each result."""
    by_word = {}
    for one in results:
        for word in one.run.words:
            counts = by_word.setdefault(word, dict.fromkeys(RESULTS, 0))
            counts[one.result] += 1
    return dict(sorted(by_word.items()))
