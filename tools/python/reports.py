"""Reports of a comparison: as text, as JSON, and as JUnit XML for systems of continuous integration."""
import json
import re
import xml.etree.ElementTree as xml

import compiling
from comparing import ADDRESSES, DIFFERS, RESULTS, SAME, SILENT, counts_by_word, counts_of
from lines import visible

# Why a run is not run on another side, in the order of a report, and how many runs are named for each reason.
REASONS = (compiling.TIMER, compiling.LIBRARIES, compiling.ALERT, compiling.REFUSED, compiling.UNREAD)
MOST_NAMES = 10

# The characters that XML 1.0 has no form for.
NOT_XML = re.compile("[^\t\n\r\x20-\ud7ff\ue000-\ufffd]")


def is_good(one, up_to_addresses):
    """Whether a run counts as the same."""
    return one.result == SAME or (up_to_addresses and one.result == ADDRESSES)


def finding(one):
    """What is said of a run that is not the same: its name and title, the first line that differs, and the files."""
    text = [visible(f"{one.run.name}: {one.result}: {one.run.title}")]
    if one.message:
        text.append(f"  {visible(one.message)}")
    if one.line:
        text += [f"  line {one.line}, wanted: {visible(one.wanted)}", f"  line {one.line}, got:    {visible(one.got)}"]
    text.append(f"  files: {visible(one.run.machine)} {visible(one.run.events)}")
    return "\n".join(text)


def word_table(results):
    """The summary by word, one line each."""
    rows = [("word", "runs", *RESULTS)]
    for word, counts in counts_by_word(results).items():
        rows.append((visible(word), str(sum(counts.values())), *(str(counts[result]) for result in RESULTS)))
    widths = [max(map(len, column)) for column in zip(*rows)]
    return "\n".join("  ".join([row[0].ljust(widths[0]), *(cell.rjust(width) for cell, width in zip(row[1:], widths[1:]))]) for row in rows)


def summary(results):
    counts = counts_of(results)
    return f"{len(results)} runs: " + ", ".join(f"{counts[result]} {result}" for result in RESULTS)


def print_findings(results, up_to_addresses, most):
    """Prints what differs, at most that number of runs of it."""
    bad = [one for one in results if not is_good(one, up_to_addresses)]
    for one in bad[:most]:
        print(finding(one))
    if len(bad) > most:
        print(f".. and {len(bad) - most} more; --show {len(bad)} shows all")


def print_text(results, up_to_addresses, most):
    """Prints what differs, at most that number of runs of it, the summary by word and the counts."""
    print_findings(results, up_to_addresses, most)
    print(word_table(results))
    print(summary(results))


def reasons(others):
    """Why runs were not run: for each reason the names of the runs, at most that many of them, those of version 1 of machine files first."""
    by_reason = {}
    for run, error in sorted(others, key=lambda pair: (pair[1].version, pair[0].name)):
        by_reason.setdefault(error.why, []).append(visible(run.name))
    parts = []
    for why in sorted(by_reason, key=lambda why: (REASONS.index(why), why)):
        names = by_reason[why]
        more = f" and {len(names) - MOST_NAMES} more" if len(names) > MOST_NAMES else ""
        parts.append(f"{', '.join(names[:MOST_NAMES])}{more}: {why}")
    return parts


def print_of_target(about, results, others, up_to_addresses, most):
    """Prints what a target came to: who answered, what differs, the counts, and what was not run."""
    print(f"{about}; {len(results)} of {len(results) + len(others)} runs can be run there")
    print_findings(results, up_to_addresses, most)
    counts = counts_of(results)
    print(f"{counts[SAME]} same, {counts[ADDRESSES]} same up to addresses, {counts[DIFFERS]} differ, {counts[SILENT]} no answer")
    if others:
        print("not run: " + "; ".join(reasons(others)))


def as_value(one):
    """A result as a value of JSON."""
    return {
        "name": one.run.name, "title": one.run.title, "result": one.result, "line": one.line, "wanted": one.wanted, "got": one.got,
        "status": one.status, "wanted_status": one.run.status, "message": one.message, "machine": str(one.run.machine),
        "events": str(one.run.events),
    }


def write_json(path, command, results, others=()):
    value = {"format": 1, "command": command, "counts": counts_of(results), "words": counts_by_word(results)}
    value["runs"] = list(map(as_value, results))
    if others:
        value["not_run"] = [{"name": run.name, "why": error.why, "line": error.line, "what": error.what} for run, error in others]
    path.write_text(json.dumps(value, indent=1) + "\n")


def for_xml(text):
    return NOT_XML.sub("?", text)


def case_of(suite, run):
    """The case of a run in a test suite."""
    table, _, number = run.name.rpartition("/")
    return xml.SubElement(suite, "testcase", classname=for_xml(table or "runs"), name=for_xml(f"{number} {run.title}"))


def write_junit(path, results, up_to_addresses, others=()):
    """Writes a test suite with a case for each run. What was not run is skipped."""
    bad = [one for one in results if not is_good(one, up_to_addresses)]
    counts = {"tests": len(results) + len(others), "failures": len(bad), "errors": 0, "skipped": len(others)}
    suite = xml.Element("testsuite", name="execruns", **{name: str(count) for name, count in counts.items()})
    for run, error in others:
        xml.SubElement(case_of(suite, run), "skipped", message=for_xml(error.why))
    for one in results:
        case = case_of(suite, one.run)
        if not is_good(one, up_to_addresses):
            xml.SubElement(case, "failure", message=for_xml(one.message or one.result)).text = for_xml(finding(one))
    xml.ElementTree(suite).write(path, encoding="utf-8", xml_declaration=True)
