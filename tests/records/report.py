"""What a report of a check has to say, by the model: docs/CHECK.md has its form."""
import re
from typing import NamedTuple

from exact import Judge, TooMany, is_refusal
from own import findings_of
from texts import Answered, Told

ENTRY = re.compile(r"(\d+) (same|differs|own [a-z-]+)( .*)?")
# A difference of a response that says that the hardware refused, of a check without --refusals.
HARDWARE = re.compile(r" by hardware\b")
# The earlier line that alone explains a difference, and a mark that is no more.
UNLESS = re.compile(r" unless (\d+)$")
AFTER = re.compile(r" after \d+\b")
# The reply that was due in place of one that is `own`, whose fields may be before its words.
DUE = re.compile(r" expected \S+(?: \(.*?\))?((?: 0x[0-9a-f]{8})+), got ")
UNSURE = re.compile(r"(\d+) unsure, and judged no further")
COUNTS = re.compile(r"(\d+) same, (\d+) own, (\d+) differ(, .*)?")
# A check keeps so many states, and may be unsure only if there are more.
PLACES = 256


class Wanted(NamedTuple):
    """The line at which the last history ends, or None if one is behind all; and what may be found of that line."""
    line: int
    findings: set


ALL_SAME = Wanted(None, set())


def wanted_of(board, entries, refuses):
    """What is wanted of the report of a record; raises TooMany if the model does not say."""
    judge = Judge(board, refuses)
    for entry in entries:
        if not judge.see(entry):
            return Wanted(entry.line, set(findings_of(board, judge.before, entry)))
    return ALL_SAME


def is_prompt(entry):
    """Whether an entry is an answer with no line between its command and it."""
    return isinstance(entry, Answered) and entry.posted[-1:] == ((entry.agent, entry.frame),)


def states_before(case, line):
    """How many states are reached before the first entry from a line on; None if there are too many."""
    judge = Judge(case.board, case.refuses)
    try:
        for entry in case.entries:
            if entry.line >= line:
                return len(judge.reached(judge.asked(entry), entry.agent if is_prompt(entry) else None))
            judge.see(entry)
    except TooMany:
        return None


class Report(NamedTuple):
    """The report of a check: what is found at each line, which of these differ by the hardware, where it is unsure,
    what it counts, and the lines with a reply that was due, with another line that is named, or with `after`."""
    findings: list
    hardware: list
    unsure: int
    counts: tuple
    dues: list
    unless: list
    after: list


def due_in(rest):
    """The reply that was due, by the rest of a line; None if there is none."""
    match = DUE.search(rest)
    if not match:
        return None
    header, *words = (int(word, 0) for word in match[1].split())
    return "reply", header, tuple(words)


def read_report(text):
    entries, unsure, counts = [], None, None
    for line in text.splitlines():
        if match := ENTRY.fullmatch(line):
            entries.append((int(match[1]), match[2], match[3] or ""))
        elif match := UNSURE.fullmatch(line):
            unsure = int(match[1])
        elif match := COUNTS.fullmatch(line):
            counts = tuple(int(match[place]) for place in (1, 2, 3))
    return Report([(line, finding) for line, finding, _ in entries],
                  [line for line, _, rest in entries if HARDWARE.search(rest)], unsure, counts,
                  [(line, due_in(rest)) for line, _, rest in entries],
                  [(line, int(match[1])) for line, _, rest in entries if (match := UNLESS.search(rest))],
                  [line for line, _, rest in entries if AFTER.search(rest)])


def hardware_of(report, case):
    """The lines that have to differ by the hardware."""
    refusals = set() if case.refuses else {entry.line for entry in case.entries if is_refusal(entry)}
    return [line for line, finding in report.findings if finding == "differs" and line in refusals]


def wrong_name(report):
    """What is wrong with a line that is named, by the other lines; None if nothing is."""
    unless, candidates = dict(report.unless), []
    for line, finding in report.findings:
        if line in unless and (finding != "differs" or unless[line] not in candidates):
            return f"line {line} names line {unless[line]}, which is no candidate"
        candidates = [] if finding == "differs" else [*candidates, line]
    return None


def shown_of(report, entries):
    """The entries that have a line in a report: all, but what the hardware told has one only if it differs."""
    differing = {line for line, finding in report.findings if finding == "differs"}
    return [entry for entry in entries if not isinstance(entry, Told) or entry.line in differing]


def wrong_form(report, case, status):
    """What is wrong with the form of a report; None if nothing is."""
    judged = [entry.line for entry in shown_of(report, case.entries)
              if report.unsure is None or entry.line < report.unsure]
    words = [finding.split()[0] for _, finding in report.findings]
    counts = tuple(words.count(word) for word in ("same", "own", "differs"))
    if [line for line, _ in report.findings] != judged:
        return "not one line for each entry"
    if report.hardware != hardware_of(report, case):
        return f"lines {report.hardware} differ by the hardware in place of {hardware_of(report, case)}"
    if report.after:
        return f"lines {report.after} end with `after`"
    if report.counts != counts:
        return f"counts {report.counts} in place of {counts}"
    if status != (5 if "differs" in words else 6 if report.unsure else 0):
        return f"status {status}"
    return wrong_name(report)


def first_blamed(report):
    return next(((line, finding) for line, finding in report.findings if finding != "same"), (None, None))


def told(line):
    return "no line" if line is None else f"line {line}"


def wrong_verdict(report, wanted):
    """What is wrong with the verdicts of a report; None if nothing is."""
    line, finding = first_blamed(report)
    if line is None and report.unsure is not None and (wanted.line is None or wanted.line >= report.unsure):
        return None
    if line != wanted.line:
        return f"{told(line)} is blamed first in place of {told(wanted.line)}"
    if line is not None and finding not in wanted.findings:
        return f"{told(line)} is {finding} in place of {', '.join(sorted(wanted.findings))}"
    return None


def wrong_doubt(report, case):
    """What is wrong with the line at which a check is unsure; None if nothing is."""
    states = None if report.unsure is None else states_before(case, report.unsure)
    return f"unsure at line {report.unsure} with {states} states" if states and states <= PLACES else None
