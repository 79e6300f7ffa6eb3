"""The line that a report names at its first difference, by the model: the nearest answer or message before it that
alone explains it."""
from itertools import islice
from typing import NamedTuple

from exact import TooMany, is_at_once
from explain import MOST, Looker, in_place
from report import told
from texts import Answered

# A check looks at so many entries at least.
LEAST = 16
# A check keeps 64 states as it looks back, and has more than these: in some of its own a command was executed before the
# line of its answer. So it may find nothing, or a line that is not as near. It has to find a line if there are no more
# than so many here: on the way from it, and before each candidate.
FEW, FEW_BEFORE = 16, 16


class Marked(NamedTuple):
    """What is wrong with the line that is named, or is not; and whether there are too many states to say."""
    why: str
    unsaid: bool


def wrong_finding(looker, entry, finding, due):
    """What is wrong with what is found of the next entry; None if nothing is, and then it is gone on to, but if it
    differs."""
    if looker.see(entry):
        return None if finding == "same" else f"line {entry.line} is {finding} in place of same"
    findings = looker.findings(entry)
    if finding not in findings:
        return f"line {entry.line} is {finding} in place of {', '.join(sorted(findings))}"
    if finding == "differs":
        return None
    if due not in findings[finding]:
        return f"line {entry.line} is {finding}, by an answer that was not due"
    looker.see(in_place(entry, due))
    return None


def must_find(looker, one):
    """Whether a check has to find that a candidate explains an entry."""
    return bool(one.guesses) and one.most <= FEW and looker.most_kept() <= FEW_BEFORE


def asked_before(entry):
    """How many commands are posted before an entry and answered later: each is an entry of its own to a check."""
    return len(entry.posted) - (isinstance(entry, Answered) and is_at_once(entry))


def marked(looker, entry, named):
    """What is wrong with the line that is named at an entry that differs, if one is."""
    unsaid, looked = False, asked_before(entry)
    for judged, one in zip(reversed(looker.past), looker.explanations(entry)):
        looked += 1
        if named is None and looked > LEAST:
            break
        looked += asked_before(judged.entry)
        if one.line == named:
            wrong = one.guesses is not None and not one.guesses
            return Marked(f"line {entry.line} is not explained by line {named}" if wrong else None, unsaid)
        if must_find(looker, one):
            return Marked(f"line {entry.line} names {told(named)} in place of line {one.line}", unsaid)
        unsaid |= one.guesses is None or bool(one.guesses)
    far = f"line {entry.line} names line {named}, which is none of the last {MOST} answers and messages"
    return Marked(None if named is None else far, unsaid)


def marked_first(report, case):
    """What is wrong with the line that is named at the first difference, and with what is found up to there."""
    looker, dues, unless = Looker(case.board, case.refuses), dict(report.dues), dict(report.unless)
    found, last = dict(report.findings), max((line for line, _ in report.findings), default=0)
    try:
        for entry in case.entries:
            if entry.line > last:
                break
            # What the hardware told has a line only if it differs.
            line, finding = entry.line, found.get(entry.line, "same")
            why = wrong_finding(looker, entry, finding, dues.get(line))
            if why:
                return Marked(why, False)
            if finding == "differs":
                return marked(looker, entry, unless.get(line))
    except TooMany:
        return Marked(None, True)
    return Marked(None, False)


def is_explained(case):
    """Whether a check has to name a line at the first difference of a record, and not that of the entry before it."""
    looker = Looker(case.board, case.refuses)
    differing = next((entry for entry in case.entries if not looker.see(entry)), None)
    if differing is None or set(looker.findings(differing)) != {"differs"}:
        return False
    # So many answers and messages are no more than those entries.
    ways = list(islice(looker.explanations(differing), LEAST // 2))
    return bool(ways) and ways[0].guesses == set() and any(must_find(looker, one) for one in ways)
