#!/usr/bin/env python3
"""Says by force which earlier entry alone explains an entry that differs, and goes on from there.

    tests/records/explain.py BOARD RECORD [--refusals] [--all]

Candidates are the answers and messages before an entry that differs, back to the last one that differed. One of them
explains it if, from the states before the candidate and without a look at what the candidate shows, all entries behind
it fit, that which differs too: the candidate's command was executed, or was not; or the message in the channel was
taken, or was not. The nearest is named, and what follows is judged from the states that this leads to. Prints a report
as `scmi check` does, as far as it goes: `N differs unless M`, and with --all a line `# N: M ..` of all that explain N.
If nothing explains an entry, it goes on as docs/CHECK.md has it, but keeps all states and not eight. The status is 5 if
an entry differs, or else 6 if there are too many states to go on.
"""
import copy
import sys
from typing import NamedTuple

sys.dont_write_bytecode = True
from exact import MOST_STATES, REFUSALS, Judge, TooMany, is_refusal, with_command  # noqa: E402
from model import CLOCK, POWER, SUCCESS, agents_of, executed, header_of  # noqa: E402
from own import findings_of  # noqa: E402
from texts import Answered, Told, answer_text, read_board, read_record  # noqa: E402

# A check looks at so many entries, and at no more.
MOST = 31
SETS = (POWER << 10 | 0x4, CLOCK << 10 | 0x5, CLOCK << 10 | 0x7)
# What is read, with the words of its reply and the command that sets it.
READS = {POWER << 10 | 0x5: (2, POWER, 0x4), CLOCK << 10 | 0x6: (3, CLOCK, 0x5)}
# The header of a command without its token.
MESSAGE = 0x3FFFF


class Judged(NamedTuple):
    """An entry that fits, with the due answer in its place if it is `own`, and the guesses before it."""
    entry: tuple
    guesses: set


class Explanation(NamedTuple):
    """An earlier line that was looked at; the guesses that are left after the entry that differs, if it explains that,
    or None if there are too many to say; and the most guesses on the way."""
    line: int
    guesses: set
    most: int


class Looker:
    """A judge that goes on after an entry that differs."""

    def __init__(self, board, refuses):
        self.board, self.judge, self.past = board, Judge(board, refuses), []

    def see(self, entry):
        """Goes on to the guesses after an entry, or stays if none has it."""
        guesses = self.judge.guesses
        if self.judge.see(entry):
            self.past = [*self.past[1 - MOST:], Judged(entry, guesses)]
            return True
        self.judge.guesses = guesses
        return False

    def findings(self, entry):
        """What may be found of an entry that was not seen, each with the answers that may have been due."""
        return findings_of(self.board, self.judge.before, entry)

    def most_kept(self):
        """The most guesses that were left before one of the candidates."""
        return max((len(one.guesses) for one in self.past), default=0)

    def explanations(self, entry):
        """What becomes of each candidate for an entry that was not seen, the nearest first."""
        for place in reversed(range(len(self.past))):
            yield self.explanation(place, entry)

    def explanation(self, place, entry):
        one, behind = self.past[place], (*(judged.entry for judged in self.past[place + 1:]), entry)
        if isinstance(one.entry, Told):
            return Explanation(one.entry.line, set(), 0)  # it is no candidate
        try:
            return Explanation(one.entry.line, *self.without(one, behind))
        except TooMany:
            return Explanation(one.entry.line, None, MOST_STATES)

    def without(self, one, behind):
        """The guesses that are left behind some entries without a look at the one before, and the most on the way."""
        judge, most = copy.copy(self.judge), len(one.guesses)
        judge.guesses = one.guesses
        judge.pass_by(one.entry)
        for later in behind:
            most = max(most, len(judge.guesses))
            if not judge.see(later):
                break
        return judge.guesses, max(most, len(judge.guesses))

    def go_on_by(self, explanation):
        """Goes on behind an entry that was not seen, as if the line that explains it were another one."""
        self.judge.guesses, self.past = explanation.guesses, []

    def go_on(self, entry):
        """Goes on behind an entry that was not seen and that nothing explains."""
        before = self.judge.reached(self.judge.asked(entry))
        self.judge.guesses = {after for guess in before for after in self.passing(guess, entry)}
        self.past = []

    def passing(self, guess, entry):
        yield from self.judge.unseen(guess, entry)
        if isinstance(entry, Answered):
            yield self.with_value(with_command(guess, entry.agent, None, guess.state), entry)

    def with_value(self, guess, entry):
        """A guess with the value that a reply shows, if an agent may set it and no agent is notified of that."""
        frame = set_shown(entry)
        for agent in reversed(agents_of(self.board)) if frame else ():
            done = executed(self.board, guess.state, agent, frame)
            if done.changes and shows_value(self.board, done.state, entry) and not is_notified(guess.state, frame):
                return guess._replace(state=done.state)
        return guess


def set_shown(entry):
    """The set of the value that a reply of success shows; None if it shows none."""
    if entry.answer[0] != "reply" or entry.answer[2][:1] != (SUCCESS,) or entry.frame[0] == "bad":
        return None
    message, words = entry.frame[1] & MESSAGE, entry.answer[2]
    if message in SETS:
        return entry.frame
    count, protocol, set_of = READS.get(message, (0, 0, 0))
    if len(words) != count or len(entry.frame[2]) != 1:
        return None
    return "good", header_of(0, protocol, set_of), (0, entry.frame[2][0], *words[1:])


def shows_value(board, state, entry):
    """Whether a command that reads gets the answer of an entry; another one is not asked again."""
    return entry.frame[1] & MESSAGE in SETS or executed(board, state, entry.agent, entry.frame).answer == entry.answer


def is_notified(state, frame):
    """Whether an agent is notified of the domain that a frame sets."""
    return frame[1] & MESSAGE == SETS[0] and any(domain == frame[2][1] for _, domain in state.asked)


def nearest(explanations):
    """The first that explains an entry; None if none does."""
    return next((one for one in explanations if one.guesses), None)


def in_place(entry, due):
    return entry._replace(answer=due)


class Reporter:
    """The lines of a report, as they come."""

    def __init__(self, board, refuses, tell_all):
        self.looker, self.refuses, self.tell_all = Looker(board, refuses), refuses, tell_all
        self.counts, self.unsure = {"same": 0, "own": 0, "differs": 0}, False

    def lines_of(self, entries):
        for entry in entries:
            try:
                yield from self.judge(entry)
            except TooMany:
                self.unsure = True
                yield f"{entry.line} unsure, and judged no further"
                break
        yield "{same} same, {own} own, {differs} differ".format(**self.counts)

    def judge(self, entry):
        if self.looker.see(entry):
            if not isinstance(entry, Told):
                yield self.told(entry, "same")
            return
        findings = self.looker.findings(entry)
        finding = min(findings, key=lambda one: (one == "differs", one))
        if finding == "differs":
            yield from self.differ(entry)
            return
        due = min(findings[finding])
        self.looker.see(in_place(entry, due))
        yield self.told(entry, finding) + f" expected {answer_text(due)}, got {answer_text(entry.answer)}"

    def told(self, entry, finding):
        self.counts[finding.split()[0]] += 1
        return f"{entry.line} {finding}"

    def differ(self, entry):
        explanations = list(self.looker.explanations(entry)) if self.tell_all else self.looker.explanations(entry)
        explanation = nearest(explanations)
        if explanation:
            self.looker.go_on_by(explanation)
        else:
            self.looker.go_on(entry)
        hardware = " by hardware" * (is_refusal(entry) and not self.refuses)
        unless = f" unless {explanation.line}" if explanation else ""
        yield self.told(entry, "differs") + hardware + unless
        if self.tell_all and explanation:
            yield f"# {entry.line}: " + " ".join(str(one.line) for one in explanations if one.guesses)


def main():
    board, record = (open(name).read() for name in sys.argv[1:3])
    reporter = Reporter(read_board(board), REFUSALS in sys.argv[3:], "--all" in sys.argv[3:])
    for line in reporter.lines_of(read_record(record)):
        print(line)
    return 5 if reporter.counts["differs"] else 6 if reporter.unsure else 0


if __name__ == "__main__":
    sys.exit(main())
