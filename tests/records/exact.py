#!/usr/bin/env python3
"""Judges a record by force: keeps each state of the model that may be behind its lines so far, and what waits there.

    tests/records/exact.py BOARD RECORD [--refusals]

A record is right if a legal history is behind it: each command is executed anywhere between its line and that of its
answer, or, if it has none, anywhere after its line or never; if it is to change the hardware at once, this may refuse
with HARDWARE_ERROR, and with --refusals by any of seven statuses if nothing is shown between its line and its answer.
What no line shows may stand anywhere: a pending set completes, the first of them first; a message is posted into its
agent's empty channel; and with --refusals the hardware may have refused a pending set that wants a response.
Prints a report as `scmi check` does, as far as it goes: `N same` for each answer and message, `N differs` where the
last history ends, and `N unsure` behind that, or where there are too many states to go on. The status is 5 if one
differs.
"""
import sys
from typing import NamedTuple

sys.dont_write_bytecode = True
from model import (FAULTS, HARDWARE_ERROR, MOST_WAITING, State, agents_of, completed, executed, first_state,  # noqa: E402
                   load_of, posted, refused, refused_answer, taken, told, with_item)
from texts import Answered, Delivered, Told, read_board, read_record  # noqa: E402

MOST_STATES = 2000
# The option of a check by which the hardware may have refused a pending set that wants a response, or said another status
# than HARDWARE_ERROR.
REFUSALS = "--refusals"


class Command(NamedTuple):
    """A frame that waits for its answer, and that answer once the command is executed."""
    frame: tuple
    answer: tuple = None


class Guess(NamedTuple):
    """What may be behind the lines so far: a state, and for each agent its command that waits, or None."""
    state: State
    commands: tuple


class TooMany(Exception):
    """There are more states than the judge may keep."""


def is_refusal(entry):
    """Whether an entry is a delayed response that says that the hardware refused."""
    return isinstance(entry, Delivered) and entry.message[1] == (HARDWARE_ERROR,) and entry.message[0] >> 28 == 0 \
        and entry.message[0] >> 8 & 3 == 2


def shows_refusal(entries):
    """Whether a record shows that the hardware refused a pending set: it needs --refusals then."""
    return any(map(is_refusal, entries))


def post_at_once(state, agent):
    return posted(state, agent)


def post_late(state, agent):
    """A message is posted only where this may show: that there was room for one more."""
    return posted(state, agent) if load_of(state, agent) == MOST_WAITING else None


def is_at_once(entry):
    """Whether nothing is shown between a command and its answer."""
    return (entry.agent, entry.frame) in entry.posted


def executions(board, guess, agent, faults=(HARDWARE_ERROR,)):
    """The guesses after the command of an agent was executed, or refused by the hardware with one of these statuses."""
    frame = guess.commands[agent - 1].frame
    done = executed(board, guess.state, agent, frame)
    yield with_command(guess, agent, Command(frame, done.answer), done.state)
    for fault in faults if done.changes else ():
        yield with_command(guess, agent, Command(frame, refused_answer(frame, fault)), guess.state)


def with_command(guess, agent, command, state):
    """A guess with another command of an agent, and another state."""
    return Guess(state, with_item(guess.commands, agent - 1, command))


class Judge:
    """The guesses that may be behind the entries so far."""

    def __init__(self, board, refuses, post=post_at_once, most=MOST_STATES):
        self.board, self.refuses, self.post, self.most = board, refuses, post, most
        self.guesses = {Guess(first_state(board), (None,) * len(board.agents))}

    def moves(self, state):
        """The states after one step that no line shows, but of a command."""
        if state.pending:
            yield completed(self.board, state)
            if self.refuses and state.pending[0].wanted:
                yield refused(state)
        for agent in agents_of(self.board):
            if state.outboxes[agent - 1] and state.posted[agent - 1] is None:
                yield self.post(state, agent)

    def steps(self, guess, excepted):
        """The guesses after one step that no line shows; the excepted agent's command is not executed."""
        for state in self.moves(guess.state):
            if state is not None:
                yield guess._replace(state=state)
        for agent, command in enumerate(guess.commands, 1):
            if command and not command.answer and agent != excepted:
                yield from executions(self.board, guess, agent)

    def reached(self, guesses, excepted=None):
        """The guesses that are reached by such steps alone."""
        reached, left = set(guesses), list(guesses)
        while left:
            for guess in self.steps(left.pop(), excepted):
                if guess not in reached:
                    if len(reached) == self.most:
                        raise TooMany
                    reached.add(guess)
                    left.append(guess)
        return reached

    def answered(self, guess, entry):
        """The guesses in which a command is executed: before, or else at the line of its answer."""
        if guess.commands[entry.agent - 1].answer:
            return [guess]
        return executions(self.board, guess, entry.agent, *[FAULTS] * (self.refuses and is_at_once(entry)))

    def after_answer(self, guess, entry):
        for done in self.answered(guess, entry):
            if done.commands[entry.agent - 1].answer == entry.answer:
                yield with_command(done, entry.agent, None, done.state)

    def after_message(self, guess, entry):
        state = guess.state
        if state.posted[entry.agent - 1] is None:
            state = posted(state, entry.agent)
        if state is not None and state.posted[entry.agent - 1] == entry.message:
            yield guess._replace(state=taken(state, entry.agent))

    def after_told(self, guess, entry):
        state = told(self.board, guess.state, entry.what)
        if state is not None:
            yield guess._replace(state=state)

    def fitting(self, guess, entry):
        """The guesses after an entry, from one before it."""
        if isinstance(entry, Told):
            return self.after_told(guess, entry)
        return self.after_answer(guess, entry) if isinstance(entry, Answered) else self.after_message(guess, entry)

    def unseen(self, guess, entry):
        """The guesses after an entry, whatever it shows: its command was executed, or was not; or the message in the
        channel of its agent was taken, or was not; or the hardware did not tell it."""
        if isinstance(entry, Told):
            yield guess
            return
        if not isinstance(entry, Answered):
            yield from (guess, guess._replace(state=taken(guess.state, entry.agent)))
            return
        for done in (guess, *self.answered(guess, entry)):
            yield with_command(done, entry.agent, None, done.state)

    def asked(self, entry):
        """The guesses once the commands are posted that an entry has before it."""
        guesses = self.guesses
        for agent, frame in entry.posted:
            guesses = {with_command(guess, agent, Command(frame), guess.state) for guess in guesses}
        return guesses

    def see(self, entry):
        """Goes on to the guesses after an entry; there is none if no history is left."""
        return self.go(entry, self.fitting)

    def pass_by(self, entry):
        """Goes on to the guesses after an entry without a look at what it shows."""
        return self.go(entry, self.unseen)

    def go(self, entry, after):
        """Goes on to the guesses after an entry, which each guess before it leads to."""
        # A command that is executed directly before the line of its answer may as well be at that line.
        self.before = self.reached(self.asked(entry), entry.agent if isinstance(entry, Answered) else None)
        self.guesses = {one for guess in self.before for one in after(guess, entry)}
        return bool(self.guesses)


def last_line(board, entries, refuses, post=post_at_once, most=MOST_STATES):
    """The line at which the last history ends; None if one is behind the whole record."""
    judge = Judge(board, refuses, post, most)
    return next((entry.line for entry in entries if not judge.see(entry)), None)


def report_of(board, entries, refuses):
    """The lines of a report."""
    judge, seen, same = Judge(board, refuses), 0, 0
    for entry in entries:
        try:
            right = judge.see(entry)
        except TooMany:
            break
        hardware = " by hardware" * (is_refusal(entry) and not refuses)
        if not right or not isinstance(entry, Told):
            yield f"{entry.line} {'same' if right else 'differs' + hardware}"
        if not right:
            break
        seen, same = seen + 1, same + (not isinstance(entry, Told))
    differs = int(not judge.guesses)
    for entry in entries[seen + differs:][:1]:
        yield f"{entry.line} unsure, and judged no further"
    yield f"{same} same, 0 own, {differs} differ"


def main():
    board, record = (open(name).read() for name in sys.argv[1:3])
    lines = list(report_of(read_board(board), read_record(record), REFUSALS in sys.argv[3:]))
    print("\n".join(lines))
    return 0 if lines[-1].endswith(" 0 differ") else 5


if __name__ == "__main__":
    sys.exit(main())
