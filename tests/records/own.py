"""The rules of the project's own, by which a reply differs from the one that is due and is no difference."""
from model import (BASE, CLOCK, INVALID_PARAMETERS, NOT_FOUND, OUT_OF_RANGE, POWER, SUCCESS, executed,
                   protocol_of, refused_answer)
from texts import Answered

# The word of the flags of a command, and its first reserved bit.
FLAGS = {(BASE, 0x9): (2, 1), (BASE, 0xA): (3, 1), (BASE, 0xB): (1, 1), (POWER, 0x4): (0, 1), (CLOCK, 0x5): (0, 4),
         (CLOCK, 0x7): (1, 1)}


def has_reserved_flag(frame):
    at, bit = FLAGS.get((protocol_of(frame[1]), frame[1] & 0xFF), (0, 0))
    return bit > 0 and len(frame[2]) > at and frame[2][at] >> bit > 0


def own_rule(frame, due, seen):
    """The rule of the project's own by which another reply than the due one is possible; None if there is none."""
    if seen[0] != "reply" or due[0] != "reply" or seen[1] != due[1]:
        return None
    command, want, got = (protocol_of(due[1]), due[1] & 0xFF), due[2], seen[2]
    succeeded = want[0] == SUCCESS and got[:1] == (SUCCESS,)
    rules = {
        "unknown-id": want[0] == NOT_FOUND and got[:1] == (INVALID_PARAMETERS,),
        "reserved-flags": want[0] == INVALID_PARAMETERS and has_reserved_flag(frame),
        "skip": want[0] == INVALID_PARAMETERS and command == (BASE, 0x6) and got == (SUCCESS, 0),
        "index": want[0] == OUT_OF_RANGE and command == (CLOCK, 0x4) and got[:1] == (SUCCESS,) and len(got) == 2,
        "error-form": want[0] != SUCCESS and got[:1] == want and len(got) > 1,
        "version": succeeded and command[1] == 0x0,
        "board-name": succeeded and command in ((BASE, 0x3), (BASE, 0x4), (BASE, 0x5)),
    }
    return next((rule for rule, fits in rules.items() if fits), None)


def dues_of(board, guesses, entry):
    """The answers that a command may have got, but that of hardware that refuses."""
    agent = entry.agent
    answers = {guess.commands[agent - 1].answer or executed(board, guess.state, agent, entry.frame).answer
               for guess in guesses}
    return answers - {refused_answer(entry.frame)}


def finding_by(due, entry):
    """What is found of an answer that no history has, if this one was due."""
    rule = own_rule(entry.frame, due, entry.answer)
    return f"own {rule}" if rule else "differs"


def findings_of(board, guesses, entry):
    """What may be found of an entry that no history has, by the guesses before it: each finding with the answers that
    may have been due."""
    if not isinstance(entry, Answered):
        return {"differs": set()}
    findings = {}
    for due in dues_of(board, guesses, entry):
        findings.setdefault(finding_by(due, entry), set()).add(due)
    return findings
