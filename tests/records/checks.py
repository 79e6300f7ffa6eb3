"""A check that is run of a record, and what is wrong with its report, by the model."""
import resource
import subprocess
from pathlib import Path
from typing import NamedTuple

from exact import REFUSALS
from marks import Marked, marked_first
from report import Wanted, first_blamed, read_report, wanted_of, wrong_doubt, wrong_form, wrong_verdict
from texts import board_text, read_record

SECONDS = 20


class Case(NamedTuple):
    """A record of a board, whether the hardware may have refused its pending sets, what is wanted of its report, and
    the line with its fault, if it has one at one line."""
    name: str
    board: object
    text: str
    entries: list
    refuses: bool
    wanted: Wanted
    planted: int = None


class Checked(NamedTuple):
    status: int
    said: str
    seconds: float


class Wrong(NamedTuple):
    """What is wrong with a report; the line at which the check was unsure, if it blamed none before; and whether there
    are too many states to say which line explains its first difference."""
    why: str
    unsure: int
    unsaid: bool = False


def seconds_of_children():
    """The seconds of a processor that ended children have taken."""
    used = resource.getrusage(resource.RUSAGE_CHILDREN)
    return used.ru_utime + used.ru_stime


class Check:
    """A check, as words that the names of a board and of a record are put behind."""

    def __init__(self, words, room):
        self.words, self.board, self.record = words, Path(room, "board"), Path(room, "record")

    def of(self, case):
        self.board.write_text(board_text(case.board))
        self.record.write_text(case.text)
        began, words = seconds_of_children(), [*self.words, self.board, self.record]
        done = subprocess.run(words + [REFUSALS] * case.refuses, stdout=subprocess.PIPE, text=True, check=False,
                              preexec_fn=lambda: resource.setrlimit(resource.RLIMIT_CPU, (SECONDS, SECONDS)))
        return Checked(done.returncode, done.stdout, seconds_of_children() - began)


def judged(case, checked):
    if checked.status < 0:
        return Wrong(f"ended by signal {-checked.status} after {checked.seconds:.1f} s of processor", None)
    report = read_report(checked.said)
    unsure = None if first_blamed(report)[0] else report.unsure
    why = wrong_form(report, case, checked.status) or wrong_verdict(report, case.wanted) or wrong_doubt(report, case)
    marked = Marked(why, False) if why or case.wanted.line is None else marked_first(report, case)
    return Wrong(marked.why, unsure, marked.unsaid)


def case_of(name, board, text, refuses):
    """A case of a record, of which the model says what is wanted; raises TooMany if it does not."""
    entries = read_record(text)
    return Case(name, board, text, entries, refuses, wanted_of(board, entries, refuses))
