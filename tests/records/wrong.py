"""Checks that are wrong, and what is wrong with each of their reports."""
import shlex
from pathlib import Path
from typing import NamedTuple


class WrongCheck(NamedTuple):
    """A check that is wrong: what it does, what is wrong with each of its reports, its program of awk, over a record or
    a report of explain.py, and the cases that it is seen by."""
    name: str
    why: str
    program: str
    cases: str


OF_RECORD = "awk '{}' \"$2\""
OF_REPORT = shlex.quote(str(Path(__file__).with_name("explain.py"))) + " \"$@\" | awk '{}'"
WRONG = (
    WrongCheck("says `same` of all", "no line is blamed first in place of line", OF_RECORD.format("""
        /^[0-9]/ { n++; print NR " same" }
        END { print n " same, 0 own, 0 differ" }"""), "ended"),
    WrongCheck("blames the third entry", "in place of no line", OF_RECORD.format("""
        /^[0-9]/ { n++; print NR (n == 3 ? " differs" : " same") }
        END { print n - (n > 2) " same, 0 own, " (n > 2) " differ"; exit(n > 2 ? 5 : 0) }"""), "clean"),
    WrongCheck("names the entry before", "is not explained by line", OF_REPORT.format("""
        $2 == "differs" { n++; sub(/ unless [0-9]+/, ""); $0 = $0 (last ? " unless " last : "") }
        { print; last = $2 == "differs" ? 0 : $1 }
        END { exit(n ? 5 : 0) }"""), "explained"),
    WrongCheck("names no line", "names no line in place of line", OF_REPORT.format("""
        $2 == "differs" { n++; sub(/ unless [0-9]+/, "") }
        { print }
        END { exit(n ? 5 : 0) }"""), "explained"),
    WrongCheck("says `after` as well", "end with `after`", OF_REPORT.format("""
        $2 == "differs" { n++; sub(/ unless/, " after 1 unless") }
        { print }
        END { exit(n ? 5 : 0) }"""), "explained"),
)
