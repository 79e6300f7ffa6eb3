"""Cases of commands with their answers, a line each: what | message | answer, with more columns where a table has them.

A message is a line of a script that posts, `do A P M W..`, `raw A H W..` or `bad A LENGTH H`; an answer is the name of
a status or a word, and words behind it, or `error`. No proof sees this file.
"""
STATUSES = ["SUCCESS", "NOT_SUPPORTED", "INVALID_PARAMETERS", "DENIED", "NOT_FOUND", "OUT_OF_RANGE", "BUSY",
            "COMMS_ERROR", "GENERIC_ERROR", "HARDWARE_ERROR", "PROTOCOL_ERROR"]


def cases_in(text):
    """The number of each line that is a case, and its columns."""
    for number, line in enumerate(text.splitlines(), 1):
        columns = [column.strip() for column in line.split("|")]
        if not line.startswith("#") and len(columns) > 2:
            yield number, columns


def header_of(items, token=0):
    """The header word of a message, whose token `do` leaves to its agent."""
    if items[0] == "do":
        return token << 18 | int(items[2], 0) << 10 | int(items[3], 0)
    return int(items[2 if items[0] == "raw" else 3], 0)


def payload_of(items):
    """The payload words of a well-formed message."""
    return [int(item, 0) for item in items[4 if items[0] == "do" else 3:]]


def words_of(answer):
    """The words of an answer, whose first is a status by its name or a word."""
    first, *others = answer.split()
    status = -STATUSES.index(first) & 0xFFFFFFFF if first in STATUSES else int(first, 0)
    return [status] + [int(word, 0) for word in others]


def line_of(agent, kind, words):
    """A line of a run's output: what an agent got."""
    return " ".join([agent, kind] + [f"0x{word:08x}" for word in words])


def answer_line(items, answer, token=0):
    """The line of the answer to a message."""
    if answer == "error":
        return f"{items[1]} error"
    return line_of(items[1], "reply", [header_of(items, token)] + words_of(answer))
