"""The texts of boards and records, read and written: docs/SCRIPTS.md and docs/CHECK.md have their forms."""
from typing import NamedTuple

from model import (CLOCK, MOST_PENDING, OFF, ON, POWER, PROTOCOLS, TOKENS, Board, Channel, Clock, Device, Domain,
                   halves, header_of, protocol_of)

DEFAULT_WORDS = 64
HEADER_BYTES = 28


class Answered(NamedTuple):
    """An agent got an answer to a frame; and what was posted after the entry before, as agents with their frames."""
    line: int
    agent: int
    frame: tuple
    answer: tuple
    posted: tuple


class Delivered(NamedTuple):
    """An agent took a message of the platform; and what was posted after the entry before, as in Answered."""
    line: int
    agent: int
    message: tuple
    posted: tuple


class Told(NamedTuple):
    """The hardware told something; and what was posted after the entry before, as in Answered."""
    line: int
    what: tuple
    posted: tuple


# Boards

def switched(item):
    return {"on": 1, "off": 0}[item]


def numbers_in(item):
    return () if item == "-" else tuple(int(one, 0) for one in item.split(","))


# The zeros of a unit of a rate.
ZEROS = {"hz": 0, "khz": 3, "mhz": 6, "ghz": 9}


def hertz(item):
    """A rate in Hz: its number, or a number with a unit."""
    unit = item.lstrip("0123456789.").lower()
    if unit not in ZEROS:
        return int(item, 0)
    whole, _, behind = item[: len(item) - len(unit)].partition(".")
    return int(whole + behind.ljust(ZEROS[unit], "0"))


def domain_of(name, state, kinds):
    return Domain(name, ON if switched(state) else OFF, frozenset(kinds) - {"-"})


def clock_of(name, state, rate, form, *rates):
    listed = tuple(hertz(one) for one in rates[0].split(",")) if form == "list" else ()
    steps = () if listed else tuple(hertz(one) for one in rates)
    return Clock(name, switched(state), hertz(rate), listed, steps)


def device_of(domains, clocks):
    return Device(frozenset(numbers_in(domains)), frozenset(numbers_in(clocks)))


def channel_of(size, *more):
    share = {"share": int(more[-1], 0)} if "pending" in more else {}
    return Channel((int(size, 0) - HEADER_BYTES) // 4, "one-way" not in more, **share)


def kept_by(row):
    return {"domain": POWER, "clock": CLOCK}[row[0]], int(row[1], 0)


def denied_by(row):
    agent, device, protocol = (int(one, 0) for one in (*row, "0")[:3])
    return agent, device, protocol


def read_board(text):
    """The board of a text, from its line `board` to `end`."""
    rows = {"agent": [], "domain": [], "clock": [], "device": [], "channel": [], "keep": [], "deny": []}
    for line in text.splitlines():
        word, *items = line.split() or ["#"]
        if word == "board":
            names, numbers = items[:2], [int(one, 0) for one in items[2:]]
        elif word == "end":
            break
        elif not word.startswith("#"):
            rows[word].append(items)
    channels = {int(agent, 0): channel_of(*what) for agent, *what in rows["channel"]}
    agents = tuple(name for name, in rows["agent"])
    return Board(*names, *numbers, agents, tuple(domain_of(*row) for row in rows["domain"]),
                 tuple(clock_of(*row) for row in rows["clock"]), tuple(device_of(*row) for row in rows["device"]),
                 tuple(channels.get(agent + 1, Channel(DEFAULT_WORDS, True)) for agent in range(len(agents))),
                 frozenset(map(kept_by, rows["keep"])), frozenset(map(denied_by, rows["deny"])))


def listed(numbers):
    return ",".join(str(one) for one in sorted(numbers)) or "-"


def clock_line(clock):
    rates = f"list {listed(clock.listed)}" if clock.listed else "steps {} {} {}".format(*clock.steps)
    return f"clock {clock.name} {('off', 'on')[clock.enabled]} {clock.rate} {rates}"


def domain_line(domain):
    kinds = "".join(kind for kind in "san" if kind in domain.kinds) or "-"
    return f"domain {domain.name} {'on' if domain.state == ON else 'off'} {kinds}"


def channel_lines(board):
    for agent, channel in enumerate(board.channels, 1):
        if channel != Channel(DEFAULT_WORDS, True):
            yield (f"channel {agent} {HEADER_BYTES + 4 * channel.words}" + " one-way" * (not channel.two_way)
                   + f" pending {channel.share}" * (channel.share != MOST_PENDING))


def rule_lines(board):
    for protocol, number in sorted(board.kept):
        yield f"keep {'domain' if protocol == POWER else 'clock'} {number}"
    for agent, device, protocol in sorted(board.denied):
        yield f"deny {agent} {device}" + f" {protocol:#04x}" * (protocol != 0)


def board_text(board):
    lines = [f"board {board.vendor} {board.sub_vendor} {board.version:#010x} {board.trusted}"]
    lines += [f"agent {name}" for name in board.agents]
    lines += map(domain_line, board.domains)
    lines += map(clock_line, board.clocks)
    lines += [f"device {listed(one.domains)} {listed(one.clocks)}" for one in board.devices]
    return "".join(line + "\n" for line in [*lines, *channel_lines(board), *rule_lines(board), "end"])


# Records

def words_text(words):
    return "".join(f" {word:#010x}" for word in words)


def answer_text(answer):
    return answer[0] + (words_text((answer[1], *answer[2])) if answer[0] == "reply" else "")


def answer_line(agent, answer):
    return f"{agent} {answer_text(answer)}"


def message_line(agent, message):
    return f"{agent} p2a" + words_text((message[0], *message[1]))


def told_line(what):
    """The line of what the hardware told."""
    kind, place, *values = what
    words = halves(*values) if kind == "rate" else values
    return " ".join(["report", kind, str(place), *(f"{word:#x}" for word in words)])


def told_of(kind, *numbers):
    """What the hardware told, by the words of a line."""
    place, *words = (int(one, 0) for one in numbers)
    return (kind, place, words[0] | words[1] << 32) if kind == "rate" else (kind, place, *words)


class Tokens(dict):
    """The next token of each agent."""

    def next_of(self, agent):
        token = self.get(agent, 0)
        self[agent] = (token + 1) % TOKENS
        return token


def frame_of(word, agent, numbers, tokens):
    """The frame that an agent posts by the line of a script with this word and these numbers."""
    if word == "bad":
        return "bad", *numbers
    if word == "raw":
        return "good", numbers[0], tuple(numbers[1:])
    protocol, message, *words = numbers
    return "good", header_of(tokens.next_of(agent), protocol, message), tuple(words)


def answer_of(word, numbers):
    return (word, numbers[0], tuple(numbers[1:])) if word == "reply" else (word,)


def read_record(text):
    """The entries of a record: each answer with its frame, and each message, but of protocols that are not checked; and
    what the hardware told."""
    tokens, waiting, posted, entries = Tokens(), {}, (), []
    for number, line in enumerate(text.splitlines(), 1):
        items = line.split()
        if not items or items[0].startswith("#"):
            continue
        if items[0] in ("do", "raw", "bad"):
            agent, *numbers = (int(item, 0) for item in items[1:])
            waiting[agent] = frame_of(items[0], agent, numbers, tokens)
            posted += ((agent, waiting[agent]),) * (protocol_of(header_in(waiting[agent])) in PROTOCOLS)
            continue
        if items[0] == "report":
            entries.append(Told(number, told_of(*items[1:]), posted))
            posted = ()
            continue
        agent, numbers = int(items[0]), [int(item, 0) for item in items[2:]]
        if items[1] == "p2a":
            entry = Delivered(number, agent, (numbers[0], tuple(numbers[1:])), posted)
        else:
            entry = Answered(number, agent, waiting.pop(agent), answer_of(items[1], numbers), posted)
        if protocol_of(entry.message[0] if items[1] == "p2a" else header_in(entry.frame)) in PROTOCOLS:
            entries.append(entry)
            posted = ()
    return entries


def header_in(frame):
    return frame[1] if frame[0] == "good" else frame[2]
