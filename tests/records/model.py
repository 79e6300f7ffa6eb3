"""A platform as docs/PROTOCOL.md describes it: a board, a state, and the steps that lead from one state to another.

Nothing here is of the program: it was written from the profile, to be compared with it. A state is a value. Two that
are equal go on alike, so it has neither tokens nor how it was reached.

A message is (header, words). A frame is ("good", header, words), or ("bad", length, header) if its length is not well
formed. An answer is ("reply", header, words), ("error",) or ("released",).
"""
from typing import NamedTuple

BASE, POWER, CLOCK = 0x10, 0x11, 0x14
PROTOCOLS = (BASE, POWER, CLOCK)
ON, OFF = 0x00000000, 0x40000000
SUCCESS, NOT_SUPPORTED, INVALID_PARAMETERS, DENIED, NOT_FOUND, OUT_OF_RANGE, BUSY = (-n & 0xFFFFFFFF for n in range(7))
GENERIC_ERROR, HARDWARE_ERROR, PROTOCOL_ERROR = (-n & 0xFFFFFFFF for n in (8, 9, 10))
# The statuses by which hardware refuses a change.
FAULTS = (NOT_SUPPORTED, INVALID_PARAMETERS, DENIED, OUT_OF_RANGE, BUSY, GENERIC_ERROR, HARDWARE_ERROR)
THE_CALLER = 0xFFFFFFFF
MOST_PENDING, MOST_WAITING = 8, 16
TOKENS = 1024


class Domain(NamedTuple):
    name: str
    state: int
    kinds: frozenset  # of "s", "a" and "n"


class Clock(NamedTuple):
    name: str
    enabled: int
    rate: int
    listed: tuple  # the rates of a list, or none
    steps: tuple  # the lowest, the highest and the step, or none


class Device(NamedTuple):
    domains: frozenset
    clocks: frozenset


class Channel(NamedTuple):
    words: int
    two_way: bool
    share: int = MOST_PENDING  # how many of the pending sets may be the agent's


class Board(NamedTuple):
    vendor: str
    sub_vendor: str
    version: int
    trusted: int
    agents: tuple  # of names
    domains: tuple
    clocks: tuple
    devices: tuple
    channels: tuple  # one for each agent
    kept: frozenset = frozenset()  # of (protocol, number): domains and clocks that no agent may switch off
    denied: frozenset = frozenset()  # what is denied from the start, as in State


class Pending(NamedTuple):
    agent: int
    protocol: int
    place: int  # the number of the domain or clock
    value: int
    header: int  # that of the delayed response
    wanted: bool


class State(NamedTuple):
    states: tuple
    rates: tuple
    enabled: tuple
    denied: frozenset  # of (agent, device, protocol), with protocol 0 for the device as a whole
    asked: frozenset  # of (agent, domain): who is notified
    pending: tuple
    outboxes: tuple  # for each agent its messages that are not posted
    posted: tuple  # for each agent the message in its channel, or None


class Done(NamedTuple):
    """What a command leads to: its answer, the state after it, and whether it changes the hardware at once."""
    answer: tuple
    state: State
    changes: bool


class Refused(Exception):
    """A check of a command fails."""


def first_state(board):
    none = ((),) * len(board.agents)
    return State(tuple(d.state for d in board.domains), tuple(c.rate for c in board.clocks),
                 tuple(c.enabled for c in board.clocks), board.denied, frozenset(), (), none, (None,) * len(none))


def with_item(items, place, item):
    return items[:place] + (item,) + items[place + 1:]


def header_of(token, protocol, message, kind=0):
    return token << 18 | protocol << 10 | kind << 8 | message


def protocol_of(header):
    return header >> 10 & 0xFF


def name_words(name):
    padded = name.encode().ljust(16, b"\0")
    return [int.from_bytes(padded[at:at + 4], "little") for at in range(0, 16, 4)]


def halves(rate):
    return [rate & 0xFFFFFFFF, rate >> 32]


def agents_of(board):
    return range(1, len(board.agents) + 1)


# Outboxes and pending sets

def load_of(state, agent):
    """How many messages wait for an agent, and may come of its pending sets."""
    return len(state.outboxes[agent - 1]) + sum(one.agent == agent for one in state.pending)


def with_message(state, agent, message):
    outbox = state.outboxes[agent - 1] + (message,)
    return state._replace(outboxes=with_item(state.outboxes, agent - 1, outbox))


def with_domain(board, state, causer, domain, value):
    """A domain is given a state: each agent that asked is notified, if it is another one and there is room."""
    if state.states[domain] == value:
        return state
    state = state._replace(states=with_item(state.states, domain, value))
    for agent in agents_of(board):
        if (agent, domain) in state.asked and load_of(state, agent) < MOST_WAITING:
            state = with_message(state, agent, (header_of(0, POWER, 0, 3), (causer, domain, value)))
    return state


def response_to(one):
    value = [one.value] if one.protocol == POWER else halves(one.value)
    return one.header, (SUCCESS, one.place, *value)


def completed(board, state):
    """The first pending set completes; None if there is none."""
    if not state.pending:
        return None
    one, *others = state.pending
    state = state._replace(pending=tuple(others))
    if one.wanted:
        state = with_message(state, one.agent, response_to(one))
    if one.protocol == POWER:
        return with_domain(board, state, one.agent, one.place, one.value)
    return state._replace(rates=with_item(state.rates, one.place, one.value))


def refused(state):
    """The hardware refuses the change of the first pending set; None if there is none."""
    if not state.pending:
        return None
    one, *others = state.pending
    state = state._replace(pending=tuple(others))
    return with_message(state, one.agent, (one.header, (HARDWARE_ERROR,))) if one.wanted else state


def told(board, state, what):
    """The hardware tells what it does by itself; None if that can't be. It has changed a value, ("state", D, W),
    ("rate", C, R) or ("enabled", C, B), or ends the pending set at a place first, ("first", PLACE)."""
    kind, place, *values = what
    if kind == "settled":
        return None  # no clock of these boards is free
    if kind == "first":
        if place >= len(state.pending):
            return None
        before, behind = state.pending[:place], state.pending[place + 1:]
        return state._replace(pending=(state.pending[place], *before, *behind))
    if kind == "state":
        can = place < len(board.domains) and values[0] in (ON, OFF)
        return with_domain(board, state, 0, place, *values) if can else None
    if place >= len(board.clocks):
        return None
    if kind == "rate":
        return state._replace(rates=with_item(state.rates, place, *values))
    return state._replace(enabled=with_item(state.enabled, place, *values))


def posted(state, agent):
    """The first message of an agent is posted into its channel; None if there is none, or one is in the channel."""
    outbox = state.outboxes[agent - 1]
    if not outbox or state.posted[agent - 1] is not None:
        return None
    return state._replace(outboxes=with_item(state.outboxes, agent - 1, outbox[1:]),
                          posted=with_item(state.posted, agent - 1, outbox[0]))


def taken(state, agent):
    """The agent has taken the message in its channel."""
    return state._replace(posted=with_item(state.posted, agent - 1, None))


# Checks that commands share

def check(holds, status):
    if not holds:
        raise Refused(status)


def may_change(board, state, agent, protocol, place):
    """Whether an agent may change a domain or a clock: no device has it, or one that allows the agent to."""
    holders = [number for number, device in enumerate(board.devices)
               if place in (device.domains if protocol == POWER else device.clocks)]
    return not holders or any((agent, number, 0) not in state.denied and (agent, number, protocol) not in state.denied
                              for number in holders)


def check_free(board, state, agent, protocol, place, later):
    check(all((one.protocol, one.place) != (protocol, place) for one in state.pending), BUSY)
    if later:
        check(len(state.pending) < MOST_PENDING and load_of(state, agent) < MOST_WAITING, BUSY)
        check(sum(one.agent == agent for one in state.pending) < board.channels[agent - 1].share, BUSY)


# The commands: each gets the board, the state, its agent, its header and its words, and gives the words of its reply
# behind the status, the state after it, and whether it changes the hardware at once.

def version(board, state, agent, header):
    return [0x00010000 if protocol_of(header) == CLOCK else 0x00020000], state, False


def message_attributes(board, state, agent, header, message):
    check((protocol_of(header), message) in COMMANDS, NOT_FOUND)
    return [0], state, False


def base_attributes(board, state, agent, header):
    return [len(board.agents) << 8 | 2], state, False


def vendor(board, state, agent, header):
    return name_words(board.vendor), state, False


def sub_vendor(board, state, agent, header):
    return name_words(board.sub_vendor), state, False


def implementation(board, state, agent, header):
    return [board.version], state, False


def list_protocols(board, state, agent, header, skip):
    check(skip <= 2, INVALID_PARAMETERS)
    left = (POWER, CLOCK)[skip:]
    packed = sum(protocol << 8 * place for place, protocol in enumerate(left))
    return [len(left)] + [packed] * bool(left), state, False


def agent_name(board, state, agent, header, asked):
    number = agent if asked == THE_CALLER else asked
    check(number <= len(board.agents), NOT_FOUND)
    return [number, *name_words(board.agents[number - 1] if number else "platform")], state, False


def permit(state, flags, what):
    return state._replace(denied=state.denied - {what} if flags else state.denied | {what})


def permit_device(board, state, agent, header, other, device, flags):
    check(1 <= other <= len(board.agents) and device < len(board.devices), NOT_FOUND)
    check(flags <= 1, INVALID_PARAMETERS)
    check(agent == board.trusted, DENIED)
    return [], permit(state, flags, (other, device, 0)), False


def permit_protocol(board, state, agent, header, other, device, protocol, flags):
    check(1 <= other <= len(board.agents) and device < len(board.devices), NOT_FOUND)
    check(protocol & 0xFF in (POWER, CLOCK), NOT_FOUND)
    check(protocol <= 0xFF and flags <= 1, INVALID_PARAMETERS)
    check(agent == board.trusted, DENIED)
    return [], permit(state, flags, (other, device, protocol)), False


def reset_agent(board, state, agent, header, other, flags):
    check(1 <= other <= len(board.agents), NOT_FOUND)
    check(flags <= 1, INVALID_PARAMETERS)
    check(agent == board.trusted, DENIED)
    state = state._replace(asked=frozenset(one for one in state.asked if one[0] != other))
    if flags:
        others = {one for one in state.denied if one[0] != other}
        state = state._replace(denied=frozenset(others | {one for one in board.denied if one[0] == other}))
    return [], state, False


def power_attributes(board, state, agent, header):
    return [len(board.domains), 0, 0, 0], state, False


def domain_attributes(board, state, agent, header, domain):
    check(domain < len(board.domains), NOT_FOUND)
    offered = board.domains[domain].kinds & kinds_for(board, agent)
    bits = sum(1 << bit for bit, kind in ((31, "n"), (30, "a"), (29, "s")) if kind in offered)
    return [bits, *name_words(board.domains[domain].name)], state, False


def kinds_for(board, agent):
    """What a domain may offer to an agent: what the platform would have to send later only if it can."""
    return frozenset("san" if board.channels[agent - 1].two_way else "s")


def set_state(board, state, agent, header, flags, domain, value):
    check(domain < len(board.domains), NOT_FOUND)
    check(flags <= 1 and value in (ON, OFF), INVALID_PARAMETERS)
    check("sa"[flags] in board.domains[domain].kinds & kinds_for(board, agent), NOT_SUPPORTED)
    check(may_change(board, state, agent, POWER, domain), DENIED)
    check(value == ON or (POWER, domain) not in board.kept, DENIED)
    check_free(board, state, agent, POWER, domain, flags)
    if flags:
        return [], with_pending(state, agent, header, domain, value, True), False
    return [], with_domain(board, state, agent, domain, value), True


def with_pending(state, agent, header, place, value, wanted):
    # The response has the command's token, protocol and message, and no reserved bit.
    response = header & 0x0FFFFFFF | 2 << 8
    one = Pending(agent, protocol_of(header), place, value, response if wanted else 0, wanted)
    return state._replace(pending=state.pending + (one,))


def get_state(board, state, agent, header, domain):
    check(domain < len(board.domains), NOT_FOUND)
    return [state.states[domain]], state, False


def notify(board, state, agent, header, domain, enable):
    check(domain < len(board.domains), NOT_FOUND)
    check(enable <= 1, INVALID_PARAMETERS)
    check("n" in board.domains[domain].kinds & kinds_for(board, agent), NOT_SUPPORTED)
    check(may_change(board, state, agent, POWER, domain), DENIED)
    one = {(agent, domain)}
    return [], state._replace(asked=state.asked | one if enable else state.asked - one), False


def clock_attributes(board, state, agent, header):
    pending = board.channels[agent - 1].share if board.channels[agent - 1].two_way else 0
    return [pending << 16 | len(board.clocks)], state, False


def one_clock_attributes(board, state, agent, header, clock):
    check(clock < len(board.clocks), NOT_FOUND)
    return [state.enabled[clock], *name_words(board.clocks[clock].name)], state, False


def describe_rates(board, state, agent, header, clock, index):
    check(clock < len(board.clocks), NOT_FOUND)
    one = board.clocks[clock]
    if one.steps:
        return [0x00001003] + [half for rate in one.steps for half in halves(rate)], state, False
    check(index < len(one.listed), OUT_OF_RANGE)
    some = one.listed[index:index + (board.channels[agent - 1].words - 2) // 2]
    left = len(one.listed) - index - len(some)
    return [left << 16 | len(some)] + [half for rate in some for half in halves(rate)], state, False


def neighbours(clock, rate):
    """The greatest rate of a clock that is at most this one, and the least that is at least it; None if it has none."""
    if clock.listed:
        return (max((one for one in clock.listed if one <= rate), default=None),
                min((one for one in clock.listed if one >= rate), default=None))
    low, high, step = clock.steps
    down = None if rate < low else low + (min(rate, high) - low) // step * step
    up = None if rate > high else low + -(-(max(rate, low) - low) // step) * step
    return down, up


def rounded(clock, rate, flags):
    down, up = neighbours(clock, rate)
    if flags & 8:
        if down is None or up is None:
            return up if down is None else down
        return up if up - rate < rate - down else down
    return up if flags & 4 else down


def set_rate(board, state, agent, header, flags, clock, low, high):
    check(clock < len(board.clocks), NOT_FOUND)
    check(flags <= 0xF, INVALID_PARAMETERS)
    rate = rounded(board.clocks[clock], high << 32 | low, flags)
    check(rate is not None, INVALID_PARAMETERS)
    later = flags & 1
    check(not later or board.channels[agent - 1].two_way, NOT_SUPPORTED)
    check(may_change(board, state, agent, CLOCK, clock), DENIED)
    check_free(board, state, agent, CLOCK, clock, later)
    if later:
        return [], with_pending(state, agent, header, clock, rate, not flags & 2), False
    return [], state._replace(rates=with_item(state.rates, clock, rate)), True


def get_rate(board, state, agent, header, clock):
    check(clock < len(board.clocks), NOT_FOUND)
    return halves(state.rates[clock]), state, False


def configure(board, state, agent, header, clock, attributes):
    check(clock < len(board.clocks), NOT_FOUND)
    check(attributes <= 1, INVALID_PARAMETERS)
    check(may_change(board, state, agent, CLOCK, clock), DENIED)
    check(attributes or (CLOCK, clock) not in board.kept, DENIED)
    return [], state._replace(enabled=with_item(state.enabled, clock, attributes)), True


# The number of payload words of each command, and what it does.
COMMANDS = {
    **{(protocol, 0x0): (0, version) for protocol in PROTOCOLS},
    **{(protocol, 0x2): (1, message_attributes) for protocol in PROTOCOLS},
    (BASE, 0x1): (0, base_attributes),
    (BASE, 0x3): (0, vendor),
    (BASE, 0x4): (0, sub_vendor),
    (BASE, 0x5): (0, implementation),
    (BASE, 0x6): (1, list_protocols),
    (BASE, 0x7): (1, agent_name),
    (BASE, 0x9): (3, permit_device),
    (BASE, 0xA): (4, permit_protocol),
    (BASE, 0xB): (2, reset_agent),
    (POWER, 0x1): (0, power_attributes),
    (POWER, 0x3): (1, domain_attributes),
    (POWER, 0x4): (3, set_state),
    (POWER, 0x5): (1, get_state),
    (POWER, 0x6): (2, notify),
    (CLOCK, 0x1): (0, clock_attributes),
    (CLOCK, 0x3): (1, one_clock_attributes),
    (CLOCK, 0x4): (2, describe_rates),
    (CLOCK, 0x5): (4, set_rate),
    (CLOCK, 0x6): (1, get_rate),
    (CLOCK, 0x7): (2, configure),
}


def reply_to(board, state, agent, header, words):
    """The words of a reply, the state after its command, and whether this changes the hardware at once."""
    check(header >> 8 & 3 == 0, PROTOCOL_ERROR)
    count, does = COMMANDS.get((protocol_of(header), header & 0xFF), (None, None))
    check(does, NOT_SUPPORTED)
    check(len(words) == count, PROTOCOL_ERROR)
    given, after, changes = does(board, state, agent, header, *words)
    return (SUCCESS, *given), after, changes


def executed(board, state, agent, frame):
    """A command of an agent is executed."""
    if frame[0] == "bad" or len(frame[2]) > board.channels[agent - 1].words:
        return Done(("error",), state, False)
    header, words = frame[1:]
    try:
        given, after, changes = reply_to(board, state, agent, header, words)
    except Refused as refusal:
        given, after, changes = refusal.args, state, False
    return Done(("reply", header, given), after, changes)


def refused_answer(frame, fault=HARDWARE_ERROR):
    """The answer to a command whose change the hardware refuses with a status."""
    return "reply", frame[1], (fault,)
