"""Random boards, and random legal histories of them, as what a record shows: a list of items.

A history is a walk of the model: commands, completions, postings and messages that are taken, in any order in which
each may come.
"""
import random
from typing import NamedTuple

from model import (BASE, CLOCK, FAULTS, HARDWARE_ERROR, OFF, ON, POWER, PROTOCOLS, THE_CALLER, Board, Channel, Clock,
                   Device, Domain, agents_of, completed, executed, first_state, header_of, posted, refused,
                   refused_answer, taken, told)
from texts import DEFAULT_WORDS, Tokens, answer_line, frame_of, message_line, told_line

LETTERS = [chr(byte) for byte in range(0x21, 0x7F)]
# How many rates a list has: most boards are short, since a check reads them often.
COUNTS = (1, 2, 2, 3, 3, 3, 4, 4, 5, 5, 6, 8, 12, 20, 31, 64)
MANY = 8
# A lie is one of the first so many answers to commands that change something.
MOST_BEFORE_LIE = 8
ODD_WORDS = (0, 1, 2, 3, 8, 31, 32, 0x100, ON, OFF, 0x80000000, 0xFFFFFFFF)


class Asked(NamedTuple):
    """A line by which an agent posts a frame."""
    agent: int
    text: str

    def line(self):
        return self.text


class Got(NamedTuple):
    """An answer, and the values that the domain or clock which its command names had before."""
    agent: int
    frame: tuple
    answer: tuple
    past: tuple

    def line(self):
        return answer_line(self.agent, self.answer)


class Took(NamedTuple):
    """A message that an agent took."""
    agent: int
    message: tuple

    def line(self):
        return message_line(self.agent, self.message)


class Tells(NamedTuple):
    """What the hardware told."""
    what: tuple

    def line(self):
        return told_line(self.what)


class Mix(NamedTuple):
    """How often each kind of command comes, and of each other step for ten commands."""
    kinds: dict
    completions: float = 3
    postings: float = 8
    takings: float = 8
    deaf: float = 0  # the share of agents that take no message
    refusals: float = 0  # the share of changes that the hardware refuses
    prompt: float = 0.8  # the share of commands whose answers follow at once
    executions: float = 0  # how often one command is executed, and one answer shown, while others wait
    silent: float = 0  # the share of commands that get no answer, of which half are never executed
    tells: float = 0  # how often the hardware tells what it does by itself
    sizes: tuple = ("small",) * 14 + ("middle",) * 5 + ("large",)


MIXES = {
    "reads": Mix({"read": 8, "set": 2, "later": 1, "other": 4, "wrong": 2}),
    "sets": Mix({"set": 8, "read": 4, "later": 1, "config": 2, "wrong": 1}),
    "later": Mix({"later": 6, "quiet": 2, "read": 4, "set": 2, "config": 1}),
    "quiet": Mix({"quiet": 6, "read": 6, "set": 2}, completions=4),
    "notified": Mix({"notify": 4, "set": 6, "later": 3, "read": 2}),
    "permissions": Mix({"permit": 4, "reset": 1, "set": 5, "later": 2, "notify": 2, "config": 1}),
    "deaf": Mix({"later": 5, "notify": 3, "set": 5, "read": 1}, deaf=0.6, completions=5),
    "flood": Mix({"notify": 2, "set": 10, "later": 3, "quiet": 1, "read": 1}, deaf=0.4, postings=1, takings=1,
                 sizes=("flood",)),
    "eight": Mix({"later": 6, "quiet": 4, "set": 1, "read": 2}, completions=0.6, sizes=("many",)),
    "refusing": Mix({"later": 5, "set": 3, "config": 1, "read": 4, "notify": 1}, refusals=0.3),
    "overlapping": Mix({"read": 5, "set": 5, "later": 2, "notify": 2, "config": 1, "other": 1, "wrong": 1},
                       refusals=0.05, prompt=0.1, executions=8, sizes=("two",)),
    "overlapping-more": Mix({"read": 5, "set": 4, "quiet": 1, "later": 1, "notify": 1, "permit": 1, "wrong": 1},
                            prompt=0.2, executions=12, sizes=("more",)),
    "overlapping-many": Mix({"read": 6, "set": 4, "notify": 1, "permit": 1, "config": 1}, prompt=0.3, executions=16,
                            sizes=("eight",)),
    "told": Mix({"later": 6, "set": 3, "read": 6, "notify": 3, "config": 1}, completions=1, tells=4, refusals=0.05,
                sizes=("many", "two", "middle")),
    "told-overlapping": Mix({"later": 4, "set": 4, "read": 4, "notify": 2}, prompt=0.2, executions=8, completions=1,
                            tells=3, sizes=("two",)),
    "unanswered": Mix({"read": 4, "set": 5, "later": 2, "notify": 2, "permit": 1}, prompt=0.3, executions=10,
                      silent=0.1, sizes=("two", "more")),
}


class Size(NamedTuple):
    """The least and the most of a board."""
    agents: tuple
    domains: tuple
    clocks: tuple
    devices: tuple


SIZES = {
    "small": Size((1, 2), (0, 2), (0, 2), (0, 2)),
    "middle": Size((2, 6), (1, 6), (1, 6), (0, 4)),
    "large": Size((8, 8), (16, 32), (16, 32), (0, 32)),
    "flood": Size((1, 3), (1, 2), (0, 1), (0, 1)),
    "many": Size((1, 3), (3, 6), (5, 7), (0, 1)),
    "two": Size((2, 2), (1, 2), (0, 1), (0, 1)),
    "more": Size((3, 5), (1, 2), (0, 1), (0, 1)),
    "eight": Size((8, 8), (1, 2), (0, 1), (0, 1)),
}

# The sizes of boards on which each domain supports all kinds of sets, and notifications.
FULL = ("flood", "many", "two", "more", "eight")


# Boards

def some_name(rng):
    return "".join(rng.choice(LETTERS) for _ in range(rng.choice((1, 2, 3, rng.randint(1, 15)))))


def some_clock(rng):
    name, enabled, wide = some_name(rng), rng.randrange(2), rng.choice((8, 16, 32, 64))
    if rng.randrange(2):
        rates = tuple(sorted({rng.randrange(1 << wide) for _ in range(rng.choice(COUNTS))}))
        return Clock(name, enabled, rng.choice(rates), rates, ())
    low, step = rng.randrange(1 << wide - 1), rng.randrange(1, 1 << wide - 4)
    count = rng.randint(0, min(20, ((1 << wide) - 1 - low) // step))
    return Clock(name, enabled, low + step * rng.randint(0, count), (), (low, low + step * count, step))


def some_of(rng, count):
    return frozenset(one for one in range(count) if rng.random() < rng.choice((0.1, 0.5)))


def some_domain(rng, size):
    kinds = frozenset("san") if size in FULL else frozenset(kind for kind in "san" if rng.random() < 0.75)
    return Domain(some_name(rng), rng.choice((ON, OFF)), kinds)


def some_channel(rng):
    if rng.random() < 0.8:
        return Channel(DEFAULT_WORDS, True)
    return Channel(rng.choice((8, 9, 16, rng.randint(8, 64))), rng.random() < 0.7, rng.choice((1, 2, 8)))


def some_rules(rng, agents, domains, clocks, devices):
    """What a board keeps, and what it denies from the start."""
    kept = {(POWER, one) for one in some_of(rng, domains)} | {(CLOCK, one) for one in some_of(rng, clocks)}
    denied = {(agent, device, rng.choice((0, POWER, CLOCK)))
              for agent in range(1, agents + 1) for device in some_of(rng, devices)}
    return frozenset(kept), frozenset(denied)


def some_board(rng, name):
    size = SIZES[name]
    agents, domains, clocks, devices = (rng.randint(*bounds) for bounds in size)
    plain = rng.random() < 0.6
    return Board(some_name(rng), some_name(rng), rng.randrange(1 << 32), rng.randint(1, agents),
                 tuple(some_name(rng) for _ in range(agents)), tuple(some_domain(rng, name) for _ in range(domains)),
                 tuple(some_clock(rng) for _ in range(clocks)),
                 tuple(Device(some_of(rng, domains), some_of(rng, clocks)) for _ in range(devices)),
                 tuple(Channel(DEFAULT_WORDS, True) if plain else some_channel(rng) for _ in range(agents)),
                 *(() if plain else some_rules(rng, agents, domains, clocks, devices)))


# Commands: each gives a protocol, a message and its words

class Commands:
    """Random commands of a board's agents. They are of a few domains and clocks, so that they meet."""

    def __init__(self, rng, board):
        self.rng, self.board = rng, board
        self.hot = [rng.randrange(1 << 16) for _ in range(3)]

    def place(self, count):
        if count == 0 or self.rng.random() < 0.03:
            return self.rng.choice((count, 32, 0xFFFFFFFF))
        # On a large board most are of these three.
        if count > MANY and self.rng.random() < 0.8:
            return self.rng.choice(self.hot) % count
        return self.rng.randrange(count)

    def domain(self):
        return self.place(len(self.board.domains))

    def clock(self):
        return self.place(len(self.board.clocks))

    def either(self, of_domain, of_clock):
        """A command of a domain or of a clock, by how many the board has."""
        some = self.rng.random() < 0.5 if self.board.domains and self.board.clocks else not self.board.clocks
        return (of_domain if some else of_clock)()

    def rate(self, clock):
        """A rate of a clock, or near to one, in its two words."""
        if clock >= len(self.board.clocks):
            return [0, 0]
        one = self.board.clocks[clock]
        low, high, step = one.steps or (0, 0, 1)
        rate = self.rng.choice(one.listed) if one.listed else low + step * self.rng.randint(0, (high - low) // step)
        near = max(0, rate + self.rng.choice((0, 0, 0, 1, -1, step // 2, step // 2 + 1))) % (1 << 64)
        return [near & 0xFFFFFFFF, near >> 32]

    def set_state(self, later):
        return POWER, 0x4, [later, self.domain(), self.rng.choice((ON, OFF))]

    def set_rate(self, flags):
        clock = self.clock()
        return CLOCK, 0x5, [flags | self.rng.choice((0, 0, 4, 8, 12)), clock, *self.rate(clock)]

    def set(self):
        return self.either(lambda: self.set_state(0), lambda: self.set_rate(self.rng.choice((0, 0, 2))))

    def later(self):
        return self.either(lambda: self.set_state(1), lambda: self.set_rate(1))

    def quiet(self):
        return self.set_rate(3)

    def config(self):
        return CLOCK, 0x7, [self.clock(), self.rng.randrange(2)]

    def notify(self):
        return POWER, 0x6, [self.domain(), int(self.rng.random() < 0.85)]

    def read(self):
        if self.rng.random() < 0.3:
            return self.either(lambda: (POWER, 0x3, [self.domain()]), lambda: (CLOCK, 0x3, [self.clock()]))
        return self.either(lambda: (POWER, 0x5, [self.domain()]), lambda: (CLOCK, 0x6, [self.clock()]))

    def agent(self):
        return self.rng.randint(1, len(self.board.agents))

    def permit(self):
        words = [self.agent(), self.place(len(self.board.devices)), int(self.rng.random() < 0.4)]
        if self.rng.randrange(2):
            return BASE, 0x9, words
        return BASE, 0xA, [*words[:2], self.rng.choice((POWER, CLOCK)), words[2]]

    def reset(self):
        return BASE, 0xB, [self.agent(), self.rng.randrange(2)]

    def other(self):
        rng = self.rng
        return rng.choice((
            (rng.choice(PROTOCOLS), rng.randrange(2), []), (rng.choice(PROTOCOLS), 0x2, [rng.randrange(14)]),
            (BASE, rng.choice((0x3, 0x4, 0x5)), []), (BASE, 0x6, [rng.randrange(4)]),
            (BASE, 0x7, [rng.choice((*range(10), THE_CALLER))]), (CLOCK, 0x4, [self.clock(), rng.randrange(70)])))

    def wrong(self):
        """A command with a word that no check may pass, one more or fewer, or of no message."""
        kind = self.rng.choice(("set", "later", "config", "notify", "permit", "read"))
        protocol, message, words = getattr(self, kind)()
        how = self.rng.randrange(4)
        if how == 0:
            return protocol, self.rng.choice((0x8, 0xC, 0x55, 0xFF)), words
        if how == 1:
            return protocol, message, words[:-1] if self.rng.randrange(2) else words + [0] * self.rng.choice((1, 4, 60))
        at = self.rng.randrange(len(words))
        return protocol, message, words[:at] + [self.rng.choice(ODD_WORDS)] + words[at + 1:]


def posted_by(rng, agent, command):
    """The line of a script by which an agent posts a command, the word and the numbers of it."""
    protocol, message, words = command
    how = rng.random()
    if how < 0.94:
        return "do", [protocol, message, *words]
    if how < 0.98:
        return "raw", [header_of(rng.randrange(1024), protocol, message, rng.choice((0, 0, 0, 1, 2, 3)))
                       | rng.choice((0, 0, 15)) << 28, *words]
    return "bad", [rng.choice((0, 1, 3, 5, 7, 264, 0xFFFFFFFF)), header_of(0, protocol, message)]


class Made(NamedTuple):
    """A record that was made: what it shows, whether it needs --refusals, since the hardware refused a pending set or said
    another status than HARDWARE_ERROR, and the line of an answer that is a lie, if one is."""
    mix: str
    board: Board
    items: list
    refuses: bool
    lie: int = None


class History:
    """A history as it grows, and what a record shows of it."""

    def __init__(self, rng, board, mix):
        self.rng, self.board, self.mix = rng, board, mix
        self.state, self.items, self.refuses = first_state(board), [], False
        self.commands, self.tokens, self.waiting, self.answers = Commands(rng, board), Tokens(), {}, {}
        self.silent, self.never = set(), set()
        self.deaf = {agent for agent in agents_of(board) if rng.random() < mix.deaf}
        self.past = {}
        # How many commands that change something are answered until one is by a lie, or 0; and that answer.
        self.until_lie, self.lie = 0, None

    def move(self, state):
        """Goes on to a state, and keeps the values that it changes."""
        for protocol, old, new in ((POWER, self.state.states, state.states), (CLOCK, self.state.rates, state.rates)):
            if old is not new:
                for place, values in enumerate(zip(old, new)):
                    if values[0] != values[1]:
                        self.past.setdefault((protocol, place), []).append(values[0])
        self.state = state

    def fails(self):
        return self.rng.random() < self.mix.refusals

    def ask(self):
        agent = self.commands.agent()
        if not self.is_free(agent):
            if not self.mix.executions:
                self.answer(agent)
            return
        kinds = self.mix.kinds
        kind = self.rng.choices(list(kinds), kinds.values())[0]
        if kind in ("permit", "reset") and self.rng.random() < 0.9 and self.is_free(self.board.trusted):
            agent = self.board.trusted
        word, numbers = posted_by(self.rng, agent, getattr(self.commands, kind)())
        self.items.append(Asked(agent, " ".join([word, str(agent), *(f"{one:#x}" for one in numbers)])))
        self.waiting[agent] = frame_of(word, agent, numbers, self.tokens)
        if self.mix.silent and self.rng.random() < self.mix.silent:
            self.fall_silent(agent)
        elif self.rng.random() < self.mix.prompt:
            self.answer(agent)

    def is_free(self, agent):
        return agent not in self.waiting and agent not in self.answers

    def fall_silent(self, agent):
        """The command of an agent gets no answer, and some such are never executed; one agent goes on."""
        if len(self.silent) + 1 < len(self.board.agents):
            self.silent.add(agent)
            if self.rng.randrange(2):
                self.never.add(agent)

    def answer(self, agent):
        if agent in self.silent:
            return
        if agent in self.waiting:
            self.execute(agent, at_once=True)
        self.items.append(self.answers.pop(agent))

    def shows_behind(self, agent):
        """Whether something is shown behind the line of the command of an agent that waits."""
        for item in reversed(self.items):
            if not isinstance(item, Asked) or item.agent == agent:
                return not isinstance(item, Asked)

    def execute(self, agent, at_once=False):
        """The command of an agent is executed; at once, if its answer is shown next."""
        frame, fault = self.waiting.pop(agent), HARDWARE_ERROR
        if at_once and not self.shows_behind(agent):
            fault = self.rng.choice(FAULTS)
        done = executed(self.board, self.state, agent, frame)
        answer, state = done.answer, done.state
        if done.changes and self.fails():
            answer, state = refused_answer(frame, fault), self.state
            self.refuses |= fault != HARDWARE_ERROR
        lies = state != self.state and agent not in self.silent and self.lies_now()
        if lies:
            answer, state = self.lied(frame, done, fault)
        self.answers[agent] = Got(agent, frame, answer, self.past_of(frame))
        if lies:
            self.lie = self.answers[agent]
        self.move(state)

    def lies_now(self):
        """Whether a command that changes something is answered by a lie: one is, but for histories that are legal."""
        self.until_lie -= 1
        return self.until_lie == 0

    def lied(self, frame, done, fault):
        """What a platform answers and does that lies: it has not executed it, or the hardware has not refused it."""
        if done.changes and self.rng.randrange(3) == 0:
            return refused_answer(frame, fault), done.state
        return done.answer, self.state

    def execute_one(self):
        agent = self.one_of(set(self.waiting) - self.never)
        if agent:
            self.execute(agent)

    def answer_one(self):
        agent = self.one_of(set(self.answers) - self.silent)
        if agent:
            self.answer(agent)

    def past_of(self, frame):
        what = frame[0] == "good" and frame[2] and (frame[1] >> 10 & 0xFF, frame[2][0])
        return tuple(self.past.get(what, ())) if frame[1] & 0xFF in (0x5, 0x6) else ()

    def complete(self):
        if self.state.pending:
            fails = self.fails()
            self.refuses |= fails
            self.move(refused(self.state) if fails else completed(self.board, self.state))

    def tell(self):
        """The hardware tells what it does by itself, if it may."""
        commands, rng = self.commands, self.rng
        what = rng.choice((("first", rng.randrange(8)), ("first", rng.randrange(2)),
                           ("state", commands.domain(), rng.choice((ON, OFF))),
                           ("rate", commands.clock(), rng.randrange(1 << rng.choice((8, 64)))),
                           ("enabled", commands.clock(), rng.randrange(2))))
        state = told(self.board, self.state, what)
        if state is not None:
            self.items.append(Tells(what))
            self.move(state)

    def one_of(self, agents):
        agents = list(agents)
        return self.rng.choice(agents) if agents else None

    def post(self):
        agent = self.one_of(agent for agent in agents_of(self.board) if posted(self.state, agent))
        if agent:
            self.move(posted(self.state, agent))

    def take(self):
        agent = self.one_of(agent for agent in agents_of(self.board)
                            if self.state.posted[agent - 1] and agent not in self.deaf)
        if agent:
            self.items.append(Took(agent, self.state.posted[agent - 1]))
            self.move(taken(self.state, agent))

    def go_on(self, entries):
        """Goes on until so many answers and messages are shown, or a while."""
        mix = self.mix
        steps = (self.ask, self.complete, self.post, self.take, self.execute_one, self.answer_one, self.tell)
        weights = (10, mix.completions, mix.postings, mix.takings, mix.executions, mix.executions, mix.tells)
        for _ in range(20 * entries):
            self.rng.choices(steps, weights)[0]()
            if sum(isinstance(item, (Got, Took)) for item in self.items) >= entries:
                break


def record_text(items):
    return "".join(item.line() + "\n" for item in items)


def started(seed, mix, entries):
    """A history of a seed before its first item, the name of its mix, and how many answers and messages it gets."""
    rng = random.Random(f"history {seed}")
    name = mix or sorted(MIXES)[seed % len(MIXES)]
    board = some_board(rng, rng.choice(MIXES[name].sizes))
    count = entries or rng.randint(20, 60) * (2 if name == "flood" else 1)
    return History(rng, board, MIXES[name]), name, count


def some_history(seed, mix=None, entries=None):
    """The record of a seed."""
    history, name, count = started(seed, mix, entries)
    history.go_on(count)
    return Made(name, history.board, history.items, history.refuses)


def some_lie(seed, mix=None, entries=None):
    """The record of a seed, of a platform of which one answer is a lie, and which goes on from what it did."""
    history, name, count = started(seed, mix, entries)
    history.until_lie = random.Random(f"lie {seed}").randint(1, MOST_BEFORE_LIE)
    history.go_on(count)
    line = next((line for line, item in enumerate(history.items, 1) if item is history.lie), None)
    return Made(name, history.board, history.items, history.refuses, line)
