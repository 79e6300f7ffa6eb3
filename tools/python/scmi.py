"""How does a simulator in Python run an SCMI platform? By the calls of scmi.h, through ctypes and libscmi.so.

    import scmi

    platform = scmi.Platform(BOARD)                  # the text of a board (docs/SCRIPTS.md)
    status, words = platform.call(1, 0x11, 0x4, 0, 0, 0)    # agent 1 sets domain 0 ON
    while platform.advance():                        # pending sets complete
        pass
    for header, words in platform.messages(1):       # delayed responses and notifications
        ..

The calls of scmi.h have their names here: answer, ask, commit, commit_rate, fail, refuse, set_aside, take_up, reply,
advance, ask_advance, fail_advance, refuse_advance, advance_at, fail_advance_at, refuse_advance_at, settled, next,
sent, restart, domain_is, clock_is, channel, domain_state, clock_rate, clock_enabled, pending, outbox_length,
history_length, version.

An area is a bytearray of the size of its agent's channel, AREA_BYTES bytes unless the board sets another size. It is
changed in place: answer, ask, commit, commit_rate, fail, refuse and next are the calls of C that take its size
(scmi_answer_in and so on).

A call returns True for SCMI_DONE and False for SCMI_NOTHING or SCMI_NO_FRAME. Calls for a value return it, or None.
Any other number raises Refused, and then nothing has changed. ask returns the Effect to be made, and then commit,
commit_rate, fail or refuse replies; it returns None if the command was answered, or there was none. Only one thread at
a time may call a platform. refuse, refuse_advance and refuse_advance_at take the name of a status, such as
"DENIED".

The library is the file that SCMI_LIBRARY names, else libscmi.so beside this file or where tools/install puts it.
"""
import ctypes
import os
import struct
from collections import namedtuple
from pathlib import Path

__version__ = "1.0.0"

DONE, NOTHING, MEMORY, NO_AGENT, NOT_FREE, NO_PLATFORM, IN_USE, NO_HISTORY, NO_FRAME = range(9)
WRONG_SIZE, NO_RESOURCE, ASKED, EFFECT, TABLE, WRONG_STATUS = 10, 11, 12, 13, 14, 15
RULE, NO_STATE, NO_RATE, OTHER, LINE = 16, 32, 33, 34, 256
STATE, RATE, ENABLED = 1, 2, 3
AREA_BYTES, PAYLOAD_WORDS = 284, 64
AREA_STATUS, AREA_FLAGS, AREA_LENGTH, AREA_HEADER, AREA_PAYLOAD = 0x04, 0x10, 0x14, 0x18, 0x1C
BUSY, FREE, FREE_ERROR = 0, 1, 3
ON, OFF = 0, 0x40000000

STATUSES = ("SUCCESS NOT_SUPPORTED INVALID_PARAMETERS DENIED NOT_FOUND OUT_OF_RANGE BUSY COMMS_ERROR"
            " GENERIC_ERROR HARDWARE_ERROR PROTOCOL_ERROR").split()

Effect = namedtuple("Effect", "kind id value")
Reply = namedtuple("Reply", "status words")
Message = namedtuple("Message", "header words")
Channel = namedtuple("Channel", "bytes one_way")
Pending = namedtuple("Pending", "agent effect")


class Refused(Exception):
    """A call failed: `number` is what it returned, one of scmi.h."""

    NAMES = ("done", "nothing to do", "memory was refused", "the board has no such agent",
             "the area holds a message", "there is no platform", "there is a platform already",
             "the platform keeps no history", "the area holds no frame", "number 9",
             "the area has not the size of the channel", "the board has no such domain or clock",
             "a command was asked about, and is neither committed nor failed", "number 13", "number 14",
             "the status does not say why hardware refused")
    LATER_NAMES = {NO_STATE: "the state is neither on nor off", NO_RATE: "the command is to give no clock a rate",
                   OTHER: "the command is for the firmware to answer"}

    def __init__(self, number):
        self.number = number
        if number >= LINE:
            says = f"line {number - LINE} of the board has another form"
        elif number in self.LATER_NAMES:
            says = self.LATER_NAMES[number]
        elif number > RULE:
            says = f"the board breaks rule {number - RULE}"
        else:
            says = self.NAMES[number] if number < len(self.NAMES) else f"number {number}"
        super().__init__(says)


class ChannelError(Exception):
    """The frame was malformed: the status word of the answer is 3."""


class _Handle(ctypes.Structure):
    _fields_ = [("at", ctypes.c_void_p)]


class _Effect(ctypes.Structure):
    _fields_ = [(name, ctypes.c_uint32) for name in ("kind", "id", "low", "high")]


class _Channel(ctypes.Structure):
    _fields_ = [(name, ctypes.c_uint32) for name in ("bytes", "one_way")]


class _Numbers(ctypes.Structure):
    WANTED = dict(
        area_bytes=AREA_BYTES, payload_words=PAYLOAD_WORDS, done=DONE, nothing=NOTHING, memory=MEMORY,
        no_agent=NO_AGENT, not_free=NOT_FREE, no_platform=NO_PLATFORM, in_use=IN_USE, no_history=NO_HISTORY,
        no_frame=NO_FRAME, wrong_size=WRONG_SIZE, no_resource=NO_RESOURCE, asked=ASKED, effect=EFFECT, table=TABLE,
        wrong_status=WRONG_STATUS, rule=RULE, no_state=NO_STATE, no_rate=NO_RATE, other=OTHER, line=LINE,
        effect_state=STATE, effect_rate=RATE, effect_enabled=ENABLED)
    _fields_ = [(name, ctypes.c_uint32) for name in WANTED]


def _library_file():
    here = Path(__file__).resolve().parent
    places = [os.environ.get("SCMI_LIBRARY"), here / "libscmi.so", here.parent / "libscmi.so"]
    for place in filter(None, places):
        if Path(place).exists():
            return str(place)
    raise FileNotFoundError("libscmi.so: set SCMI_LIBRARY, or install with tools/install")


def load(file=None):
    """Loads the library from a file, or from its usual place; its numbers have to be those of this module."""
    library = ctypes.CDLL(file or _library_file())
    handle, number, area = ctypes.POINTER(_Handle), ctypes.c_uint32, (ctypes.c_void_p, ctypes.c_size_t)
    effect, word, count = ctypes.POINTER(_Effect), ctypes.POINTER(number), ctypes.POINTER(ctypes.c_uint64)
    for name, *arguments in (
            ("scmi_platform_new", ctypes.c_char_p, ctypes.c_size_t),
            ("scmi_platform_new_recorded", ctypes.c_char_p, ctypes.c_size_t),
            ("scmi_answer_in", number, *area), ("scmi_ask_in", number, *area, effect), ("scmi_commit_in", *area),
            ("scmi_commit_rate_in", *area, number, number), ("scmi_fail_in", *area),
            ("scmi_refuse_in", *area, ctypes.c_int32), ("scmi_set_aside",), ("scmi_take_up", number),
            ("scmi_advance",), ("scmi_ask_advance", effect), ("scmi_fail_advance",),
            ("scmi_refuse_advance", ctypes.c_int32), ("scmi_advance_at", number), ("scmi_fail_advance_at", number),
            ("scmi_refuse_advance_at", number, ctypes.c_int32),
            ("scmi_settled", number, number, number), ("scmi_next_in", number, *area), ("scmi_sent", number),
            ("scmi_restart", number), ("scmi_domain_is", number, number), ("scmi_clock_is", number, number, number, number),
            ("scmi_channel", number, ctypes.POINTER(_Channel)), ("scmi_domain_state", number, word),
            ("scmi_clock_rate", number, word, word), ("scmi_clock_enabled", number, word),
            ("scmi_pending", number, word, effect), ("scmi_outbox_length", number, count),
            ("scmi_history_length", count), ("scmi_platform_free",)):
        call = getattr(library, name)
        call.argtypes, call.restype = [handle, *arguments], number
    library.scmi_platform_free.restype = None
    library.scmi_reply.argtypes, library.scmi_reply.restype = [*area, ctypes.c_void_p, ctypes.c_size_t], number
    library.scmi_version.argtypes, library.scmi_version.restype = [], number
    library.scmi_numbers.argtypes, library.scmi_numbers.restype = [ctypes.POINTER(_Numbers)], None
    numbers = _Numbers()
    library.scmi_numbers(numbers)
    for name, wanted in _Numbers.WANTED.items():
        if getattr(numbers, name) != wanted:
            raise ImportError(f"the library is another version's: its {name} is {getattr(numbers, name)}")
    return library


def header_of(protocol, message, token=0, kind=0):
    """A header word: message id, type (0 command, 2 delayed response, 3 notification), protocol, token."""
    return message | kind << 8 | protocol << 10 | token % 1024 << 18


def command(header, *words, size=AREA_BYTES):
    """An area with a command, as an agent posts it."""
    area = bytearray(size)
    struct.pack_into(f"<2I{len(words)}I", area, AREA_LENGTH, 4 + 4 * len(words), header, *words)
    return area


def free_area(size=AREA_BYTES):
    """An area whose channel is free."""
    area = bytearray(size)
    struct.pack_into("<I", area, AREA_STATUS, FREE)
    return area


def word(area, at):
    """The word of an area at an offset, in bytes."""
    return struct.unpack_from("<I", area, at)[0]


def words_of(area):
    """The payload words of the message in an area."""
    return struct.unpack_from(f"<{(word(area, AREA_LENGTH) - 4) // 4}I", area, AREA_PAYLOAD)


class Platform:
    """A platform of a board's text; with `recorded` it counts the events of its history. It is freed by close, or by `with`."""

    def __init__(self, board, recorded=False, library=None):
        self._library, self._handle, self._tokens = load(library), _Handle(), {}
        board = board.encode() if isinstance(board, str) else board
        new = self._library.scmi_platform_new_recorded if recorded else self._library.scmi_platform_new
        self._give(new(self._handle, board, len(board)))

    def _give(self, number):
        if number in (DONE, NOTHING, NO_FRAME):
            return number == DONE
        raise Refused(number)

    def _number(self, call, area, *agent, more=()):
        held = (ctypes.c_uint8 * len(area)).from_buffer(area)
        return call(self._handle, *agent, held, len(area), *more)

    def _over(self, call, area, *agent, more=()):
        return self._give(self._number(call, area, *agent, more=more))

    def _read(self, call, *of, into=ctypes.c_uint32):
        value = into()
        self._give(call(self._handle, *of, value))
        return value.value

    @staticmethod
    def _effect(done, effect):
        return Effect(effect.kind, effect.id, effect.low | effect.high << 32) if done else None

    @staticmethod
    def _rate(rate):
        return rate & 0xFFFFFFFF, rate >> 32

    @staticmethod
    def _end(made, commit, fail, refuse, *area):
        return refuse(*area, made) if isinstance(made, str) else (commit if made else fail)(*area)

    def answer(self, agent, area):
        return self._over(self._library.scmi_answer_in, area, agent)

    def ask(self, agent, area):
        effect = _Effect()
        number = self._number(self._library.scmi_ask_in, area, agent, more=(effect,))
        if number != EFFECT:
            self._give(number)
        return self._effect(number == EFFECT, effect)

    def commit(self, area):
        return self._over(self._library.scmi_commit_in, area)

    def commit_rate(self, area, rate):
        """As commit, of a clock that runs at this rate, in Hz, and not at the one that it was to be given."""
        return self._over(self._library.scmi_commit_rate_in, area, more=self._rate(rate))

    def fail(self, area):
        return self._over(self._library.scmi_fail_in, area)

    def refuse(self, area, status):
        return self._over(self._library.scmi_refuse_in, area, more=(-STATUSES.index(status),))

    def set_aside(self):
        """Sets the command that ask gave a change of aside: others are served while its hardware settles."""
        return self._give(self._library.scmi_set_aside(self._handle))

    def take_up(self, agent):
        """Takes an agent's command up again that was set aside: commit, fail and refuse answer it."""
        return self._give(self._library.scmi_take_up(self._handle, agent))

    def reply(self, area, *words):
        """Answers a command of a protocol of the board that is not the library's: ask raised Refused, number OTHER."""
        held = (ctypes.c_uint8 * len(area)).from_buffer(area)
        return self._give(self._library.scmi_reply(held, len(area), (ctypes.c_uint32 * len(words))(*words), len(words)))

    def advance(self):
        return self._give(self._library.scmi_advance(self._handle))

    def ask_advance(self):
        effect = _Effect()
        return self._effect(self._give(self._library.scmi_ask_advance(self._handle, effect)), effect)

    def fail_advance(self):
        return self._give(self._library.scmi_fail_advance(self._handle))

    def refuse_advance(self, status):
        return self._give(self._library.scmi_refuse_advance(self._handle, -STATUSES.index(status)))

    def advance_at(self, place):
        """Completes the pending set at a place, 0 the first, before the others."""
        return self._give(self._library.scmi_advance_at(self._handle, place))

    def fail_advance_at(self, place):
        """As advance_at, of a set whose change the hardware refused."""
        return self._give(self._library.scmi_fail_advance_at(self._handle, place))

    def refuse_advance_at(self, place, status):
        return self._give(self._library.scmi_refuse_advance_at(self._handle, place, -STATUSES.index(status)))

    def settled(self, clock, rate):
        """The hardware gives the pending set of a free clock this rate, in Hz; False if there is no such set."""
        return self._give(self._library.scmi_settled(self._handle, clock, *self._rate(rate)))

    def next(self, agent, area):
        return self._over(self._library.scmi_next_in, area, agent)

    def sent(self, agent):
        return self._give(self._library.scmi_sent(self._handle, agent))

    def restart(self, agent):
        return self._give(self._library.scmi_restart(self._handle, agent))

    def domain_is(self, domain, state):
        """The hardware changed a domain by itself."""
        return self._give(self._library.scmi_domain_is(self._handle, domain, state))

    def clock_is(self, clock, rate, enabled=True):
        """The hardware changed a clock by itself: its rate, in Hz, and whether it is enabled."""
        return self._give(self._library.scmi_clock_is(self._handle, clock, *self._rate(rate), int(enabled)))

    def channel(self, agent):
        """The size of an agent's areas in bytes, and whether the platform can't send to it."""
        channel = _Channel()
        self._give(self._library.scmi_channel(self._handle, agent, channel))
        return Channel(channel.bytes, bool(channel.one_way))

    def domain_state(self, domain):
        return self._read(self._library.scmi_domain_state, domain)

    def clock_rate(self, clock):
        low, high = ctypes.c_uint32(), ctypes.c_uint32()
        self._give(self._library.scmi_clock_rate(self._handle, clock, low, high))
        return low.value | high.value << 32

    def clock_enabled(self, clock):
        return bool(self._read(self._library.scmi_clock_enabled, clock))

    def pending(self):
        """The pending sets, in the order in which they complete: the agent of each, and what it is to change."""
        sets, agent, effect = [], ctypes.c_uint32(), _Effect()
        while self._give(self._library.scmi_pending(self._handle, len(sets), agent, effect)):
            sets.append(Pending(agent.value, self._effect(True, effect)))
        return sets

    def outbox_length(self, agent):
        return self._read(self._library.scmi_outbox_length, agent, into=ctypes.c_uint64)

    def history_length(self):
        return self._read(self._library.scmi_history_length, into=ctypes.c_uint64)

    def version(self):
        """The library's version, as (major, minor, patch)."""
        number = self._library.scmi_version()
        return number >> 16, number >> 8 & 0xFF, number & 0xFF

    def call(self, agent, protocol, message, *words, drive=None):
        """Executes a command of an agent, at its next token: its status by name, and the words after it.

        With `drive` the platform is beside hardware: drive(effect) makes the change, and returns whether it did, or the
        name of the status that says why not.
        """
        token = self._tokens.get(agent, 0)
        area = command(header_of(protocol, message, token), *words, size=self.channel(agent).bytes)
        if not drive:
            self.answer(agent, area)
        elif effect := self.ask(agent, area):
            self._end(drive(effect), self.commit, self.fail, self.refuse, area)
        self._tokens[agent] = (token + 1) % 1024
        if word(area, AREA_STATUS) != FREE:
            raise ChannelError("the frame was malformed")
        status, *words = words_of(area)
        return Reply(STATUSES[-status & 0xFFFFFFFF], tuple(words))

    def complete(self, drive):
        """Completes the first pending set beside hardware; False if none is pending."""
        effect = self.ask_advance()
        return self._end(drive(effect) if effect else True, self.advance, self.fail_advance, self.refuse_advance)

    def messages(self, agent):
        """Takes each message of an agent's outbox, in order."""
        size = self.channel(agent).bytes
        area = free_area(size)
        while self.next(agent, area):
            self.sent(agent)
            yield Message(word(area, AREA_HEADER), words_of(area))
            area = free_area(size)

    def close(self):
        self._library.scmi_platform_free(self._handle)

    def __enter__(self):
        return self

    def __exit__(self, *_):
        self.close()
