#!/usr/bin/env python3
"""A simulation over tools/python/scmi.py: two agents, hardware that refuses each second change, and what is refused."""
import scmi

BOARD = """board Acme Lab 0x00010000 1
agent ap
agent modem
domain cpu off san
clock core on 100 list 100,200,300
end
"""
POWER, CLOCK = 0x11, 0x14
changes = []


def drive(effect):
    changes.append(effect)
    made = len(changes) % 2 == 1
    print("change", *effect, "made" if made else "refused")
    return made


def show(what, reply):
    print(what, reply.status, *(f"0x{word:08x}" for word in reply.words))


def refused(what, *arguments):
    try:
        print(what(*arguments))
    except scmi.Refused as fault:
        print("refused:", fault)


with scmi.Platform(BOARD, recorded=True) as platform:
    show("version", platform.call(1, 0x10, 0x0))
    show("notify", platform.call(2, POWER, 0x6, 0, 1))
    show("on", platform.call(1, POWER, 0x4, 0, 0, scmi.ON, drive=drive))
    show("200 Hz", platform.call(1, CLOCK, 0x5, 0, 0, 200, 0, drive=drive))
    show("rate", platform.call(1, CLOCK, 0x6, 0))
    show("off, later", platform.call(1, POWER, 0x4, 1, 0, scmi.OFF, drive=drive))
    print("complete", platform.complete(drive), platform.complete(drive))
    refused(platform.next, 1, bytearray(scmi.AREA_BYTES))
    for agent in 1, 2:
        for header, words in platform.messages(agent):
            print("to", agent, f"0x{header:08x}", *(f"0x{word:08x}" for word in words))
    show("300 Hz", platform.call(1, CLOCK, 0x5, 0, 0, 300, 0, drive=lambda effect: "OUT_OF_RANGE"))
    show("on, later", platform.call(1, POWER, 0x4, 1, 0, scmi.ON))
    print("complete", platform.complete(lambda effect: "BUSY"), *(hex(words[0]) for _, words in platform.messages(1)))
    print("events", platform.history_length())
    print("a free area", platform.answer(1, scmi.free_area()), platform.ask(1, scmi.free_area()))
    refused(platform.answer, 3, scmi.command(scmi.header_of(0x10, 0x0)))
    refused(platform.answer, 1, bytearray(8))
    on = scmi.command(scmi.header_of(POWER, 0x4), 0, 0, scmi.ON)
    print("asked", *platform.ask(1, on))
    refused(platform.refuse, on, "SUCCESS")
    print("refused", platform.refuse(on, "DENIED"), scmi.words_of(on)[0] - 2 ** 32)
    print("the cpu is", platform.domain_is(0, scmi.ON), platform.domain_state(0), platform.outbox_length(2))
    print("the core is", platform.clock_is(0, 5 << 32 | 7, False), platform.clock_rate(0), platform.clock_enabled(0))
    rate = scmi.command(scmi.header_of(CLOCK, 0x5), 0, 0, 200, 0)
    print("asked", *platform.ask(1, rate))
    refused(platform.clock_is, 0, 200)
    print("at 199 Hz", platform.commit_rate(rate, 199), *scmi.words_of(rate), platform.clock_rate(0))
    refused(platform.domain_is, 1, scmi.ON)
    refused(platform.domain_is, 0, 1)
    print("asked", *platform.ask(1, scmi.command(scmi.header_of(POWER, 0x4), 0, 0, scmi.OFF)))
    refused(platform.commit_rate, on, 200)
refused(platform.advance)
refused(scmi.Platform, "board x\n")
refused(scmi.Platform, "board V S 1 3\nagent a\nend\n")
with scmi.Platform(BOARD) as platform:
    refused(platform.history_length)
with scmi.Platform(BOARD.replace("end", "channel 1 156\nchannel 2 60 one-way\nend")) as platform:
    print("version", *platform.version())
    print("channels", *platform.channel(1), *platform.channel(2))
    show("no pending sets", platform.call(2, CLOCK, 0x1))
    print("start", platform.domain_state(0), platform.clock_rate(0), platform.clock_enabled(0), platform.pending())
    show("on, later", platform.call(1, POWER, 0x4, 1, 0, scmi.ON))
    for agent, effect in platform.pending():
        print("pending", agent, *effect)
    print("waiting", platform.outbox_length(1), platform.advance(), platform.outbox_length(1), platform.domain_state(0))
    for header, words in platform.messages(1):
        print("to 1", f"0x{header:08x}", *(f"0x{word:08x}" for word in words))
    refused(platform.answer, 1, bytearray(scmi.AREA_BYTES))
    refused(platform.domain_state, 1)

with scmi.Platform(BOARD.replace("end", "free clock 0\nend")) as platform:
    print("none pending", platform.settled(0, 5), platform.advance_at(0), platform.fail_advance_at(0),
          platform.refuse_advance_at(0, "DENIED"))
    show("on, later", platform.call(1, POWER, 0x4, 1, 0, scmi.ON))
    show("150 Hz, later", platform.call(2, CLOCK, 0x5, 1, 0, 150, 0))
    print("settled", platform.settled(0, 6 << 32 | 149), platform.settled(1, 149))
    for agent, effect in platform.pending():
        print("pending", agent, *effect)
    print("the second first", platform.advance_at(2), platform.advance_at(1), platform.clock_rate(0))
    show("200 Hz, later", platform.call(2, CLOCK, 0x5, 1, 0, 200, 0))
    refused(platform.refuse_advance_at, 1, "SUCCESS")
    print("the second refused", platform.refuse_advance_at(2, "DENIED"), platform.refuse_advance_at(1, "DENIED"),
          platform.clock_rate(0))
    print("the first refused", platform.fail_advance_at(1), platform.fail_advance_at(0), platform.domain_state(0))
    for agent in 1, 2:
        for header, words in platform.messages(agent):
            print("to", agent, f"0x{header:08x}", *(f"0x{word:08x}" for word in words))
    print("none left", platform.settled(0, 5), platform.advance_at(0), platform.pending())
    platform.ask(1, scmi.command(scmi.header_of(POWER, 0x4), 0, 0, scmi.ON))
    refused(platform.settled, 0, 5)
    refused(platform.advance_at, 0)
    refused(platform.fail_advance_at, 0)
    refused(platform.refuse_advance_at, 0, "DENIED")

with scmi.Platform(BOARD.replace("end", "protocols 0x11,0x14,0x80\nend")) as platform:
    own = scmi.command(scmi.header_of(0x80, 0x3, token=5), 7)
    refused(platform.ask, 1, own)
    print("replied", platform.reply(own, 0, 8), scmi.words_of(own), hex(scmi.word(own, scmi.AREA_HEADER)))
    print("again", platform.reply(own, 0))
