"""Faults that are planted into what a record shows, one at a time.

Each kind gets the items of a record and gives them with its fault; None if there is no place for it. Such a record may
have a legal history after all: what is expected of it is what exact.py says.
"""
from history import Asked, Got, Tells, Took
from model import CLOCK, OFF, ON, POWER, halves, protocol_of

STATUSES = [-status & 0xFFFFFFFF for status in range(11)]


def places(items, wanted):
    return [place for place, item in enumerate(items) if wanted(item)]


def is_answer(item):
    return isinstance(item, Got)


def is_reply(item):
    return is_answer(item) and item.answer[0] == "reply"


def is_told(item):
    return isinstance(item, Tells)


def is_message(item):
    return isinstance(item, Took)


def one_of(rng, choices):
    return rng.choice(choices) if choices else None


def changed(rng, items, wanted, other):
    """The items with another one in place of one that is wanted."""
    place = one_of(rng, places(items, wanted))
    return None if place is None else items[:place] + [other(items[place])] + items[place + 1:]


def with_words(item, words):
    """An answer or a message with other words."""
    if is_message(item):
        return item._replace(message=(item.message[0], tuple(words)))
    return item._replace(answer=(*item.answer[:2], tuple(words)))


def words_of(item):
    return item.message[1] if is_message(item) else item.answer[2]


def another_word(rng, word):
    others = (word ^ 1, word ^ ON ^ OFF, word + 1 & 0xFFFFFFFF, word ^ 1 << rng.randrange(32), 0)
    return rng.choice([other for other in others if other != word])


def another_in(rng, words, first):
    """The words with another one, from the first that may be on."""
    place = rng.randrange(first, len(words))
    return (*words[:place], another_word(rng, words[place]), *words[place + 1:])


def status(rng, items):
    return changed(rng, items, is_reply, lambda item: with_words(
        item, [rng.choice([one for one in STATUSES if one != words_of(item)[0]])]))


def word(rng, items):
    return changed(rng, items, lambda item: is_reply(item) and len(words_of(item)) > 1,
                   lambda item: with_words(item, another_in(rng, words_of(item), 1)))


def header(rng, items):
    return changed(rng, items, is_reply, lambda item: item._replace(
        answer=("reply", item.answer[1] ^ 1 << rng.randrange(32), item.answer[2])))


def short(rng, items):
    return changed(rng, items, is_reply, lambda item: with_words(item, words_of(item)[:-1]))


def long(rng, items):
    return changed(rng, items, is_reply, lambda item: with_words(item, (*words_of(item), rng.choice((0, 1, OFF)))))


def error(rng, items):
    answer = (rng.choice(("error", "error", "released")),)
    return changed(rng, items, is_reply, lambda item: item._replace(answer=answer))


def is_value(item):
    """Whether an item shows the value of a domain or clock that had another one before."""
    return is_reply(item) and len(words_of(item)) > 1 and any(value_words(item, value) != words_of(item)
                                                              for value in item.past)


def value_words(item, value):
    return (0, *([value] if protocol_of(item.answer[1]) == POWER else halves(value)))


def stale(rng, items):
    return changed(rng, items, is_value, lambda item: with_words(item, rng.choice(
        [words for words in (value_words(item, value) for value in item.past) if words != words_of(item)])))


def message_word(rng, items):
    return changed(rng, items, is_message, lambda item: with_words(item, another_in(rng, words_of(item), 0)))


def message_header(rng, items):
    return changed(rng, items, is_message, lambda item: item._replace(
        message=(item.message[0] ^ 1 << rng.randrange(32), item.message[1])))


def twice(rng, items):
    place = one_of(rng, places(items, is_message))
    if place is None:
        return None
    again = rng.randint(place + 1, min(place + 6, len(items)))
    return items[:again] + [items[place]] + items[again:]


def lost(rng, items):
    place = one_of(rng, places(items, is_message))
    return None if place is None else items[:place] + items[place + 1:]


def swapped(rng, items):
    """Two messages of an agent, one after the other, in the other order."""
    pairs = []
    for place in places(items, is_message):
        after = next((other for other in range(place + 1, len(items))
                      if is_message(items[other]) and items[other].agent == items[place].agent), None)
        if after and items[after] != items[place]:
            pairs.append((place, after))
    pair = one_of(rng, pairs)
    if pair is None:
        return None
    first, second = pair
    return [*items[:first], items[second], *items[first + 1:second], items[first], *items[second + 1:]]


def early(rng, items):
    place = one_of(rng, [place for place in places(items, is_message) if place > 0])
    if place is None:
        return None
    to = rng.randrange(max(0, place - 8), place)
    return items[:to] + [items[place]] + items[to:place] + items[place + 1:]


def pair_of(rng, items, wanted, near=12):
    """The places of two replies that are near each other and wanted; None if there are none."""
    answers = places(items, is_reply)
    return one_of(rng, [(place, other) for place in answers for other in answers
                        if 0 < abs(place - other) < near and wanted(items[place], items[other])])


def other(rng, items):
    """An agent gets the answer that another got."""
    pair = pair_of(rng, items, lambda item, other: item.agent != other.agent and item.answer != other.answer)
    if pair is None:
        return None
    place, from_ = pair
    return items[:place] + [items[place]._replace(answer=items[from_].answer)] + items[place + 1:]


def message_of(item):
    """The protocol, the type and the message id of the command that is answered."""
    return item.frame[1] & 0x3FFFF


def answers_differ(item, other):
    """Whether two commands are of the same message and their answers differ."""
    return message_of(item) == message_of(other) and words_of(item) != words_of(other)


def elsewhere(rng, items):
    """A command gets the answer that the same command gets at another place."""
    pair = pair_of(rng, items, lambda item, other: item.frame[2] == other.frame[2] and answers_differ(item, other),
                   len(items))
    if pair is None:
        return None
    place, from_ = pair
    return items[:place] + [with_words(items[place], words_of(items[from_]))] + items[place + 1:]


def exchanged(rng, items):
    """The answers to two commands of the same message are exchanged between agents."""
    pair = pair_of(rng, items, lambda item, other: item.agent != other.agent and answers_differ(item, other))
    if pair is None:
        return None
    first, second = sorted(pair)
    return [*items[:first], with_words(items[first], words_of(items[second])), *items[first + 1:second],
            with_words(items[second], words_of(items[first])), *items[second + 1:]]


def asked_late(_, items):
    """Each command is posted directly before its answer, after it was executed perhaps."""
    late, asked = [], {}
    for item in items:
        if isinstance(item, Asked):
            asked[item.agent] = item
        else:
            late += [asked.pop(item.agent), item] if is_answer(item) else [item]
    late += asked.values()
    return None if late == items else late


def answered_early(_, items):
    """Each answer comes directly after its command, before this was executed perhaps."""
    early, answers = [], list(filter(is_answer, items))
    for item in items:
        if not is_answer(item):
            early.append(item)
        answer = next((one for one in answers if isinstance(item, Asked) and one.agent == item.agent), None)
        if answer:
            answers.remove(answer)
            early.append(answer)
    return None if early == items else early


def untold(rng, items):
    """The record lacks what the hardware told."""
    place = one_of(rng, places(items, is_told))
    return None if place is None else items[:place] + items[place + 1:]


def first_other(rng, items):
    """The hardware told of another place."""
    return changed(rng, items, lambda item: is_told(item) and item.what[0] == "first",
                   lambda item: item._replace(what=("first", item.what[1] ^ rng.choice((1, 2, 8)))))


KINDS = {
    "status": status, "word": word, "header": header, "short": short, "long": long, "error": error, "stale": stale,
    "message-word": message_word, "message-header": message_header, "twice": twice, "lost": lost, "swapped": swapped,
    "early": early, "other": other, "elsewhere": elsewhere, "exchanged": exchanged, "asked-late": asked_late,
    "answered-early": answered_early, "untold": untold, "first-other": first_other,
}
