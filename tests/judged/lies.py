"""Lies: replies of a trace are changed. Each kind chooses where and how, pseudo-randomly."""
import random
from typing import NamedTuple

from rules import (
    BUSY,
    COUNTS,
    EVENT_FLAG,
    LAYOUT_OCTETS,
    PAGE,
    PD_STATUS,
    START,
    Channel,
    control_of,
    has_checksum,
    is_good,
    layouts_of,
    with_checksum,
)
from search import Exchange, Wake

MOST_FLIPS = 4
TRIES = 300


class Trace:
    """The calls of a trace, and which have good replies, behind the first answered wake-up."""

    def __init__(self, calls):
        self.calls = calls
        woken = [isinstance(call, Wake) and call.is_answered for call in calls]
        first = woken.index(True) if True in woken else len(calls)
        self.places = [
            place
            for place, call in enumerate(calls)
            if place > first and isinstance(call, Exchange) and is_good(call.sent, call.came)
        ]

    def came(self, place):
        return self.calls[place].came

    def control(self, place):
        return control_of(self.calls[place].sent[0])

    def reads(self, channel, addresses):
        """The places of good replies to reads of these addresses."""
        return [
            place
            for place in self.places
            if self.control(place)[:2] == (True, channel)
            and self.control(place).address in addresses
        ]

    def segment_size(self):
        """The octets of on-request data in OPERATE, by the page that was read."""
        places = [self.reads(Channel.PAGE, [address])[0] for address in LAYOUT_OCTETS]
        return layouts_of(*(self.came(place)[0] for place in places)).run.od

    def answers(self):
        """The places of replies that bring a segment of an answer."""
        starts = [it for it in self.reads(Channel.ISDU, [START]) if self.came(it)[0] > BUSY]
        return starts + self.reads(Channel.ISDU, range(COUNTS))

    def longer_answers(self):
        """For each answer of two segments or more the places of the replies that bring them."""
        answers = []
        for place in self.places:
            is_read, channel, address = self.control(place)
            if channel is not Channel.ISDU:
                continue
            if is_read and address in range(COUNTS) and answers:
                answers[-1].append(place)
            else:
                brings = is_read and address == START and self.came(place)[0] > BUSY
                answers.append([place] if brings else [])
        return [places for places in answers if len(places) > 1]


def other_octet(chance, octets, place):
    """The octets with another one at a place, and with their checksum."""
    changed = bytearray(octets)
    changed[place] ^= chance.randrange(1, 256)
    return with_checksum(changed, -1)


def octet_changed(chance, trace):
    places = [place for place in trace.places if len(trace.came(place)) > 1]
    if not places:
        return {}
    place = chance.choice(places)
    came = trace.came(place)
    return {place: other_octet(chance, came, chance.randrange(len(came) - 1))}


def bit_turned(chance, trace, bit):
    place = chance.choice(trace.places)
    came = trace.came(place)
    return {place: with_checksum(came[:-1] + bytes([came[-1] ^ bit]), -1)}


def event_flag_turned(chance, trace):
    return bit_turned(chance, trace, EVENT_FLAG)


def pd_status_turned(chance, trace):
    return bit_turned(chance, trace, PD_STATUS)


def others_like(trace, place):
    """The places of other replies of the same length."""
    came = trace.came(place)
    like = [it for it in trace.places if len(trace.came(it)) == len(came)]
    return [it for it in like if trace.came(it) != came]


def replies_swapped(chance, trace):
    place = chance.choice(trace.places)
    others = others_like(trace, place)
    if not others:
        return {}
    other = chance.choice(others)
    return {place: trace.came(other), other: trace.came(place)}


def segment_changed(chance, trace):
    places = trace.answers()
    if not places:
        return {}
    place = chance.choice(places)
    return {place: other_octet(chance, trace.came(place), chance.randrange(trace.segment_size()))}


def older_reply(chance, trace):
    place = chance.choice(trace.places)
    others = [other for other in others_like(trace, place) if other < place]
    return {place: trace.came(chance.choice(others))} if others else {}


def page_octet_changed(chance, trace):
    places = trace.reads(Channel.PAGE, PAGE)
    if not places:
        return {}
    place = chance.choice(places)
    return {place: other_octet(chance, trace.came(place), 0)}


def reply_late(chance, trace):
    """A reply comes to the next message, whose own is lost."""
    places = [
        place
        for place in trace.places
        if isinstance(trace.calls[min(place + 1, len(trace.calls) - 1)], Exchange)
    ]
    places = [it for it in places if trace.calls[it + 1 :] and trace.came(it + 1) != trace.came(it)]
    if not places:
        return {}
    place = chance.choice(places)
    return {place: None, place + 1: trace.came(place)}


def busy_left_out(chance, trace):
    """The answer's first segment comes where the device was busy."""
    starts = trace.reads(Channel.ISDU, [START])
    pairs = [
        (place, behind)
        for place, behind in zip(starts, starts[1:])
        if trace.came(place)[0] == BUSY and trace.came(behind)[0] > BUSY
    ]
    if not pairs:
        return {}
    place, behind = chance.choice(pairs)
    return {place: trace.came(behind)}


def is_lost(call, sent):
    return isinstance(call, Exchange) and call.sent == sent and not is_good(sent, call.came)


def answer_forgotten(chance, trace):
    """No answer is left where a read is repeated, since its reply was lost."""
    places = [
        place
        for place in trace.answers()
        if is_lost(trace.calls[place - 1], trace.calls[place].sent)
    ]
    if not places:
        return {}
    place = chance.choice(places)
    size = trace.segment_size()
    return {place: with_checksum(bytes(size) + trace.came(place)[size:], -1)}


def first_segment_lost(chance, trace):
    """The reply with an answer's first segment is lost, and a later segment is changed."""
    answers = trace.longer_answers()
    if not answers:
        return {}
    first, *others = chance.choice(answers)
    return {first: None, **segment_of_changed(chance, trace, others)}


def segment_of_changed(chance, trace, places):
    place = chance.choice(places)
    return {place: other_octet(chance, trace.came(place), chance.randrange(trace.segment_size()))}


def read_again_otherwise(chance, trace):
    """So it is, or a segment is changed of the same answer, read again behind it."""
    answers = trace.longer_answers()
    pairs = [
        (one, other)
        for one, other in zip(answers, answers[1:])
        if [trace.came(it) for it in one] == [trace.came(it) for it in other]
    ]
    if not pairs:
        return {}
    (first, *others), again = chance.choice(pairs)
    return {first: None, **segment_of_changed(chance, trace, others + again)}


def bits_flipped(chance, trace):
    """As many bits as the checksum doesn't show."""
    for _ in range(TRIES):
        place = chance.choice(trace.places)
        changed = bytearray(trace.came(place))
        for _ in range(chance.randint(2, MOST_FLIPS)):
            changed[chance.randrange(len(changed))] ^= 1 << chance.randrange(8)
        if changed != trace.came(place) and has_checksum(bytes(changed), -1):
            return {place: bytes(changed)}
    return {}


def zero_lost(chance, trace):
    """An octet 00 is lost on the line: the checksum stays right."""
    places = [place for place in trace.places if 0 in trace.came(place)[:-1]]
    if not places:
        return {}
    place = chance.choice(places)
    came = trace.came(place)
    at = chance.choice([at for at, octet in enumerate(came[:-1]) if octet == 0])
    return {place: came[:at] + came[at + 1 :]}


READ_AGAIN = "an answer read again"
KINDS = {
    "an octet changed": octet_changed,
    "Event flag turned": event_flag_turned,
    "PD status turned": pd_status_turned,
    "replies swapped": replies_swapped,
    "a segment changed": segment_changed,
    "an older reply again": older_reply,
    "a page octet changed": page_octet_changed,
    "a reply late": reply_late,
    "busy left out": busy_left_out,
    "an answer forgotten": answer_forgotten,
    "a first segment lost": first_segment_lost,
    READ_AGAIN: read_again_otherwise,
    "bits flipped": bits_flipped,
    "a zero lost": zero_lost,
}


def read_again(calls, places):
    """The calls, with those of these places once more behind them."""
    if not places:
        return calls
    end = places[-1] + 1
    longer = calls[:end] + [calls[place] for place in places] + calls[end:]
    return [call._replace(number=number) for number, call in enumerate(longer, calls[0].number)]


class Lie(NamedTuple):
    """Other replies, by the places of their calls, once those of an answer were read again."""

    kind: str
    replies: dict
    again: list

    def first(self):
        return min(self.replies)

    def told(self, calls):
        """The calls, as the lie has them."""
        told = list(read_again(calls, self.again))
        for place, came in self.replies.items():
            told[place] = told[place]._replace(came=came)
        return told


def to_read_again(chance, trace):
    """The places of an answer's segments, with as many calls behind them."""
    answers = trace.longer_answers()
    answers = [it for it in answers if it[-1] + len(it) < len(trace.calls)]
    return chance.choice(answers) if answers else []


def lies_in(trace, seed, most):
    """So many lies in a trace, each of another kind, or as many as it has; by a seed, the same."""
    chance, names, lies = random.Random(seed), list(KINDS), []
    for step in range(len(names) if trace.places else 0):
        kind = names[(seed + step) % len(names)]
        if len(lies) < most:
            again = to_read_again(chance, trace) if kind == READ_AGAIN else []
            replies = KINDS[kind](chance, Trace(read_again(trace.calls, again)))
            lies += [Lie(kind, replies, again)] if replies else []
    return lies
