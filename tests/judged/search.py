"""Whether some device by the rules brings a trace over a lossy line: a search, and what it found.

Kept are all devices that the calls so far leave possible, each written down as far as it shows. A
device does what it does by itself as late as it can. It raises an event right before the reply that
shows the Event flag, or the message that ends a hold. It answers right before the read that fetches
the answer. Its power goes right before a wake-up request.
"""
from enum import Enum, auto
from functools import lru_cache, reduce
from operator import xor
from typing import NamedTuple, Optional

from device import MOST_SHOWN, STATUS_DETAILS, WOKEN, Handed, Link, Whole, isdu_written
from rules import (
    BODIES,
    BUSY,
    COUNTS,
    CYCLE_TIME,
    DEVICE_KINDS,
    EVENT_SIZE,
    LAYOUT_OCTETS,
    MODE_COMMANDS,
    PAGE,
    START,
    STARTUP,
    Answer,
    Channel,
    DeviceKind,
    Kind,
    Layout,
    Message,
    Mode,
    Recalls,
    Reply,
    control_of,
    is_readable,
    layouts_of,
    message_in,
    reply_in,
    text_head,
)


class Fate(Enum):
    """What became of a call."""

    # the message, or the wake-up request, was lost
    LOST = auto()
    # the message was heard, and no good reply came
    UNSEEN = auto()
    # the reply came
    CLEAN = auto()
    # the wake-up request had its effect; so it had right behind a power cycle
    WOKEN = auto()
    POWERED = auto()


class CantSay(Exception):
    """The layouts of the page would have to be known."""


# What is known of events: None while a confirm holds new ones back


class Shown(NamedTuple):
    """At least and at most so many, with these octets by address. From none, one may be raised."""

    least: int
    most: int
    octets: tuple = ()

    def with_flag(self, has_event):
        """DEV-8; None where it can't be so."""
        if has_event:
            return self._replace(least=max(self.least, 1))
        return None if self.least else FRESH

    def with_status(self, status):
        """EVT-4; None where it can't be so."""
        for count in range(self.least, self.most + 1):
            if status == STATUS_DETAILS | (1 << count) - 1:
                return self._replace(least=count, most=count)
        return None

    def with_octet(self, address, octet):
        """EVT-4; None where it can't be so."""
        if dict(self.octets).get(address, octet) != octet:
            return None
        place = (address - 1) // EVENT_SIZE + 1
        if octet and place > self.most:
            return None
        least = max(self.least, place) if octet else self.least
        octets = dict(self.octets) | ({address: octet} if place <= MOST_SHOWN else {})
        return Shown(least, self.most, tuple(sorted(octets.items())))


ANY, FRESH = Shown(0, MOST_SHOWN), Shown(0, 1)
NONE_SHOWN = Shown(0, 0)


# What is known of an answer


class Had(NamedTuple):
    """Octets of segments of an answer, None where one isn't known. Each begins within its text."""

    kind: Kind
    size: int
    octets: tuple
    # the number of the segment sent last
    sent: int

    def with_next(self):
        octets = self.octets
        if (self.sent + 1) * self.size == len(octets):
            octets += (None,) * self.size
        return self._replace(octets=octets, sent=self.sent + 1)

    def with_segment(self, octets):
        """DEV-13; None where the segment can't have these octets."""
        start = self.sent * self.size
        before = self.octets[start : start + self.size]
        if any(known not in (None, octet) for known, octet in zip(before, octets)):
            return None
        known = self.octets[:start] + tuple(octets) + self.octets[start + self.size :]
        return self._replace(octets=known)

    def answer(self):
        """Some answer with these octets, None where there is none."""
        return some_answer(self.kind, self.octets, len(self.octets) - self.size)

    def answer_ended(self):
        """One of which the segment sent last is the last, None where there is none."""
        end = (self.sent + 1) * self.size
        return some_answer(self.kind, self.octets, len(self.octets) - self.size, end)


HEADS = {
    kind: [
        (text_head(service, length), service, length)
        for service, lengths in services.items()
        for length in lengths
    ]
    for kind, services in BODIES.items()
}


@lru_cache(None)
def some_answer(kind, octets, above, most=None):
    """An answer with these octets, then zeros, of more octets than `above` and at most `most`."""
    for head, service, length in HEADS[kind]:
        total = len(head) + length + 1
        if octets[0] not in (None, head[0]) or total <= above or (most and total > most):
            continue
        body = body_with(head, total, octets)
        if body is not None:
            return Answer(service, body)
    return None


def body_with(head, total, octets):
    """A body of a text of this head and total length with these octets, and zeros behind it."""
    if any(octets[total:]) or any(known not in (None, it) for known, it in zip(octets, head)):
        return None
    known = octets[:total] + (None,) * (total - len(octets))
    body, check = list(known[len(head) : -1]), known[-1]
    if check is not None:
        sum_ = reduce(xor, [octet or 0 for octet in body], reduce(xor, head, check))
        if sum_ and None not in body:
            return None
        if sum_:
            body[body.index(None)] = sum_
    return bytes(octet or 0 for octet in body)


# What is known of a device


class State(NamedTuple):
    kind: DeviceKind
    link: Link
    cycle: Optional[int]
    shown: Optional[Shown]
    # as a device has it, but for what is known of an answer
    isdu: object

    def woken(self):
        """DEV-1."""
        return State(self.kind, WOKEN, self.cycle, released(self.shown), None)

    def powered(self):
        """DEV-16."""
        return State(self.kind, WOKEN, self.cycle, FRESH, None)


def released(shown):
    """EVT-3."""
    return ANY if shown is None else shown


class Node(NamedTuple):
    """A state that a call may have led to, from that of another node."""

    state: State
    before: Optional["Node"] = None
    call: object = None
    fate: Optional[Fate] = None
    # the device's own, where it came
    reply: Optional[Reply] = None
    # an answer that had no more segments
    ended: Optional[Answer] = None


class Wake(NamedTuple):
    number: int
    is_answered: bool


class Exchange(NamedTuple):
    number: int
    sent: bytes
    came: Optional[bytes]


class Search:
    """The devices that calls leave possible, none before the first answered wake-up request."""

    def __init__(self):
        self.page, self.nodes, self.begun = {}, [], False

    def tell(self, call):
        """One more call; whether some device is left."""
        if isinstance(call, Wake):
            self.tell_wake(call)
        elif self.begun:
            self.tell_exchange(call)
        return bool(self.nodes) or not self.begun

    def keep(self, nodes):
        kept = {}
        for node in nodes:
            kept.setdefault(node.state, node)
        self.nodes = list(kept.values())

    def tell_wake(self, call):
        """WIRE-3."""
        if not self.begun:
            if call.is_answered:
                self.begun = True
                self.nodes = [Node(State(kind, WOKEN, None, ANY, None)) for kind in DEVICE_KINDS]
            return
        woken = [Node(it.state.woken(), it, call, Fate.WOKEN) for it in self.nodes]
        powered = [Node(it.state.powered(), it, call, Fate.POWERED) for it in self.nodes]
        self.keep(woken + powered + ([] if call.is_answered else self.lost(call)))

    def lost(self, call):
        return [Node(it.state, it, call, Fate.LOST) for it in self.nodes]

    def tell_exchange(self, call):
        """WIRE-1, WIRE-2."""
        if not is_readable(self.layouts(), call.sent, call.came):
            unseen = [heard.unseen(call) for heard in self.hearings(call.sent)]
            self.keep(self.lost(call) + unseen)
            return
        replied = [heard.replied(self.page, call) for heard in self.hearings(call.sent)]
        self.keep(node for node in replied if node)
        control = control_of(call.sent[0])
        if control.is_read and control.channel is Channel.PAGE and control.address in PAGE:
            self.page[control.address] = call.came[0]

    def layouts(self):
        """What the page asks for, None where that isn't known."""
        octets = [self.page.get(address) for address in LAYOUT_OCTETS]
        return None if None in octets else layouts_of(*octets)

    def hearings(self, sent):
        """What each device may make of a message that it hears, where it accepts it."""
        layouts = self.layouts()
        return [heard for node in self.nodes for heard in hearings(layouts, node, sent)]


# A message


class Heard(NamedTuple):
    """A state behind a message, with the node before, the layout and the message."""

    state: State
    before: Node
    layout: Layout
    message: Message
    ended: Optional[Answer]

    def unseen(self, call):
        return Node(self.state, self.before, call, Fate.UNSEEN, None, self.ended)

    def replied(self, page, call):
        """A node whose device sent the reply that came, None where it can't have."""
        reply = reply_in(self.layout, self.message.is_read, call.came)
        state = reply and with_reply(self.state, page, self.layout, self.message, reply)
        return state and Node(state, self.before, call, Fate.CLEAN, reply, self.ended)


def hearings(layouts, node, sent):
    """DEV-2: none where the device doesn't accept the octets."""
    state, link = node.state, node.state.link.taken(sent)
    if layouts is None and link.mode is not Mode.STARTUP:
        raise CantSay
    layout = layouts.of(link.mode) if layouts else STARTUP
    message = message_in(layout, sent)
    if message is None:
        return
    isdu = state.isdu if link.mode is state.link.mode else None
    after = State(
        state.kind,
        link.after(mode_asked(layouts, message.command()), sent),
        message.od[0] if message.writes(Channel.PAGE, CYCLE_TIME) else state.cycle,
        None if message.is_confirm() else released(state.shown),
        None,
    )
    for held, ended in isdus_behind(layouts, state.kind, isdu, message, layout.od):
        yield Heard(after._replace(isdu=held), node, layout, message, ended)


def mode_asked(layouts, command):
    """DEV-5."""
    if layouts is None and MODE_COMMANDS.get(command, Mode.STARTUP) is not Mode.STARTUP:
        raise CantSay
    return layouts.asked(command) if layouts else MODE_COMMANDS.get(command)


def isdus_behind(layouts, kind, held, message, size):
    """What may be held behind a message, each with an answer that had no more segments (DEV-10)."""
    if message.channel is not Channel.ISDU:
        return [(held, None)]
    if layouts is None:
        raise CantSay
    if not layouts.has_isdu:
        return [(None, None)]
    if not message.is_read:
        return [(isdu_written(kind.hands_over, held, message.address, message.od), None)]
    if message.address == START:
        return behind_start(kind.recalls, held, size)
    if message.address < COUNTS and isinstance(held, Had):
        return behind_count(kind.recalls, held, message.address)
    return [(None, None)]


def behind_start(recalls, held, size):
    """DEV-12, DEV-13."""
    if isinstance(held, Whole):
        return [(Handed(held.kind, held.count), None)]
    if isinstance(held, Handed):
        return [(held, None), (Had(held.kind, size, (None,) * size, 0), None)]
    return sent_again(recalls, held, 0) if isinstance(held, Had) else [(None, None)]


def behind_count(recalls, had, count):
    """DEV-13, DEV-14."""
    if had.sent > 0 and count == had.sent % COUNTS:
        return sent_again(recalls, had, had.sent)
    if count != (had.sent + 1) % COUNTS:
        return [(None, None)]
    return where_further(had, had.sent + 1)


def sent_again(recalls, had, number):
    """DEV-20."""
    if recalls is Recalls.UNTIL_LEFT:
        return [(had._replace(sent=number), None)]
    return where_further(had, number)


def where_further(had, number):
    """The segment of this number is sent where there is one behind that sent last."""
    further, ended = had.with_next(), had.answer_ended()
    behind = [(further._replace(sent=number), None)] if further.answer() else []
    return behind + ([(None, ended)] if ended else [])


# A reply


def with_reply(state, page, layout, message, reply):
    """A state that sent this reply, None where it can't have (DEV-7, DEV-8)."""
    if reply.is_invalid and (not layout.pd_in or any(reply.input)):
        return None
    if state.shown is None:
        state = None if reply.has_event else state
    else:
        shown = state.shown.with_flag(reply.has_event)
        state = shown and state._replace(shown=shown)
    if state is None or not message.is_read:
        return state
    if message.channel is Channel.ISDU:
        return with_isdu_data(state, reply.od)
    if any(reply.od[1:]):
        return None
    return with_octet(state, page, message, reply.od[0])


def with_octet(state, page, message, octet):
    """A state of which this address reads as this octet (DEV-7)."""
    if message.channel is Channel.DIAGNOSIS:
        return with_diagnosis(state, message.address, octet)
    known = 0
    if message.channel is Channel.PAGE and message.address == CYCLE_TIME:
        known = state.cycle
        state = state._replace(cycle=octet)
    elif message.channel is Channel.PAGE and message.address in PAGE:
        known = page.get(message.address)
    return state if known in (None, octet) else None


def with_diagnosis(state, address, octet):
    """EVT-4."""
    shown = NONE_SHOWN if state.shown in (None, FRESH) else state.shown
    told = shown.with_status(octet) if address == 0 else shown.with_octet(address, octet)
    if told is None:
        return None
    return state if shown is NONE_SHOWN else state._replace(shown=told)


def with_isdu_data(state, od):
    """ISDU-11, DEV-13."""
    if isinstance(state.isdu, Handed):
        return state if od[0] == BUSY and not any(od[1:]) else None
    if not isinstance(state.isdu, Had):
        return None if any(od) else state
    had = state.isdu.with_segment(od)
    return state._replace(isdu=had) if had and had.answer() else None
