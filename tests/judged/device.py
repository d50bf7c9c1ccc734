"""A plain device, by the rules DEV and EVT of docs/protocol.md."""
from dataclasses import dataclass
from typing import NamedTuple, Optional

from rules import (
    BUSY,
    COUNTS,
    CYCLE_TIME,
    LAYOUT_OCTETS,
    OLD,
    PAGE,
    START,
    STARTUP,
    Answer,
    Channel,
    HandsOver,
    Kind,
    Layouts,
    Mode,
    Recalls,
    Reply,
    Stage,
    joined,
    layouts_of,
    message_in,
    request_kind,
    segment,
)

MOST_SHOWN, MOST_WAITING = 6, 32
STATUS_DETAILS = 0x80


class Pending(NamedTuple):
    """A mode command that was heard, and its octets."""

    mode: Mode
    octets: bytes


class Link(NamedTuple):
    mode: Mode
    pending: Optional[Pending]

    def taken(self, octets):
        """The link in which octets are looked at (DEV-3, DEV-4)."""
        if self.pending is None or self.pending.octets == octets:
            return self
        return Link(self.pending.mode, None)

    def after(self, asked, octets):
        """The link behind a message that asks for a mode, or for none (DEV-3)."""
        return self if asked in (None, self.mode) else Link(self.mode, Pending(asked, octets))


WOKEN = Link(Mode.STARTUP, None)


# What a device holds of a request and its answer; None where it holds nothing


class Receiving(NamedTuple):
    text: bytes
    count: Optional[int]


# Of two equal named tuples the classes may differ.


@dataclass(frozen=True)
class Whole:
    kind: Kind
    count: Optional[int]


@dataclass(frozen=True)
class Handed:
    kind: Kind
    # the last COUNT of its text
    count: Optional[int]


class Answered(NamedTuple):
    answer: Answer
    # the number of the segment sent last, None before the first
    sent: Optional[int]
    count: Optional[int]


def received(octets, count):
    """DEV-11."""
    text = joined(octets)
    if text is Stage.OPEN:
        return Receiving(octets, count)
    kind = None if text is Stage.WRONG else request_kind(text)
    return kind and Whole(kind, count)


def isdu_written(hands_over, held, flow, octets):
    """What a device holds behind a write on the ISDU channel (DEV-11, DEV-14, DEV-20)."""
    if hands_over is HandsOver.FIRST_READ:
        return text_written(held, flow, octets)
    is_unsent = isinstance(held, Handed) or isinstance(held, Answered) and held.sent is None
    if is_unsent and flow < COUNTS:
        return held if flow == held.count else None
    made = text_written(held, flow, octets)
    return Handed(made.kind, made.count) if isinstance(made, Whole) else made


def text_written(held, flow, octets):
    """What is held of a text (DEV-11, DEV-14)."""
    if flow == START:
        return received(octets, None)
    if flow >= COUNTS or not isinstance(held, (Receiving, Whole)):
        return None
    if flow == held.count:
        return held
    follows = 1 if held.count is None else (held.count + 1) % COUNTS
    if flow == follows and isinstance(held, Receiving):
        return received(held.text + octets, flow)
    return None


def layouts_by(page):
    """What a page of ten octets asks for; one that asks for no layouts has that of STARTUP."""
    capability, revision, input_, output = (page[at - PAGE[0]] for at in LAYOUT_OCTETS)
    pre = None if revision == OLD else STARTUP
    spare = Layouts(pre, STARTUP, bool(capability & 1))
    return layouts_of(capability, revision, input_, output) or spare


class Device:
    """A device with room for every answer that it gives, awake or asleep."""

    def __init__(self, kind, page, cycle, shown):
        self.kind, self.page, self.cycle = kind, page, cycle
        self.layouts = layouts_by(page)
        self.awake, self.link = False, WOKEN
        self.isdu, self.input = None, None
        self.shown, self.waiting, self.held = list(shown), [], False

    # By itself (DEV-16)

    def power(self):
        self.awake, self.isdu, self.input = False, None, None
        self.shown, self.waiting, self.held = [], [], False

    def raise_event(self, event):
        """EVT-1."""
        if not self.shown and not self.held:
            self.shown = [event]
        elif len(self.waiting) < MOST_WAITING:
            self.waiting.append(event)

    def set_input(self, image):
        """DEV-17; None clears it."""
        size = self.layouts.run.pd_in
        if image is None or (size and len(image) == size):
            self.input = image

    def answer(self, answer):
        """DEV-15."""
        if isinstance(self.isdu, Handed) and answer.fits(self.isdu.kind):
            self.isdu = Answered(answer, None, self.isdu.count)

    # By the line

    def wake(self):
        """DEV-1."""
        self.awake, self.link, self.isdu = True, WOKEN, None
        self.release()

    def hear(self, octets):
        """The octets of the reply, None where there is none (DEV-2)."""
        link = self.link.taken(octets)
        layout = self.layouts.of(link.mode)
        message = message_in(layout, octets) if self.awake else None
        if message is None:
            return None
        if link.mode is not self.link.mode:
            self.isdu = None
        self.link = link.after(self.layouts.asked(message.command()), octets)
        self.work(message, layout)
        return self.reply(message, layout).octets()

    def work(self, message, layout):
        if message.is_confirm():
            self.confirm()
        else:
            self.release()
        if message.writes(Channel.PAGE, CYCLE_TIME):
            self.cycle = message.od[0]
        if message.channel is Channel.ISDU:
            self.work_isdu(message, layout)

    def confirm(self):
        """EVT-2."""
        if not self.held:
            self.shown, self.held = [], True

    def release(self):
        """EVT-3."""
        self.held = False
        if not self.shown:
            self.shown, self.waiting = self.waiting[:MOST_SHOWN], self.waiting[MOST_SHOWN:]

    def work_isdu(self, message, layout):
        """DEV-10."""
        if not self.layouts.has_isdu:
            self.isdu = None
            return
        self.recall(layout.od)
        if message.is_read:
            self.isdu = self.isdu_read(message.address, layout.od)
        else:
            hands_over = self.kind.hands_over
            self.isdu = isdu_written(hands_over, self.isdu, message.address, message.od)

    def recall(self, size):
        """DEV-20: an answer whose last segment was sent is known no more."""
        held = self.isdu
        if self.kind.recalls is Recalls.UNTIL_LEFT or not isinstance(held, Answered):
            return
        if held.sent is not None and (held.sent + 1) * size >= len(held.answer.text()):
            self.isdu = None

    def isdu_read(self, flow, size):
        """DEV-12 to DEV-14."""
        held = self.isdu
        if flow == START and isinstance(held, (Whole, Handed)):
            return Handed(held.kind, held.count)
        if not isinstance(held, Answered):
            return None
        if flow == START:
            return held._replace(sent=0)
        if held.sent is None or flow >= COUNTS:
            return None
        if held.sent > 0 and flow == held.sent % COUNTS:
            return held
        follows = held.sent + 1
        if flow == follows % COUNTS and follows * size < len(held.answer.text()):
            return held._replace(sent=follows)
        return None

    def reply(self, message, layout):
        """DEV-7, DEV-8."""
        od = self.read(message, layout.od) if message.is_read else b""
        has_input = self.input is not None
        image = self.input if layout.pd_in and has_input else bytes(layout.pd_in)
        return Reply(od, image, bool(self.shown), bool(layout.pd_in) and not has_input)

    def read(self, message, size):
        if message.channel is Channel.ISDU:
            return self.isdu_data(size)
        octet = 0
        if message.channel is Channel.PAGE:
            octet = self.page_octet(message.address)
        if message.channel is Channel.DIAGNOSIS:
            octet = self.event_octet(message.address)
        return bytes([octet]).ljust(size, b"\0")

    def page_octet(self, address):
        """PAGE-1."""
        if address == CYCLE_TIME:
            return self.cycle
        return self.page[address - PAGE[0]] if address in PAGE else 0

    def event_octet(self, address):
        """EVT-4."""
        if address == 0:
            return STATUS_DETAILS | (1 << len(self.shown)) - 1
        octets = b"".join(self.shown)
        return octets[address - 1] if address <= len(octets) else 0

    def isdu_data(self, size):
        """ISDU-11, DEV-13."""
        if isinstance(self.isdu, Handed):
            return bytes([BUSY]).ljust(size, b"\0")
        if isinstance(self.isdu, Answered):
            return segment(self.isdu.answer.text(), size, self.isdu.sent)
        return bytes(size)
