"""Messages, replies, pages and ISDUs as octets, by the rules OCT to SEG of docs/protocol.md."""
from enum import Enum, auto
from functools import lru_cache, reduce
from itertools import product
from operator import xor
from typing import NamedTuple, Optional

SIZES = (1, 2, 8, 32)
MOST_PROCESS_DATA = 32
OLD, PRESENT = 0x10, 0x11
PAGE = range(0x02, 0x0C)
# M-sequence Capability, RevisionID, ProcessDataIn, ProcessDataOut
LAYOUT_OCTETS = (0x03, 0x04, 0x05, 0x06)
CYCLE_TIME = 0x01
START = 0x10
COUNTS = 16
EVENT_FLAG, PD_STATUS, SUM_BITS = 0x80, 0x40, 0x3F
BUSY = 0x01
# the qualifier, and two octets of the code
EVENT_SIZE = 3


class Channel(Enum):
    PROCESS = 0
    PAGE = 1
    DIAGNOSIS = 2
    ISDU = 3


class Mode(Enum):
    STARTUP = auto()
    PREOPERATE = auto()
    OPERATE = auto()


MODE_COMMANDS = {0x97: Mode.STARTUP, 0x9A: Mode.PREOPERATE, 0x99: Mode.OPERATE}

# Checksums


def compressed(sum_):
    """CHK-1: six bits of eight, the highest first."""
    named = ((7, 5, 3, 1), (6, 4, 2, 0), (7, 6), (5, 4), (3, 2), (1, 0))
    bits = [sum(sum_ >> place for place in places) & 1 for places in named]
    return reduce(lambda made, bit: 2 * made + bit, bits)


COMPRESSED = [compressed(sum_) for sum_ in range(256)]


def with_checksum(octets, place):
    """The octets, with their checksum in the low six bits at a place."""
    plain = bytearray(octets)
    plain[place] &= ~SUM_BITS
    plain[place] |= COMPRESSED[reduce(xor, plain, 0x52)]
    return bytes(plain)


@lru_cache(None)
def has_checksum(octets, place):
    """CHK-2."""
    return with_checksum(octets, place) == octets


# Layouts


class Layout(NamedTuple):
    """How many octets each part of a message has."""

    od: int
    pd_in: int = 0
    pd_out: int = 0

    def sequence_type(self):
        """LAY-1."""
        if self.pd_in + self.pd_out:
            return 2
        return 0 if self.od == 1 else 1

    def is_one(self):
        sizes = range(MOST_PROCESS_DATA + 1)
        return self.od in SIZES and self.pd_in in sizes and self.pd_out in sizes


STARTUP = Layout(1)


class Layouts(NamedTuple):
    """What a page asks for. A device of V1.0 has no PREOPERATE."""

    pre: Optional[Layout]
    run: Layout
    has_isdu: bool

    def of(self, mode):
        """DEV-2."""
        if mode is Mode.OPERATE:
            return self.run
        return self.pre if mode is Mode.PREOPERATE and self.pre else STARTUP

    def asked(self, command):
        """The mode that a command asks for, if the device has it (DEV-5)."""
        mode = MODE_COMMANDS.get(command)
        return None if mode is Mode.PREOPERATE and not self.pre else mode


def process_length(octet):
    """PAGE-4: how many octets of process data, None where it says no length."""
    length = octet & 0x1F
    if octet & 0x80:
        return length + 1 if length >= 2 else None
    return (length + 7) // 8 if length <= 16 else None


def operate_size(code, has_process_data):
    """LAY-4: the on-request data of OPERATE, None where the code has none."""
    if code == 1:
        return None if has_process_data else 2
    return {0: 1, 4: 1, 5: 2, 6: 8, 7: 32}.get(code)


def layouts_of(capability, revision, input_, output):
    """PAGE-5: what a page asks for, None where it is refused."""
    pd_in, pd_out = process_length(input_), process_length(output)
    if revision not in (OLD, PRESENT) or pd_in is None or pd_out is None:
        return None
    od = operate_size(capability >> 1 & 7, pd_in + pd_out > 0)
    if od is None:
        return None
    pre = None if revision == OLD else Layout(SIZES[capability >> 4 & 3])
    return Layouts(pre, Layout(od, pd_in, pd_out), bool(capability & 1))


# Messages and replies


class Control(NamedTuple):
    """The first octet of a message."""

    is_read: bool
    channel: Channel
    address: int


@lru_cache(None)
def control_of(octet):
    """OCT-1."""
    return Control(octet >= 0x80, Channel(octet >> 5 & 3), octet & 0x1F)


class Message(NamedTuple):
    is_read: bool
    channel: Channel
    address: int
    out: bytes
    od: bytes

    def writes(self, channel, address):
        return not self.is_read and self.channel is channel and self.address == address

    def command(self):
        """The octet of a master command, None where it is no command."""
        return self.od[0] if self.writes(Channel.PAGE, 0) else None

    def is_confirm(self):
        """EVT-2."""
        return self.writes(Channel.DIAGNOSIS, 0)


@lru_cache(None)
def message_in(layout, octets):
    """MSG-3: the message that octets are in a layout, None where they are none."""
    control = control_of(octets[0])
    length = 2 + layout.pd_out + (0 if control.is_read else layout.od)
    if len(octets) != length or octets[1] >> 6 != layout.sequence_type():
        return None
    if not has_checksum(octets, 1):
        return None
    return Message(*control, octets[2 : 2 + layout.pd_out], octets[2 + layout.pd_out :])


class Reply(NamedTuple):
    od: bytes
    input: bytes
    has_event: bool
    is_invalid: bool

    def octets(self):
        """MSG-2."""
        status = EVENT_FLAG * self.has_event | PD_STATUS * self.is_invalid
        return with_checksum(self.od + self.input + bytes([status]), -1)


@lru_cache(None)
def reply_in(layout, is_read, octets):
    """MSG-4: the reply that octets are in a layout, None where they are none."""
    size = layout.od if is_read else 0
    if len(octets) != size + layout.pd_in + 1 or not has_checksum(octets, -1):
        return None
    status = octets[-1]
    return Reply(octets[:size], octets[size:-1], status >= EVENT_FLAG, bool(status & PD_STATUS))


@lru_cache(None)
def is_good(sent, came):
    """Whether some layout has what was sent as a message, and what came as a reply to it."""
    if came is None:
        return False
    for od in SIZES:
        front, back = (0, od) if control_of(sent[0]).is_read else (od, 0)
        layout = Layout(od, len(came) - 1 - back, len(sent) - 2 - front)
        if layout.is_one() and is_good_in(layout, sent, came):
            return True
    return False


def is_good_in(layout, sent, came):
    is_read = control_of(sent[0]).is_read
    return bool(message_in(layout, sent) and reply_in(layout, is_read, came))


def is_readable(layouts, sent, came):
    """WIRE-2: the layout of some mode, as far as these are known, has what was sent as a message,
    and what came as a reply to it."""
    known = [layouts.of(mode) for mode in Mode] if layouts else [STARTUP]
    return came is not None and any(is_good_in(layout, sent, came) for layout in known)


# Kinds of device


class HandsOver(Enum):
    """DEV-20: when a device hands a request to its application."""

    FIRST_READ = auto()
    LAST_SEGMENT = auto()


class Recalls(Enum):
    """DEV-20: how long a device knows an answer."""

    UNTIL_LEFT = auto()
    UNTIL_SENT = auto()


class DeviceKind(NamedTuple):
    hands_over: HandsOver
    recalls: Recalls


OWN_KIND = DeviceKind(HandsOver.FIRST_READ, Recalls.UNTIL_LEFT)
DEVICE_KINDS = [DeviceKind(*parts) for parts in product(HandsOver, Recalls)]

# ISDUs


class Kind(Enum):
    READ = auto()
    WRITE = auto()


class Stage(Enum):
    """Octets that are no whole text: too few yet, or of a length that no text has."""

    OPEN = auto()
    WRONG = auto()


SHORT, LONG = range(2, 16), range(17, 239)
REQUESTS = {
    1: (Kind.WRITE, range(3, 237)),
    2: (Kind.WRITE, range(4, 238)),
    3: (Kind.WRITE, range(5, 239)),
    9: (Kind.READ, [3]),
    10: (Kind.READ, [4]),
    11: (Kind.READ, [5]),
}


def joined(octets):
    """SEG-5: the whole text that octets begin with, or why there is none."""
    total, lengths = octets[0] & 0x0F, SHORT
    if total == 1:
        if len(octets) == 1:
            return Stage.OPEN
        total, lengths = octets[1], LONG
    if total not in lengths:
        return Stage.WRONG
    return octets[:total] if len(octets) >= total else Stage.OPEN


def request_kind(text):
    """ISDU-3: what a whole text asks for, None where it is no request."""
    kind, lengths = REQUESTS.get(text[0] >> 4, (None, []))
    return kind if len(text) in lengths and reduce(xor, text) == 0 else None


class Answer(NamedTuple):
    """What stands in the text of an answer: its service, and its body."""

    service: int
    body: bytes

    def text(self):
        """ISDU-1, ISDU-4."""
        front = text_head(self.service, len(self.body)) + self.body
        return front + bytes([reduce(xor, front)])

    def fits(self, kind):
        """ISDU-8."""
        return len(self.body) in BODIES[kind].get(self.service, [])


DATA, DATA_REFUSED, WRITTEN, WRITE_REFUSED = 13, 12, 5, 4
# The lengths of the body of each service that answers.
BODIES = {
    Kind.READ: {DATA_REFUSED: [2], DATA: range(233)},
    Kind.WRITE: {WRITTEN: [0], WRITE_REFUSED: [2]},
}


def text_head(service, length):
    """ISDU-2: what stands before a body of this length."""
    if length + 2 in SHORT:
        return bytes([service << 4 | length + 2])
    return bytes([service << 4 | 1, length + 3])


def segment(text, size, number):
    """SEG-1."""
    return text[number * size : (number + 1) * size].ljust(size, b"\0")
