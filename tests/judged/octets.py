"""Calls as the UART decoder of a logic analyser shows them: an octet a line, with its time.

A call of the wire that is a wake-up request has a test read behind it, of which a trace says only
whether it was answered. On the line its reply has octets, which have to be those of the device.
"""
from rules import EVENT_FLAG, is_good, with_checksum
from search import Exchange, Wake

# In nanoseconds, at COM3; an octet has 11 bits
BIT = 10**9 // 230400
FRAME = 11 * BIT
# Before a reply begins, between two of its octets, and before the next call
RESPONSE, GAP, PAUSE = 5 * BIT, BIT, 300 * BIT
TEST_READ = bytes([0xA2, 0x00])
# What MinCycleTime reads as, where no exchange of the trace says it
ANY_CYCLE = 0x17


def min_cycle(calls):
    """MinCycleTime, as a read of the trace had it."""
    for call in calls:
        if not isinstance(call, Wake) and call.sent == TEST_READ and call.came:
            if is_good(call.sent, call.came):
                return call.came[0]
    return ANY_CYCLE


def event_flag(calls):
    """That of the first good reply of these, 0 where there is none. Up to it no event is confirmed,
    so a device that shows events there may show them from the wake-up request on: it has to, where
    it showed them before. Wake-up requests between leave them as they are."""
    for call in calls:
        if not isinstance(call, Wake) and is_good(call.sent, call.came):
            return call.came[-1] & EVENT_FLAG
    return 0


def test_reply(calls, place):
    """What comes back to the answered test read of the wake-up request at this place."""
    return with_checksum(bytes([min_cycle(calls), event_flag(calls[place + 1 :])]), 1)


def no_test_reply(calls, place):
    """What comes back to one that isn't answered: nothing, an octet, or a reply with a bit flipped."""
    first, check = test_reply(calls, place)
    return [None, bytes([first]), bytes([first, check ^ 1])][calls[place].number % 3]


def exchange_of(calls, place):
    """A call, or the test read behind it where it is a wake-up request."""
    call = calls[place]
    if isinstance(call, Wake):
        reply = test_reply if call.is_answered else no_test_reply
        return Exchange(call.number, TEST_READ, reply(calls, place))
    return call


def on_the_line(calls):
    """The calls with the test reads behind wake-up requests, as the line has them."""
    for place, call in enumerate(calls):
        if isinstance(call, Wake):
            yield call
        yield exchange_of(calls, place)


def seconds(time):
    return f"{time // 10**9}.{time % 10**9:09}"


def shown(calls, shows_wakes):
    """What a decoder shows of these calls: for each call a list of times, each with an octet or
    `wake`."""
    time = PAUSE
    for place, call in enumerate(calls):
        lines = []
        if shows_wakes and isinstance(call, Wake):
            lines.append((time, "wake"))
            time += PAUSE
        exchange = exchange_of(calls, place)
        came = exchange.came or b""
        for octets, gap, behind in ((exchange.sent, 0, RESPONSE), (came, GAP, PAUSE)):
            for octet in octets:
                lines.append((time, f"{octet:02X}"))
                time += FRAME + gap
            time += behind
        yield lines


def exported(calls, shows_wakes):
    """The text that a decoder exports of these calls."""
    return "".join(
        f"{seconds(time)} {what}\n" for lines in shown(calls, shows_wakes) for time, what in lines
    ).encode()


def times(calls):
    """When each of these calls began, where wake-up requests are shown."""
    return [seconds(lines[0][0]) for lines in shown(calls, True)]
