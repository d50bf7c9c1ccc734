"""IO-Link for Python: a port of a master with its log, a device and a serial line, over the library `iolink`.

The library is the one that IOLINK_LIBRARY names, or `libiolink.so` where the system finds it (include/install).

A parameter of a device at a serial line is read so. The line's wake-up request has to be filled in for your transceiver:

    import iolink

    with iolink.Serial("/dev/ttyUSB0") as line, iolink.Port() as port:
        print(port.read(line, 16).decode())

Without a line, a device stands in for one:

>>> device = Device(page=bytes.fromhex("17 2D 11 00 00 12 34 00 01 07"), parameters={16: b"thermometer", 24: b"A"})
>>> with Port() as port:
...     port.read(device, 16)
...     port.write(device, 24, b"B")
...     port.read(device, 24)
...     port.status().mode
b'thermometer'
b'B'
'operate'

What a device refuses, and what isn't known to have been done, are exceptions:

>>> with Port() as port:
...     port.read(device, 99)
Traceback (most recent call last):
iolink.DeviceRefused: ErrorCode 80, AdditionalCode 11

A port keeps a log of its line, for `iolink judge` and the page of traces, in the lines of `iolink trace`:

>>> log = []
>>> with Port(log=log) as port:
...     port.read(device, 24)
b'B'
>>> print("\\n".join(log[:3]))
1 wake COM2
2 > 20 17 97: write page 00 od 97
2 < 2D: ack event 0 pd valid
"""
import ctypes
import os
import select
import termios
import time
import tty
from collections import namedtuple
from ctypes import Structure, byref, c_bool, c_char, c_size_t, c_uint8, c_uint16, c_uint32, c_uint64, c_void_p

library = ctypes.CDLL(os.environ.get("IOLINK_LIBRARY", "libiolink.so"))

MODES = ["none", "down", "startup", "preoperate", "operate"]
RATES = [None, "COM1", "COM2", "COM3"]
BITS_A_SECOND = [1, 4800, 38400, 230400]
NOT_YET, NO_EVENT = 26, 30
MOST_OCTETS = 66


class Refused(Exception):
    """A call that was refused: `number` is as in chapter 11 of docs/guide.md."""

    def __init__(self, call, number):
        super().__init__(f"{call} was refused with {number}")
        self.number = number


class DeviceRefused(Exception):
    """The device carried the request out, and refused it."""

    def __init__(self, octets):
        super().__init__("ErrorCode {:02X}, AdditionalCode {:02X}".format(*octets))
        self.code, self.additional = octets


class Unknown(Exception):
    """Whether the device carried the request out isn't known. `cause` says why."""

    CAUSES = ["none", "link lost", "restarted", "busy too long", "no text of an answer", "cancelled"]

    def __init__(self, cause):
        super().__init__(self.CAUSES[cause])
        self.cause = self.CAUSES[cause]


class NotSent(Exception):
    """The request was never sent: the device has no ISDU, or it was withdrawn."""


def struct(name, **fields):
    """A struct of the headers. One with `length` and `octets` has bytes."""
    made = type(name, (Structure,), {"_fields_": list(fields.items())})
    made.__bytes__ = lambda it: bytes(it.octets[: it.length])
    return made


Handle = struct("Handle", at=c_void_p, is_open=c_bool, opened_at=c_void_p)
Request = struct("Request", kind=c_uint8, sub=c_uint8, index=c_uint16, length=c_uint8, octets=c_uint8 * 232)
Image = struct("Image", length=c_uint8, octets=c_uint8 * 32)
Message = struct(
    "Message", length=c_uint8, octets=c_uint8 * 66, reply=c_uint8, kind=c_uint8, od=c_uint8, pd_in=c_uint8, pd_out=c_uint8
)
TraceLine = struct("TraceLine", length=c_uint16, text=c_char * 896)
Reply = struct("Reply", length=c_uint8, octets=c_uint8 * 66)
Outcome = struct("Outcome", kind=c_uint8, cause=c_uint8, length=c_uint8, octets=c_uint8 * 232)
Page = struct("Page", length=c_uint8, octets=c_uint8 * 10)
EventStruct = struct("EventStruct", qualifier=c_uint8, code=c_uint16)
StatusStruct = struct("StatusStruct", mode=c_uint8, why=c_uint8, event_form=c_bool)
COUNTS = (
    "exchanges good_replies repeats no_reply wrong_length wrong_checksum links_lost start_ups done unknown_link_lost "
    "unknown_restarted unknown_busy_too_long unknown_protocol unknown_cancelled"
).split()
CountersStruct = struct("CountersStruct", **dict.fromkeys(COUNTS, c_uint64))

Event = namedtuple("Event", "qualifier code")
Status = namedtuple("Status", "mode why")


class Owner:
    """What holds a handle of the library."""

    def __init__(self, kind):
        self.kind, self.handle = kind, Handle()

    def call(self, name, *given):
        """A call by its name: refused if its number isn't 0."""
        number = self.number(name, *given)
        if number:
            raise Refused(f"iol_{self.kind}_{name}", number)

    def number(self, name, *given):
        call = getattr(library, f"iol_{self.kind}_{name}")
        call.restype = c_uint8
        return call(byref(self.handle), *given)

    def get(self, name, kind):
        """What a call hands out."""
        out = kind()
        self.call(name, byref(out))
        return out

    def close(self):
        if self.handle.is_open:
            self.call("close")

    def __enter__(self):
        return self

    def __exit__(self, *_):
        self.close()

    def __del__(self):
        self.close()


def counted(octets):
    """Octets as C takes them: a pointer and a count. The pointer is never null."""
    return (c_uint8 * max(len(octets), 1))(*octets), c_size_t(len(octets))


class Port(Owner):
    """A port for any device. `line` has `wake() -> 0 to 3` and `exchange(octets, reply) -> octets`.

    `log` is a list, to which the lines of each turn are added.
    """

    def __init__(self, journal=1000, busy=100, queue=64, given=0, log=None):
        super().__init__("port")
        self.log, self.count = log, 0
        limits = (c_uint32(journal), c_uint16(busy), c_uint8(queue), c_uint64(given))
        self.call("open", *limits)

    def turn(self, line):
        """One turn: what the port asks for goes out, and what came back goes to the port."""
        sent = self.get("asks", Message)
        if sent.length == 0:
            self.call("turn_woken", c_uint8(line.wake()))
        else:
            self.call("turn_answered", *counted(line.exchange(bytes(sent), sent.reply)))
        if self.log is not None:
            self.keep_lines()

    def keep_lines(self):
        """Adds the lines of the last call of the line to the log."""
        self.count += 1
        out = TraceLine()
        self.call("trace_line", c_uint64(self.count), byref(out))
        self.log += out.text[: out.length].decode().splitlines()

    def ask_read(self, index, sub=0):
        """The ticket of a read, which later turns carry out."""
        return self.ticket("read", c_uint16(index), c_uint8(sub))

    def ask_write(self, index, octets, sub=0):
        return self.ticket("write", c_uint16(index), c_uint8(sub), *counted(octets))

    def ticket(self, name, *given):
        out = c_uint64()
        self.call(name, *given, byref(out))
        return out.value

    def collect(self, ticket):
        """The outcome of a ticket: what was read, or b"" of a write. None while there is none yet."""
        out = Outcome()
        number = self.number("collect", c_uint64(ticket), byref(out))
        if number == NOT_YET:
            return None
        if number:
            raise Refused("iol_port_collect", number)
        if out.kind == 3:
            raise DeviceRefused(bytes(out))
        if out.kind == 8:
            raise Unknown(out.cause)
        if out.kind not in (1, 2):
            raise NotSent()
        return bytes(out)

    def read(self, line, index, sub=0, seconds=10):
        """Reads a parameter: makes turns until it is read."""
        return self.until(line, self.ask_read(index, sub), seconds)

    def write(self, line, index, octets, sub=0, seconds=10):
        """Writes a parameter: makes turns until it is written."""
        self.until(line, self.ask_write(index, octets, sub), seconds)

    def until(self, line, ticket, seconds):
        end = time.monotonic() + seconds
        while time.monotonic() < end:
            self.turn(line)
            got = self.collect(ticket)
            if got is not None:
                return got
            time.sleep(self.cycle())
        raise TimeoutError(f"ticket {ticket} has no outcome yet; the link is in {self.status().mode}")

    def cycle(self):
        """The seconds from one turn to the next: in OPERATE the device's MinCycleTime."""
        page, mode = bytes(self.get("page", Page)), self.status().mode
        if mode != "operate":
            return 0.05 if mode == "down" else 0.001
        first, step = [(0, 100), (6400, 400), (32000, 1600), (0, 0)][page[0] >> 6]
        return (first + step * (page[0] & 63)) / 1e6

    def status(self):
        """The mode of the link, and the number of what led down."""
        out = self.get("status", StatusStruct)
        return Status(MODES[out.mode], out.why)

    def page(self):
        """Direct parameter page 1 of the device, or b""."""
        return bytes(self.get("page", Page))

    def input(self):
        """The device's process data, or b""."""
        return bytes(self.get("image", Image))

    def set_output(self, octets):
        self.call("set_output", *counted(octets))

    def clear_output(self):
        self.call("clear_output")

    def event(self):
        """The oldest event, or None."""
        out = EventStruct()
        number = self.number("take_event", byref(out))
        if number == NO_EVENT:
            return None
        if number:
            raise Refused("iol_port_take_event", number)
        return Event(out.qualifier, out.code)

    def counters(self):
        """What the port has counted, by name."""
        out = self.get("counters", CountersStruct)
        return {it: getattr(out, it) for it in COUNTS}


class Device(Owner):
    """A device whose parameters are a dict of octets by index. It is a line, too, with itself at the other end."""

    def __init__(self, page, parameters=None, rate=2):
        super().__init__("device")
        self.parameters, self.rate = dict(parameters or {}), rate
        self.call("open", (c_uint8 * 10)(*page))

    def hear(self, octets):
        """The reply to octets that came, or b""."""
        out = Reply()
        self.call("hear", *counted(octets), byref(out))
        self.work()
        return bytes(out)

    def work(self):
        """Carries out the request that is handed over, if any."""
        number, asked = c_uint64(), Request()
        self.call("handed", byref(number), byref(asked))
        if asked.kind == 0:
            return
        if asked.index not in self.parameters or asked.sub != 0:
            self.call("answer_refused", number, c_uint8(0x80), c_uint8(0x11))
        elif asked.kind == 1:
            self.call("answer_read", number, *counted(self.parameters[asked.index]))
        else:
            self.call("answer_written", number)
            self.parameters[asked.index] = bytes(asked)

    def wake(self):
        self.call("wake")
        return self.rate

    def exchange(self, octets, reply):
        return self.hear(octets)

    def set_input(self, octets):
        self.call("set_input", *counted(octets))

    def output(self):
        """The process data of the master, or b""."""
        return bytes(self.get("output", Image))

    def raise_event(self, qualifier, code):
        self.call("raise", c_uint8(qualifier), c_uint16(code))


class Serial:
    """A serial line: 8 data bits, even parity. `slack` is what the system adds to the time of a reply, in seconds."""

    def __init__(self, path, slack=0.02):
        self.slack, self.rate = slack, 3
        self.file = os.open(path, os.O_RDWR | os.O_NOCTTY | os.O_NONBLOCK)
        self.set_rate(3)

    def set_rate(self, rate):
        self.rate = rate
        tty.setraw(self.file)
        how = termios.tcgetattr(self.file)
        how[0] |= termios.INPCK | termios.IGNPAR | termios.IGNBRK
        how[2] |= termios.PARENB | termios.CLOCAL | termios.CREAD
        how[4] = how[5] = getattr(termios, f"B{BITS_A_SECOND[rate]}")
        termios.tcsetattr(self.file, termios.TCSADRAIN, how)

    def pulse(self):
        """The wake-up request. Fill it in for your transceiver: this is for a line without one (examples/c/wake.c)."""
        os.write(self.file, b"\x5F")

    def wake(self):
        self.pulse()
        time.sleep(0.0005)
        for rate in (3, 2, 1):
            self.set_rate(rate)
            if len(self.exchange(bytes.fromhex("A2 00"), 2)) == 2:
                return rate
        return 0

    def exchange(self, octets, reply):
        """Sends octets, and waits for the reply as long as it can take (IEC 61131-9, A.3), also after a short one."""
        termios.tcflush(self.file, termios.TCIFLUSH)
        os.write(self.file, octets)
        bits = 12 * len(octets) + 10 + 14 * reply
        end, came = time.monotonic() + bits / BITS_A_SECOND[self.rate] + self.slack, b""
        while len(came) < reply and time.monotonic() < end:
            if select.select([self.file], [], [], max(0, end - time.monotonic()))[0]:
                came += os.read(self.file, MOST_OCTETS - len(came))
        return came

    def __enter__(self):
        return self

    def __exit__(self, *_):
        os.close(self.file)
