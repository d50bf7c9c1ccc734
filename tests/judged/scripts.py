"""Pseudo-random scripts of `iolink trace`, of ports for our own devices and for any."""
import importlib.machinery
import importlib.util
import sys
from pathlib import Path

BENCH = Path(__file__).resolve().parent.parent / "bench"
DEVICES = ["own", "any"]
KINDS = ["first keeps", "first forgets", "last keeps", "last forgets"]
LOSSES = ["outlost", "backlost", "outdamaged", "backdamaged", "nowake"]
# The first octet of an answer of one octet of data, behind which each octet more adds 1
SHORTEST, SHORT_DATA = 0xD3, range(1, 14)
# What a script stirs a request with
CANCELS, OUTPUTS, ALL = "cancels", "outputs", "all"


def writer_of_scripts():
    """The class of tests/bench/compare that writes a script."""
    sys.path.insert(0, str(BENCH))
    loader = importlib.machinery.SourceFileLoader("compare", str(BENCH / "compare"))
    made = importlib.util.module_from_spec(importlib.util.spec_from_loader("compare", loader))
    loader.exec_module(made)
    return made.Writer


Writer = writer_of_scripts()


# By its seed a script that is chosen, not drawn. In that of seed 0 a device shows two events, and a
# session ends before its first good reply: only its test read tells of the events.
CHOSEN = {
    0: b"""\
page 17 01 11 00 00 12 34 00 01 07
wire raise 16 B41F
wire clean 20
wire raise 12 D597
wire raise 5B BD8C
wire outlost 3
wire clean 1
wire outlost 3
turn 60
"""
}


def script(seed):
    """A script of a port for our own devices, or by every second seed for any."""
    return f"devices {DEVICES[seed % 2]}\n".encode() + Writer(seed).script()


class StirringWriter(Writer):
    """Writes a script with a fate for each turn, and calls between the messages of a request: at
    devices of each kind, of which another may be plugged in."""

    def octets(self, count):
        """Often such that an answer with them ends in zeros: its own first octet, then zeros."""
        if count not in SHORT_DATA or self.chance(0.5):
            return super().octets(count)
        return f"{SHORTEST + count - 1:02X}" + "00" * (count - 1)

    def settings(self):
        pick = self.random.choice
        self.lines.append(f"devices {pick(['any', *DEVICES])}")
        if self.chance(0.7):
            self.lines.append(f"kind {pick(KINDS)}")
        if self.chance(0.1):
            self.lines.append("pulses missed")
        super().settings()
        self.loses, self.stirs = pick([0.05, 0.2, 0.4]), pick([0.1, 0.3, 0.9])
        self.stirred_with = pick([CANCELS, OUTPUTS, ALL])

    def fate(self):
        if self.chance(0.05):
            return self.wire()
        return f"wire {self.random.choice(LOSSES) if self.chance(self.loses) else 'clean'} 1"

    def call_between(self):
        if self.stirred_with == CANCELS:
            return f"cancel {self.random.randrange(max(1, self.tickets - 3), self.tickets + 2)}"
        if self.stirred_with == OUTPUTS:
            return f"output {self.octets(self.pd_out or 1) if self.chance(0.6) else 'none'}"
        return self.call()

    def script(self):
        self.settings()
        if self.chance(0.8):
            self.lines += ["wire clean 20", "turn 20"]
        for _ in range(self.random.randrange(20, 150)):
            if self.chance(0.3):
                self.lines.append(self.request())
            if self.chance(self.stirs):
                self.lines.append(self.call_between())
            self.lines += [self.fate(), "turn 1"]
        self.lines += ["wire auto on", "turn 40"]
        return "\n".join(self.lines).encode() + b"\n"


def stirring_script(seed):
    return StirringWriter(seed).script()
