#!/usr/bin/env python3
"""The drivers of examples/c and examples/python over pseudo terminals: tests/c/serial.py FOLDER LIBRARY

FOLDER has the programs `master`, `device` and `relay`, LIBRARY is the shared one, for Python. Each program is a process of
its own; the relay loses and damages messages and replies. A device is killed and started, or another one plugged in; a
master is killed. The last line is `N passed, M failed`.
"""
import os
import re
import signal
import subprocess
import sys
import threading
import time
import traceback
from concurrent.futures import ThreadPoolExecutor
from pathlib import Path

FOLDER, LIBRARY = sys.argv[1:]
PYTHON = Path(__file__).resolve().parents[2] / "examples" / "python"
# What the system may add to the times of the line, in microseconds: enough for a machine that is busy with other tests.
SLACK = "200000"
PATIENCE = 600


class Process:
    """A program whose lines are kept as they come."""

    def __init__(self, name, *words):
        command = [f"{FOLDER}/{name}", *words]
        self.process = subprocess.Popen(
            command, stdin=subprocess.PIPE, stdout=subprocess.PIPE, stderr=subprocess.STDOUT, text=True, bufsize=1
        )
        self.lines = []
        self.reader = threading.Thread(target=self.read)
        self.reader.start()

    def read(self):
        for line in self.process.stdout:
            self.lines.append(line.rstrip("\n"))

    def ask(self, *lines):
        self.process.stdin.write("".join(f"{it}\n" for it in lines))
        self.process.stdin.flush()

    def until(self, wanted, behind=0):
        """The place of the first line from there on that is wanted."""
        end = time.monotonic() + PATIENCE
        while time.monotonic() < end:
            for at in range(behind, len(self.lines)):
                if re.fullmatch(wanted, self.lines[at]):
                    return at
            time.sleep(0.01)
        raise AssertionError(f"no line {wanted} among {self.lines[behind:]}")

    def status(self):
        """The status, once it has ended."""
        self.process.stdin.close()
        status = self.process.wait(PATIENCE)
        self.reader.join()
        return status

    def end(self, by=signal.SIGTERM):
        self.process.send_signal(by)
        status = self.status()
        assert status == (-by if by == signal.SIGKILL else 0), (status, self.lines)


class Cable:
    """A relay with what is at its ends, all of which has to end well."""

    def __init__(self, lost=0, damaged=0, delay=0):
        self.relay = Process("relay", str(lost), str(damaged), str(delay), "7")
        self.relay.until("device .*")
        self.master_at, self.device_at = (it.split()[1] for it in self.relay.lines)
        self.all = [self.relay]

    def __enter__(self):
        return self

    def __exit__(self, *_):
        for it in reversed(self.all):
            if it.process.poll() is None:
                it.process.kill()
                it.status()

    def start(self, name, *words):
        self.all.append(Process(name, *words))
        return self.all[-1]

    def master(self):
        return self.start("master", self.master_at, SLACK)

    def device(self, rate="2", number="107"):
        return self.start("device", self.device_at, SLACK, rate, number)


def counted(master):
    """What the master has counted, by name."""
    words = next(it for it in master.lines if it.startswith("exchanges ")).split()
    return dict(zip(words[::2], map(int, words[1::2])))


def are_once(master, writes, did):
    """What was told as written the device did, and nothing else but what isn't known: no write twice."""
    ends = [it.split()[2] for it in master.lines if it.startswith("ticket ")][:writes]
    assert set(ends) <= {"written", "unknown"}, ends
    assert ends.count("written") <= did <= writes, (ends.count("written"), did)


def ends_of_writes(cable, turns, writes):
    """So many writes at a device that counts them, with turns between: what the master told, and what the device did."""
    device, master = cable.device(), cable.master()
    master.until("operate COM2")
    master.ask(*(it for _ in range(writes) for it in ("write 25 01", f"turns {turns // writes}")))
    # Where the line is bad a read may end without an answer as well.
    read, ticket = "", writes
    while " read " not in read:
        ticket += 1
        master.ask("read 25")
        read = master.lines[master.until(rf"ticket {ticket} .*")]
    master.ask("counters")
    assert master.status() == 0, master.lines
    device.end()
    cable.relay.end()
    return master, int("".join(read.split()[3:]), 16)


def good_turns():
    """100,000 turns, few of which are disturbed: each write is told as done, and was, once."""
    with Cable(lost=3, damaged=3) as cable:
        master, did = ends_of_writes(cable, 100_000, 200)
        sums = counted(master)
        carried = dict(zip(*[iter(cable.relay.lines[-1].split())] * 2))
    assert sums["exchanges"] >= 100_000, sums
    bad = sums["none"] + sums["length"] + sums["checksum"]
    assert sums["exchanges"] == sums["good"] + bad, sums
    assert int(carried["lost"]) + int(carried["damaged"]) >= 50, carried
    are_once(master, 200, did)


def bad_line():
    """A slow line that loses and damages much: links are lost, and yet no write is done twice, nor told
    as done that wasn't."""
    with Cable(lost=800, damaged=800, delay=2000) as cable:
        master, did = ends_of_writes(cable, 300, 30)
    assert "down 19" in master.lines
    are_once(master, 30, did)


def rates():
    """A device at each of the three rates is found."""
    for rate in "123":
        with Cable() as cable:
            cable.device(rate)
            master = cable.master()
            master.until(f"operate COM{rate}")
            master.ask("read 16")
            master.until(r"ticket 1 read 74 68 65 .*")


def device_killed():
    """A device that is killed is told as lost, and found once it is started again."""
    with Cable() as cable:
        device, master = cable.device(), cable.master()
        master.until("operate COM2")
        master.ask("write 24 2A", "turns 50")
        master.until("ticket 1 written")
        device.end(signal.SIGKILL)
        lost = master.until("down 19")
        cable.device()
        master.until("operate COM2", lost)
        master.ask("read 24")
        master.until("ticket 2 read 00")
        assert master.status() == 0


def swapped():
    """Another device isn't used where one is expected; that one is, once it is back."""
    with Cable() as cable:
        device, master = cable.device(), cable.master()
        master.until("operate COM2")
        master.ask("expect 1234 107", "turns 20")
        device.end()
        lost = master.until("down 19")
        other = cable.device(number="108")
        wrong = master.until("down 38", lost)
        master.ask("read 16")
        other.end()
        assert "mode 4" not in other.lines, other.lines
        cable.device()
        back = master.until("operate COM2", wrong)
        master.until("ticket 1 read 74 .*", back)


def process_data():
    """Input, output and an event come to the other end, a refusal to the client."""
    with Cable() as cable:
        device, master = cable.device(), cable.master()
        master.until("operate COM2")
        master.ask("output A5", "write 24 65", "write 26 01", "turns 30", "input")
        device.until("output A5")
        master.until("event E4 8C10")
        master.until("ticket 2 refused 80 11")
        master.until("input [0-9A-F]{2} [0-9A-F]{2}")
        assert master.status() == 0
        device.end()


def master_killed():
    """The output of a master that is killed ends by the device's patience."""
    with Cable() as cable:
        device, master = cable.device(), cable.master()
        master.until("operate COM2")
        master.ask("output 5A")
        valid = device.until("output 5A")
        master.end(signal.SIGKILL)
        device.until("output none", valid)
        master = cable.master()
        master.until("operate COM2")
        device.end()


def python(*words):
    """What Python prints with the module in examples/python."""
    how = {"capture_output": True, "text": True, "timeout": PATIENCE, "cwd": PYTHON}
    ran = subprocess.run([sys.executable, *words], env={**os.environ, "IOLINK_LIBRARY": LIBRARY}, **how)
    assert ran.returncode == 0, ran.stdout + ran.stderr
    return ran.stdout


def read_by_python():
    """Ten lines of Python read a parameter of the device in C."""
    with Cable() as cable:
        cable.device()
        assert python("read.py", cable.master_at, "16") == "74 68 65 72 6D 6F 6D 65 74 65 72\n"


def documented():
    """The examples of the Python module's text."""
    python("-m", "doctest", "iolink.py")


def is_right(case):
    try:
        began = time.monotonic()
        case()
        print(f"{case.__name__}: {time.monotonic() - began:.0f} s")
        return True
    except Exception:
        print(f"{case.__name__}: {traceback.format_exc()}")
        return False


def main():
    cases = [good_turns, bad_line, rates, device_killed, swapped, process_data, master_killed, read_by_python, documented]
    with ThreadPoolExecutor(len(cases)) as pool:
        right = list(pool.map(is_right, cases))
    print(f"{sum(right)} passed, {len(right) - sum(right)} failed")
    return not all(right)


if __name__ == "__main__":
    sys.exit(main())
