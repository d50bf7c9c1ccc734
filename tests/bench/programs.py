"""The programs that are compared and timed, and the cases that both of them have."""
import os
import shutil
import subprocess
import sys
from pathlib import Path
from typing import NamedTuple

BENCH = Path(__file__).resolve().parent
ROOT = BENCH.parent.parent
IOLINK = ROOT / "crates" / "iolink" / "out" / "iolink"
IOL_BENCH = ROOT / "crates" / "iol_bench" / "out" / "iol_bench"
PLAIN = BENCH / "plain"


class Case(NamedTuple):
    name: str
    says: str
    # how often it is done while instructions are counted, and while it is timed
    counted: int
    timed: int
    # the instructions that an item is to need at most; where there is none, as many as in plain
    goal: int | None = None


CASES = [
    Case("idle", "idle turn", 1_000, 400_000, 590),
    Case("idle_data", "the same, 32 octets of process data each way", 1_000, 200_000, 820),
    Case("read", "read of 14 octets, all its turns", 300, 9_000, 5_100),
    Case("write", "write of 232 octets, all its turns", 100, 4_000, 29_000),
    Case("startup", "restart and start-up, 15 turns", 300, 20_000, 7_200),
    Case("down", "turn in down", 1_000, 1_000_000, 62),
    Case("hear", "the device hears a message", 1_000, 1_000_000, 267),
    Case("message", "message of 66 octets and reply of 65, written and read", 1_000, 1_000_000, 369),
    Case("checksum", "checksum of 66 octets", 1_000, 4_000_000),
    Case("script", "script of 20 lines read", 300, 50_000, 9_000),
    Case("ports1", "turn of 1 port, served by its worker", 1_000, 200_000, 630),
    Case("ports2", "turn of each of 2 ports", 1_000, 100_000),
    Case("ports4", "turn of each of 4 ports", 1_000, 50_000),
    Case("ports8", "turn of each of 8 ports", 500, 20_000),
    Case("ports32", "turn of each of 32 ports", 100, 5_000),
    Case("seat", "image read at a seat", 1_000, 2_000_000, 42),
]


def cargo():
    """The path of cargo: by PATH, or where rustup puts it. None where it is missing."""
    return shutil.which("cargo") or shutil.which("cargo", path=Path.home() / ".cargo" / "bin")


def built(program):
    """The path of a proved program, which has to be there."""
    if not os.access(program, os.X_OK):
        sys.exit(f"{program} is not built: 'rt run' in its crate's folder builds it")
    return str(program)


def build_plain():
    """Builds the plain program, and answers its path."""
    subprocess.run([cargo(), "build", "--release", "--quiet"], cwd=PLAIN, check=True)
    return str(PLAIN / "target" / "release" / "plain")
