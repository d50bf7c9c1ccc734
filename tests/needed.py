"""What a test needs: a folder with the programs that it runs, and programs of Debian's packages."""
import subprocess
from pathlib import Path

ROOT = Path(__file__).resolve().parent.parent


def folder_with(named, *programs):
    """The folder that is named; where none is, `out`, in which tests/unproved keeps these programs."""
    if named:
        return Path(named).resolve()
    subprocess.run([ROOT / "tests" / "unproved", ROOT / "out", *programs], check=True)
    return ROOT / "out"


def is_skipped(program):
    """Whether a program is missing for which tests/needs looks. Says so in the last line of the test."""
    looked = subprocess.run([ROOT / "tests" / "needs", program], stdout=subprocess.PIPE, text=True)
    if looked.returncode != 0:
        print(f"skipped: {looked.stdout}", end="")
    return looked.returncode != 0
