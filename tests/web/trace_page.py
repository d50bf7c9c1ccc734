"""What the checks of the page share: the page, the program, and the texts of the repository."""
import glob
import os
import subprocess

import row
from difference import difference

ROOT = os.path.dirname(os.path.dirname(os.path.dirname(os.path.realpath(__file__))))
PAGE = f"file://{ROOT}/web/trace.html"
# A larger row takes the page too long.
MOST_OCTETS = 110_000
LONGEST_LINE = 1024


def read(path):
    with open(path, encoding="utf-8") as it:
        return it.read()


def unlike(is_there, wanted):
    if is_there == wanted:
        return ""
    if isinstance(is_there, str) and isinstance(wanted, str) and "\n" in wanted:
        told = difference(wanted.splitlines(True), is_there.splitlines(True))
        return "\n".join(["it is not what is wanted (-), but (+)", *told])
    return f"is {is_there!r}, and not {wanted!r}"


def missing(part, text):
    return "" if part in text else f"{part!r} is not in {text[:400]!r}"


def script_of(name):
    """The script of a row, which may be empty."""
    return row.read(name).text.decode()


def is_plain(it):
    """Whether a row is run once, with an input as it is written, which a page opens in time."""
    return not it.each and not it.is_directory and not it.is_bounded() and not it.is_made


class Room:
    """The open page, the program, and a folder for files."""

    def __init__(self, window, program, folder):
        self.window = window
        self.program = program
        self.folder = folder

    def trace_of(self, script):
        """What `iolink trace` prints for a script, or None if it refuses it."""
        ran = subprocess.run([self.program, "trace"], input=script.encode(), capture_output=True, check=False)
        return ran.stdout.decode() if ran.returncode == 0 else None

    def examples(self):
        """The names of the examples, with their traces; None is no script of `trace`."""
        paths = sorted(it for it in glob.glob(f"{ROOT}/examples/*") if os.path.isfile(it))
        return {os.path.basename(it): self.trace_of(read(it)) for it in paths}

    def row_traces(self):
        """The traces that the rows want, by name."""
        found = [it for it in row.rows("*/trace_*") if 0 < len(it.stdout) <= MOST_OCTETS]
        return {it.name: it.stdout.decode() for it in found}

    def run_traces(self):
        """The traces of the rows of `run` that have one script, and that `trace` takes."""
        made = {}
        for it in row.rows("*/run_*"):
            trace = self.trace_of(it.text.decode()) if is_plain(it) and not it.status else None
            # The octets of a set may be more than a line has room for, that `judge` and the page read.
            if trace is not None and max(map(len, trace.splitlines()), default=0) <= LONGEST_LINE:
                made[it.name] = trace
        return made

    def file_of(self, text, name="given"):
        path = f"{self.folder}/{name}"
        with open(path, "w", encoding="utf-8") as it:
            it.write(text)
        return path

    def open_page(self, address=""):
        self.window.go(PAGE + address)

    def open_text(self, text):
        """Opens a text as a file, and waits until it is drawn."""
        self.window.run("page.state.name = ''")
        self.window.choose_file("#file", self.file_of(text))
        self.window.until("page.state.name === 'given'")
        self.window.rest_drawn()

    def counts(self):
        """The numbers that the page shows."""
        return self.window.run(
            "Object.fromEntries([...document.querySelectorAll('[data-count]')].map((it) => "
            "[it.dataset.count, Number(it.textContent.replace(/,/g, ''))]))"
        )

    def fault(self):
        """What the page says of a line that it can't read, or ''."""
        return self.window.run(
            "document.getElementById('fault').hidden ? '' : document.getElementById('fault').innerText"
        )

    def chosen(self):
        """The number of the exchange that is chosen."""
        return self.window.run("page.state.trace.exchanges[page.state.chosen]?.number ?? null")

    def press(self, key, text=None):
        self.window.key(key, text=text)
        self.window.rest_drawn()
