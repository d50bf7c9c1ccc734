#!/usr/bin/env python3
"""Reads the rows of tests/rows: what a program reads, and what it has to write. All that use rows read them by this.

    tests/row.py AREA/NAME FOLDER

puts the row into files of FOLDER for scripts of the shell: `program`, `args` (a word a line), `stdin` and `stdout`.

A row is a file AREA/NAME.row: the command, what it reads, and behind a line of `----` what it has to print:

    $ iolink check
    m A2 00
    ----
    read page 02

Other parts, each begun by a line of its own, come in any order behind what is read:

    ---- stderr            what it has to print on standard error
    ---- status 1          the exit status, if it isn't 0
    ---- each              texts, one a line. The row is run once with each of them in the place of the word EACH
    ---- stdin directory   standard input is a folder
    ---- stdout full       where standard output goes; or `closed`
    ---- memory 40000      how many KiB of addresses the program may have

A text is its lines. All in it is seen: \\n, \\r and \\t stand for these octets, \\\\ for a backslash, \\x and two digits for
any octet; a line that ends with a backslash has no line feed; no line ends with a blank. A line may stand for others:

    @repeat 64 LINE        this line so many times
    @count 1 64 LINE       this line for each number from the first to the last, in the place of the word NUMBER
    @file PATH             what is in that file of the repository

A line that begins with `@` or `----` itself begins with \\x40 or \\x2D.
"""
import re
import sys
from dataclasses import dataclass, field
from fnmatch import fnmatchcase
from pathlib import Path

ROOT = Path(__file__).resolve().parent.parent
ROWS = ROOT / "tests" / "rows"
PROGRAMS = ("iolink", "iol_probe")
PART = b"----"
ESCAPE = re.compile(rb"\\(?:x([0-9A-F]{2})|(.?))", re.DOTALL)
PLAIN = {b"n": b"\n", b"r": b"\r", b"t": b"\t", b"\\": b"\\"}
# What a row's file may not have: octets that aren't seen, and blanks at the end of a line.
UNSEEN = re.compile(rb"[^\n -~]| $", re.MULTILINE)


class NoRow(Exception):
    """What is wrong with the file of a row."""


def shown(octets):
    return octets.decode(errors="backslashreplace")


def unescaped(text):
    """The octets for which a text stands."""

    def octet(found):
        if found[1]:
            return bytes([int(found[1], 16)])
        if found[2] not in PLAIN:
            raise NoRow(f"no escape: {shown(found[0])}")
        return PLAIN[found[2]]

    return ESCAPE.sub(octet, text)


def of_line(line):
    """The octets of a line, with its line feed."""
    is_cut = (len(line) - len(line.rstrip(b"\\"))) % 2
    return unescaped(line[:-1]) if is_cut else unescaped(line) + b"\n"


def of_file(path):
    file = ROOT / shown(path)
    if not file.is_file():
        raise NoRow(f"no file {shown(path)}")
    return file.read_bytes()


def of_count(first, last, line):
    numbers = range(int(first), int(last) + 1)
    return b"".join(line.replace(b"NUMBER", b"%d" % number) for number in numbers)


def octets_of(lines):
    """The octets for which the lines of a text stand."""
    made = []
    for line in lines:
        if not line.startswith(b"@"):
            made.append(of_line(line))
        elif found := re.fullmatch(rb"@repeat (\d+)(?: (.*))?", line):
            made.append(of_line(found[2] or b"") * int(found[1]))
        elif found := re.fullmatch(rb"@count (\d+) (\d+) (.*)", line):
            made.append(of_count(found[1], found[2], of_line(found[3])))
        elif found := re.fullmatch(rb"@file (.+)", line):
            made.append(of_file(found[1]))
        else:
            raise NoRow(f"no line: {shown(line)}")
    return b"".join(made)


@dataclass
class Row:
    """A row. `text` is what is read, but for EACH; `each` has the texts for that, if there are some. It is made where a
    line of it stands for others."""

    name: str
    program: str
    words: list
    text: bytes = b""
    is_made: bool = field(default=False, compare=False)
    each: list = field(default_factory=list)
    is_directory: bool = False
    stdout: bytes = b""
    goes_to: str = ""
    stderr: bytes = b""
    status: int = 0
    memory: int = 0

    def inputs(self):
        """What the program reads, once for each run."""
        return [self.text.replace(b"EACH", it, 1) for it in self.each] if self.each else [self.text]

    def is_bounded(self):
        """Whether it runs with less memory, or where its output goes nowhere."""
        return bool(self.memory or self.goes_to)


def with_part(row, name, lines):
    """Puts a part into a row."""
    kind, _, value = shown(name).partition(" ")
    if lines and value:
        raise NoRow(f"lines below ---- {shown(name)}")
    if kind in ("", "stderr") and not value:
        setattr(row, kind or "stdout", octets_of(lines))
    elif kind == "each" and lines and not value:
        row.each = [unescaped(line) for line in lines]
    elif kind in ("status", "memory") and re.fullmatch(r"[1-9]\d*", value):
        setattr(row, kind, int(value))
    elif (kind, value) == ("stdin", "directory"):
        row.is_directory = True
    elif kind == "stdout" and value in ("full", "closed"):
        row.goes_to = value
    else:
        raise NoRow(f"no part: ---- {shown(name)}")
    return kind if kind != "stdout" else value


def parsed(name, text):
    """The row that stands in a file."""
    if not text.endswith(b"\n") or UNSEEN.search(text):
        raise NoRow("an octet that isn't seen, or a blank or no line feed at the end of a line")
    head, *lines = text[:-1].split(b"\n")
    sign, program, *words = head.split(b" ")
    if sign != b"$" or shown(program) not in PROGRAMS:
        raise NoRow(f"no command: {shown(head)}")
    begins = [at for at, line in enumerate(lines) if line.startswith(PART)]
    row = Row(name, shown(program), [unescaped(word) for word in words])
    read_lines = lines[: begins[0] if begins else None]
    row.text, row.is_made = octets_of(read_lines), any(line.startswith(b"@") for line in read_lines)
    had = set()
    for begin, end in zip(begins, [*begins[1:], None]):
        if lines[begin] != PART and not lines[begin].startswith(PART + b" "):
            raise NoRow(f"no part: {shown(lines[begin])}")
        kind = with_part(row, lines[begin][len(PART) + 1 :], lines[begin + 1 : end])
        if kind in had:
            raise NoRow(f"twice: {shown(lines[begin])}")
        had.add(kind)
    if row.each and b"EACH" not in row.text or row.is_directory and row.text:
        raise NoRow("no EACH in what is read, or lines beside a directory")
    return row


def name_of(path):
    return str(path.relative_to(ROWS).with_suffix(""))


def path_of(name):
    return ROWS / f"{name}.row"


def read(name):
    """The row AREA/NAME."""
    return parsed(name, path_of(name).read_bytes())


def names(pattern="*/*"):
    """The names of the rows, sorted. A pattern that no row can fit, as a path of the machine, names none."""
    return [name for name in sorted(map(name_of, ROWS.glob("*/*.row"))) if fnmatchcase(name, pattern)]


def rows(pattern="*/*"):
    """The rows whose names fit a pattern."""
    return [read(name) for name in names(pattern)]


def unpack(name, folder):
    row, folder = read(name), Path(folder)
    (folder / "program").write_text(f"{row.program}\n")
    (folder / "args").write_bytes(b"".join(word + b"\n" for word in row.words))
    (folder / "stdin").write_bytes(row.text)
    (folder / "stdout").write_bytes(row.stdout)


if __name__ == "__main__":
    unpack(*sys.argv[1:])
