#!/usr/bin/env python3
"""Says in a few lines where a file differs from what is wanted: tests/difference.py WANTED PRINTED

Behind the number of a line stand the lines that are wanted, with `-`, and those that were printed, with `+`. Of a long
line the part is shown in which the two differ.
"""
import io
import sys
from difflib import SequenceMatcher
from itertools import takewhile, zip_longest
from pathlib import Path

# How many lines are shown, how many are looked at behind the first difference, and how many characters of one.
MOST, AHEAD, WIDTH = 10, 100, 120


def same(one, other):
    """How many parts two texts or lists begin with alike."""
    return sum(1 for _ in takewhile(lambda it: it[0] == it[1], zip(one, other)))


def part_of(line, start):
    """What is shown of a line, from a character on."""
    end = "" if line.endswith("\n") else " (no line feed)"
    line = line.removesuffix("\n")
    rest = "".join(it if it.isprintable() else repr(it)[1:-1] for it in line[start : start + WIDTH])
    return f"{'..' if start else ''}{rest}{'..' if start + WIDTH < len(line) else end}"


def shown(wanted, printed):
    """The lines of a place, those that are wanted first."""
    texts = {"-": [], "+": []}
    for one, other in zip_longest(wanted, printed):
        start = 0 if one is None or other is None else max(same(one, other) - WIDTH // 2, 0)
        for mark, line in (("-", one), ("+", other)):
            texts[mark] += [] if line is None else [f"{mark} {part_of(line, start)}"]
    return texts["-"][: MOST // 2] + texts["+"][: MOST // 2]


def difference(wanted, printed):
    """The lines that say where two lists of lines differ."""
    first = same(wanted, printed)
    wanted, printed = wanted[first : first + AHEAD], printed[first : first + AHEAD]
    said = []
    for kind, start, end, start_there, end_there in SequenceMatcher(None, wanted, printed, False).get_opcodes():
        # At the end of what is looked at a line may lack its like.
        is_sure = not said or AHEAD not in (end, end_there)
        if kind != "equal" and len(said) < MOST and is_sure:
            said += [f"line {first + start + 1}:", *shown(wanted[start:end], printed[start_there:end_there])]
    return said


def lines_in(octets):
    return io.StringIO(octets.decode(errors="backslashreplace"), newline="\n").readlines()


if __name__ == "__main__":
    texts = [lines_in(Path(it).read_bytes()) for it in sys.argv[1:3]]
    sys.stdout.writelines(f"{it}\n" for it in difference(*texts))
