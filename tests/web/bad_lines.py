"""Bad lines: the page says of a line that it refuses what `iolink judge --why` says of it, and web/line.html of a
script what `iolink trace --why` says.

The traces are the bad ones among the rows of tests/rows, single lines that tests/why/check_why makes bad, and whole traces in
which a line is made bad, goes, comes twice, or changes its place. The page takes some of what `judge` refuses: a trace
that is cut off behind a message, and a carriage return at the end of a line, without which `judge` is asked. It refuses
more: lines that `judge` passes over. A line of `judge` itself, `N odd: ..`, is none of a trace, and isn't compared.
"""
import importlib.machinery
import importlib.util
import json
import random
import re
import subprocess
import time

from trace_page import ROOT, missing, unlike

LIVE = f"file://{ROOT}/web/line.html"

TRIED = 150
LEAST_SAME = 60
SAID = "document.getElementById('fault').hidden ? '' : document.querySelector('#fault pre').textContent"
OF_JUDGE = re.compile(r"\d+ odd\b")


def why():
    """The test tests/why/check_why, which has the bad rows, and makes lines bad."""
    loader = importlib.machinery.SourceFileLoader("why", f"{ROOT}/tests/why/check_why")
    made = importlib.util.module_from_spec(importlib.util.spec_from_loader("why", loader))
    loader.exec_module(made)
    return made


def refusal(room, command, text):
    """What the program says of a text that it refuses, without its name; or ''."""
    words = [room.program, command, "--why"]
    ran = subprocess.run(words, input=text.encode(), stdout=subprocess.DEVNULL, stderr=subprocess.PIPE, check=False)
    said = ran.stderr.decode()
    return said.removeprefix("iolink: ").rstrip("\n") if re.match(r"iolink: line \d+: ", said) else ""


def said_by_page(room, text):
    """What the page says of a text that it refuses, or ''."""
    return room.window.run(f"(page.show({json.dumps(text)}, 'given'), {SAID})")


def number_in(said):
    """The number of the line that is refused; behind all where none is."""
    found = re.match(r"line (\d+): ", said)
    return int(found[1]) if found else 10**9


def is_cut_off(text, said):
    """Whether the trace ends where the line of a reply is missing."""
    number = number_in(said)
    return said.startswith(f"line {number}: no reply line") and not any(text.split("\n")[number - 1 :])


def other_words(text, program, page):
    """What is wrong with the page's words for a text, where the program says these; '' if they may be so."""
    if program == page:
        return ""
    number, here = number_in(program), number_in(page)
    if number == here:
        return f"the program says {program!r}, and the page {page!r}"
    if number < here:
        wrong = f"the program says {program!r}, and the page takes it"
        return "" if is_cut_off(text, program) else wrong
    # The page alone refuses the line. It has the same form.
    return "" if re.fullmatch(r"line \d+: [a-z ]+\n  column \d+: .+", page) else f"it says {page!r}"


def traces_of_rows(tests):
    """The inputs of the rows of `judge` that it refuses, and that are text."""
    for row, words in tests.rows():
        if words[0] == b"judge" and b"--octets" not in words:
            for at, text in enumerate(tests.texts_of(row)):
                try:
                    yield f"{row.name}, {at}", text.decode()
                except UnicodeDecodeError:
                    continue


def lines_made_bad(tests):
    """Single lines that were good, each with a change."""
    for command, line in tests.good_lines():
        if command == "judge":
            for changed, _ in tests.changes(line):
                yield f"{changed!r}", changed.decode()


def changed_word(maker, line):
    """A line with another word, without its end, or with blanks."""
    words = line.split(" ")
    at = maker.randrange(len(words))
    new = maker.choice(["%%", "", "0G", "00 00", "none", "9", "wake", "\t", "é", "0" + words[at], words[at].lower()])
    return maker.choice([" ".join([*words[:at], new, *words[at + 1 :]]), " ".join(words[:at]), f"{line} {new}"])


def traces_made_bad(room):
    """Good traces, each with a line that is changed, is missing, comes twice, or stands elsewhere."""
    texts = [it for _, it in sorted(room.row_traces().items())]
    for seed in range(TRIED):
        maker = random.Random(seed)
        lines = maker.choice(texts).splitlines()
        at = maker.randrange(len(lines))
        other = maker.randrange(len(lines))
        kind = maker.choice(["word", "word", "word", "gone", "twice", "moved", "number"])
        if kind == "word":
            lines[at] = changed_word(maker, lines[at])
        elif kind == "number":
            lines[at] = re.sub(r"^\d+", lambda it: str(int(it[0]) + maker.choice([-1, 1, 9])), lines[at])
        elif kind == "moved":
            lines.insert(other, lines.pop(at))
        else:
            lines[at : at + 1] = [] if kind == "gone" else [lines[at]] * 2
        yield f"trace {seed}, {kind} at line {at + 1}", "\n".join(lines) + "\n"


def check_same_words(room):
    """The page says what `judge --why` says, for each kind of bad line."""
    tests = why()
    room.open_page()
    same, kinds = 0, set()
    for name, text in [*traces_of_rows(tests), *lines_made_bad(tests), *traces_made_bad(room)]:
        without_returns = re.sub(r"\r$", "", text, flags=re.M)
        program, page = refusal(room, "judge", without_returns), said_by_page(room, text)
        if OF_JUDGE.match(text) or (not program and not page):
            continue
        yield f"bad line, {name}", other_words(text, program, page)
        same += program == page
        kinds.add(re.sub(r"\d+|\".*?\"|wanted: .*", "", program) if program == page else "")
    yield "bad lines", "" if same > LEAST_SAME else f"only {same} are refused by both"
    yield "kinds of bad lines", "" if len(kinds) > 12 else f"only {sorted(kinds)}"


BYTES = [b"1 wake COM\xe4\n", b"1 wake COM2\n2 > A2 \xff\xfe\n", b"# Ger\xe4t\n1 wake COM2\n2 > A2 0\xc3\n"]


def check_bytes(room):
    """A file that is no UTF-8: its bytes are told as the program tells them."""
    room.open_page()
    for at, octets in enumerate(BYTES):
        with open(f"{room.folder}/bytes{at}", "wb") as it:
            it.write(octets)
        room.window.choose_file("#file", f"{room.folder}/bytes{at}")
        room.window.until(f"page.state.name === 'bytes{at}'")
        words = [room.program, "judge", "--why"]
        ran = subprocess.run(words, input=octets, stdout=subprocess.DEVNULL, stderr=subprocess.PIPE, check=False)
        yield f"bytes {octets}", unlike(f"iolink: {room.window.run(SAID)}\n", ran.stderr.decode())


SCRIPTS = 60
# Of quicker changes of the address the browser leaves some out.
PAUSE = 0.06
LONGEST_SCRIPT = 20_000
FOLLOW = """((text) => new Promise((done) => {
  addEventListener('hashchange', () => done(document.getElementById('refusal').textContent), {once: true});
  location.hash = `#script=${encodeURIComponent(text)}`;
}))(%s)"""


def bad_scripts(tests):
    """The inputs of the rows of `run` and `trace`, and lines of scripts that are made bad: what can come by a link."""
    for row, words in tests.rows():
        if tests.COMMANDS[words[0]] == "run":
            yield from tests.texts_of(row)
    lines = [line for command, line in tests.good_lines() if command == "run"]
    made = [changed for line in lines for changed, _ in tests.changes(line)]
    yield from random.Random(1).sample(made, SCRIPTS)


def check_scripts(room):
    """A script that comes by a link is refused in the program's own words; the session before it stays."""
    room.window.go(LIVE)
    before = room.window.run("page.bench.lines")
    tried = set()
    for octets in bad_scripts(why()):
        text = octets.decode(errors="replace").strip("\n")
        program = refusal(room, "trace", text) if len(text) < LONGEST_SCRIPT else ""
        if not program or "\0" in text or text in tried:
            continue
        tried.add(text)
        time.sleep(PAUSE)
        said = room.window.run(FOLLOW % json.dumps(text))
        yield f"script {text[:60]!r}", missing(f"iolink: {program}\n", f"{said}\n")
    yield "bad scripts", "" if len(tried) > SCRIPTS / 2 else f"only {len(tried)} are refused"
    yield "bad scripts: the session stays", unlike(room.window.run("page.bench.lines"), before)
    fields = {"index": "1 x", "subindex": "256", "octets": "4"}
    for field, value in fields.items():
        room.window.go(LIVE)
        room.window.run(f"document.getElementById('{field}').value = '{value}'")
        room.window.run("document.querySelector('[data-act=write]').click()")
        places = {"index": "16", "subindex": "0", "octets": "4344", field: value}
        lines = [*room.window.run("page.bench.lines"), "write {index} {subindex} {octets}".format(**places)]
        said = room.window.run("document.getElementById('refusal').textContent")
        yield f"typed {field}", missing(f"iolink: {refusal(room, 'trace', chr(10).join(lines))}\n{lines[-1]}", said)
    room.window.go(f"{LIVE}#script=read%2016%20x%0Aturn%203")
    said = room.window.run("document.getElementById('refusal').textContent")
    wanted = 'iolink: line 1: bad line\n  column 9: "x" is no subindex (a number from 0 to 255)\nread 16 x'
    yield "bad script at first", missing(wanted, said)
    told = room.window.run("document.getElementById('told').innerText")
    yield "bad script at first: a story instead", missing("ticket 1 done written", told)


CHECKS = [check_same_words, check_bytes]
OF_LIVE = [check_scripts]
