"""The live page: what it shows is what the native program prints for its script, and its module prints what rows want.

The page has no protocol of its own. So each story and random sessions of its buttons are run again by the program.
"""
import json
import os
import random
import re
import subprocess

from bad_lines import OF_LIVE as BAD_SCRIPTS
from counting import is_stored, many, more_than_asked, requests_on_line
from row import rows
from trace_page import ROOT, is_plain, missing, script_of, unlike

LIVE = f"{ROOT}/web/line.html"
ADDRESS = f"file://{LIVE}"
SESSIONS, STORED_SESSIONS, ACTS = 200, 60, 12
OPEN_MS = 2000
SEEN = """({
  lines: page.bench.lines, trace: page.bench.ran.trace, judged: page.bench.ran.judged,
  once: document.getElementById('once').textContent, isBad: document.getElementById('once').className === 'bad',
  told: document.getElementById('told').innerText, did: document.getElementById('did').innerText,
  mode: document.getElementById('mode').textContent, refusal: document.getElementById('refusal').textContent,
})"""
NONE_TWICE = "1 asked, 1 carried out: none more than once."
DID = "write 16 0 43 44: written"
# What the rules say of each story: the end of what the clients were told, what the device did, and the verdict.
STORIES = [
    ("ticket 1 done written", [DID], NONE_TWICE),
    ("ticket 1 unknown LinkLost", [DID], NONE_TWICE),
    ("ticket 1 done written", [DID, DID], "Done more often than asked: write 16 0 43 44"),
    ("ticket 1 done written", [DID], NONE_TWICE),
    ("ticket 1 done written", [DID], NONE_TWICE),
    (
        "ticket 26 done read 32", None,
        "Clients: 1 asked, 1 carried out. The port itself, for Data Storage: 25 asked, 25 carried out. None more than once.",
    ),
    ("ticket 1 done read " + " ".join(f"{it:02X}" for it in range(1, 21)), None, NONE_TWICE),
    ("event F4 8CA0", [], "0 asked, 0 carried out: none more than once."),
]
# What a hand may do, more often what moves the line.
BUTTONS = [
    *["turn"] * 4, *["ten"] * 6, *["read"] * 2, *["write"] * 4, "cancel", "withdraw", "output", "noOutput", "restart",
    "outlost", *["backlost"] * 3, "outdamaged", "backdamaged", "cable", "raise", "input", "noInput", "power", "work",
]
CHOICES = {"hands": ["first", "last"], "recalls": ["keeps", "forgets"], "devices": ["own", "any"]}
FIELDS = {
    "index": ["16", "17", "99"], "octets": ["41", "43 44", "00 01 02 03 04 05 06 07 08"], "output-octets": ["5A"],
    "input-octets": ["12 34"], "event": ["F4 8CA0", "04 1234"],
}
# A command that the module can't carry out, since it has no threads.
LEFT_OUT = {"many"}
BY_OCTET = """globalThis.rowOf = (words, input) => {
  const text = (pieces) => pieces.map((it) => Array.from(it, (each) => String.fromCharCode(each)).join('')).join('');
  const { status, output, errors } = page.execute(words, Uint8Array.from(input, (it) => it.charCodeAt(0)));
  return [status, text(output), text(errors)];
}; true"""


def seen_of(window):
    """What the page shows, once it is drawn."""
    window.rest_drawn()
    return window.run(SEEN)


def program(room, command, text):
    ran = subprocess.run([room.program, command], input=text, capture_output=True, text=True, check=False)
    return ran.stdout


def unlike_program(room, seen):
    """Whether the program prints for the page's script what the page shows."""
    script = "".join(f"{it}\n" for it in seen["lines"])
    trace = program(room, "trace", script)
    if trace.splitlines() != seen["trace"]:
        return f"`trace` prints otherwise for {seen['lines']}"
    if program(room, "judge", trace) != seen["judged"]:
        return f"`judge` prints otherwise for {seen['lines']}"
    again = more_than_asked(script, trace)
    if bool(again) != seen["isBad"]:
        return f"{again} more than asked, and the page says {seen['once']}"
    return unlike_counts(room, script, trace, seen) if is_stored(script) and not again else ""


APART = r"Clients: (\d+) asked, (\d+) carried out\. The port itself, for Data Storage(?: and blocks)?: (\d+) asked, (\d+) carried out\. .*"


def unlike_counts(room, script, trace, seen):
    """Whether the page counts clients and port apart, as the tickets, the line and the record do.

    What a client asks last may still wait. So may a request of the port; or it never went out, as the link was lost."""
    lines = trace.splitlines()
    asked, did, own, own_did = map(int, re.fullmatch(APART, seen["once"]).groups())
    clients, done = many(r"ticket \d+", lines), many(r"ticket \d+ done .*", lines)
    unknown, ended = many(r"ticket \d+ unknown .*", lines), many(r"ticket \d+ .*", lines)
    if asked != clients or did + own_did != many("carried .*", lines):
        return f"{clients} asked, {many('carried .*', lines)} were carried out, and the page says {seen['once']}"
    if not done <= did <= done + unknown + clients - ended:
        return f"of clients {done} were done, {unknown} are unknown, and the page says {seen['once']}"
    on_line = len(requests_on_line(trace)) - own
    if not done + unknown <= on_line <= done + unknown + 1:
        return f"{on_line} on the line are taken as clients', of which {done} were done, {unknown} are unknown"
    given = re.findall(r"^ticket (\d+)$", program(room, "trace", f"{script}read 99 0\n"), re.M)
    kept = int(given[-1]) - len(given) if len(given) > clients else own
    wakes = many(r"\d+ wake .*", lines)
    return "" if own <= kept <= own + wakes else f"the port had {kept} tickets for itself, and the page says {own}"


# How long after the page was asked for its first picture was drawn.
FIRST_DRAWN = "(({startTime, duration}) => startTime + duration)(performance.getEntriesByName('draw', 'measure')[0])"
TRIES = 2


def first_drawn(window):
    window.go(ADDRESS)
    window.rest_drawn()
    return window.run(FIRST_DRAWN)


def check_opening(room):
    window = room.window
    window.ask("Performance.enable", timeDomain="threadTicks")
    window.go(ADDRESS)
    window.rest_drawn()
    metrics = window.ask("Performance.getMetrics")["metrics"]
    worked = 1000 * next(it["value"] for it in metrics if it["name"] == "ThreadTime")
    yield "live: opens", "" if worked <= OPEN_MS else f"it takes {worked:.0f} ms, more than {OPEN_MS}"
    drawn = window.run("document.querySelector('#picture svg').textContent")
    yield "live: a picture", missing("told done: written", drawn)
    first = min(window.run(FIRST_DRAWN), *(first_drawn(window) for _ in range(TRIES)))
    yield "live: the first picture", "" if first <= OPEN_MS else f"it comes behind {first:.0f} ms, more than {OPEN_MS}"
    claim = window.run("document.querySelector('.claim').innerText")
    commit = window.run("document.getElementById('module').dataset.commit")
    yield "live: the commit", missing(f"of commit {commit}", claim)
    yield "live: not proved", missing("This build is not proved", claim)


def check_stories(room):
    room.window.go(ADDRESS)
    names = room.window.run("[...document.querySelectorAll('#story-of option')].slice(1).map((it) => it.text)")
    yield "stories", unlike(len(names), len(STORIES))
    for number, (name, (told, did, once)) in enumerate(zip(names, STORIES)):
        room.window.run(f"page.tell({number})")
        seen = seen_of(room.window)
        yield f"story {name}", unlike_program(room, seen)
        yield f"story {name}: told", unlike(seen["told"].splitlines()[-1], told)
        yield f"story {name}: done", "" if did is None else unlike(seen["did"].splitlines(), did)
        yield f"story {name}: verdict", unlike(seen["once"], once)


def session(maker):
    """Scripts for the page: choices, and clicks with what stands in the fields."""
    yield "document.getElementById('anew').click()"
    for name, values in CHOICES.items():
        yield f"choose({json.dumps(name)}, {json.dumps(maker.choice(values))})"
    yield "document.querySelector('[data-act=ten]').click()"
    for _ in range(ACTS):
        for name, values in FIELDS.items():
            yield f"document.getElementById({json.dumps(name)}).value = {json.dumps(maker.choice(values))}"
        yield f"document.querySelector('[data-act={maker.choice(BUTTONS)}]').click()"
    if maker.random() < 0.2:
        yield "document.querySelector('[data-act=swap]').click()"
        yield "document.querySelector('[data-act=ten]').click()"


CHOOSE = """globalThis.choose = (name, value) => {
  const it = document.getElementById(name);
  it.value = value;
  it.dispatchEvent(new Event('change'));
}; true"""


def check_sessions(room):
    """Random sessions. At a port for our own devices alone may another do a request more often than asked (REQ-15)."""
    room.window.go(ADDRESS)
    room.window.run(CHOOSE)
    carried = unknown = 0
    for seed in range(1, SESSIONS + 1):
        room.window.run(";\n".join(session(random.Random(seed))))
        seen = seen_of(room.window)
        carried += len(seen["did"].splitlines())
        unknown += " unknown " in seen["told"]
        yield f"session {seed}", unlike_program(room, seen)
        is_own, is_last = "devices own" in seen["lines"], any(it.startswith("kind last") for it in seen["lines"])
        yield f"session {seed}: at most once", seen["once"] if seen["isBad"] and not (is_own and is_last) else ""
    few = f"only {carried} requests are carried out, and {unknown} sessions have one that ended unknown"
    yield "sessions: what they bring", "" if carried > SESSIONS / 2 and unknown > SESSIONS / 20 else few


# What a hand may do at a port with Data Storage.
AT_STORED = [*BUTTONS, *["ten"] * 12, *["save"] * 6, "swap"]
OF_PORT = "for the port: "
STORED = "A sensor is exchanged without a tool"


def stored_session(maker, lines):
    """The story up to somewhere, and clicks behind that."""
    yield f"page.begin({json.dumps(lines[: maker.randrange(6, len(lines))])})"
    for _ in range(2 * ACTS):
        index = maker.choice(["64", "64", "3", "21", "16"])
        yield f"document.getElementById('index').value = {json.dumps(index)}"
        yield f"document.getElementById('subindex').value = '{maker.choice([0, 2]) if index == '3' else 0}'"
        yield f"document.getElementById('octets').value = '{maker.choice(['0B', '32', '41 42'])}'"
        yield f"document.querySelector('[data-act={maker.choice(AT_STORED)}]').click()"


def check_stored_sessions(room):
    """The story with Data Storage, stopped somewhere, and random clicks: clients and port are counted apart."""
    window = room.window
    window.go(ADDRESS)
    names = window.run("[...document.querySelectorAll('#story-of option')].slice(1).map((it) => it.text)")
    window.run(f"page.tell({names.index(STORED)})")
    lines = [it for it in seen_of(window)["lines"] if not it.startswith("collect ")]
    shown = "!document.getElementById('save-set').hidden && !document.getElementById('storage').hidden"
    yield "stored: its button and its standing", "" if window.run(shown) else "they are not shown"
    own = both = 0
    for at in range(6, len(lines)):
        window.run(f"page.begin({json.dumps(lines[:at])})")
        yield f"stored: the first {at} lines", unlike_program(room, seen_of(window))
    for seed in range(1, STORED_SESSIONS + 1):
        window.run(";\n".join(stored_session(random.Random(seed), lines)))
        seen = seen_of(window)
        yield f"stored session {seed}", unlike_program(room, seen)
        yield f"stored session {seed}: at most once", seen["once"] if seen["isBad"] else ""
        for_port = [OF_PORT in it for it in seen["did"].splitlines()]
        own += sum(for_port)
        both += any(for_port) and not all(for_port)
    yield "stored sessions: what they bring", "" if own > 500 and both > STORED_SESSIONS / 2 else f"{own} of ports, {both} of both"
    window.run(f"page.begin({json.dumps(script_of('storage/run_largest_set_of_a_line').splitlines())})")
    yield "stored: a set longer than a line", missing("nothing is counted", seen_of(window)["once"])
    window.run("document.getElementById('anew').click()")
    window.rest_drawn()
    yield "stored: none behind a start anew", "they are shown" if window.run(shown) else ""


def check_anew(room):
    """A line of which no call was made yet: its script is shown, and what was before can be had again."""
    window = room.window
    window.go(ADDRESS)
    before = seen_of(window)
    window.run("document.getElementById('anew').click()")
    begun = seen_of(window)
    yield "live: anew, without a call", unlike(begun["trace"], ["record 0"])
    shown = window.run("document.getElementById('script').textContent")
    yield "live: anew, its script", unlike(shown.splitlines(), begun["lines"])
    window.run("document.getElementById('undo').click()")
    yield "live: anew, and back", unlike(seen_of(window), before)


def check_script(room):
    """Going back, the link that has the script, and a line that the program refuses."""
    window = room.window
    window.go(ADDRESS)
    before = seen_of(window)
    for button in ("write", "ten", "cable", "turn"):
        window.run(f"document.querySelector('[data-act={button}]').click()")
    after, link = seen_of(window), window.run("page.link()")
    yield "live: the cable is out", missing("# The cable is pulled.", "\n".join(after["lines"]))
    for _ in range(4):
        window.run("document.getElementById('undo').click()")
    yield "live: undo", unlike(seen_of(window), before)
    window.go(link)
    yield "live: the link", unlike(seen_of(window), after)
    run, made = "document.getElementById('run').click()", "page.bench.ran.made"
    begun = window.run(made)
    window.run(run)
    window.until(f"{made} > {begun + 2}")
    window.run(run)
    stopped = window.run(made)
    window.run("new Promise((done) => setTimeout(done, 500))")
    yield "live: run, and stop", unlike(window.run(made), stopped)
    yield "live: it ran with the cable out", unlike_program(room, seen_of(window))
    after = seen_of(window)
    window.run("document.getElementById('index').value = 'abc'; document.querySelector('[data-act=read]').click()")
    yield "live: refused", missing("bad line", window.run("document.getElementById('refusal').innerText"))
    yield "live: as it was", unlike(window.run("page.bench.lines"), after["lines"])
    window.ask("Page.reload")
    window.until("Boolean(globalThis.page?.show)")
    yield "live: loaded again", unlike(window.run("page.bench.lines"), after["lines"])


def check_old_browser(room):
    """A browser without memories of 64-bit addresses is told so."""
    window = room.window
    given = window.ask("Page.addScriptToEvaluateOnNewDocument", source="WebAssembly.validate = () => false;")
    window.ask("Page.navigate", url=ADDRESS)
    window.until("document.readyState === 'complete' && document.getElementById('refusal')?.hidden === false")
    yield "live: no memory64", missing("memory64", window.run("document.getElementById('refusal').innerText"))
    window.ask("Page.removeScriptToEvaluateOnNewDocument", identifier=given["identifier"])


def rows_of_module():
    """The rows of `iolink` that are run once, each with its words, its input and what has to be printed."""
    for row in rows():
        words = [it.decode("latin-1") for it in row.words]
        if row.program != "iolink" or not is_plain(row) or not all(it.isascii() for it in words) or LEFT_OUT & set(words[:1]):
            continue
        wanted = [row.status, row.stdout.decode("latin-1"), row.stderr.decode("latin-1")]
        yield row.name, words, row.text.decode("latin-1"), wanted


def check_rows(room):
    """The rows, run by the module in the browser."""
    room.window.go(ADDRESS)
    room.window.run(BY_OCTET)
    count = 0
    for name, words, given, wanted in rows_of_module():
        count += 1
        said = room.window.run(f"rowOf({json.dumps(words)}, {json.dumps(given)})")
        other = f"it prints {said[1][-200:]!r} {said[2]!r}, status {said[0]}"
        yield f"{name}, by the module", "" if said == wanted else other
    yield "rows of the module", "" if count > 200 else f"only {count} rows are found"


CHECKS = [
    check_opening, check_stories, check_sessions, check_stored_sessions, check_anew, check_script, *BAD_SCRIPTS, check_old_browser, check_rows,
]


def is_built():
    """Whether the page is there: web/make takes minutes to build its module."""
    return os.path.exists(LIVE)
