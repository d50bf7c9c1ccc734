"""What the page makes of a verdict of `iolink judge`: its forms, its mark, its words, and its lines that can't be read.

The traces are those of tests/rows/judge. Where they have octets alone, `iolink check` gives them their texts.
"""
import re
import subprocess

from counting import VERDICT, findings
from large import repeated
from row import rows
from trace_page import ROOT, is_plain, missing, read, unlike

NUMBERED = re.compile(r"(\d+) ([<>]) ([0-9A-Fa-f ]+?)(?:: .*)?")
# The others of these rows are words that `judge` passes over and that `trace` doesn't print.
IS_OF_TRACE = re.compile(r"\d+ |page ")
STARTUP = "layout startup"
COMMAND, PREOPERATE, OPERATE = "20", "9A", "99"
READ = 0x80
# The highest number of a call that the page can tell from its neighbours.
MOST_COUNTED = 9 * 10**15
# How many exchanges the page lists at first (web/src/lists.js).
MOST_LISTED = 50
# `check` takes at least one octet. This is what `trace` prints for none.
NO_OCTETS = "refused 4 WrongLength"
# A wake-up, exchanges 2 to 5, and no other line.
PLAIN = [
    "1 wake COM2", "2 > A2 00: read page 02", "2 < 17 1B: od 17 event 0 pd valid",
    "3 > A2 00: read page 02", "3 < 18 1B: od 18 event 0 pd valid",
    "4 > A2 00: read page 02", "4 < none", "5 > A2 00: read page 02", "5 < none",
]
GUILTY = "not honest at 3: 9 PageChanged: an octet of the page that was another before (PAGE-1)"
OPEN = "can't say from 4 on: 3 TooManyStates: too many states of a device are possible"
UNHEARD = "can't say: no wake-up request was answered"
HONEST = "honest 4 exchanges, 2 lost"
FAIR = "master by the rules"
KIND = "kind first keeps or last keeps"
FAULT = "master not by the rules at 4: 2 NotRepeated: another message than the one that had no good reply (LINK-2)"
ODD = "3 odd: 10 PageZero: a page address outside 01 to 0B that isn't 0 (PAGE-1)"
BAD_FORMS = [
    "honest", "honest 4 exchanges", "honest four exchanges, 0 lost", f"{HONEST} ", f"{HONEST}.",
    "not", "not honest", "not honest: nothing", GUILTY.replace("not honest", "not quite"), GUILTY.replace(" at 3", ""),
    GUILTY.replace("at 3", "at three"), GUILTY.replace("9 ", ""), GUILTY.replace("9 PageChanged", "9"),
    GUILTY.replace(" (PAGE-1)", ""), GUILTY.replace("PAGE-1", "page 1"), GUILTY.replace("PAGE-1", ""),
    "not honest at 3: 9 PageChanged: (PAGE-1)", f"{GUILTY} (PAGE-1)", f" {GUILTY}", f"{GUILTY} ",
    "can't", "can't say", "can't say: nothing", "can't say from 4 on", OPEN.replace(" on:", ":"),
    OPEN.replace("from 4", "from here"), OPEN.replace("3 ", ""), f"{UNHEARD}.", f"{OPEN} ()",
    "master", "master is fair", f"{FAIR}.", FAULT.replace(" at 4", ""), FAULT.replace(" (LINK-2)", ""),
    "master can't be judged", "odd 0", "odd many", ODD.replace(" (PAGE-1)", ""), ODD.replace("odd:", "odd"),
    "kind", "kind first", "kind keeps first", f"{KIND} or", f"{KIND} and last forgets", f"{KIND}.",
    "unjudged", "unjudged 0", "unjudged many", "unjudged 1 exchanges", "guilty", "Honest 4 exchanges, 2 lost",
]
IN_WORDS = [
    (HONEST, "iolink judge says honest: in 4 exchanges, 2 of them lost, it found nothing"),
    (GUILTY, "says not honest at 3: an octet of the page that was another before (9 PageChanged, PAGE-1)."),
    (OPEN, "iolink judge says can’t say from 4 on: too many states of a device are possible (3 TooManyStates)."),
    (UNHEARD, "iolink judge says can’t say: no wake-up request was answered"),
    (f"{FAIR}\n{HONEST}", "the master sent nothing that one by the rules could not have sent."),
    (f"{FAULT}\n{HONEST}", "the master is not by the rules at 4: another message than the one that had no good reply"),
    (f"{KIND}\n{HONEST}", "a device by the rules hands a request over at the first read, and knows the answer until it"),
    (f"{ODD}\n{HONEST}\nodd 1", "replies that are odd, but harmless: 1. The first is 3: a page address outside"),
    (f"unjudged 2\n{OPEN}", "Exchanges before the first answered wake-up, not judged: 2."),
]


def text_of(*lines):
    return "\n".join(lines) + "\n"


def octets_of(length):
    """The octets of process data that ProcessDataIn or ProcessDataOut asks for (PAGE-4)."""
    bits = length & 31
    return bits + 1 if length & 0x80 else (bits + 7) // 8


def layout_behind(octets, page):
    """The layout behind a message, as `check` takes it, or None if it stays: a MasterCommand changes it."""
    first, _, *rest = octets.split()
    capability, _, to_master, to_device = page
    if first != COMMAND:
        return None
    return {
        PREOPERATE: f"layout preoperate {capability >> 4 & 3}",
        OPERATE: f"layout operate {capability >> 1 & 7} {octets_of(to_master)} {octets_of(to_device)}",
    }.get(rest[0])


def questions(lines):
    """What `check` is asked of these lines: each question with the place of its line, or None if it is a layout."""
    yield STARTUP, None
    page, layout, reply = [0, 0, 0, 0], None, "r"
    for place, line in enumerate(lines):
        found = NUMBERED.fullmatch(line)
        if line.startswith("page "):
            page = [int(it, 16) for it in line.split()[2:6]]
        elif found and found[2] == ">":
            octets = found[3].upper()
            yield f"m {octets}", place
            layout, reply = layout_behind(octets, page), "r" if int(octets[:2], 16) & READ else "w"
        elif found:
            yield f"{reply} {found[3].upper()}", place
            if layout:
                yield layout, None


def with_texts(room, text):
    """A trace of octets alone, with what `check` prints for them. A line `page` has the page's octets, if any has."""
    lines = [it.replace("<: what check prints", f"<: {NO_OCTETS}") for it in text.splitlines() if IS_OF_TRACE.match(it)]
    asked = list(questions(lines))
    given = text_of(*(it for it, _ in asked))
    said = subprocess.run([room.program, "check"], input=given, capture_output=True, text=True, check=True)
    for (_, place), what in zip(asked, said.stdout.splitlines(), strict=True):
        if place is not None:
            number, way, octets = NUMBERED.fullmatch(lines[place]).groups()
            lines[place] = f"{number} {way} {octets.upper()}: {what}"
    return text_of(*lines)


def is_whole(text):
    """Whether a trace has the texts of its octets."""
    return not any(NUMBERED.fullmatch(it) and (": " not in it or "what check" in it) for it in text.splitlines())


def judged_rows(room):
    """The traces of the rows of `judge`, by name, each with what `judge` prints."""
    for row in rows("judge/*"):
        if not is_plain(row) or not row.stdout or b"--octets" in row.words:
            continue
        text = row.text.decode()
        yield row.name, text if is_whole(text) else with_texts(room, text), row.stdout.decode()


def is_counted(text):
    """Whether the page can count the calls of a trace."""
    return all(int(it) <= MOST_COUNTED for it in re.findall(r"^\d+", text, re.MULTILINE))


NOTES = (
    "Object.fromEntries([...document.querySelectorAll('#exchanges-panel tbody tr')].map((it) => "
    "[it.cells[0].innerText, it.cells[4].innerText]))"
)
SIGNS = {"guilty": "§ not honest at", "open": "can’t say from", "unjudged": "not judged"}


def notes_wrong(room, text):
    """Whether the notes of the table say of each exchange what the verdict says, and of no other."""
    notes = room.window.run(f"(document.getElementById('tab-exchanges').click(), {NOTES})")
    said = {}
    for number, note in notes.items():
        kinds = [kind for kind, sign in SIGNS.items() if sign in note]
        said[int(number)] = kinds[0] if len(kinds) == 1 else "judged" if not kinds else kinds
    return unlike(said, dict(sorted(findings(text).items())[:MOST_LISTED]))


def check_judged_rows(room):
    """Each row of `judge`, with its verdict behind it and before it."""
    room.open_page()
    kinds = set()
    for name, trace, verdict in judged_rows(room):
        said = next(it for it in verdict.splitlines() if re.fullmatch(VERDICT, it))
        kinds.add(re.sub(r"\d+", "N", said).split(":")[0])
        if not is_counted(trace):
            room.open_text(trace)
            yield f"{name}: refused", missing(f"wanted: a number up to {MOST_COUNTED}", room.fault())
            continue
        ended = trace if trace.endswith("\n") or not trace else f"{trace}\n"
        for where, text in (("behind", ended + verdict), ("before", verdict + ended)):
            room.open_text(text)
            yield f"{name}, {where}: fault", room.fault()
            yield f"{name}, {where}: notes", notes_wrong(room, text)
    wanted = {"honest N exchanges, N lost", "not honest at N", "can't say from N on", "can't say"}
    yield "verdicts of the rows", unlike(kinds, wanted)


def broken_verdicts():
    """Texts with a verdict that can't be read: a name, the lines, the number of the bad one, what else is drawn."""
    end = len(PLAIN)
    for form in BAD_FORMS:
        yield form, [*PLAIN, form], end + 1
        yield f"{form}, in front", [form, *PLAIN], 1
    for number in ("0", "6", "99"):
        for verdict in (GUILTY.replace("at 3", f"at {number}"), OPEN.replace("from 4", f"from {number}")):
            yield f"{verdict[:24]} is not there", [*PLAIN, verdict], end + 1
            yield f"{verdict[:24]} is not there, in front", [verdict, *PLAIN], 1
    yield "more unjudged than exchanges", [*PLAIN, "unjudged 5", OPEN], end + 1
    yield "more unjudged than exchanges, in front", ["unjudged 5", HONEST, *PLAIN], 1
    yield "two verdicts", [*PLAIN, HONEST, GUILTY], end + 2
    yield "before and behind", [HONEST, *PLAIN, HONEST], end + 2
    yield "unjudged behind the verdict", [*PLAIN, HONEST, "unjudged 1"], end + 2
    yield "unjudged twice", [*PLAIN, "unjudged 1", "unjudged 1", HONEST], end + 2
    yield "unjudged before, the verdict behind", ["unjudged 1", *PLAIN, HONEST], end + 2
    yield "master behind the verdict", [*PLAIN, HONEST, FAIR], end + 2
    yield "master twice", [*PLAIN, FAIR, FAULT, HONEST], end + 2
    yield "kind behind the verdict", [*PLAIN, HONEST, KIND], end + 2
    yield "kind twice", [*PLAIN, KIND, KIND, HONEST], end + 2
    yield "odd behind the verdict", [*PLAIN, HONEST, ODD], end + 2
    yield "how many are odd before the verdict", [*PLAIN, "odd 1", HONEST], end + 1
    yield "a master's call is not there", [*PLAIN, FAULT.replace("at 4", "at 6")], end + 1
    yield "an odd call is not there", [*PLAIN, ODD.replace("3 odd", "7 odd")], end + 1
    yield "in the middle", [*PLAIN[:5], GUILTY, *PLAIN[5:]], 7
    yield "before the reply", [*PLAIN[:-1], GUILTY], end
    yield "no verdict of nothing", [GUILTY], 1


def check_broken_verdicts(room):
    """A bad verdict is named with its line, and nothing is shown of it."""
    room.open_page()
    for name, lines, number in broken_verdicts():
        room.open_text(text_of(*lines))
        yield f"verdict, {name}", missing(f"line {number}: ", room.fault())
        before = {it.split(" ")[0] for it in lines[: number - 1]}
        are_read = bool(before & {"honest", "not", "can't"}) + ("master" in before) + ("kind" in before)
        shown = room.window.run("document.querySelectorAll('#story .verdict').length")
        yield f"verdict, {name}: not shown", unlike(shown, are_read)
    # A line of the trace that can't be read, and a verdict in front that names an exchange behind it.
    room.open_text(text_of("unjudged 4", OPEN, *PLAIN[:3], "what is this", *PLAIN[3:]))
    yield "verdict on what isn't read: fault", missing("line 6: ", room.fault())
    links = room.window.run("[...document.querySelectorAll('#story .verdict a')].map((it) => it.innerText)")
    yield "verdict on what isn't read: no link", unlike(links, [])


def check_words(room):
    """The summary says the verdict in words; without one there is no word of it."""
    room.open_page()
    story = "document.getElementById('story').innerText"
    for verdict, words in IN_WORDS:
        room.open_text(text_of(*PLAIN, verdict))
        yield f"in words: {verdict}", missing(words, room.window.run(story))
    room.open_text(text_of(*PLAIN))
    drawn = room.window.run(f"{story} + document.querySelectorAll('.veil, .frame, .finding, .verdict').length")
    yield "no verdict", unlike(drawn, "0")


def reasons():
    """The reasons that `judge` knows, in its source, those of the master too: the text, and the rules."""
    found = re.findall(r'"(\w+: [^"]+)"', read(f"{ROOT}/crates/iol_capture/src/printing.rt"))
    return [(it, re.findall(r"[A-Z]+-\d+(?=[^()]*\)$)", it)) for it in found if it[0].isupper()]


def check_reasons(room):
    """Each reason of `judge` is read, and its rules lead to their headings where the octets are shown."""
    protocol = read(f"{ROOT}/docs/protocol.md")
    room.open_page()
    known = reasons()
    yield "reasons", "" if len(known) >= 17 else f"only {len(known)} are found"
    for at, (text, rules) in enumerate(known, 1):
        name = text.split(":")[0]
        verdict = f"not honest at 3: {at} {text}" if rules else f"can't say from 3 on: {at} {text}"
        room.open_text(text_of(*PLAIN, verdict))
        yield f"{name}: fault", room.fault()
        shown = room.window.run("document.querySelector('#detail .verdict')?.innerText ?? ''")
        yield f"{name}: at the octets", missing(f"({', '.join([f'{at} {name}', *rules])})", shown)
        links = room.window.run(
            "[...document.querySelectorAll('#detail .verdict a')].map((it) => [it.innerText, it.getAttribute('href')])"
        )
        for rule in rules:
            wanted = f"| {rule} |" in protocol and room.window.run(f"page.ruleLink('{rule}')")
            yield f"{name}: link {rule}", unlike(dict(links).get(rule), wanted)


def check_mark(room):
    """The guilty exchange is marked in the picture, the overview, the saved picture and the printed page."""
    window = room.window
    trace = repeated(room.examples()["one_read"], 3000)
    verdict = "not honest at 1800: 6 FlagGone: Event flag 0 before the events were confirmed (EVT-2)"
    room.open_page()
    room.open_text(trace + verdict + "\n")
    yield "mark: it is chosen", unlike(room.chosen(), 1800)
    count = "document.querySelectorAll('{}').length"
    for scale in (60, 16, 6, 0):
        window.run(f"page.look({1795 if scale else 0}, {scale})")
        window.rest_drawn()
        drawn = window.run("document.querySelector('#picture svg').textContent")
        yield f"mark at {scale} px: frame", unlike(window.run(count.format("#picture .frame")), 1)
        yield f"mark at {scale} px: sign", missing("§ 1800" if scale == 60 else "§", drawn)
        yield f"mark at {scale} px: reason", missing("§ not honest at 1800: 6 FlagGone, EVT-2", drawn)
        yield f"mark at {scale} px: rest", missing("not judged", drawn)
    yield "mark: the overview", unlike(window.run(count.format("#whole .guilty-head")), 2)
    yield "mark: the saved picture", missing('class="frame"', window.run("page.pictureFile()"))
    window.ask("Emulation.setEmulatedMedia", media="print")
    for part in ("#story .verdict", "#picture .frame", "#detail .verdict"):
        seen = window.run(f"document.querySelector('{part}').checkVisibility()")
        yield f"mark: {part} in print", unlike(seen, True)
    window.ask("Emulation.setEmulatedMedia", media="")


def check_named(room):
    """A sign stands at the master's fault, and one at what is odd."""
    signs = "[...document.querySelectorAll('#picture .named')].map((it) => it.textContent).join()"
    room.open_page()
    for lines, wanted in (((FAULT, HONEST), "§"), ((ODD, HONEST, "odd 1"), "~"), ((FAIR, HONEST), "")):
        room.open_text(text_of(*PLAIN, *lines))
        yield f"signs of {lines[0]}", unlike(room.window.run(signs), wanted)


def check_way_to_verdict(room):
    """Find goes to the verdict's exchange, keys say it, and the verdict's line in the text leads to it."""
    window = room.window
    room.open_page()
    room.open_text(text_of(*PLAIN, GUILTY))
    window.run("document.getElementById('picture').focus()")
    room.press("End")
    said = "document.getElementById('said').textContent"
    yield "said of what is not judged", missing("not judged", window.run(said))
    find = "document.getElementById('find-what').value = 'verdict'; document.getElementById('find').requestSubmit()"
    window.run(find)
    yield "find verdict", unlike(room.chosen(), 3)
    yield "find verdict: found", unlike(window.run("document.getElementById('found').value"), "1 of 1")
    yield "said of the guilty one", missing("not honest", window.run(said))
    room.press("Home")
    window.run("document.getElementById('tab-text').click()")
    line = "[...document.querySelectorAll('#text-lines div')].at(-1)"
    yield "the verdict in the text", missing(GUILTY, window.run(f"{line}.innerText"))
    window.run(f"{line}.querySelector('a').click()")
    window.until("location.hash.includes('exchange=3')")
    window.rest_drawn()
    yield "from the text to it", unlike(room.chosen(), 3)
    room.open_text(text_of(*PLAIN, HONEST))
    window.run(find)
    yield "find no exchange of a verdict", unlike(window.run("document.getElementById('found').value"), "none")


CHECKS = [
    check_judged_rows, check_broken_verdicts, check_words, check_reasons, check_mark, check_named, check_way_to_verdict,
]
