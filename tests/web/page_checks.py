"""The checks of the page. Each gives pairs: what was checked, and what is wrong with it, or ''."""
import glob
import json
import os
import re
import subprocess
import time
import xml.etree.ElementTree

from bad_lines import CHECKS as BAD_LINES
from counting import asked_by_tickets, counted, cut_off_and_carried, is_stored, more_than_asked
from large import EXCHANGES, check_large, repeated
from layout import CHECKS as LAYOUT
from owners import CHECKS as OWNERS
from records import CHECKS as RECORDS
from times import CHECKS as TIMES, OCTETS
from trace_page import ROOT, missing, read, script_of, unlike
from verdicts import CHECKS as VERDICTS

IDS = r"\b(?:OCT|CHK|MSG|LAY|PAGE|ISDU|SEG|DEV|EVT|WIRE|LINK|REQ|PD|BOOK|PORT)-\d+\b"
LEAST_CONTRAST = 4.5
PAIRS = [
    ("ink", "paper"), ("soft", "paper"), ("link", "paper"), ("bad", "paper"), ("ink", "page"),
    ("ink", "isdu"), ("ink", "diagnosis"), ("ink", "process"), ("ink", "came"), ("ink", "chosen"),
    ("doubt", "doubt-fill"), ("did", "did-fill"), ("good", "good-fill"), ("ink", "panel"),
]
PICTURES = ["live_line.png", "trace_cable_pulled.png", "trace_one_read.png"]
MOST_OCTETS = 150_000
MOST_LINES, WIDTH = 800, 100


def check_made(_room):
    """The page is what web/make makes of web/src, whose files are below 800 lines."""
    ran = subprocess.run([f"{ROOT}/web/make", "--check"], capture_output=True, text=True, check=False)
    yield "web/make --check", (ran.stdout + ran.stderr).strip()
    for path in sorted(glob.glob(f"{ROOT}/web/src/*")):
        lines = read(path).splitlines() if os.path.isfile(path) else []
        wide = [number for number, line in enumerate(lines, 1) if len(line) > WIDTH]
        name = os.path.relpath(path, ROOT)
        yield f"{name}: length", "" if len(lines) < MOST_LINES else f"{len(lines)} lines"
        yield f"{name}: width", "" if not wide else f"lines {wide} are wider than {WIDTH}"


def check_examples(room):
    """The traces in the page are what the program prints today, and their counts are right."""
    room.open_page()
    kept = room.window.run(
        "Object.fromEntries([...document.querySelectorAll('script[data-example]')].map((it) => "
        "[it.dataset.example, it.textContent.replace(/^\\n/, '')]))"
    )
    for name, trace in room.examples().items():
        wrong = "it is not what `trace` prints: see tests/web/examples"
        yield f"examples/{name} in the page", "" if kept.get(name) == trace else wrong
        if trace is None:
            continue
        room.open_page(f"#example={name}")
        yield f"examples/{name}: counts", unlike(room.counts(), counted(trace))
        yield f"examples/{name}: fault", room.fault()


def check_traces(room):
    """Each trace of the rows is read whole, its counts are right, and its record fits."""
    room.open_page()
    texts = {**room.row_traces(), **room.run_traces()}
    if len(texts) < 40:
        yield "rows", f"only {len(texts)} traces were found"
    for name, text in texts.items():
        script = script_of(name)
        again = more_than_asked(script, text)
        room.open_text(text)
        yield f"{name}: fault", room.fault()
        seldom = {"again": again, "own": own_requests(room, name, script, text) if is_stored(script) else 0}
        wanted = {**counted(text), **{key: value for key, value in seldom.items() if value}}
        yield f"{name}: counts", unlike(room.counts(), wanted)
        yield f"{name}: record", record_wrong(room, script, text)
        yield f"{name}: events", events_wrong(room, text)
        without = room.window.run("page.state.trace.requests.filter((it) => !it.ticket && !it.isOwn).length")
        yield f"{name}: tickets", "" if without == 0 else f"{without} requests have none"
        yield f"{name}: what was asked", asked_wrong(room, script, text)


# In each of these the port submits a request that never goes out: it is withdrawn, or the device has no ISDU.
NOT_SENT = {"storage/run_a_unit_is_swapped_in_a_restore", "storage/run_no_isdu"}


def own_requests(room, name, script, text):
    """How many requests the port asked by itself. It gave them the tickets that no client has, up to one given last."""
    given = re.findall(r"^ticket (\d+)$", text, re.M)
    more = re.findall(r"^ticket (\d+)$", room.trace_of(f"{script}read 99 0\n") or "", re.M)
    return int(more[-1]) - len(more) - (name in NOT_SENT) if len(more) > len(given) else 0


TICKETS = """Object.fromEntries(page.state.trace.requests.filter((it) => it.ticket && !it.byOrder && it.text).map(
  ({ticket, text}) => [ticket.number, text]))"""


def asked_wrong(room, script, text):
    """Whether the page takes a request for another ticket's, where it says that it knows."""
    asked = asked_by_tickets(script, text)
    for ticket, said in room.window.run(TICKETS).items():
        way, index, sub, *data = said.split(" ")
        if asked.get(int(ticket)) != (way, index, sub, "".join(data)):
            return f"ticket {ticket} asks {asked.get(int(ticket))}, and the page says {said}"
    return ""


FOUND = """(({kind, requests}) => {
  const extra = (it) => Math.max(0, it.times.least - 1);
  const isCutOff = (it) => it.carried === 'yes' && it.end !== 'done';
  return [kind !== null, requests.filter(isCutOff).length, requests.reduce((all, it) => all + extra(it), 0)];
})(page.state.trace)"""


def record_wrong(room, script, text):
    """Whether the page finds in the record what it has to hold. The order tells it for each of these texts."""
    fits, cut_off, again = room.window.run(FOUND)
    if "\naway " in text:
        return "the page fits one record to two devices" if fits else ""
    if not fits:
        return "the page says that the record doesn't fit"
    wanted = cut_off_and_carried(script, text)
    if wanted not in (None, cut_off):
        return f"{wanted} were cut off and carried out, and the page finds {cut_off}"
    wanted = more_than_asked(script, text)
    return "" if again == wanted else f"{wanted} were carried out again, and the page finds {again}"


def events_wrong(room, text):
    """The events that a client took are the first of those that were read from the device."""
    taken = [it.removeprefix("event ") for it in text.splitlines() if it.startswith("event ")]
    events = "page.state.trace.readings.flatMap((it) => it.events.map((each) => each.text))"
    return unlike(room.window.run(events)[: len(taken)], taken)


def broken_texts(text):
    """Texts with one line that can't be read: a name, the text, the line's number."""
    lines = text.splitlines()
    end = len(lines)

    def with_line(number, line):
        return "\n".join([*lines[: number - 1], *line, *lines[number:]]) + "\n"

    yield "no such line", with_line(20, ["what is this"]), 20
    yield "no digit", with_line(3, [lines[2].replace("A2 00", "A2 0G")]), 3
    yield "half an octet", with_line(4, [lines[3].replace("17 1B", "17 1")]), 4
    yield "no text, and no wake-up before", "\n".join(lines[2:3]).split(":")[0] + "\n", 1
    yield "a lost reply line", with_line(6, []), 6
    yield "a lost exchange", "\n".join([*lines[:6], *lines[8:]]) + "\n", 7
    yield "a read with data", with_line(7, [lines[6] + " od 00"]), 7
    yield "no such outcome", with_line(41, ["ticket 1 unknown Bored"]), 41
    yield "a number too large to be next", with_line(35, [lines[34].replace("18 ", "19 ", 1)]), 35
    yield "more than the record has", text + lines[-1] + "\n", end + 1
    yield "carried before the record", with_line(43, [lines[-1]]), 43
    yield "a call behind the record", text + "ok\n", end + 1


READ = """page.state.trace.exchanges.map(({number, rate, mode, role, fate, sent, came}) => (
  [number, rate, mode, role, fate, sent?.text, came && came.text]))"""


def check_without_texts(room):
    """Octets alone, as a driver writes them, are read as with the texts that `check` prints for them."""
    room.open_page()
    texts = {name: text for name, text in room.row_traces().items() if re.match(r"(ticket \d+\n|ok\n)*1 wake", text)}
    yield "traces without texts", "" if len(texts) > 10 else f"only {len(texts)}"
    for name, text in texts.items():
        room.open_text(text)
        wanted = room.window.run(READ)
        room.open_text(re.sub(r"^(\d+ [<>] [0-9A-F ]+): .*$", r"\1", text, flags=re.M))
        yield f"{name} without texts: fault", room.fault()
        found = room.window.run(READ)
        other = next((pair for pair in zip(found, wanted) if pair[0] != pair[1]), None)
        yield f"{name} without texts", "" if found == wanted else f"{other}"
        room.open_text(re.sub(r"^(\d+ [<>] )([0-9A-F ]+)(?=:)", lambda it: it[1] + it[2].lower(), text, flags=re.M))
        yield f"{name} in lower case: fault", room.fault()
        yield f"{name} in lower case", "" if room.window.run(READ) == wanted else "it is read otherwise"


def check_broken(room):
    """The first line that can't be read is named, with its number; what stands before it is drawn."""
    room.open_page()
    text = room.examples()["cable_pulled"]
    for name, broken, number in broken_texts(text):
        room.open_text(broken)
        yield f"broken, {name}", missing(f"line {number}: ", room.fault())
        before = "\n".join(broken.splitlines()[: number - 1])
        yield f"broken, {name}: before it", unlike(room.counts(), counted(before))
    for cut in (len(text) - 30, text.index("18 <"), text.index("18 >"), 0):
        part = text[:cut].rpartition("\n")[0]
        room.open_text(part)
        yield f"cut off behind {len(part)} characters", room.fault()
    room.open_text(text.replace("\n", "\r\n"))
    yield "lines of another system", room.fault()


def check_story(room):
    """Of a request that ended unknown and was carried out, both lanes tell."""
    room.open_page("#example=cable_pulled")
    room.window.rest_drawn()
    drawn = room.window.run("document.querySelector('#picture svg').textContent")
    yield "cable_pulled: the device", missing("The device did it. The client was told “unknown”.", drawn)
    yield "cable_pulled: the client", missing("? told unknown (LinkLost) ◆", drawn)
    yield "cable_pulled: the mode", missing("down: Lost", drawn)
    said = room.window.run("document.getElementById('story').innerText")
    yield "cable_pulled: in words", missing("told unknown (LinkLost); the device did it", said)
    count = "document.querySelectorAll('#picture .{}').length"
    yield "cable_pulled: repeats", unlike(room.window.run(count.format("repeat.vain")), 2)
    yield "cable_pulled: lost replies", unlike(room.window.run(count.format("came.lost")), 3)
    room.open_page("#example=one_read")
    room.window.rest_drawn()
    yield "one_read: no story", unlike(room.window.run("document.getElementById('story').innerText"), "")
    yield "one_read: the repeat", unlike(room.window.run(count.format("repeat:not(.vain)")), 1)
    drawn = room.window.run("document.querySelector('#picture svg').textContent")
    yield "one_read: the outcome", missing("told done: read 41 42", drawn)


def check_details(room):
    """Each exchange shows its lines as the program prints them."""
    for name, trace in room.examples().items():
        if trace is None:
            continue
        room.open_page(f"#example={name}")
        room.window.run("document.getElementById('picture').focus()")
        room.press("Home")
        shown = []
        for _ in range(counted(trace)["exchanges"] + counted(trace)["wakes"]):
            shown += room.window.run(
                "[...document.querySelectorAll('.printed li')].map((it) => it.lastChild.textContent)"
            )
            room.press("ArrowRight")
        yield f"{name}: lines of the exchanges", unlike("\n".join(shown) + "\n", trace)


def check_keys(room):
    """Keys choose, move and zoom; a choice has an address, and an address a choice."""
    window = room.window
    room.open_page("#example=cable_pulled&exchange=18")
    yield "an address chooses", unlike(room.chosen(), 18)
    wanted = [
        ("ArrowRight", 19), ("ArrowLeft", 18), ("Home", 1), ("l", 18), ("l", 19), ("End", 20), ("ArrowRight", 20),
    ]
    for key, number in wanted:
        room.press(key)
        yield f"key {key}", unlike(room.chosen(), number)
    yield "the address follows", missing("exchange=20", window.run("location.hash"))
    scale = window.run("page.state.view.scale")
    room.press("+", text="+")
    yield "key +", "" if window.run("page.state.view.scale") > scale else "it doesn't zoom"
    place = window.run("page.state.view.from")
    room.press("PageUp")
    yield "key PageUp", "" if window.run("page.state.view.from") < place else "it doesn't move"
    room.press("0", text="0")
    yield "key 0", unlike(window.run("page.state.view.scale"), scale)
    room.press("Enter")
    lit = "[...document.querySelectorAll('#text-lines .is-chosen')].map((it) => it.innerText).join()"
    yield "key Enter", missing("20 > F0 75", window.run(lit))
    window.run("document.querySelector('#text-lines a[href=\"#exchange=17\"]').click()")
    window.until("location.hash.includes('exchange=17')")
    window.rest_drawn()
    yield "back from the text", unlike(room.chosen(), 17)


def check_keys_after_clicks(room):
    """Keys work without a click first, and where a button or a link was clicked; not in a field."""
    window = room.window
    room.open_page()
    window.rest_drawn()
    yield "keys: no focus", unlike(window.run("document.activeElement === document.body"), True)
    room.press("Home")
    yield "keys: without a click", unlike(room.chosen(), 1)
    window.run("document.getElementById('tab-exchanges').click()")
    for query in ("#fault-next", "#wider", "#exchanges-panel a[href='#exchange=2']"):
        x, y = window.run(
            f"(({{x, y, width, height}}) => [x + width / 2, y + height / 2])(document.querySelector({query!r})"
            ".getBoundingClientRect())"
        )
        for kind in ("mousePressed", "mouseReleased"):
            window.mouse(kind, x, y, button="left", clickCount=1)
        window.rest_drawn()
        begun = room.chosen()
        room.press("ArrowRight")
        yield f"keys: behind a click on {query}", unlike(room.chosen(), begun + 1)
        room.press("ArrowLeft")
    begun = room.chosen()
    window.run("document.getElementById('find-text').focus()")
    room.press("ArrowRight")
    yield "keys: in a field", unlike(room.chosen(), begun)


def check_pointer(room):
    """A pointer on an exchange shows it; the wheel moves and zooms."""
    window = room.window
    room.open_page("#example=cable_pulled")
    window.rest_drawn()
    x, y = window.run(
        "(({left, top}) => [left + page.state.left + 2.5 * page.state.view.scale, top + 200])"
        "(document.getElementById('picture').getBoundingClientRect())"
    )
    window.mouse("mouseMoved", x, y)
    window.rest_drawn()
    shown = "document.querySelector('#detail h2').innerText"
    yield "a pointer shows", missing("Exchange 3", window.run(shown))
    scale = window.run("page.state.view.scale")
    window.mouse("mouseWheel", x, y, deltaX=0, deltaY=-300, modifiers=2)
    window.rest_drawn()
    yield "the wheel zooms", "" if window.run("page.state.view.scale") > scale else "it doesn't"
    place = window.run("page.state.view.from")
    window.mouse("mouseWheel", x, y, deltaX=0, deltaY=100)
    window.rest_drawn()
    yield "the wheel moves", "" if window.run("page.state.view.from") > place else "it doesn't"


def check_touch(room):
    """Two fingers zoom, one moves."""
    window = room.window
    room.open_page("#example=cable_pulled")
    window.rest_drawn()
    top = window.run("document.getElementById('picture').getBoundingClientRect().top") + 200

    def touch(kind, *places):
        points = [{"x": x, "y": top, "id": at} for at, x in enumerate(places)]
        window.ask("Input.dispatchTouchEvent", type=kind, touchPoints=points)

    scale = window.run("page.state.view.scale")
    touch("touchStart", 600)
    touch("touchStart", 600, 700)
    touch("touchMove", 550, 750)
    touch("touchMove", 500, 800)
    touch("touchEnd")
    window.rest_drawn()
    yield "two fingers zoom", "" if window.run("page.state.view.scale") > scale * 1.5 else "they don't"
    place = window.run("page.state.view.from")
    touch("touchStart", 700)
    for x in (680, 640, 600, 500):
        touch("touchMove", x)
    touch("touchEnd")
    window.rest_drawn()
    yield "a finger moves", "" if window.run("page.state.view.from") > place else "it doesn't"


def look_for(room, what, text):
    """Looks for something, and returns what the page says that it found."""
    room.window.run(
        f"document.getElementById('find-what').value = '{what}';"
        f"document.getElementById('find-text').value = '{text}';"
        "document.getElementById('find').requestSubmit()"
    )
    return room.window.run("document.getElementById('found').value")


def check_find(room):
    """Find by each thing that it knows; octets are found where they are alone."""
    text = room.row_traces()["requests/trace_read_with_one_fate"]
    answers = len(re.findall(r"^\d+ < D4 41", text, re.M))
    room.open_page()
    room.open_text(text)
    wanted = [
        ("ticket", "2", "1 of 1", 20), ("index", "16/0", "1 of 15", 16), ("index", "17", "none", None),
        ("octets", "d441", f"1 of {answers}", 19), ("exchange", "40", "1 of 1", 40), ("octets", "zz", "none", None),
        ("octets", "0xD4 0x41", f"1 of {answers}", 19), ("octets", "0x62", "none", None),
        ("octets", "7 05", "none", None),
        ("index", "0x10/0", "1 of 15", 16), ("index", "0x11", "none", None), ("command", "DeviceOperate", "1 of 1", 15),
        ("command", "9a", "1 of 1", 13), ("event", "8CA0", "none", None), ("text", "WAKE com2", "1 of 1", 1),
    ]
    for what, text, said, number in wanted:
        name = f"find {what} {text}"
        yield name, unlike(look_for(room, what, text), said)
        if number:
            yield f"{name}: place", unlike(room.chosen(), number)
    look_for(room, "index", "16")
    yield "find again", unlike(look_for(room, "index", "16"), "2 of 15")
    # An octet in each segment: the answer's first two are those of two messages.
    room.open_text(room.trace_of("page 17 01 11 00 00 12 34 00 01 07\nparam 16 0 ro 4142\nread 16 0\nturn 30\n"))
    yield "find over segments", missing("1 of 1", look_for(room, "octets", "D4 41 42"))
    came = room.window.run("page.state.trace.exchanges[page.state.chosen].came.od")
    yield "find over segments: place", unlike(came, "D4")
    room.open_text(room.trace_of("turn 16\nwire clean 16\nwire raise F4 8CA0\nturn 10\nevent\n"))
    yield "find an event", unlike(look_for(room, "event", "0x8ca0"), "1 of 1")


def check_faults(room):
    """The faults are gone through in both ways, and the list has them alone, or no idle ones, if asked."""
    window = room.window
    room.open_page("#example=cable_pulled")
    room.press("Home")
    found = []
    for _ in range(4):
        window.run("document.getElementById('fault-next').click()")
        found.append(room.chosen())
    yield "faults", unlike(found, [18, 19, 20, 20])
    window.run("document.getElementById('fault-before').click()")
    yield "the fault before", unlike(room.chosen(), 19)
    window.run("document.getElementById('tab-exchanges').click()")
    numbers = "[...document.querySelectorAll('#exchanges-panel tbody tr')].map((it) => Number(it.cells[0].innerText))"
    text = room.trace_of("turn 40\nread 16 0\nturn 10\ncollect 1\n")
    idle = {int(it.split()[0]) for it in text.splitlines() if re.match(r"\d+ > .*: read isdu 11$", it)}
    room.open_text(text)
    for name, wanted in (("faults", []), ("busy", [it for it in range(1, 51) if it not in idle])):
        filter_by(window, name)
        yield f"list of {name}", unlike(window.run(numbers), wanted)
    room.open_text(room.trace_of("read 16 0\nread 17 0\nread 16 0\nturn 40\n"))
    of_index = "page.state.trace.requests.filter((it) => it.text?.split(' ')[1] === '%s').flatMap(({first, last}) => "
    of_index += "page.state.trace.exchanges.slice(first, last + 1).filter((it) => it.request).map((it) => it.number))"
    for index, ticket in ((17, 2), (16, 3)):
        look_for(room, "ticket", str(ticket))
        filter_by(window, "index")
        wanted = window.run(of_index % index)
        yield f"list of index {index}", unlike(window.run(numbers), wanted) or ("" if wanted else "it has none")
    filter_by(window, "all")


# A lost and a damaged reply, a repeat, and what `judge` names: the master's fault, what is odd, and the verdict.
FAULTY = """1 wake COM2
2 > A2 00: read page 02
2 < 17 1B: od 17 event 0 pd valid
3 > A3 11: read page 03
3 < none
4 > A3 11: read page 03
4 < 2D 29: refused 6 BadChecksum
5 > A3 11: read page 03
5 < 2D 28: od 2D event 0 pd valid
6 > A2 00: read page 02
6 < 17 1B: od 17 event 0 pd valid
7 > A2 00: read page 02
7 < 17 1B: od 17 event 0 pd valid
8 > A2 00: read page 02
8 < 18 1B: od 18 event 0 pd valid
9 wake none
master not by the rules at 6: 1 NotDue: a message that is not due (LINK-4)
7 odd: 10 PageZero: a page address outside 01 to 0B that isn't 0 (PAGE-1)
not honest at 8: 9 PageChanged: an octet of the page that was another before (PAGE-1)
odd 1
"""


def check_fault_marks(room):
    """Each fault of either side has a mark, in the picture and in the strip, and the jump goes to each of them."""
    window = room.window
    room.open_page()
    room.open_text(FAULTY)
    yield "faults of both sides: read", room.fault()
    room.press("Home")
    found = []
    for _ in range(7):
        room.press("l")
        found.append(room.chosen())
    yield "faults of both sides", unlike(found, [3, 4, 5, 6, 7, 8, 9])
    window.run("page.look(0, 60)")
    window.rest_drawn()
    count = "document.querySelectorAll('#picture {}').length"
    marks = {".came.lost": 1, ".came.damaged": 1, ".came.nowake": 1, ".repeat": 2, ".named": 2, ".frame": 1}
    for query, wanted in marks.items():
        yield f"marks {query}", unlike(window.run(count.format(query)), wanted)
    strip = "document.querySelector('#whole .named-head').getAttribute('d').split('M').length - 1"
    yield "marks in the strip", unlike(window.run(strip), 2)
    heads = "document.querySelectorAll('#whole .guilty-head').length"
    yield "marks in the strip: the verdict", unlike(window.run(heads), 2)


def filter_by(window, name):
    window.run(
        f"document.getElementById('filter').value = '{name}';"
        "document.getElementById('filter').dispatchEvent(new Event('change'))"
    )


def check_wanted(room):
    """A text without a message says what is wanted."""
    story = "document.getElementById('story').innerText"
    room.open_page()
    room.open_text("ticket 1\nticket 1 done written\nrecord 0\n")
    yield "what run prints", missing("open what iolink trace prints", room.window.run(story))
    room.open_text("")
    yield "an empty file", missing("Nothing is here", room.window.run(story))
    others = {
        "octets": (f"{ROOT}/examples/octets", "Open what iolink judge --octets RATE --trace prints of this text."),
        "a script": (f"{ROOT}/examples/cable_pulled", "Open what iolink trace prints of this text."),
    }
    for name, (path, wanted) in others.items():
        room.open_text(read(path))
        yield f"{name}: what is wanted", missing(wanted, room.fault())
    with open(f"{room.folder}/utf16", "wb") as it:
        it.write(b"\xff\xfe" + room.examples()["one_read"].encode("utf-16-le"))
    room.window.choose_file("#file", f"{room.folder}/utf16")
    room.window.until("page.state.name === 'utf16'")
    yield "UTF-16", room.fault() or unlike(room.counts(), counted(room.examples()["one_read"]))


def check_paste_and_drop(room):
    """A text is taken by paste and by drop."""
    text = room.examples()["one_read"]
    room.open_page()
    room.window.run(
        "(() => { const data = new DataTransfer(); data.setData('text/plain', %r);"
        "document.body.dispatchEvent(new ClipboardEvent('paste', {clipboardData: data, bubbles: true})) })()" % text
    )
    yield "paste", unlike(room.counts(), counted(text))
    room.open_page()
    room.window.run(
        "(() => { const data = new DataTransfer(); data.items.add(new File([%r], 'dropped'));"
        "document.body.dispatchEvent(new DragEvent('drop', {dataTransfer: data, bubbles: true})) })()" % text
    )
    room.window.until("page.state.name === 'dropped'")
    yield "drop", unlike(room.counts(), counted(text))


def check_picture_file(room):
    """The saved picture stands alone: XML, its colours in it."""
    for scheme in ("light", "dark"):
        room.window.scheme(scheme)
        room.open_page("#example=cable_pulled")
        saved = room.window.run("page.pictureFile()")
        try:
            root = xml.etree.ElementTree.fromstring(saved)
            wrong = unlike(root.tag, "{http://www.w3.org/2000/svg}svg")
        except xml.etree.ElementTree.ParseError as error:
            wrong = str(error)
        yield f"saved picture, {scheme}", wrong
        yield f"saved picture, {scheme}: colours", "it asks for `var(`" if "var(" in saved else ""
    window = room.window
    window.ask("Page.setDownloadBehavior", behavior="allow", downloadPath=room.folder)
    window.run("document.getElementById('save').click()")
    path = f"{room.folder}/example_cable_pulled.svg"
    yield "save as SVG", "" if appears(path) and read(path) == saved else "no such file came"


def reload(room):
    """Loads the page again, and waits until the new one has drawn the text that was opened in the one before."""
    room.window.run("globalThis.isOld = true")
    room.window.ask("Page.reload")
    room.window.until("!globalThis.isOld && globalThis.page?.state?.name === 'given'")
    room.window.rest_drawn()


def check_reload(room):
    """The page that is loaded again has the text that was opened, and another page the first example."""
    text = room.row_traces()["requests/trace_read_with_one_fate"]
    room.open_page()
    room.open_text(text)
    reload(room)
    yield "F5 keeps the text", unlike(room.counts(), counted(text))
    # More than a browser keeps of a text as it is.
    text = repeated(room.examples()["one_read"], EXCHANGES)
    room.open_text(text)
    room.window.until("JSON.parse(sessionStorage.given ?? '{}').packed")
    reload(room)
    yield "F5 keeps a large text", unlike(room.counts(), counted(text))
    room.open_page()
    yield "another page has none", unlike(room.window.run("page.state.name"), "example cable_pulled")


def appears(path):
    """Waits for a file."""
    end = time.monotonic() + 20
    while not os.path.exists(path) and time.monotonic() < end:
        time.sleep(0.05)
    return os.path.exists(path)


def check_table(room):
    """The table has each exchange, with its columns named, and says which page of it is shown."""
    trace = room.examples()["one_read"]
    room.open_page("#example=one_read")
    rows = "document.querySelectorAll('#exchanges-panel tbody tr').length"
    yield "rows of the table", unlike(room.window.run(rows), counted(trace)["exchanges"] + 1)
    heads = "[...document.querySelectorAll('#exchanges-panel th[scope=col]')].map((it) => it.textContent).join()"
    yield "heads of the table", unlike(room.window.run(heads), "Number,Mode,Message,Reply,Note")
    caption = "document.querySelector('#exchanges-panel caption').textContent.trim()"
    yield "caption of the table", unlike(room.window.run(caption), "Exchanges and wake-ups, 1 to 19 of 19")
    room.window.run("document.getElementById('picture').focus()")
    room.press("Home")
    said = room.window.run("document.getElementById('said').textContent")
    yield "what is said of a choice", unlike(said, "1, down: wake COM2")


def check_rules(room):
    """Each rule that the page names is one of protocol.md, and its link leads to a heading."""
    protocol = read(f"{ROOT}/docs/protocol.md")
    rules = set(re.findall(r"^\| ([A-Z]+-\d+) \|", protocol, re.M))
    heads = {
        re.sub(r"[^a-z0-9 _-]", "", it.lower()).replace(" ", "-") for it in re.findall(r"^#+ (.*)$", protocol, re.M)
    }
    texts = dict(re.findall(r"^\| ([A-Z]+-\d+) \| (.*) \| .* \|$", protocol, re.M))
    kept = "Object.entries(JSON.parse(document.getElementById('rules').textContent)).map(([id, [text]]) => [id, text])"
    yield "texts of the rules", unlike(dict(room.window.run(kept)), texts)
    scripts = [read(it) for it in glob.glob(f"{ROOT}/web/src/*.js")]
    named = sorted(set(re.findall(IDS, "".join(scripts))))
    if len(named) < 20:
        yield "rules", f"only {named} are named"
    for id in named:
        yield f"rule {id}", "" if id in rules else "it is no rule of docs/protocol.md"
        path, _, head = room.window.run(f"page.ruleLink('{id}')").partition("#")
        yield f"link of {id}", unlike(path, "../docs/protocol.md") or ("" if head in heads else f"no heading {head}")
    room.open_page("#example=cable_pulled&exchange=18")
    room.window.run("document.querySelector('#detail a[data-rule=\"REQ-5\"]').click()")
    said = room.window.run("document.getElementById('rule').open && document.getElementById('rule').innerText")
    yield "a rule is opened", missing(texts["REQ-5"], said or "")


def contrast(one, other):
    """The contrast of two colours, as WCAG counts it."""

    def light(colour):
        parts = [int(it) / 255 for it in re.findall(r"\d+", colour)[:3]]
        linear = [it / 12.92 if it <= 0.03928 else ((it + 0.055) / 1.055) ** 2.4 for it in parts]
        return 0.2126 * linear[0] + 0.7152 * linear[1] + 0.0722 * linear[2]

    low, high = sorted((light(one), light(other)))
    return (high + 0.05) / (low + 0.05)


def check_contrast(room):
    """Text can be read, light and dark."""
    colour = (
        "((name) => { const it = document.body.appendChild(document.createElement('i'));"
        "it.style.color = `var(--${name})`; const {color} = getComputedStyle(it); it.remove(); return color; })('%s')"
    )
    for scheme in ("light", "dark"):
        room.window.scheme(scheme)
        room.open_page()
        for ink, ground in PAIRS:
            found = contrast(room.window.run(colour % ink), room.window.run(colour % ground))
            wrong = "" if found >= LEAST_CONTRAST else f"the contrast is {found:.1f}, below {LEAST_CONTRAST}"
            yield f"{ink} on {ground}, {scheme}", wrong


def check_pictures(_room):
    """The guide's pictures are there, and small."""
    for name in PICTURES:
        path = f"{ROOT}/docs/pictures/{name}"
        size = os.path.getsize(path) if os.path.exists(path) else None
        yield f"docs/pictures/{name}", "" if size and size < MOST_OCTETS else f"its size is {size}"


def check_odd_lines(room):
    """Lines that the program could print and that no row has: octets of no layout, or none at all."""
    room.open_page()
    lines = ["5 > A2 00: refused 4 WrongLength", "5 <: refused 4 WrongLength", "image none", "archived 3"]
    lines += ["6 > 20 36 9A: write page 00 od 9A", "6 < 2D: ack event 0 pd valid"]
    lines += ["status down UnsupportedCode eventform", "drained 3 restated 1"]
    lines += ["block 1", "block 1 flagset", "block 2 noisdu", "block 3 unknown Cancelled", "block 4 refused 64 0 80 30"]
    lines += ["standing off", "standing empty", "standing released refused 3 1 80 11", "set 00 FF", "saved none"]
    lines += ["ticket 7", "ticket 7 noisdu", "ticket 8", "ticket 8 withdrawn", "record 0"]
    text = "\n".join(lines) + "\n"
    room.open_text(text)
    yield "odd lines: fault", room.fault()
    yield "odd lines: counts", unlike(room.counts(), counted(text))
    room.window.run("document.getElementById('picture').focus()")
    room.press("Home")
    yield "odd lines: choice", unlike(room.chosen(), 5)
    for line in ("block", "block 1 done", "block 1 refused 64 80 30", "standing trouble", "standing Same", "set", "saved"):
        room.open_text(f"{line}\n")
        yield f"no form: {line}", "" if room.fault() else "the page reads it"
    room.open_text("")
    yield "no text", room.fault() or unlike(room.counts(), counted(""))
    yield "no text: choice", unlike(room.chosen(), None)


def check_shown(room):
    """In another browser: each trace of the examples and the rows is read, counted and drawn."""
    room.open_page()
    texts = {name: trace for name, trace in room.examples().items() if trace} | room.row_traces() | {"times": OCTETS}
    for name, text in texts.items():
        room.window.run(f"(page.show({json.dumps(text)}, 'given'), 0)")
        room.window.rest_drawn()
        yield f"{name}: fault", room.fault()
        yield f"{name}: counts", unlike(room.counts(), counted(text))
        drawn = room.window.run("document.querySelector('#picture svg .sent') !== null")
        yield f"{name}: drawn", unlike(drawn, re.search(r"^\d", text, re.M) is not None)
    marks = room.window.run("document.querySelectorAll('#picture .tick.time').length")
    yield "times: marks", "" if marks > 3 else f"only {marks}"


def check_silence(room):
    """The pages ask for nothing but themselves, and their console has no error."""
    errors, asked = room.window.complaints()
    yield "errors of the console", "; ".join(errors)
    own = (f"file://{ROOT}/web/trace.html", f"file://{ROOT}/web/line.html", "about:blank", "data:", "blob:")
    yield "addresses asked for", ", ".join(it for it in asked if not it.startswith(own))


CHECKS = [
    check_made, check_examples, check_traces, *RECORDS, *OWNERS, check_without_texts, check_broken, *BAD_LINES, check_odd_lines,
    check_story, check_details, check_keys, check_pointer, check_touch, check_find, check_faults, check_fault_marks,
    check_keys_after_clicks, *LAYOUT,
    check_wanted, check_paste_and_drop, check_reload, check_picture_file, check_table, check_rules, check_contrast,
    check_pictures, *VERDICTS, *TIMES, check_large,
]
