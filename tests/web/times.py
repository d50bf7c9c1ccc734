"""Traces with times: where exchanges stand, the scale, pauses, what is told of times, and lines of times that are bad.

`judge --octets RATE --trace` prints such traces. OCTETS is that of examples/octets, made by hand.
"""
import json
import random
import re
import subprocess

from large import check_long, repeated
from trace_page import ROOT, missing, read, unlike

OCTETS = """time 0.001868000
1 wake COM3
time 0.003821000
2 > A2 00: read page 02
2 < 17 1B: od 17 event 0 pd valid
time 0.004472000
3 > A3 11: read page 03
3 < none
time 0.005001480
4 > A3 11: read page 03
4 < 2D 28: od 2D event 0 pd valid
"""
BEGUN = [1868000, 3821000, 4472000, 5001480]
# Of each exchange: its number, when it began, and where its message is drawn.
DRAWN = """(({left, view, trace: {exchanges, axis}}) => {
  const boxes = [...document.querySelectorAll('#picture .cell.sent')].map((it) => Number(it.getAttribute('x')));
  return exchanges.map(({number, time}, at) => [number, time, boxes[at]]);
})(page.state)"""
# The labels of the scale, each with its place.
SCALE = """[...document.querySelectorAll('#picture .tick.time')].map((it) => (
  [it.textContent, Number(it.getAttribute('x'))]))"""
HEADS = "[...document.querySelectorAll('#exchanges-panel th[scope=col]')].map((it) => it.textContent).join()"
IN_NANOSECONDS = {"µs": 1e3, "ms": 1e6, "s": 1e9}
# A box begins so far behind its place.
INSET = 2
PIXEL = 0.15


def with_times(trace, begun):
    """A trace with a time before each call of the wire: the next of `begun`, in nanoseconds."""
    lines = []
    for line in trace.splitlines():
        if re.match(r"\d+ (?:wake|>)", line):
            time = next(begun)
            lines.append(f"time {time // 10**9}.{time % 10**9:09d}")
        lines.append(line)
    return "\n".join(lines) + "\n"


def every(period, first=0):
    while True:
        yield first
        first += period


def nanoseconds(label):
    number, unit = label.replace(",", "").split(" ")
    return float(number) * IN_NANOSECONDS[unit]


def off_line(points):
    """The furthest that points are off the line through the first and the last."""
    (t0, x0), (t1, x1) = points[0], points[-1]
    return max(abs(x - x0 - (x1 - x0) * (t - t0) / (t1 - t0)) for t, x in points)


def check_sample(room):
    """What comes of examples/octets: places by times, one scale for all, times in the details and in the list."""
    window = room.window
    room.open_page()
    room.open_text(OCTETS)
    yield "times: fault", room.fault()
    drawn = window.run(DRAWN)
    yield "times: read", unlike([time for _, time, _ in drawn], BEGUN)
    places = [(time, x - INSET) for _, time, x in drawn]
    yield "times: places", "" if off_line(places) < PIXEL else f"{places} are on no line"
    scale = window.run(SCALE)
    yield "times: marks", "" if len(scale) > 3 else f"only {scale}"
    marks = [(nanoseconds(label), x) for label, x in scale]
    off = off_line([places[0], *marks, places[-1]])
    yield "times: the scale fits the places", "" if off < PIXEL else f"{marks} are {off} off"
    window.run("page.show(page.state.trace.text, 'given')")
    room.press("Home")
    told = []
    for _ in BEGUN:
        told.append(window.run("document.querySelector('#detail .time').innerText"))
        room.press("ArrowRight")
    wanted = [
        "It began at 1.868 ms.", "It began at 3.821 ms, 1.953 ms after the one before.",
        "It began at 4.472 ms, 651 µs after the one before.",
        "It began at 5.00148 ms, 529.48 µs after the one before.",
    ]
    yield "times: details", unlike(told, wanted)
    yield "times: said", missing("at 5.00148 ms", window.run("document.getElementById('said').textContent"))
    window.run("document.getElementById('tab-exchanges').click()")
    cells = "[...document.querySelectorAll('#exchanges-panel td.time')].map((it) => it.innerText)"
    listed = ["1.868 ms", "3.821 ms +1.953 ms", "4.472 ms +651 µs", "5.00148 ms +529.48 µs"]
    yield "times: listed", unlike(window.run(cells), listed)
    yield "times: heads", unlike(window.run(HEADS), "Number,Time,Mode,Message,Reply,Note")
    shown = "[...document.querySelectorAll('.printed li')].map((it) => it.lastChild.textContent)"
    yield "times: its lines", unlike(window.run(shown), OCTETS.splitlines()[-3:])


def check_program(room):
    """`judge` takes the sample as the octets, but for the lines of times, and so does the page what --trace prints."""
    octets = read(f"{ROOT}/examples/octets")

    def judge(*words, given):
        ran = subprocess.run([room.program, "judge", *words], input=given, capture_output=True, text=True, check=False)
        return ran.stdout

    verdict = judge("--octets", "com3", given=octets)
    yield "times: judge", unlike(judge(given=OCTETS), f"lines skipped {len(BEGUN)}\n{verdict}")
    printed = judge("--octets", "com3", "--trace", given=octets)
    room.open_page()
    room.open_text(printed or OCTETS + verdict)
    yield "times: with the verdict: fault", room.fault()
    yield "times: with the verdict", unlike([time for _, time, _ in room.window.run(DRAWN)], BEGUN)
    story = room.window.run("document.getElementById('story').innerText")
    yield "times: the verdict", missing("says honest: in 3 exchanges, 1 of them lost", story)


def check_scale(room):
    """The unit fits: cycles of 40 µs, of 2.3 ms, of 5 s; and all is still seen behind a pause of ten hours."""
    trace = room.examples()["cable_pulled"]
    room.open_page()
    for period, unit in ((40_000, "µs"), (2_300_000, "ms"), (5_000_000_000, "s")):
        room.open_text(with_times(trace, every(period, first=period)))
        labels = [label for label, _ in room.window.run(SCALE)]
        units = {label.split(" ")[1] for label in labels}
        yield f"scale of {period} ns", unlike((len(labels) > 3, units), (True, {unit}))
        yield f"scale of {period} ns: fault", room.fault()
    pause, late = 36_000 * 10**9, every(2_300_000, first=36_000 * 10**9)
    early = every(2_300_000)
    room.open_text(with_times(trace, iter([next(early) for _ in range(17)] + [next(late) for _ in range(3)])))
    extent = room.window.run("page.state.trace.axis.extent")
    yield "pause: it is cut", "" if 20 < extent < 40 else f"the picture is {extent} wide"
    room.window.run("page.look(14, 60)")
    room.window.rest_drawn()
    said = "document.querySelector('#picture .pause-text').textContent"
    yield "pause: how long", unlike(room.window.run(said), f"// {pause / 1e9 - 16 * 2.3e-3:.4f}".rstrip("0") + " s")
    yield "pause: marked", unlike(room.window.run("document.querySelectorAll('#picture .pause').length"), 1)
    seen = room.window.run("document.getElementById('sign-pause').hidden")
    yield "pause: in the legend", unlike(seen, False)
    labels = [nanoseconds(label) for label, _ in room.window.run(SCALE)]
    yield "pause: both sides", "" if labels[0] < 10**9 < pause <= labels[-1] else f"{labels}"
    room.press("End")
    room.press("Home")
    yield "pause: keys", unlike(room.chosen(), 1)


PLACES = """(({axis}) => [
  [...axis.places], axis.times.map((_, at) => axis.at(axis.place(at) + 0.5)),
])(page.state.trace)"""


def check_places(room):
    """Over random times: places grow, no exchange covers another, and each is found where it is drawn."""
    trace = room.examples()["cable_pulled"]
    room.open_page()
    for seed in range(20):
        maker = random.Random(seed)
        begun, time = [], maker.randrange(10**9)
        for _ in range(20):
            begun.append(time)
            time += maker.choice([0, 1, 10**5, 10**6, 10**6, 2 * 10**6, 10**7, 10**10])
        room.open_text(with_times(trace, iter(begun)))
        yield f"random times {seed}: fault", room.fault()
        places, found = room.window.run(PLACES)
        near = [b - a for a, b in zip(places, places[1:]) if b - a < 1 - 1e-9]
        yield f"random times {seed}: places", "" if not near else f"{near} units apart"
        yield f"random times {seed}: found", unlike(found, list(range(20)))
    x, y = room.window.run(
        "(({left, top}) => [left + page.state.left + (page.state.trace.axis.place(12) + 0.5 - page.state.view.from)"
        " * page.state.view.scale, top + 200])(document.getElementById('picture').getBoundingClientRect())"
    )
    for kind in ("mousePressed", "mouseReleased"):
        room.window.mouse(kind, x, y, button="left", clickCount=1)
    room.window.rest_drawn()
    yield "times: a click", unlike(room.chosen(), 13)


def check_without(room):
    """Without times, or with some alone, each exchange is as wide as each other, and there is no scale."""
    trace = room.examples()["cable_pulled"]
    timed = with_times(trace, every(2_300_000))
    room.open_page()
    for name, text in (("no times", trace), ("one time less", timed.replace("time 0.002300000\n", ""))):
        room.open_text(text)
        yield f"{name}: fault", room.fault()
        xs = [x for _, _, x in room.window.run(DRAWN)]
        wide = {round(b - a, 1) for a, b in zip(xs, xs[1:])}
        yield f"{name}: places", "" if max(wide) - min(wide) < 0.3 else f"{sorted(wide)} apart"
        parts = "document.querySelectorAll('#picture .time, #picture .axis, #picture .pause').length"
        yield f"{name}: no scale", unlike(room.window.run(parts), 0)
    room.open_text(trace)
    yield "no times: details", unlike(room.window.run("document.querySelector('#detail .time')"), None)
    yield "no times: heads", unlike(room.window.run(HEADS), "Number,Mode,Message,Reply,Note")


BAD = [
    (1, "time", "column 5: the line ends; wanted: time (seconds, as 12.000042)"),
    (1, "time 1,5", 'column 6: "1,5" is no time (seconds, as 12.000042)'),
    (1, "time -1", 'column 6: "-1" is no time (seconds, as 12.000042)'),
    (1, "time 0.0018680000", 'column 6: "0.0018680000" is no time (seconds, as 12.000042)'),
    (1, "time .5", 'column 6: ".5" is no time (seconds, as 12.000042)'),
    (1, "time 0.001868 s", 'column 15: "s" is one word too many: the line ends before it'),
    (1, "time  0.001868", "column 6: a second blank: one parts two words"),
    (1, "tine 0.001868", 'column 1: "tine" is no word here, perhaps "time"'),
    (1, "maybe", "column 6: the line ends; wanted: wake"),
    (1, "maybe woke", 'column 7: "woke" is no word here, perhaps "wake"'),
    (3, "time 0.001867999", "column 6: a time before that of the line above; wanted: a later one"),
    (4, "time 0.004000000", "column 1: wanted: N wake .., N > .. or maybe wake, behind a time"),
    (5, "time 0.004000000", "column 1: the message before has no reply line; wanted: 2 < .."),
    (5, "maybe wake", "column 1: the message before has no reply line; wanted: 2 < .."),
]


def check_bad_times(room):
    """A bad line of times is named, with its column; `judge`, which passes such lines over, takes the text."""
    room.open_page()
    for number, line, said in BAD:
        lines = OCTETS.splitlines()
        lines[number - 1 : number - (number > 3)] = [line]
        text = "\n".join(lines) + "\n"
        room.open_text(text)
        yield f"bad: {line}", missing(f"line {number}: ", room.fault()) or missing(said, room.fault())
        ran = subprocess.run([room.program, "judge"], input=text, capture_output=True, text=True, check=False)
        yield f"bad: {line}: judge", unlike(ran.stderr, "")


def check_find_time(room):
    """An exchange is found by its time: the last that began by then."""
    room.open_page()
    room.open_text(OCTETS)
    wanted = [("3.9 ms", 2), ("5001.48 us", 4), ("5001.47µs", 3), ("12", 4), ("0.0044720", 3), ("1 ms", None)]
    for text, number in wanted:
        room.window.run(
            "document.getElementById('find-what').value = 'time';"
            f"document.getElementById('find-text').value = {json.dumps(text)};"
            "document.getElementById('find').requestSubmit()"
        )
        found = room.window.run("page.state.found.map((it) => it + 1)")
        yield f"find time {text}", unlike(found, [number] if number else [])


def check_maybe(room):
    """A wake-up that may have been is drawn before the exchange behind it, and told there."""
    room.open_page()
    text = OCTETS.replace("time 0.005001480\n", "time 0.004800000\nmaybe wake\ntime 0.005001480\n")
    for name, given in (("maybe a wake-up", text), ("without times", re.sub(r"time .*\n", "", text))):
        room.open_text(given)
        yield f"{name}: fault", room.fault()
        room.press("End")
        xs = [x - INSET for _, _, x in room.window.run(DRAWN)]
        drawn = [float(it) for it in room.window.run(
            "[...document.querySelectorAll('#picture .maybe')].map((it) => it.getAttribute('x1'))")]
        is_between = len(drawn) == 1 and xs[2] < drawn[0] <= xs[3] + PIXEL
        yield f"{name}: drawn", "" if is_between else f"at {drawn}, and the exchanges at {xs}"
        told = "Before it, a wake-up that isn’t shown may have been made"
        yield f"{name}: told", missing(told, room.window.run("document.getElementById('detail').innerText"))
        room.window.run("document.getElementById('tab-exchanges').click()")
        notes = "document.querySelector('#exchanges-panel tr.is-chosen').innerText"
        yield f"{name}: listed", missing("maybe a wake-up before", room.window.run(notes))


def check_large_times(room):
    """As large.py, with a time before each exchange, and some pauses."""
    maker = random.Random(1)
    one_read = room.examples()["one_read"]

    def begun():
        time = 0
        while True:
            yield time
            time += maker.choice([2_300_000] * 50 + [10**10])

    yield from check_long("large, with times", room, lambda count: with_times(repeated(one_read, count), begun()))


CHECKS = [
    check_sample, check_program, check_scale, check_places, check_without, check_bad_times, check_find_time,
    check_maybe, check_large_times,
]
