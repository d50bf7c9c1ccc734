"""A trace of 100,000 exchanges: it opens in time, moves without a stall, and draws and looks at what is seen alone.

Times are those that the page's thread worked, so that what else runs on the machine doesn't count. How fast the machine
is doesn't count either: a trace ten times as long may take twenty times as long to open, and no longer to move. Both
stand in a browser each and move in turn, so that a busy machine slows both. How much is looked at is counted.
"""
import contextlib

from browser import Browser
from counting import counted
from trace_page import Room, unlike

EXCHANGES = 100_000
OPEN_MS = 2000
# A task as long as this is felt as a stall.
STALL_MS = 50
# A slower machine may take longer, where it does so for a tenth of the trace, too: by these factors.
TENTH = EXCHANGES // 10
SLOWER_OPEN = 20
SLOWER_MOVE = 2
SCALES = (60, 16, 6, 0.3)
MOST_DRAWN = 3000
MOVES = 20
# So often moves are tried at most, where they take too long.
TRIES = 10
# How many looks more a longer trace may take: some steps of a search each.
MORE_LOOKS = 1000
# How often something is asked of the lists of a trace where it is drawn in its middle, and the next exchange is chosen.
LOOKS = """((scale) => {
  const {state} = page;
  const given = {trace: state.trace, listed: state.listed};
  let looks = 0;
  const get = (list, name) => { looks += 1; return list[name]; };
  const counting = (it) => (Array.isArray(it) ? new Proxy(it.map((each) => counting(each)), {get}) : it);
  state.trace = Object.fromEntries(Object.entries(given.trace).map(([name, it]) => [name, counting(it)]));
  state.listed = counting(given.listed);
  page.look(state.trace.axis.extent / 2, scale);
  page.pictureFile();
  document.dispatchEvent(new KeyboardEvent('keydown', {key: 'ArrowRight'}));
  Object.assign(state, given);
  return looks;
})"""


def repeated(trace, count):
    """The start-up of a trace, and then its request again and again, up to so many calls of the line."""
    numbered = [it.split(" ", 1) for it in trace.splitlines() if it[0].isdecimal()]
    first = next(int(number) for number, rest in numbered if rest.startswith("> 70"))
    lines = [f"{number} {rest}" for number, rest in numbered if int(number) < first]
    part = [(int(number) - first, rest) for number, rest in numbered if int(number) >= first]
    size = part[-1][0] + 1
    tickets = 0
    for begin in range(first, count + 1, size):
        tickets += 1
        lines.append(f"ticket {tickets}")
        lines += [f"{begin + at} {rest}" for at, rest in part]
        lines.append(f"ticket {tickets} done read 41 42")
    lines.append(f"record {tickets}")
    lines += ["carried read 16 0: read 41 42"] * tickets
    return "\n".join(lines) + "\n"


def work(room):
    """How long the page's thread has worked, in milliseconds."""
    metrics = room.window.ask("Performance.getMetrics")["metrics"]
    return next(it["value"] for it in metrics if it["name"] == "ThreadTime") * 1000


def within(time, most):
    return "" if time <= most else f"it takes {time:.0f} ms, more than {most:.0f}"


def open_time(room, text):
    room.window.ask("Performance.enable", timeDomain="threadTicks")
    room.open_page()
    begun = work(room)
    room.open_text(text)
    return work(room) - begun


def move_time(room, scale):
    """The time of one move by the wheel, where an exchange has so many pixels."""
    room.window.run(f"page.look(0, {scale})")
    room.window.rest_drawn()
    begun = work(room)
    for _ in range(MOVES):
        room.window.mouse("mouseWheel", 800, 300, deltaX=0, deltaY=160)
        room.window.rest_drawn()
    return (work(room) - begun) / MOVES


def least_move_time(room, tenth, scale):
    """The least time of a move, and how long it may take by that of a tenth: both are tried until it is in time."""
    tries = []
    for _ in range(TRIES):
        tries.append((move_time(tenth, scale), move_time(room, scale)))
        least_of_tenth, least = map(min, zip(*tries))
        most = max(STALL_MS, SLOWER_MOVE * least_of_tenth)
        if least <= most:
            break
    return least, most


def looks(room, scale):
    return room.window.run(f"{LOOKS}({scale})")


@contextlib.contextmanager
def another(room):
    """A room with a browser of its own."""
    with Browser() as window:
        yield Room(window, room.program, room.folder)


def check_scale(name, room, tenth, scale):
    """A move takes no longer than one of a tenth of the trace, and looks at no more."""
    time, most = least_move_time(room, tenth, scale)
    yield f"{name}: moves at {scale} px an exchange", within(time, most)
    count = room.window.run("document.querySelectorAll('#picture svg *').length")
    yield f"{name}: drawn at {scale} px", "" if count <= MOST_DRAWN else f"{count} elements"
    looked, most_looks = looks(room, scale), looks(tenth, scale) + MORE_LOOKS
    yield f"{name}: looks at {scale} px", "" if looked <= most_looks else f"{looked} looks, more than {most_looks}"
    return time


def check_long(name, room, text_of):
    """The checks of traces of EXCHANGES exchanges, and of TENTH: `text_of` gives those of so many."""
    with another(room) as tenth:
        most = max(OPEN_MS, SLOWER_OPEN * open_time(tenth, text_of(TENTH)))
        text = text_of(EXCHANGES)
        opened = open_time(room, text)
        yield f"{name}: fault", room.fault()
        yield f"{name}: counts", unlike(room.counts(), counted(text))
        yield f"{name}: opens", within(opened, most)
        moved = []
        for scale in SCALES:
            moved.append((yield from check_scale(name, room, tenth, scale)))
        print(f"{name}, {EXCHANGES:,} exchanges: {opened:.0f} ms to open, at most {max(moved):.0f} ms to move")


def check_large(room):
    one_read = room.examples()["one_read"]
    yield from check_long("large", room, lambda count: repeated(one_read, count))
