"""Where things stand: the picture near the top, rows of the list, and on a phone nothing over something else."""
import json

from times import with_times
from trace_page import ROOT, unlike

# Above the picture, in pixels.
MOST_ABOVE = 200
LEAST_ROWS = 8
PHONES = [360, 375, 390, 400]
TOP = "document.getElementById('picture').getBoundingClientRect().top"
# The rows of the list that are seen whole.
ROWS = """(() => {
  const panel = document.getElementById('exchanges-panel').getBoundingClientRect();
  const foot = Math.min(panel.bottom, innerHeight);
  const isSeen = ({top, bottom}) => top >= panel.top && bottom <= foot;
  return [...document.querySelectorAll('#exchanges-panel tbody tr')]
    .filter((it) => isSeen(it.getBoundingClientRect())).length;
})()"""
# What covers something else: texts, and what can be clicked, each with what it is laid over.
OVERLAPS = """(() => {
  const isSeen = (it) => it.checkVisibility({visibilityProperty: true}) && !it.closest('.quiet');
  const controls = [...document.querySelectorAll('button, select, input, summary, #counts div')];
  const parts = controls.filter(isSeen).map((it) => [it.id || it.innerText, it.getBoundingClientRect(), it]);
  const walker = document.createTreeWalker(document.body, NodeFilter.SHOW_TEXT);
  while (walker.nextNode()) {
    const {parentElement: owner, textContent} = walker.currentNode;
    const isOther = owner.closest('script, style, svg, button, select, #counts div, [hidden], dialog, summary');
    if (!textContent.trim() || isOther || !isSeen(owner)) continue;
    const range = document.createRange();
    range.selectNodeContents(walker.currentNode);
    for (const rect of range.getClientRects()) parts.push([textContent.trim().slice(0, 30), rect, owner]);
  }
  const {left} = page.state;
  const picture = document.getElementById('picture').getBoundingClientRect();
  for (const it of document.querySelectorAll('#picture svg text')) {
    if (!it.textContent.trim()) continue;
    const rect = it.getBoundingClientRect();
    const isGutter = ['lane', 'lane-sub'].includes(it.getAttribute('class'));
    const [from, to] = isGutter ? [0, innerWidth] : [picture.left + left, innerWidth];
    const [x, end] = [Math.max(rect.left, from), Math.min(rect.right, to)];
    if (end <= x) continue;
    parts.push([it.textContent, new DOMRect(x, rect.top + 2, end - x, rect.height - 4), it]);
    if (isGutter && rect.right > picture.left + left) parts.push([`${it.textContent}, its gutter`, rect, null]);
  }
  // What is seen of a part: scrolling parts cut it off.
  const cut = ([name, rect, owner]) => {
    let [x, y, right, bottom] = [rect.left, rect.top, rect.right, rect.bottom];
    for (let it = owner?.parentElement; it; it = it.parentElement) {
      if (it === document.body || getComputedStyle(it).overflowY === 'visible') continue;
      const its = it.getBoundingClientRect();
      [x, y] = [Math.max(x, its.left), Math.max(y, its.top)];
      [right, bottom] = [Math.min(right, its.right), Math.min(bottom, its.bottom)];
    }
    return [name, new DOMRect(x, y, Math.max(0, right - x), Math.max(0, bottom - y)), owner];
  };
  parts.splice(0, parts.length, ...parts.map(cut).filter(([, {width, height}]) => width * height > 0));
  const isHidden = (one, two) => one?.matches?.('.tick') && two?.matches?.('.guilty-text');
  const found = [];
  parts.forEach(([name, one, owner], at) => {
    if (owner === null || one.right > innerWidth + 1) found.push(`${name} is wider than its place`);
    for (const [other, two, its] of parts.slice(at + 1)) {
      if (owner === its || owner?.contains(its) || its?.contains(owner) || isHidden(owner, its)) continue;
      const isOver = Math.min(one.right, two.right) - Math.max(one.left, two.left) > 1
        && Math.min(one.bottom, two.bottom) - Math.max(one.top, two.top) > 1;
      if (isOver) found.push(`${name} / ${other}`);
    }
  });
  return found;
})()"""


def judged(trace):
    """A trace with all that `judge` may say of it."""
    return trace + "\n".join([
        "unjudged 1", "kind first keeps or first forgets or last keeps",
        "master not by the rules at 4: 2 NotRepeated: another message than the one that had no good reply (LINK-2)",
        "3 odd: 10 PageZero: a page address outside 01 to 0B that isn't 0 (PAGE-1)",
        "not honest at 18: 9 PageChanged: an octet of the page that was another before (PAGE-1)", "odd 1",
    ]) + "\n"


def timed(trace):
    """A trace with times, and with a pause of ten hours before its last exchanges."""
    begun = [at * 2_300_000 + (36_000 * 10**9 if at > 17 else 0) for at in range(20)]
    return with_times(trace, iter(begun))


def texts_of(room):
    """Texts of each kind, by name."""
    examples = {name: trace for name, trace in room.examples().items() if trace}
    yield from examples.items()
    yield "timed", timed(examples["cable_pulled"])
    yield "judged", judged(examples["cable_pulled"])
    yield "a bad line", f"{examples['cable_pulled']}what is this, in a line that is so long that it needs two of them\n"
    yield "a bad line, judged", judged(examples["cable_pulled"]) + "odd 1\n"


def show(window, text):
    window.run(f"(page.show({json.dumps(text)}, 'given'), 0)")
    window.rest_drawn()


def check_top(room):
    """At 1280 pixels the picture begins near the top, the legend is seen, and the list shows eight rows."""
    window = room.window
    room.open_page()
    for height in (900, 800):
        window.resize(1280, height)
        for name, text in texts_of(room):
            show(window, text)
            top = window.run(TOP)
            yield f"{name}, 1280 x {height}: the picture", "" if top < MOST_ABOVE else f"it begins at {top}"
            window.run("document.getElementById('tab-exchanges').click()")
            if name in ("cable_pulled", "one_read"):
                rows = window.run(ROWS)
                yield f"{name}, 1280 x {height}: rows", "" if rows >= LEAST_ROWS else f"only {rows} are seen"
                window.run("document.getElementById('exchanges-panel').scrollTop = 10000")
                rows = window.run(ROWS)
                yield f"{name}, 1280 x {height}: last rows", "" if rows >= LEAST_ROWS else f"only {rows} are seen"
                foot = window.run("document.querySelector('.legend').getBoundingClientRect().bottom")
                yield f"{name}, 1280 x {height}: the legend", "" if foot <= height else f"it ends at {foot}"
            window.run("document.getElementById('tab-requests').click()")
    window.resize(*window.size)


def check_phone(room):
    """On a phone nothing is wider than it, and nothing lies over something else."""
    window = room.window
    for address in ("trace.html", "line.html"):
        window.go(f"file://{ROOT}/web/{address}")
        texts = list(texts_of(room)) if address == "trace.html" else [("its story", None)]
        for wide in PHONES:
            window.resize(wide, 844)
            for name, text in texts:
                if text is not None:
                    show(window, text)
                window.rest_drawn()
                for tab in ("requests", "exchanges", "text"):
                    window.run(f"document.getElementById('tab-{tab}').click()")
                    window.rest_drawn()
                    found = window.run(OVERLAPS)
                    yield f"{address}, {name}, {wide} pixels, {tab}", "; ".join(found[:6])
                width = window.run("document.documentElement.scrollWidth")
                yield f"{address}, {name}, {wide} pixels", "" if width <= wide else f"it is {width} pixels wide"
                seen = window.run("document.querySelector('.legend').checkVisibility()")
                yield f"{address}, {name}, {wide} pixels: the legend", unlike(seen, True)
    window.resize(*window.size)


def check_scales(room):
    """With times, the labels of the scale keep apart, however near or far the picture is."""
    window = room.window
    room.open_page()
    text = timed(room.examples()["cable_pulled"])
    for wide in (390, 1280):
        window.resize(wide, 900)
        show(window, text)
        for scale in (0, 14, 20, 40, 60, 120, 240):
            for place in (0, 15.5):
                window.run(f"page.look({place}, {scale})")
                window.rest_drawn()
                yield f"scale of times at {wide} pixels, {scale}, {place}", "; ".join(window.run(OVERLAPS)[:6])
    window.resize(*window.size)


CHECKS = [check_top, check_phone, check_scales]
