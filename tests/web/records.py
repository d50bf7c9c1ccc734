"""What the page finds in a device's record: of each request how often it was carried out, as far as that follows.

The texts are made of pieces: start-ups, reads that are answered, and reads that are cut off when the link is lost. In
further ones, of random scripts over a lossy line, no two requests are alike, so that the record says it of each.
"""
import importlib.machinery
import importlib.util

from trace_page import ROOT, missing, script_of, unlike

ASKED = ["> 70 5D 93 10 83 00 00 00 00 00: write isdu 10 od 93 10 83 00 00 00 00 00", "< 2D: ack event 0 pd valid"]
UNHEARD = [ASKED[0], "< none"]
ASK = "> F0 75: read isdu 10"
BUSY = "< 01 00 00 00 00 00 00 00 3C: od 01 00 00 00 00 00 00 00 event 0 pd valid"
ANSWER = "< D4 41 42 D7 00 00 00 00 2D: od D4 41 42 D7 00 00 00 00 event 0 pd valid"
DONE = [*ASKED, ASK, BUSY, ASK, ANSWER]
CUT = [*ASKED, ASK, BUSY, *[ASK, "< none"] * 3]
ENDS = {
    "done": (DONE, "done read 41 42"),
    "cut": (CUT, "unknown LinkLost"),
    # Its first message never had a reply, so that the device was never asked.
    "unasked": (UNHEARD * 3, "unknown LinkLost"),
    # A device that hands over with the last segment may have taken each START write for a request of its own.
    "repeated": ([*UNHEARD, *DONE], "done read 41 42"),
    "repeated cut": ([*UNHEARD, *UNHEARD, *CUT], "unknown LinkLost"),
    # Its first START read brought the answer: it was handed over before.
    "at once": ([*ASKED, ASK, ANSWER], "done read 41 42"),
    "repeated at once": ([*UNHEARD, *ASKED, ASK, ANSWER], "done read 41 42"),
}

# The requests, how many the record has, and how often it has each: a number, or the least and the most that fit. None
# if the record can't be that of these requests.
CASES = [
    (["done"], 1, [1]),
    (["done"], 0, None),
    (["done"], 2, None),
    (["cut"], 0, [0]),
    (["cut"], 1, [1]),
    (["cut"], 2, None),
    (["unasked"], 0, [0]),
    (["cut", "done"], 1, [0, 1]),
    (["cut", "done"], 2, [1, 1]),
    (["done", "cut"], 1, [1, 0]),
    (["done", "cut"], 2, [1, 1]),
    (["cut", "cut"], 0, [0, 0]),
    (["cut", "cut"], 1, [(0, 1), (0, 1)]),
    (["cut", "cut"], 2, [1, 1]),
    (["unasked", "cut", "done", "cut"], 2, [0, (0, 1), 1, (0, 1)]),
    (["unasked", "cut", "done", "cut"], 3, [0, 1, 1, 1]),
    (["unasked"], 1, [1]),
    (["unasked"], 3, [3]),
    (["unasked"], 4, None),
    (["repeated"], 1, [1]),
    (["repeated"], 2, [2]),
    (["repeated"], 3, None),
    (["repeated cut"], 0, [0]),
    (["repeated cut"], 1, [1]),
    (["repeated cut"], 2, [2]),
    (["repeated cut"], 3, [3]),
    (["repeated", "repeated"], 2, [1, 1]),
    (["repeated", "repeated"], 3, [(1, 2), (1, 2)]),
    (["repeated", "repeated"], 4, [2, 2]),
    (["done", "repeated"], 3, [1, 2]),
    (["at once"], 1, [1]),
    (["at once"], 2, None),
    (["repeated at once", "repeated at once"], 2, [1, 1]),
    (["repeated at once", "cut"], 2, [(1, 2), (0, 1)]),
    (["repeated at once", "cut"], 3, [2, 1]),
]
FOUND = """(({kind, requests}) => kind && requests.map(({times: {least, most}}) => (
  least === most ? least : [least, most])))(page.state.trace)"""
TIMES = """Object.fromEntries(page.state.trace.requests.map(({ticket, text, times: {least, most}}) => (
  [ticket?.number, [text, least, most]])))"""
SCRIPTS = 3
DRAWN = "document.querySelector('#picture svg').textContent"
STORY = "document.getElementById('story').innerText"
LISTED = "document.querySelector('#requests-panel tbody').innerText"


def start_up(trace):
    """The calls of the line up to OPERATE, without their numbers."""
    lines = [it.split(" ", 1) for it in trace.splitlines() if it[0].isdecimal()]
    return [rest for number, rest in lines if int(number) <= 15]


def text_of(trace, kinds, carried):
    """A trace of these requests, each behind a start-up of its own."""
    lines, number, is_up = [], 0, False
    for ticket, kind in enumerate(kinds, 1):
        calls, outcome = ENDS[kind]
        lines.append(f"ticket {ticket}")
        # After a request that was done the link is still up.
        for call in [*([] if is_up else start_up(trace)), *calls]:
            number += call[0] != "<"
            lines.append(f"{number} {call}")
        lines.append(f"ticket {ticket} {outcome}")
        is_up = outcome.startswith("done")
    lines += [f"record {carried}", *["carried read 16 0: read 41 42"] * carried]
    return "\n".join(lines) + "\n"


def check_records(room):
    trace = room.examples()["one_read"]
    room.open_page()
    for kinds, carried, wanted in CASES:
        room.open_text(text_of(trace, kinds, carried))
        name = f"record of {carried} for {', '.join(kinds)}"
        yield f"{name}: fault", room.fault()
        told = wanted and [list(it) if isinstance(it, tuple) else it for it in wanted]
        yield name, unlike(room.window.run(FOUND), told)
        unfit = "the record does not fit these requests" in room.window.run(DRAWN)
        yield f"{name}: in words", unlike(unfit, wanted is None)
        again = f"Carried out more often than asked, by {carried - len(kinds)}"
        is_twice = isinstance(wanted, list) and any(isinstance(it, int) and it > 1 for it in wanted)
        if carried > len(kinds) and not is_twice:
            yield f"{name}: again", missing(again, room.window.run(STORY))


def once():
    """The script tests/once/check_once, which writes random scripts."""
    loader = importlib.machinery.SourceFileLoader("once", f"{ROOT}/tests/once/check_once")
    made = importlib.util.module_from_spec(importlib.util.spec_from_loader("once", loader))
    loader.exec_module(made)
    return made


def times_wrong(found, carried, record):
    """What the page says of a ticket that the script and the record say otherwise."""
    requests = [it.split(":")[0] for it in record]
    for ticket, request in enumerate((it.split(":")[0] for it in carried), 1):
        count, said = requests.count(request), found.get(str(ticket))
        # One that was not carried out may have been cut off before it was whole, or have never gone out.
        if said != [request, count, count] and (count or said not in (None, [None, 0, 0])):
            return f"ticket {ticket}, {request}: {said}, and not {count}"
    return "a request on the line has no ticket" if "undefined" in found else ""


def check_random_records(room):
    """At devices of each kind, over random losses: how often each request was carried out, ticket by ticket."""
    scripts = once()
    twice = 0
    room.open_page()
    for devices, misses in (("own", False), ("any", False), ("any", True)):
        for kind in scripts.KINDS:
            for seed in range(1, SCRIPTS + 1):
                script, carried = scripts.script(seed, devices, kind, misses)
                text = room.trace_of(script)
                record = [it.removeprefix("carried ") for it in text.splitlines() if it.startswith("carried ")]
                twice += len(record) > len(set(record))
                room.open_text(text)
                name = f"requests over losses, {devices}, {kind}, {seed}{', pulses missed' if misses else ''}"
                yield f"{name}: fault", room.fault()
                yield name, times_wrong(room.window.run(TIMES), carried, record)
    yield "requests over losses: carried out twice", "" if twice else "in no script"


def check_twice(room):
    """A request that was carried out twice is marked in words, in the drawing and in the list; so is another answer."""
    room.open_page()
    for row in ("kinds/run_carried_out_twice", "kinds/run_carried_out_twice_and_forgets"):
        room.open_text(room.trace_of(script_of(row)))
        yield f"{row}: in words", missing("Carried out twice: Ticket 1, write 16/0 = 41 (VendorName).", room.window.run(STORY))
        yield f"{row}: the rule", missing("REQ-15", room.window.run(STORY))
        yield f"{row}: drawn", missing("The device carried it out twice: write 16/0 = 41.", room.window.run(DRAWN))
        frames = "document.querySelectorAll('#picture .story.twice').length"
        yield f"{row}: framed", unlike(room.window.run(frames), 1)
        times = "document.querySelectorAll('#picture .times').length"
        yield f"{row}: each START write", unlike(room.window.run(times), 2)
        yield f"{row}: listed", missing("carried out twice: written, written", room.window.run(LISTED))
        yield f"{row}: chosen", unlike(room.chosen(), 16)
        for scale in (60, 16, 6, 0.3):
            room.window.run(f"page.look(0, {scale})")
            room.window.rest_drawn()
            yield f"{row}: framed at {scale} px", unlike(room.window.run(frames), 1)
    row = "kinds/run_forgets_and_zeros_are_taken"
    room.open_text(room.trace_of(script_of(row)))
    answer = "read DA 00 00 00 00 00 00 41"
    yield f"{row}: in words", missing(f"the device answered {answer}", room.window.run(STORY))
    yield f"{row}: drawn", missing(f"≠ The device answered: {answer}", room.window.run(DRAWN))
    yield f"{row}: listed", missing(f"≠ carried out: {answer}", room.window.run(LISTED))


# Requests and answers, and how the page says them: with the standard's name, where it has one.
NAMED = {
    "page.requestInWords('read 21 0')": "read 21/0 (SerialNumber)",
    "page.requestInWords('write 12 0 00 01')": "write 12/0 = 00 01 (DeviceAccessLocks)",
    "page.requestInWords('write 2 0 03')": "write 2/0 = 03 (SystemCommand ParamDownloadStart)",
    "page.requestInWords('write 2 0 A0')": "write 2/0 = A0 (SystemCommand)",
    "page.requestInWords('write 64 0 03')": "write 64/0 = 03",
    "page.requestInWords(undefined)": "a request, cut short",
    "page.answerInWords('refused 80 41')": "refused 80 41 (inconsistent set)",
    "page.answerInWords('refused 81 41')": "refused 81 41",
    "page.answerInWords('read 80 41')": "read 80 41",
}
REFUSED = "write 2 0 82\nturn 20\ncollect 1\n"


def check_names(room):
    """What the guide names is named in the lists."""
    room.open_page()
    for asked, wanted in NAMED.items():
        yield f"names: {asked}", unlike(room.window.run(asked), wanted)
    room.open_text(room.trace_of(REFUSED))
    listed = room.window.run(LISTED)
    for part in ("SystemCommand RestoreFactorySettings", "done: refused 80 11 (Index not available)"):
        yield f"names: {part}", missing(part, listed)
    part = "carried out: refused 80 11 (Index not available)"
    yield f"names: {part}", missing(part, listed)


CHECKS = [check_records, check_random_records, check_twice, check_names]
