"""Counts what stands in a trace, line by line. It shares nothing with the page."""
import collections
import re

FORMS = {
    "exchanges": r"\d+ >.*",
    "wakes": r"\d+ wake \w+",
    "lost": r"\d+ < none",
    "damaged": r"\d+ <.*: refused \d+ \w+",
    "requests": r"ticket \d+",
    "unknown": r"ticket \d+ unknown \w+",
    "events": r"event .*",
    "carried": r"carried .*",
}
DONE = r"ticket \d+ done .*"
OUTCOME = r"ticket \d+ .+"


def many(form, lines):
    return sum(1 for it in lines if re.fullmatch(form, it))


def repeats(lines):
    """Messages with the octets of the one before, which had no valid reply."""
    count, before, is_open = 0, None, False
    for line in lines:
        number, _, rest = line.partition(" ")
        if not number.isdecimal():
            continue
        if rest.startswith("wake"):
            before, is_open = None, False
        elif rest.startswith(">"):
            count += is_open and rest == before
            before, is_open = rest, True
        elif rest.startswith("<"):
            is_open = rest == "< none" or ": refused " in rest
    return count


def counted(text):
    lines = text.splitlines()
    said = {name: many(form, lines) for name, form in FORMS.items()}
    said["repeats"] = repeats(lines)
    return said


ASKED = r"(?:urgent )?(read|write) (\d+) (\d+)(?: (\S+))?"
CARRIED = r"carried (read|write) (\d+) (\d+)(?: ([0-9A-F -]+))?: .*"


def requests_in(form, lines):
    """How often each request stands in lines of a form, with its octets without spaces."""
    found = filter(None, (re.fullmatch(form, it) for it in lines))
    return collections.Counter((*it.groups()[:3], (it[4] or "").replace(" ", "")) for it in found)


def is_stored(script):
    """Whether the script's port has Data Storage: then it asks by itself too."""
    return any(line.startswith("store ") for line in script.splitlines())


MESSAGE = r"\d+ > .*: write isdu (\w\w)(?: out [0-9A-F ]+?)? od ([0-9A-F ]+)"
START = "10"


def messages_with_requests(lines):
    """The writes of the ISDU channel, but repeats: the address of each, and its octets."""
    before, is_open = None, False
    for line in lines:
        _, _, rest = line.partition(" ")
        if line[:1].isdigit() and rest[:1] == "<":
            is_open = rest == "< none" or ": refused " in rest
        elif line[:1].isdigit():
            found = re.fullmatch(MESSAGE, line)
            if found and not (is_open and rest == before):
                yield found[1], bytes.fromhex(found[2])
            before, is_open = rest, True


def request_of(octets):
    """What an ISDU asks, in the words of the record; None if it isn't whole."""
    head = 2 if octets[0] & 15 == 1 else 1
    length = octets[1:2] and octets[1] if head == 2 else octets[0] & 15
    if not length or len(octets) < length:
        return None
    form = octets[0] >> 4 & 7
    index = int.from_bytes(octets[head : head + 2] if form == 3 else octets[head : head + 1], "big")
    sub = 0 if form == 1 else octets[head + form - 1]
    data = octets[head + form : length - 1].hex().upper() or "-"
    return ("read", str(index), str(sub), "") if octets[0] & 128 else ("write", str(index), str(sub), data)


def requests_on_line(text):
    """The requests that went out, by the octets of the messages: each as in `requests_in`, or None if it was cut short."""
    octets = []
    for address, data in messages_with_requests(text.splitlines()):
        if address == START:
            octets.append(data)
        elif octets:
            octets[-1] += data
    return [request_of(it) for it in octets]


def more_than_asked(script, text):
    """How often more a request was carried out than was asked for it, all requests together.

    The script asks. A port with Data Storage asks too, which the line alone tells."""
    asked = requests_in(ASKED, script.splitlines())
    if is_stored(script):
        asked |= collections.Counter(requests_on_line(text))
    left = requests_in(CARRIED, text.splitlines()) - asked
    return sum(left.values())


SETTING = r"(?:page [0-9A-Fa-f]{2} |(?:other|kind|pulses|devices|limits|param|kept|range|atmost|in|store) |wire |turn |#).*"


def asked_by_tickets(script, text):
    """What the script asks by each ticket: a call's answer is the line that is printed for it."""
    calls = [it for it in script.splitlines() if it and not re.fullmatch(SETTING, it)]
    printed = [it for it in text.splitlines() if not it[:1].isdigit()]
    found = ((re.fullmatch(r"ticket (\d+)", answer), call) for call, answer in zip(calls, printed))
    return {int(ticket[1]): next(iter(requests_in(ASKED, [call]))) for ticket, call in found if ticket}


def cut_off_and_carried(script, text):
    """How many requests the record has that no outcome `done` tells of; None if one may have no outcome in the text."""
    lines = text.splitlines()
    if is_stored(script) or many(FORMS["requests"], lines) != many(OUTCOME, lines):
        return None
    return many(FORMS["carried"], lines) - many(DONE, lines) - more_than_asked(script, text)


VERDICT = r"not honest at (\d+): .*|can't say from (\d+) on: .*|(can't say): .*|honest .*"


def findings(text):
    """What a verdict says of each number of a trace: judged, guilty, unjudged, or open, from where on it can't say."""
    lines = text.splitlines()
    guilty, open_from, unheard = next(filter(None, (re.fullmatch(VERDICT, it) for it in lines))).groups()
    early = sum(int(it.split()[1]) for it in lines if it.startswith("unjudged "))
    end = int(guilty or open_from or (0 if unheard else 10**9))
    said, exchanges = {}, 0
    for line in lines:
        number, _, rest = line.partition(" ")
        if not number.isdecimal() or rest.startswith("<"):
            continue
        is_early = exchanges < early
        exchanges += rest.startswith(">")
        said[int(number)] = "unjudged" if is_early or int(number) >= end else "judged"
        if int(number) == end:
            said[int(number)] = "guilty" if guilty else "open"
    return said
