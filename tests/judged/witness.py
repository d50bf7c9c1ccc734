"""A device that brings a trace: made of what a search found, and played."""
from typing import NamedTuple

from device import Device, Handed
from rules import EVENT_SIZE, PAGE, DeviceKind, is_readable
from search import Fate, Had, Wake


class Turn(NamedTuple):
    """What a device does by itself before a call, as steps of `Device`, and the call's fate."""

    own: list
    call: object
    fate: Fate


class Witness(NamedTuple):
    """A device before the first answered wake-up request, and the calls behind that."""

    kind: DeviceKind
    page: bytes
    cycle: int
    shown: list
    turns: list

    def brings(self):
        """Whether the device, played, brings just what came."""
        device = Device(self.kind, self.page, self.cycle, self.shown)
        device.wake()
        return all(is_brought(device, turn) for turn in self.turns)


def is_brought(device, turn):
    for step, *words in turn.own:
        getattr(device, step)(*words)
    if isinstance(turn.call, Wake):
        if turn.fate is not Fate.LOST:
            device.wake()
        return turn.fate is not Fate.LOST or not turn.call.is_answered
    sent, came = turn.call.sent, turn.call.came
    if turn.fate is Fate.CLEAN:
        return device.hear(sent) == came
    if turn.fate is Fate.UNSEEN:
        device.hear(sent)
    return not is_readable(device.layouts, sent, came)


def witness(page, node):
    """A device with the known octets of a page that comes to the state of a node."""
    path = [node]
    while path[-1].before:
        path.append(path[-1].before)
    path.reverse()
    cycles = (it.state.cycle for it in path if it.state.cycle is not None)
    shown = last_shown(path)
    front = events_of(shown[0])
    octets = bytes(page.get(address, 0) for address in PAGE)
    kind = node.state.kind
    return Witness(kind, octets, next(cycles, 0), front, turns(path, shown, len(front)))


def events_of(shown):
    """As few events as are known to be shown."""
    octets = dict(shown.octets)
    read = bytes(octets.get(address, 0) for address in range(1, EVENT_SIZE * shown.least + 1))
    return [read[at : at + EVENT_SIZE] for at in range(0, len(read), EVENT_SIZE)]


def last_shown(path):
    """For each node, what is known at last of the events that are shown there."""
    last = [path[-1].state.shown]
    for node, behind in zip(path[-2::-1], path[:0:-1]):
        parted = None in (node.state.shown, behind.state.shown) or behind.fate is Fate.POWERED
        showed_none = behind.reply and not behind.reply.has_event
        last.append(node.state.shown if parted or showed_none else last[-1])
    return last[::-1]


def last_answers(path):
    """For each node, an answer that its device may have given, where it has given one."""
    last, behind = [], None
    for node in reversed(path):
        if not isinstance(node.state.isdu, Had):
            last.append(None)
        elif behind and isinstance(behind.state.isdu, Had):
            last.append(last[-1])
        else:
            last.append(behind and behind.ended or node.state.isdu.answer())
        behind = node
    return last[::-1]


def turns(path, shown, count):
    """The turns to the nodes behind the first, at which so many events are shown."""
    made = []
    for node, events, answer in list(zip(path, shown, last_answers(path)))[1:]:
        raised = raised_before(node, events, count)
        count = shown_behind(node, count, len(raised))
        steps = [("power",)] if node.fate is Fate.POWERED else []
        steps += [("raise_event", event) for event in raised]
        if answer and isinstance(node.before.state.isdu, Handed):
            steps.append(("answer", answer))
        if node.reply and node.reply.input:
            steps.append(("set_input", None if node.reply.is_invalid else node.reply.input))
        made.append(Turn(steps, node.call, node.fate))
    return made


def raised_before(node, events, count):
    """The events that have to be raised before a node's call, where so many are shown."""
    has_event = node.reply and node.reply.has_event
    if node.fate in (Fate.LOST, Fate.POWERED) or events is None:
        return []
    if node.before.state.shown is None:
        return [] if node.reply and not has_event else events_of(events)
    return events_of(events) if has_event and not count else []


def shown_behind(node, count, raised):
    """How many events are shown behind a node's call, where so many were and so many are raised."""
    if node.state.shown is None or node.fate is Fate.POWERED:
        return 0
    return count + raised
