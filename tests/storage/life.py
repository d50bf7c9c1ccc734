"""A life as it was printed, and the promises that have to hold in it."""
from collections import Counter

# DS_Command and SystemCommand begin and end what belongs together (10.3, 10.4).
STORAGE = "write 3 1 "
STORAGE_STARTS = ("write 3 1 01", "write 3 1 03")
BLOCK_STARTS = ("write 2 0 01", "write 2 0 03")
BLOCK_ENDS = ("write 2 0 04", "write 2 0 05")
DOWNLOAD_START = "write 3 1 03"
UPLOAD_END, DOWNLOAD_END = "write 3 1 02", "write 3 1 04"
STATE, SIZE, CHECKSUM = "read 3 2", "read 3 3", "read 3 4"
# How a job begins: an attempt, and a block.
JOB_STARTS = (STATE, "write 2 0 03")
# Resets, by which the flag may go.
RESETS = ("write 2 0 81", "write 2 0 82", "write 2 0 83")
UNSUPPORTED = ("!8011", "!8012")
SERVED = ("served", "released")
# What a line of a turn begins with.
OF_THE_TURN = ("carry", "out", "silence", "power", "plug", "local", "factory", "crowd", "full", "end")
# So many times at most three attempts read the state.
MOST_LOOKS = 6
# What a request has in the journal, and how many tickets aren't for clients.
ENTRIES, TICKETS_KEPT = 4, 2
MOST_SIZE = 2048
# Models that answer by their table at all times.
BY_THE_RULES = ("Plain", "Other", "Nameless")


class Broken(Exception):
    """A promise that doesn't hold."""


def hold(holds, promise):
    if not holds:
        raise Broken(promise)


class Journal:
    """What the drained journal of a port says, and what its clients were given."""

    def __init__(self):
        self.requests, self.taken, self.answers = {}, [], {}
        # The clients' tickets, those that are outstanding, and what units carried out.
        self.clients, self.outstanding, self.carried = set(), set(), {}
        self.outcomes, self.blocks = {}, []

    def is_job(self, ticket):
        return ticket not in self.clients

    def look_at_order(self):
        """JOB-2: each request of a job but the first comes right behind another one of it."""
        for at, ticket in enumerate(self.taken):
            request = self.requests[ticket]
            if self.is_job(ticket) and request not in JOB_STARTS:
                is_behind = at > 0 and self.is_job(self.taken[at - 1])
                hold(is_behind, f"a client's request stands before {request} of a job")


class Kept:
    """A set, by its octets."""

    def __init__(self, octets):
        self.checksum, self.device, rest = octets[:8], octets[8:18], octets[22:]
        self.serial, self.values = None, []
        while rest:
            index, size = int(rest[:4], 16), int(rest[6:8], 16)
            value, rest = rest[8 : 8 + 2 * size], rest[8 + 2 * size :]
            if index == 21 and not self.values and self.serial is None:
                self.serial = value
            else:
                self.values.append(f"{index}:{value}")


class Unit:
    def __init__(self, name, page, model):
        self.name, self.page, self.model = name, page, model
        self.flag, self.activity, self.locks, self.values = False, "idle", 0, ()
        # Whose activity it is, what was in force in this session, and whether its output is valid.
        self.owner, self.moments, self.output = None, [], False
        # What is said to have come of the write before the next state.
        self.cause, self.wanted = None, None

    @property
    def device(self):
        return self.page[10:20]

    @property
    def serial(self):
        return None if self.model == "Nameless" else f"4E{self.name:02X}"

    @property
    def has_storage(self):
        return int(self.page[4:6], 16) >= 0x11 and int(self.page[2:4], 16) & 1 == 1


class Block:
    """A block of a client: the values that it writes, and how often its end was written."""

    def __init__(self, values):
        self.values, self.ends, self.outcome = values, 0, None


class Life:
    def __init__(self, lines):
        self.lines, self.number, self.seen = lines, 0, Counter()
        self.journals, self.units, self.unit, self.awake = {}, {}, None, None
        self.devices, self.mode, self.most = None, None, 0
        self.port, self.kept, self.disk, self.unsaved = 0, "-", "-", False
        self.standing, self.link, self.image = ("awaited",), "Down", False
        self.wants_output, self.is_loaded, self.awaited_at = False, False, 0
        self.last, self.is_settled, self.is_last = [], 0, False
        # The ticket whose outcome was drained last, behind all turns.
        self.heard = None
        # Whether the kept set is another one since the last turn, and a check is due.
        self.has_loaded, self.owes_check = False, False
        # Whether the message that was out when a standing ended may still go out again.
        self.may_repeat = False
        self.session()

    def session(self):
        """Nothing was read, restored or told in the present session yet."""
        self.read, self.restored, self.told, self.awake = {}, None, False, self.unit
        self.is_fetched, self.looks = False, 0
        if self.unit:
            self.unit.moments = [self.unit.values]

    @property
    def journal(self):
        return self.journals[self.port]

    def look(self):
        """Breaks at the first line at which a promise doesn't hold."""
        for self.number, line in enumerate(self.lines, 1):
            self.enter(*line.split(" "))
        for journal in self.journals.values():
            journal.look_at_order()
        self.port = 0
        for self.number, line in enumerate(self.lines, 1):
            word, *words = line.split(" ")
            self.seen[word] += 1
            hold(not self.owes_check or word not in OF_THE_TURN, "no check follows another set in trouble")
            getattr(self, f"at_{word}")(*words)
        self.look_behind()

    def enter(self, word, *words):
        """The entries of journals, and whose tickets are whose."""
        if word == "port":
            self.port += 1
            self.journals[self.port] = Journal()
        elif word == "js":
            self.journal.requests[int(words[0])] = " ".join(words[1:])
        elif word == "jt":
            self.journal.taken.append(int(words[0]))
        elif word == "ja":
            self.journal.answers[int(words[0])] = words[1]
        elif word == "ask" and words[-2] == "ticket":
            self.journal.clients.add(int(words[-1]))

    def look_behind(self):
        for journal in self.journals.values():
            for block in journal.blocks:
                self.look_at_block(block)
            for ticket, outcome in journal.outcomes.items():
                if outcome in ("withdrawn", "noisdu"):
                    hold(ticket not in journal.carried, f"ticket {ticket} was {outcome}, and carried out")

    @staticmethod
    def look_at_block(block):
        """JOB-4: behind all else."""
        most = 1 if block.outcome in (None, "applied", "unknown") else 0
        least = 1 if block.outcome == "applied" else 0
        hold(least <= block.ends <= most, f"a block that is {block.outcome} was applied {block.ends} times")

    # how a life is

    def at_life(self, devices, mode, queue, journal, lost):
        self.devices, self.mode = devices, mode
        self.seen["lives in which messages and replies are lost"] += lost != "0"
        self.most = min(int(queue), int(journal) // ENTRIES) - TICKETS_KEPT

    def at_unit(self, name, page, model):
        self.units[name] = Unit(int(name), page, model)

    def at_port(self, _number, kept):
        hold(kept == self.disk, "a port is opened with what was not saved")
        self.port += 1
        self.see_cut("the master begins anew", self.port > 1)
        self.seen["the master begins anew, and a set isn't saved"] += self.unsaved
        self.kept, self.unsaved, self.standing, self.link, self.image = kept, False, ("awaited",), "Down", False
        self.wants_output, self.awaited_at, self.may_repeat = False, 0, False
        self.session()

    def at_plug(self, name):
        before, self.unit = self.unit, self.units[name]
        if before is self.unit:
            self.see_cut("the same unit is plugged in anew")
        elif before:
            which = "its type" if before.device == self.unit.device else "another type"
            self.see_cut(f"another unit of {which} is plugged in", True, before)

    def at_seed(self, *_):
        pass

    def at_event(self, code):
        """STO-12: by the event a check begins anew."""
        if code == "FF91":
            self.looks = 0

    def at_jt(self, *_):
        self.may_repeat = False

    at_js = at_takeback = at_restart = at_release = at_calm = at_full = at_crowd = at_seed

    def at_ja(self, ticket, *_outcome):
        self.heard = int(ticket)

    def see_cut(self, what, is_so=True, unit=None):
        """Something that cuts off what a unit is in, that of now where none is named."""
        unit = unit or self.unit
        self.seen[what] += is_so
        self.seen[f"{what}, in an activity of a job"] += is_so and unit.owner == "job"
        self.seen[f"{what}, in an activity of a client"] += is_so and unit.owner == "client"

    # units

    def at_power(self, name):
        unit = self.units[name]
        self.see_cut("a unit loses its power", True, unit)
        unit.owner, unit.cause = None, "power"

    def at_factory(self, name, done):
        unit = self.units[name]
        unit.cause = "reset" if done == "1" else None

    def at_silence(self, name):
        """ACT-7: of a download nothing comes into force any more."""
        self.seen["silence in a download"] += self.units[name].activity.startswith("download")

    def at_local(self, name, _index, _sub, _octets, code):
        unit = self.units[name]
        unit.cause = "user"
        self.see_cut(f"a user's change is {'taken' if code == '00' else 'refused'}", True, unit)

    def at_state(self, name, flag, activity, locks, *values):
        unit = self.units[name]
        cause, unit.cause = unit.cause, None
        had, unit.flag = unit.flag, flag == "1"
        if had and not unit.flag:
            hold(cause in ("reset", "told", "restored"), f"the flag of unit {name} is gone by {cause}")
        unit.values, unit.locks = values, int(locks)
        if values != (unit.moments[-1] if unit.moments else None):
            unit.moments.append(values)
        if activity in ("idle", "cut-off"):
            unit.owner = None
        unit.activity = activity
        wanted, unit.wanted = unit.wanted, None
        if wanted:
            hold(all(value in values for value in wanted), f"{cause}, but not each value is in force")

    def at_out(self, name, valid):
        """STO-14. A message that was out already goes out again until it is answered, before any other (PORT-8)."""
        self.units[name].output = valid == "1"
        if valid == "1":
            hold(self.is_served() or self.may_repeat, f"an output is valid while {' '.join(self.standing)}")
        self.may_repeat = False

    # what units carry out

    def at_carry(self, name, port, ended, *words):
        self.may_repeat = False
        unit, journal = self.units[name], self.journals[int(port)]
        request, answer = " ".join(words[:-1]), words[-1]
        hold(int(ended) < len(journal.taken), f"{request} was carried out, and not taken")
        ticket = journal.taken[int(ended)]
        hold(journal.requests[ticket] == request, f"{request} was carried out for ticket {ticket}")
        hold(ticket not in journal.carried, f"ticket {ticket} was carried out twice")
        journal.carried[ticket] = answer
        unit.cause = "reset" if request in RESETS and answer == "written" else "write"
        if journal.is_job(ticket):
            self.carry_job(unit, journal, request, answer)
        else:
            self.carry_client(unit, int(port), int(ended), request)
        if request in STORAGE_STARTS + BLOCK_STARTS and answer == "written":
            unit.owner = "job" if journal.is_job(ticket) else "client"

    def carry_client(self, unit, port, ended, request):
        """JOB-2, STO-14, STO-15."""
        hold(unit.owner != "job", f"a client's {request} in a job's {unit.activity}")
        hold(not request.startswith("write 3 "), f"a client's {request}")
        if self.mode != "Off" and port == self.port and self.standing[0] == "awaited":
            was_taken = ended < self.awaited_at or ended == self.awaited_at and self.is_loaded
            hold(was_taken, f"a client's {request} before a standing")

    def carry_job(self, unit, journal, request, answer):
        self.seen[f"job {request if request[:7] in (STATE[:6], STORAGE[:7]) else request.split(' ')[0]}"] += 1
        self.read.setdefault(request, []).append(answer)
        if request.split(" ")[1] == "3":
            hold(unit.has_storage, f"{request} at a unit without Data Storage")
        if request == STATE:
            self.is_fetched = False
            self.looks += self.standing[0] == "awaited"
            hold(self.looks <= MOST_LOOKS, "more than three attempts in vain")
        if request == DOWNLOAD_START:
            hold(self.standing[0] not in SERVED, "a set is restored in a session that is served")
        if self.kept != "-" and request.startswith(STORAGE):
            hold(Kept(self.kept).device == unit.device, f"{request} at another device than that of the set")
        if answer != "written":
            return
        if request == UPLOAD_END:
            self.carry_told(unit)
        elif request == DOWNLOAD_END:
            self.carry_restored(unit)
        elif request in BLOCK_ENDS:
            self.carry_block(unit, journal)
        elif request.startswith("write ") and unit.owner != "job" and request not in STORAGE_STARTS + BLOCK_STARTS:
            is_break = request in ("write 2 0 06", "write 3 1 05")
            hold(is_break, f"a job's {request} in no activity of its own")

    def carry_told(self, unit):
        """STO-8: what the device had is saved by then."""
        unit.cause, self.told = "told", True
        hold(self.disk != "-", "UploadEnd with no set saved")
        if unit.model in BY_THE_RULES:
            hold(tuple(Kept(self.disk).values) == unit.values, "UploadEnd, but what the unit has isn't saved")

    def carry_restored(self, unit):
        """STO-10."""
        hold(self.kept != "-", "a set is restored where none is kept")
        kept = Kept(self.kept)
        counts = self.mode == "Both" or self.mode == "Own" and kept.serial is not None and kept.serial == unit.serial
        hold(not (counts and unit.flag), "a set is restored over a change that waits to be fetched")
        hold(self.mode in ("Restore", "Both", "Own"), f"a set is restored in mode {self.mode}")
        unit.cause, self.restored = "restored", self.kept
        if unit.model in BY_THE_RULES:
            hold([it.split(":")[0] for it in kept.values] == [it.split(":")[0] for it in unit.values], "not a whole set")
        unit.wanted = kept.values

    @staticmethod
    def carry_block(unit, journal):
        """JOB-4."""
        hold(journal.blocks, "the end of a block that nobody submitted")
        block = journal.blocks[-1]
        block.ends += 1
        hold(block.ends == 1, "a block is applied twice")
        unit.cause, unit.wanted = "applied", block.values

    # what the port says

    def is_served(self):
        return self.mode == "Off" or self.standing[0] in SERVED

    def at_mode(self, mode, _turn):
        self.may_repeat = False
        if mode == "Operate":
            self.session()
        self.see_cut("the link is lost", self.link == "Operate" and mode == "Down")
        self.link = mode

    def at_image(self, valid):
        if valid == "1":
            hold(self.is_served(), f"an image is handed out while {' '.join(self.standing)}")

    def at_kept(self, unsaved, octets):
        before, self.kept, self.unsaved = self.kept, octets, unsaved == "1"
        if self.unsaved:
            self.look_at_fetched(Kept(octets), before)
        else:
            hold(octets == self.disk, "the kept set is neither the saved one nor to be saved")

    def look_at_fetched(self, kept, before):
        """STO-1, STO-7: what one unit had at one moment, whole."""
        unit = self.awake
        hold(self.mode in ("Both", "Own"), f"a set is fetched in mode {self.mode}")
        hold(kept.device == unit.device, "a set has another identity than its unit")
        hold(tuple(kept.values) in unit.moments, "a set is what its unit had at no moment")
        hold(f"={kept.checksum}" in self.read.get(CHECKSUM, ()), "a set has a checksum that was not read")
        if self.mode == "Own":
            hold(kept.serial == unit.serial, "a set has another SerialNumber than its unit")
        if self.mode == "Own" and before != "-":
            hold(Kept(before).serial == unit.serial, "another unit replaces the kept set")
        if before != "-" and not self.is_fetched:
            state = self.read.get(STATE, ["=00"])[-1]
            hold(int(state[1:], 16) >= 128, "a unit without a change replaces the kept set")
        self.is_fetched = True

    def at_saved(self, octets):
        self.disk = octets

    def at_said(self, turn, ended, *standing):
        if standing[0] == "awaited":
            self.is_loaded = self.link == "Operate" and self.has_loaded
            self.awaited_at = int(ended)
        elif standing[0] in ("served", "trouble"):
            self.look_at_standing(*standing)
        if self.standing[0] == "served" and standing[0] == "trouble":
            self.seen[f"served, then trouble {standing[1]}"] += 1
        self.has_loaded, self.owes_check, self.looks = False, False, 0
        self.seen[" ".join(standing)] += 1
        was_served, self.standing = self.is_served(), standing
        self.may_repeat = was_served and not self.is_served()

    def look_at_standing(self, how, word):
        """STO-3 to STO-6, STO-8, STO-10: by what was read in this session."""
        unit, has_set = self.awake, self.kept != "-"
        is_device = has_set and Kept(self.kept).device == unit.device
        states = self.read.get(STATE, [])
        has_storage = unit.has_storage and not any(it in UNSUPPORTED for it in states)
        is_so = {
            ("served", "off"): self.mode == "Off",
            ("served", "unsupported"): not has_set and not has_storage,
            ("served", "empty"): not has_set and self.mode == "Restore",
            ("served", "same"): is_device and f"={Kept(self.kept).checksum}" == self.read.get(CHECKSUM, ["-"])[-1],
            ("served", "restored"): is_device and self.restored == self.kept,
            ("served", "fetched"): is_device and self.told and self.disk == self.kept,
            ("trouble", "identity"): has_set and not is_device,
            ("trouble", "nostorage"): has_set and not has_storage,
            ("trouble", "locked"): any(int(it[1:], 16) // 2 % 4 == 3 for it in states if it[0] == "="),
            ("trouble", "toolarge"): any(int(it[1:], 16) > MOST_SIZE for it in self.read.get(SIZE, []) if it[0] == "="),
            ("trouble", "badlist"): unit.model == "Listless",
            ("trouble", "refused"): any(it[-1][0] == "!" for it in self.read.values()),
            ("trouble", "attempts"): True,
        }
        hold(is_so[how, word], f"{how} {word}, but it isn't so")

    # calls of the program

    def at_ask(self, *words):
        request, answer, number = " ".join(words[:-2]), words[-2], int(words[-1])
        count = len(self.journal.outstanding)
        if request.startswith("write 3 "):
            hold((answer, number) == ("refused", 41), f"a client's {request} isn't refused")
        elif answer == "ticket":
            hold(count < self.most, "a client is given a ticket that is kept for jobs")
            self.journal.outstanding.add(number)
            if self.is_last:
                self.last.append(number)
        elif number == 21:
            hold(count >= self.most, f"{count} tickets of {self.most} are outstanding, and no other is given")
        else:
            hold(number == 22, f"{request} is refused by {number}")
        if answer == "refused":
            self.seen[f"a client's request is refused by {number}"] += 1

    def at_collect(self, ticket, *outcome):
        ticket, journal = int(ticket), self.journal
        hold(outcome[0] != "refused", f"ticket {ticket} can't be collected: {outcome[-1]}")
        journal.outstanding.discard(ticket)
        journal.outcomes[ticket] = outcome[0]
        if outcome[0][0] in "=!" or outcome[0] == "written":
            hold(journal.carried.get(ticket) == outcome[0], f"ticket {ticket} is told another answer than its own")

    def at_abandon(self, ticket, code):
        hold(code == "0", f"ticket {ticket} can't be abandoned: {code}")
        self.journal.outstanding.discard(int(ticket))

    def at_try(self, ticket, code, outstanding):
        """JOB-5."""
        hold((code, outstanding) == ("25", "0"), f"ticket {ticket} isn't unknown to who hasn't it: {code}")

    def at_block(self, _keep, low, high, octets, count, commands, answer, number):
        if answer == "ticket":
            hold(self.standing[0] != "awaited", "a block begins before a standing")
            hold(commands == "0", "a block has a command")
            values = [f"64:{low}", f"65:{high}", f"80:B0{octets}0000{low}"] if int(count) else []
            self.journal.blocks.append(Block(values))
        else:
            hold(number in ("41", "45", "60", "61"), f"a block is refused by {number}")
            hold(number != "61" or self.journal.blocks[-1].outcome is None, "a block is refused behind a collected one")

    def at_blockend(self, _number, outcome, *_):
        hold(outcome != "error", "the outcome of a block is gone")
        block = self.journal.blocks[-1]
        block.outcome = outcome
        self.seen[f"block {outcome}"] += 1
        if outcome == "applied":
            hold(block.ends == 1, "a block is said to be applied that wasn't")

    def at_load(self, code):
        self.has_loaded |= code == "ok"
        self.owes_check |= code == "ok" and self.standing[0] in ("trouble", "released")

    at_forget = at_load

    def at_output(self, which):
        self.wants_output = which == "set"

    # the end

    def at_last(self):
        self.is_last = True

    def at_never(self, _settled):
        hold(False, f"on a clean line it never came to an end: {' '.join(self.standing)}")

    def at_settled(self, turns):
        self.seen["turns on a clean line"] += int(turns)
        self.is_settled += 1
        self.heard = None
        hold(not self.journal.outstanding, "a client waits on a clean line")

    def at_end(self, _turn, *standing):
        unit, is_open = self.unit, self.unit.owner == "client"
        hold(self.is_settled == 2, "it never came to an end")
        hold(unit.owner != "job" or self.is_in_a_job(), f"a job's {unit.activity} is left open")
        is_lawful = unit.model in BY_THE_RULES and not is_open
        if is_lawful and standing == ("trouble", "attempts"):
            hold(False, "all attempts are in vain on a clean line")
        is_kept = self.kept == "-" or Kept(self.kept).device == unit.device
        if is_lawful and is_kept and self.mode == "Both" and standing[0] == "served" and not unit.locks & 2:
            hold(not unit.flag, "a user's change isn't fetched on a clean line")
        if self.is_served() and self.wants_output:
            hold(unit.output, "the output isn't valid at a unit that is served")
        if not self.is_served():
            hold(not unit.output, "the output is valid at a unit that isn't served")
        self.look_at_last(is_lawful)

    def is_in_a_job(self):
        """Whether a job goes on still, as one does now and then at a trouble in service: its last request has no outcome,
        or has it since the last turn."""
        last = max(filter(self.journal.is_job, self.journal.requests), default=None)
        return last is not None and (last not in self.journal.answers or last == self.heard)

    def look_at_last(self, is_lawful):
        """What was written last is in force."""
        outcomes = [self.journal.outcomes.get(ticket) for ticket in self.last]
        if len(outcomes) == 2 and is_lawful and outcomes[0] == "written":
            hold(outcomes[1] == "=ABCD", f"what was written isn't in force: {outcomes[1]}")
