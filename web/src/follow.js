// Follows a trace: which mode each message was sent in, what repeats what, which messages carry a
// request, an event or process data. Everything is read off the lines, by the rules of protocol.md.
const page = globalThis.page;

const START = 0x10;
const ABORT = 0x1f;
const STARTUP = '97';
const PREOPERATE = '9A';
const OPERATE = '99';
const OUTPUT = '98';
const ATTEMPTS = 3;

const hex = (values) => values.map((it) => it.toString(16).toUpperCase().padStart(2, '0'));
const first = (octets) => (octets ? octets.slice(0, 2) : '');

// An ISDU's first octet has the service in its high four bits, the length in its low four. The
// length EXTENDED says that ExtLength follows, with the true one (ISDU-1 to ISDU-4).
const EXTENDED = 1;
const WRITTEN = 5;
const DATA = 13;
const REFUSALS = [4, 12];
/** Reads are 9 to 11, writes 1 to 3: the low three bits are the form of the index part. */
const READS = 8;
const INDEX = 1;
const INDEX_AND_SUB = 2;
const LONG_INDEX = 3;

const serviceOf = (octets) => octets[0] >> 4;
const shortLength = (octets) => octets[0] & 15;
const headOf = (octets) => (shortLength(octets) === EXTENDED ? 2 : 1);

/** How many octets an ISDU has, or null while too few are known. */
function isduLength(octets) {
  if (octets.length === 0) return null;
  return shortLength(octets) === EXTENDED ? (octets[1] ?? null) : shortLength(octets);
}

const isWhole = (octets) => {
  const length = isduLength(octets);
  return length !== null && length > 0 && octets.length >= length;
};

const listed = (octets) => (octets.length ? hex(octets).join(' ') : '-');

/** A request as the program prints it, or null if its octets are none, or not whole. */
function requestText(octets) {
  const form = serviceOf(octets) & 7;
  if (!isWhole(octets) || ![INDEX, INDEX_AND_SUB, LONG_INDEX].includes(form)) return null;
  const head = headOf(octets);
  const [high, low] = [octets[head], octets[head + 1]];
  const index = form === LONG_INDEX ? high * 256 + low : high;
  const sub = form === INDEX ? 0 : octets[head + form - 1];
  if (serviceOf(octets) > READS) return `read ${index} ${sub}`;
  return `write ${index} ${sub} ${listed(octets.slice(head + form, isduLength(octets) - 1))}`;
}

/** A response as the program prints it. */
function answerText(octets) {
  const service = serviceOf(octets);
  const body = listed(octets.slice(headOf(octets), isduLength(octets) - 1));
  if (service === WRITTEN) return 'written';
  if (service === DATA) return `read ${body}`;
  return REFUSALS.includes(service) ? `refused ${body}` : null;
}

/** What a message is for. */
function roleOf({ channel, write, address, refused }) {
  if (refused) return 'unreadable';
  switch (channel) {
    case 'page': return (write && ['command', 'cycle'][address]) || 'page';
    case 'diagnosis': return write ? 'confirm' : ['status'][address] ?? 'event';
    case 'isdu': return isduRole(write, address);
    default: return 'process';
  }
}

function isduRole(write, address) {
  if (address === ABORT) return 'abort';
  if (address > START) return 'idle';
  if (write) return 'segment';
  return address === START ? 'ask' : 'fetch';
}

/** What became of a message: answered, lost, damaged, or open where the text ends before. */
function fateOf({ rate, came }) {
  if (rate !== null) return rate === 'none' ? 'nowake' : 'woken';
  if (came === undefined) return 'open';
  if (came === null) return 'lost';
  return came.refused ? 'damaged' : 'answered';
}

/** Spans of exchanges with one value. */
class Spans {
  list = [];

  /** The value of the exchange at this place: null is none, undefined leaves it as it was. */
  note(at, value) {
    const last = this.list.at(-1);
    const goesOn = last && last.to === at;
    if (value === undefined ? goesOn : goesOn && last.value === value) last.to = at + 1;
    else if (value != null) this.list.push({ from: at, to: at + 1, value });
  }
}
page.Spans = Spans;

const areZeros = (octets) => octets.every((it) => it === 0);

/** CHKPDU makes the exclusive or of an ISDU's octets 0 (ISDU-1). */
const isIntact = (octets) => (
  octets.slice(0, isduLength(octets)).reduce((all, it) => all ^ it, 0) === 0);

/** A request on the line: its messages, and how it ended. */
class Request {
  octets = [];
  answer = [];
  /** How often its START write went out from `written` on, and where its segments are whole. */
  writes = 0;
  whole = null;
  segment = null;
  asked = null;
  begun = null;
  /** Zeros at a repeat ended its response: of a device that forgot it, they may be no answer. */
  endsInZeros = false;
  end = 'open';
  text = null;
  answerText = null;
  ticket = null;
  byOrder = false;
  /** Whether no client asked it, but the port by itself. */
  isOwn = false;
  carried = 'untold';
  /** How often the record has it, and which of its entries are known. */
  times = { least: 0, most: 0 };
  entries = [];
  handed = null;
  until = 0;
  isSurprise = false;
  isTwice = false;
  isOther = false;

  constructor(first) {
    this.first = first;
    this.last = first;
    this.written = first;
  }

  /** Its START write goes out as if for the first time: the device has nothing of it (REQ-14). */
  writeAnew(at) {
    this.octets = [];
    this.written = at;
    this.writes = 0;
    this.whole = null;
    this.asked = null;
  }
}

/** The roles of messages that carry a request: each has a method below. */
const CARRIES = new Set(['segment', 'ask', 'fetch', 'abort']);

class Follower {
  mode = null;
  missed = 0;
  /** Whether the port is one for any device: it sends DeviceStartup (LINK-13). */
  isForAny = false;
  request = null;
  reading = null;
  flag = false;
  outputIsValid = false;
  nextCall = 0;
  requests = [];
  readings = [];
  modes = new Spans();
  outputs = new Spans();
  inputs = new Spans();

  constructor(read) {
    this.read = read;
    this.exchanges = read.exchanges;
  }

  step(at) {
    const exchange = this.exchanges[at];
    this.hearStatus(at);
    exchange.at = at;
    exchange.fate = fateOf(exchange);
    if (exchange.rate !== null) this.wake(exchange);
    else this.exchange(exchange);
    this.modes.note(at, exchange.mode);
  }

  /** A status tells the mode, where nothing else did. */
  hearStatus(at) {
    const { calls } = this.read;
    for (; this.nextCall < calls.length && calls[this.nextCall].at <= at; this.nextCall += 1) {
      const call = calls[this.nextCall];
      if (call.kind === 'status') this.mode = call.mode;
    }
  }

  wake(exchange) {
    exchange.mode = 'down';
    exchange.role = 'wake';
    this.endRequest('restarted', exchange.at - 1);
    if (exchange.fate === 'woken') {
      this.endReading(exchange.at);
      this.flag = false;
      this.outputIsValid = false;
    }
    this.missed = 0;
    this.isForAny = false;
    this.mode = exchange.fate === 'woken' ? 'startup' : 'down';
    this.outputs.note(exchange.at, null);
    this.inputs.note(exchange.at, null);
  }

  exchange(exchange) {
    exchange.mode = this.mode ?? 'untold';
    exchange.role = exchange.sent.role ??= roleOf(exchange.sent);
    this.markRepeat(exchange);
    this.followRequest(exchange);
    this.followEvents(exchange);
    this.followProcess(exchange);
    this.followMode(exchange);
  }

  /** The same octets behind a message without a valid reply (LINK-2). */
  markRepeat(exchange) {
    const before = this.exchanges[exchange.at - 1];
    if (!before?.sent || before.fate === 'answered') return;
    if (before.sent.octets !== exchange.sent.octets) return;
    exchange.repeats = before.at;
    exchange.attempt = before.attempt + 1;
  }

  followRequest(exchange) {
    const { role, at } = exchange;
    if (!CARRIES.has(role)) return;
    if (role === 'segment' && exchange.sent.address === START) this.write(exchange);
    if (!this.request) return;
    exchange.request = this.request;
    this.request.last = at;
    this[role](exchange, this.request);
  }

  /** A START write: a repeat, that of the request under way anew, or that of another. */
  write({ at, repeats, sent }) {
    const { request } = this;
    if (request && repeats < 0 && this.isAnew(request, sent.data)) {
      request.writeAnew(at);
    } else if (!request || repeats < 0) {
      this.endRequest('dropped', at - 1);
      this.request = new Request(at);
      this.requests.push(this.request);
    }
    this.request.writes += 1;
  }

  /** Whether the device said that it has no such request, and is written it again (REQ-14). */
  isAnew({ last, octets }, data) {
    return this.exchanges[last].step === 'none' && listed(octets) === listed(data);
  }

  segment(exchange, request) {
    const { at, repeats, sent } = exchange;
    if (repeats < 0) request.octets.push(...sent.data);
    if (isWhole(request.octets)) request.whole ??= at;
    request.segment = at;
    exchange.step = request.written > request.first && sent.address === START ? 'anew' : 'segment';
  }

  /** A START read: it hands the request over, and brings busy or the response (REQ-5). */
  ask(exchange, request) {
    request.asked ??= exchange.at;
    exchange.step = 'ask';
    exchange.isInDoubt = this.exchanges[request.segment].fate !== 'answered';
    if (exchange.fate !== 'answered') return;
    const code = first(exchange.came.od);
    if (code === '01') exchange.step = 'busy';
    else if (code === '00') exchange.step = 'none';
    else {
      request.answer = [];
      this.fetch(exchange, request);
    }
  }

  fetch(exchange, request) {
    exchange.step = 'answer';
    if (exchange.fate !== 'answered') return;
    request.begun ??= exchange.at;
    request.answer.push(...exchange.came.data);
    if (!isWhole(request.answer)) return;
    const { role, repeats, came } = exchange;
    request.endsInZeros = role === 'fetch' && repeats >= 0 && areZeros(came.data);
    // An ABORT follows what is refused (REQ-7, REQ-14).
    if (!isIntact(request.answer) || (this.isForAny && request.endsInZeros)) {
      exchange.step = 'refused';
    } else {
      this.endRequest('done', exchange.at);
    }
  }

  abort(exchange, request) {
    exchange.step = 'abort';
    if (exchange.fate === 'answered') this.endRequest('aborted', exchange.at);
  }

  /** Ends the request under way, if there is one, with the exchange at this place. */
  endRequest(end, last) {
    const { request } = this;
    if (!request) return;
    request.end = end;
    request.last = Math.max(last, request.last);
    request.text = requestText(request.octets);
    request.answerText = end === 'done' ? answerText(request.answer) : null;
    this.request = null;
  }

  /** A reading goes from the Event flag to the confirm's reply (EVT-5 to EVT-8). */
  followEvents(exchange) {
    const answered = exchange.fate === 'answered';
    if (answered && exchange.came.event && !this.flag) {
      this.endReading(exchange.at);
      this.reading = { from: exchange.at, to: exchange.at + 1, octets: new Map(), events: [] };
      this.readings.push(this.reading);
    }
    if (answered) this.flag = exchange.came.event;
    if (!this.reading || exchange.sent.channel !== 'diagnosis') return;
    exchange.reading = this.reading;
    if (exchange.role === 'confirm') this.confirm(exchange, answered);
    else if (answered) this.readEvent(exchange);
  }

  confirm(exchange, answered) {
    this.reading.confirm = exchange.at;
    if (!answered) return;
    this.reading.confirmed = exchange.at;
    this.endReading(exchange.at + 1);
    this.flag = false;
  }

  /** An octet of the event memory: place n of StatusCode is at 3n-2 to 3n (EVT-4). */
  readEvent(exchange) {
    const { octets, events } = this.reading;
    octets.set(exchange.sent.address, exchange.came.data[0]);
    const place = exchange.sent.address / 3;
    if (!Number.isInteger(place) || place === 0) return;
    const [qualifier, high, low] = [2, 1, 0].map((it) => octets.get(place * 3 - it) ?? 0);
    const [q, h, l] = hex([qualifier, high, low]);
    events.push({ at: exchange.at, text: `${q} ${h}${l}` });
  }

  endReading(to) {
    if (this.reading) this.reading.to = Math.max(to, this.reading.from + 1);
    this.reading = null;
  }

  followProcess(exchange) {
    const { at, sent, came, fate, mode } = exchange;
    const answered = fate === 'answered';
    const code = exchange.role === 'command' ? first(sent.od) : '';
    if (mode !== 'operate') {
      this.inputs.note(at, null);
      this.outputs.note(at, null);
      return;
    }
    if (answered && code === OUTPUT) this.outputIsValid = true;
    if (answered && code === OPERATE) this.outputIsValid = false;
    this.outputs.note(at, sent.out ? `${this.outputIsValid ? '' : '!'}${sent.out}` : null);
    const input = came?.input ? `${came.valid ? '' : '!'}${came.input}` : null;
    this.inputs.note(at, answered ? input : undefined);
  }

  /** The mode that the next message is sent in (LINK-3, LINK-9). */
  followMode(exchange) {
    if (exchange.fate === 'open') return;
    if (exchange.fate !== 'answered') {
      this.missed += 1;
      if (this.missed === ATTEMPTS) this.lose(exchange);
      return;
    }
    this.missed = 0;
    if (exchange.role !== 'command' || exchange.mode === 'operate') return;
    const code = first(exchange.sent.od);
    if (code === STARTUP) this.isForAny = true;
    if (code === PREOPERATE) this.mode = 'preoperate';
    if (code === OPERATE) this.mode = 'operate';
  }

  lose(exchange) {
    exchange.losesLink = true;
    this.missed = 0;
    this.mode = 'down';
    this.endRequest('lost', exchange.at);
    this.endReading(exchange.at + 1);
    this.flag = false;
  }

  finish() {
    const count = this.exchanges.length;
    this.hearStatus(count);
    this.endReading(count);
    this.endRequest('open', count - 1);
    const { requests, readings, modes, outputs, inputs, mode } = this;
    return {
      requests, readings, mode, modes: modes.list, outputs: outputs.list, inputs: inputs.list,
    };
  }
}

/** What the lines of a trace say, by the rules. */
page.follow = function follow(read) {
  const follower = new Follower(read);
  read.exchanges.forEach((_, at) => follower.step(at));
  return { ...read, ...follower.finish() };
};
