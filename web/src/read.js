// Reads what `iolink trace` prints, and what `iolink judge` prints of it, which stands in front of
// the trace or behind it. It knows nothing of pictures.
//
// A line that begins with a number is of OF_THE_LINE or JUDGED_CALLS, by its second word; any other
// is of CALLS or OF_JUDGE, by its first. Each has a reader there: the lines of another command are
// added to them alone.
const page = (globalThis.page ??= {});

const OCTETS = '[0-9A-F]{2}(?: [0-9A-F]{2})*';
const REFUSED = 'refused (\\d+ \\w+)';
const MESSAGE = new RegExp(
  `^(${OCTETS})?: (?:(read|write) (process|page|diagnosis|isdu) ([01][0-9A-F])`
  + `(?: out (${OCTETS}))?(?: od (${OCTETS}))?|${REFUSED})$`,
);
const REPLY = new RegExp(
  `^(${OCTETS})?: (?:(?:od (${OCTETS})|ack)(?: in (${OCTETS}))?`
  + ` event ([01]) pd (valid|invalid)|${REFUSED})$`,
);
const ANSWER = `read (?:${OCTETS}|-)|written|refused [0-9A-F]{2} [0-9A-F]{2}`;
const CAUSES = 'LinkLost|Restarted|BusyTooLong|Protocol|Cancelled';
const OUTCOME = new RegExp(
  `^(\\d+)(?: (?:done (${ANSWER})|unknown (${CAUSES})|(withdrawn|noisdu)))?$`,
);
const REQUEST = `read \\d+ \\d+|write \\d+ \\d+ (?:${OCTETS}|-)`;
const CARRIED = new RegExp(`^(${REQUEST}): (${ANSWER})$`);
/** What a device refused, and of Data Storage how a block ended and what came of a session. */
const REFUSAL = 'refused \\d+ \\d+ [0-9A-F]{2} [0-9A-F]{2}';
const BLOCK = new RegExp(
  `^\\d+(?: (?:applied|notapplied|flagset|noisdu|unknown (?:${CAUSES})|${REFUSAL}))?$`);
const TROUBLE = `wrongidentity|nostorage|locked|toolarge|badlist|attempts|${REFUSAL}`;
const STANDING = new RegExp('^(?:awaited|off|unsupported|empty|same|restored|fetched'
  + `|(?:trouble|released) (?:${TROUBLE}))$`);
const STATUS = /^(down|startup|preoperate|operate)( (?!eventform)\w+)?( eventform)?$/;
/** A reason of `judge`: its number, its name, and in words what was found. */
const REASON = '(\\d+) (\\w+): ([^()]+?)';
const RULES = ' \\(([A-Z]+-\\d+(?:, [A-Z]+-\\d+)*)\\)';
const GUILTY = new RegExp(`^honest at (\\d+): ${REASON}${RULES}$`);
const OPEN = new RegExp(`^say from (\\d+) on: ${REASON}(?:${RULES})?$`);
const UNHEARD = 'say: no wake-up request was answered';
const ODD = new RegExp(`^: ${REASON}${RULES}$`);
const AT_FAULT = new RegExp(`^not by the rules at (\\d+): ${REASON}${RULES}$`);
const UNSURE = /^can't be judged from (\d+) on: ([^()]+)$/;
const UNWATCHED = "can't be judged: no wake-up request was made";
const KIND = '(?:first|last) (?:keeps|forgets)';
const KINDS = new RegExp(`^${KIND}(?: or ${KIND}){0,2}$`);

/** How much of the line that is read stands before what doesn't match, in bytes. */
const columnOf = (line, rest) => (
  Math.max(0, bytesOf(line).length - bytesOf(rest).length) + 1);

/** What doesn't match the form of what is wanted in its place. */
class NoMatch extends Error {
  constructor(rest, wanted) {
    super(`wanted: ${wanted}`);
    this.rest = rest;
  }
}

function matched(pattern, rest, wanted) {
  const found = pattern.exec(rest);
  if (!found) throw new NoMatch(rest, wanted);
  return found;
}

/** Up to this number the page tells calls apart. */
const MOST_COUNTED = 9e15;

/** A call of the line, as read. The fields below `came` are what follows from the lines before. */
class Exchange {
  came = null;
  at = 0;
  mode = '';
  role = '';
  fate = '';
  repeats = -1;
  attempt = 1;
  losesLink = false;
  isInDoubt = false;
  /** When it began, in nanoseconds, and its first line: that of its time, if it has one. */
  time = null;
  begins = 0;
  step = null;
  request = null;
  reading = null;
  finding = '';

  constructor(number, line, rate, sent) {
    this.number = number;
    this.line = line;
    this.begins = line;
    this.rate = rate;
    this.sent = sent;
  }
}

/** What was read so far: calls of the line, answers to a client's calls, the device's record. */
class Reader {
  exchanges = [];
  calls = [];
  carried = [];
  record = null;
  /** How many requests the device carried out that isn't plugged in at the end, and which. */
  away = null;
  carriedAway = [];
  /** What `judge` said, and how many exchanges came before those that it judged. */
  verdict = null;
  unjudged = { count: 0, line: null };
  /** What it said of the master; where it passed something over, and how often. */
  master = null;
  /** The kinds that the device may be of, where it can't be of each. */
  kinds = null;
  odd = [];
  oddities = null;
  /** The time of the next call, with its line; the latest time; wake-ups that may have been. */
  time = null;
  latest = 0;
  maybes = [];
  /** Whose lines were read, in turn. */
  parts = [];
  starts = [];
  line = 0;
  /** Messages and replies by their text: most of a trace repeats a few of them. */
  messages = new Map();
  replies = new Map();
  decoder = new Decoder();

  begin(number) {
    this.refuseWithoutReply();
    const next = this.exchanges.length ? this.exchanges.at(-1).number + 1 : number;
    if (number !== next) {
      const why = `not the number of the next call; wanted: ${next}`;
      throw new BadLine(why, 1, 'wrong number');
    }
    if (number > MOST_COUNTED) throw new BadLine(`wanted: a number up to ${MOST_COUNTED}`);
    if (this.record !== null) throw new BadLine('wanted: carried .., behind the record');
  }

  /** Another line than the reply to the last message, where that waits for it. */
  refuseWithoutReply() {
    if (!this.awaits()) return;
    const { number } = this.exchanges.at(-1);
    const why = `the message before has no reply line; wanted: ${number} < ..`;
    throw new BadLine(why, 1, 'no reply line');
  }

  /** A call of the line, with the time that stands before it. */
  add(exchange) {
    exchange.time = this.time?.time ?? null;
    exchange.begins = this.time?.line ?? exchange.line;
    this.time = null;
    this.exchanges.push(exchange);
  }

  /** Whether the last message has no line for its reply yet. */
  awaits() {
    const last = this.exchanges.at(-1);
    return last !== undefined && last.sent !== null && last.came === undefined;
  }

  call(kind, more) {
    this.refuseWithoutReply();
    if (this.record !== null) throw new BadLine('wanted: carried .., behind the record');
    this.calls.push({ kind, line: this.line, at: this.exchanges.length, ...more });
  }

  /** Lines of `trace` and of `judge` don't mix. */
  part(whose) {
    if (this.parts.at(-1) === whose) return;
    if (this.parts.includes(whose)) {
      throw new BadLine('wanted: the verdict of `judge` behind the whole trace, or before it');
    }
    this.parts.push(whose);
  }

  judge(kind, more) {
    this.refuseWithoutReply();
    if (this.verdict) throw new BadLine('wanted: one verdict of `judge`');
    this.verdict = { kind, line: this.line, unjudged: this.unjudged, ...more };
  }

  /** Such a line stands before the verdict; of some there is one. */
  before(isThere, form) {
    if (this.verdict || isThere) throw new BadLine(`wanted: ${form}, before the verdict`);
  }
}

/** The value for a text, which is made once, of the text in full. */
function once(known, rest, make, inFull) {
  if (known.has(rest)) return known.get(rest);
  const whole = inFull(rest);
  if (!known.has(whole)) known.set(whole, make(whole));
  return known.get(whole);
}

/** The most octets of a message or a reply, as a text. */
const MOST_OCTETS = 128 * 3 - 1;

const numbers = (octets) => (octets ? octets.split(' ').map((it) => parseInt(it, 16)) : []);

function messageOf(rest) {
  const form = 'OCTETS: read|write CHANNEL ADDRESS[ out OCTETS][ od OCTETS]';
  const [, octets = '', way, channel, address, out, od, refused] = matched(MESSAGE, rest, form);
  const isWhole = (way === 'write') === (od !== undefined);
  if (!isWhole || octets.length > MOST_OCTETS) throw new NoMatch(rest, form);
  return {
    octets, text: rest.slice(rest.indexOf(': ') + 2), refused, channel, out, od,
    data: numbers(od), write: way === 'write', address: address ? parseInt(address, 16) : null,
  };
}

function replyOf(rest) {
  const form = 'OCTETS: od OCTETS|ack[ in OCTETS] event 0|1 pd valid|invalid, or none';
  const [, octets = '', od, input, event, pd, refused] = matched(REPLY, rest, form);
  if (octets.length > MOST_OCTETS) throw new NoMatch(rest, form);
  const text = rest.slice(rest.indexOf(': ') + 2);
  const [flag, valid] = [event === '1', pd === 'valid'];
  return { octets, text, refused, od, data: numbers(od), input, event: flag, valid };
}

const BARE = new RegExp(`^${OCTETS}$`);

/** What stands behind the number and the sign, its octets in upper case. */
function inUpperCase(rest) {
  const octets = beforeColon(rest);
  if (!/^[0-9A-Fa-f ]+$/.test(octets)) return rest;
  return octets.toUpperCase() + rest.slice(octets.length);
}

/** The same with its text: a driver writes the octets alone. */
function withText(reader, given, textOf) {
  const rest = inUpperCase(given);
  if (!BARE.test(rest)) return rest;
  if (!reader.decoder.layout) {
    throw new NoMatch(given, 'the text of the octets, or a wake-up that was answered before them');
  }
  return `${rest}: ${textOf(numbers(rest))}`;
}

function readWake(reader, rest, number) {
  const [rate] = matched(/^(?:COM[123]|none)$/, rest, 'COM1, COM2, COM3 or none');
  reader.begin(number);
  reader.decoder.wake(rate !== 'none');
  reader.add(new Exchange(number, reader.line, rate, null));
}

function readSent(reader, rest, number) {
  reader.begin(number);
  const inFull = (it) => withText(reader, it, (octets) => reader.decoder.message(octets));
  const sent = once(reader.messages, rest, messageOf, inFull);
  const exchange = new Exchange(number, reader.line, null, sent);
  exchange.came = undefined;
  reader.add(exchange);
}

function readCame(reader, rest, number) {
  const last = reader.exchanges.at(-1);
  if (!reader.awaits()) {
    const why = 'a reply, and no message before it waits for one; wanted: N > ..';
    throw new BadLine(why, 1, 'no message line');
  }
  if (last.number !== number) {
    const why = `not the number of the message before; wanted: ${last.number}`;
    throw new BadLine(why, 1, 'wrong number');
  }
  const inFull = (it) => withText(reader, it, (octets) => reader.decoder.reply(octets));
  last.came = rest === 'none' ? null : once(reader.replies, rest, replyOf, inFull);
}

const NANOSECONDS = 9;

/** When the next call of the line began: a time doesn't go back. */
function readTime(reader, rest) {
  const [, seconds, parts = ''] = matched(/^(\d{1,9})(?:\.(\d{1,9}))?$/, rest, 'time SECONDS');
  reader.refuseWithoutReply();
  if (reader.time) throw new BadLine('wanted: N wake .., N > .. or maybe wake, behind a time');
  const time = Number(seconds + parts.padEnd(NANOSECONDS, '0'));
  if (time < reader.latest) {
    throw new BadLine('a time before that of the line above; wanted: a later one', BEHIND_TIME);
  }
  reader.latest = time;
  reader.time = { time, line: reader.line };
}

const BEHIND_TIME = 'time '.length + 1;

/** A wake-up that isn't shown may have been here: it has no number. */
function readMaybe(reader, rest) {
  matched(/^wake$/, rest, 'maybe wake');
  reader.refuseWithoutReply();
  const { exchanges, line, time } = reader;
  reader.maybes.push({ at: exchanges.length, line, time: time?.time ?? null });
  reader.time = null;
}

function readTicket(reader, rest) {
  const found = matched(OUTCOME, rest, 'T, T done .., T unknown CAUSE, T withdrawn or T noisdu');
  const [, number, done, unknown, other] = found;
  const ticket = Number(number);
  if (done) reader.call('outcome', { ticket, end: 'done', answer: done });
  else if (unknown) reader.call('outcome', { ticket, end: 'unknown', cause: unknown });
  else if (other) reader.call('outcome', { ticket, end: other });
  else reader.call('ticket', { ticket });
}

function readStatus(reader, rest) {
  const form = 'down[ NAME], startup, preoperate or operate[, eventform]';
  const [, mode, why = ''] = matched(STATUS, rest, form);
  reader.call('status', { mode, why: why.trim(), text: rest });
}

function readEvent(reader, rest) {
  const [, qualifier, code] = matched(/^([0-9A-F]{2}) ([0-9A-F]{4})$/, rest, 'event QQ CCCC');
  reader.call('event', { qualifier, code });
}

function readRecord(reader, rest) {
  const [count] = matched(/^\d+$/, rest, 'record N');
  reader.call('record', { text: rest });
  reader.record = Number(count);
}

/** A page has ten octets, in upper or lower case. */
function readPage(reader, rest) {
  const [text] = matched(/^(?:[0-9A-Fa-f]{2}(?: [0-9A-Fa-f]{2}){9}|none)$/, beforeColon(rest),
    'page OCTETS or page none');
  reader.call('page', { text: text === 'none' ? text : text.toUpperCase() });
}

/** The record of a second device, behind that of the first. */
function readAway(reader, rest) {
  const [count] = matched(/^\d+$/, rest, 'away N');
  if (reader.record === null || reader.carried.length < reader.record || reader.away !== null) {
    throw new BadLine('wanted: away N behind the record');
  }
  reader.away = Number(count);
}

/** How many events the devices refused, behind the records: shown behind the last exchange. */
function readEvents(reader, rest) {
  matched(/^refused [1-9]\d*$/, rest, 'events refused N');
  const { exchanges, line, record, carried } = reader;
  if (record === null || carried.length < record) {
    throw new BadLine('wanted: events refused N behind the record');
  }
  reader.calls.push({ kind: 'events', line, at: exchanges.length, text: rest });
}

function readCarried(reader, rest) {
  const [, request, answer] = matched(CARRIED, rest, 'carried REQUEST: ANSWER');
  if (reader.record === null) throw new BadLine('wanted: record N before what was carried out');
  const isAway = reader.away !== null;
  const carried = isAway ? reader.carriedAway : reader.carried;
  const count = isAway ? reader.away : reader.record;
  if (carried.length === count) throw new BadLine(`wanted: the end, behind ${count} of the record`);
  carried.push({ request, answer, line: reader.line });
}

function readUnjudged(reader, rest) {
  const [count] = matched(/^[1-9]\d*$/, rest, 'unjudged N');
  reader.before(reader.unjudged.line !== null, 'unjudged N once');
  reader.unjudged = { count: Number(count), line: reader.line };
}

/** What the judge says of its input, which the page doesn't draw: its form. */
const ofInput = (regexp, form) => (reader, rest) => {
  matched(regexp, rest, form);
};

function readHonest(reader, rest) {
  const form = 'honest N exchanges, M lost';
  const [, judged, lost] = matched(/^(\d+) exchanges, (\d+) lost$/, rest, form);
  reader.judge('honest', { judged: Number(judged), lost: Number(lost) });
}

/** A reason, and the rules that it rests on. */
const reasonOf = ([number, name, text, rules]) => (
  { reason: `${number} ${name}`, text, rules: rules?.split(', ') ?? [] });

function reasoned(reader, kind, [, at, ...reason]) {
  reader.judge(kind, { number: Number(at), ...reasonOf(reason) });
}

function readGuilty(reader, rest) {
  const form = 'not honest at N: NUMBER NAME: TEXT (RULE)';
  reasoned(reader, 'guilty', matched(GUILTY, rest, form));
}

function readCantSay(reader, rest) {
  const form = `can't say from N on: NUMBER NAME: TEXT, perhaps (RULE), or can't ${UNHEARD}`;
  if (rest === UNHEARD) reader.judge('unheard', {});
  else reasoned(reader, 'open', matched(OPEN, rest, form));
}

/** What is said of the master, by its first fault. */
function readMaster(reader, rest) {
  const form = 'master by the rules, not by the rules at N: .., or can\'t be judged';
  reader.before(reader.master, `once ${form}`);
  const say = (kind, more) => { reader.master = { kind, line: reader.line, ...more }; };
  if (rest === 'by the rules') return say('fair');
  if (rest === UNWATCHED) return say('unwatched');
  const unsure = UNSURE.exec(rest);
  if (unsure) return say('unsure', { number: Number(unsure[1]), text: unsure[2] });
  const [, at, ...reason] = matched(AT_FAULT, rest, form);
  return say('fault', { number: Number(at), ...reasonOf(reason) });
}

/** The kinds that are left, where some aren't. */
function readKinds(reader, rest) {
  const form = 'kind first|last keeps|forgets or ..';
  reader.before(reader.kinds, `once ${form}`);
  matched(KINDS, rest, form);
  reader.kinds = { line: reader.line, names: rest.split(' or ') };
}

/** An exchange in which something is odd, and passed over. */
function readOdd(reader, rest, number) {
  const form = 'N odd: NUMBER NAME: TEXT (RULE)';
  reader.before(false, form);
  const [, ...reason] = matched(ODD, rest, form);
  reader.odd.push({ number, line: reader.line, ...reasonOf(reason) });
}

function readOddCount(reader, rest) {
  const [count] = matched(/^[1-9]\d*$/, rest, 'odd N');
  if (!reader.verdict || reader.oddities !== null) {
    throw new BadLine('wanted: odd N once, behind the verdict');
  }
  reader.oddities = Number(count);
}

/** A call's answer that is only shown. */
const shown = (kind, pattern, form) => (reader, rest) => {
  matched(pattern, rest, form);
  reader.call(kind, { text: rest });
};

const OF_THE_LINE = new Map([['wake', readWake], ['>', readSent], ['<', readCame]]);

const CALLS = new Map([
  ['ticket', readTicket],
  ['ok', shown('ok', /^(?:later)?$/, 'ok or ok later')],
  ['page', readPage],
  ['image', shown('image', new RegExp(`^(?:${OCTETS}|none)$`), 'image OCTETS or image none')],
  ['event', readEvent],
  ['status', readStatus],
  ['counters', shown('counters', /^\w+ \d+(?: \w+ \d+)*$/, 'counters NAME N ..')],
  ['last', shown('last', /^(?:\w+|WrongDevice [0-9A-F]{4} [0-9A-F]{6})$/, 'last NAME|none')],
  ['archived', shown('archived', /^\d+$/, 'archived N')],
  ['drained', shown('drained', /^\d+ restated \d+$/, 'drained N restated N')],
  ['block', shown('block', BLOCK, 'block N or block N END')],
  ['standing', shown('standing', STANDING, 'standing NAME, trouble NAME or released NAME')],
  ['set', shown('set', new RegExp(`^(?:${OCTETS}|none)$`), 'set OCTETS or set none')],
  ['saved', shown('saved', /^(?:\d+|none)$/, 'saved N or saved none')],
  ['refused', shown('refused', /^\d+ \w+$/, 'refused N NAME')],
  ['record', readRecord],
  ['carried', readCarried],
  ['time', readTime],
  ['maybe', readMaybe],
  ['away', readAway],
  ['events', readEvents],
]);

const OF_JUDGE = new Map([
  ['unjudged', readUnjudged], ['honest', readHonest], ['not', readGuilty], ["can't", readCantSay],
  ['master', readMaster], ['kind', readKinds], ['odd', readOddCount],
  ['lines', ofInput(/^skipped [1-9]\d*$/, 'lines skipped N')],
  ['octets', ofInput(/^passed over [1-9]\d*$/, 'octets passed over N')],
  ['at', ofInput(/^COM[123] the octets (?:overlap|are far apart); is it COM[123]\?$/,
    'at RATE ..; is it RATE?')],
]);

const JUDGED_CALLS = new Map([['odd', readOdd]]);

const isDigit = (code) => code >= 48 && code <= 57;

function callNumber(word) {
  if (/^[1-9]\d*$/.test(word)) return Number(word);
  throw new BadLine(`${quoted(bytesOf(word))} is no number of a call`);
}

/** A text's first word, and what stands behind it. A colon ends a word too, and stays. */
function split(text) {
  let end = 0;
  while (end < text.length && text[end] !== ' ' && text[end] !== ':') end += 1;
  return [text.slice(0, end), text.slice(text[end] === ' ' ? end + 1 : end)];
}

/** What judges the words of a line: those of `judge` have forms of their own. */
const isOfJudge = (line) => JUDGED_CALLS.has(split(split(line)[1])[0]);

function readLine(reader, line) {
  if (line.length > LONGEST) throw blankFault(line);
  if (line === '' || line[0] === '#') return;
  const [word, behind] = split(line);
  const number = isDigit(line.charCodeAt(0)) ? callNumber(word) : null;
  const [key, rest] = number === null ? [word, behind] : split(behind);
  const ofJudge = (number === null ? OF_JUDGE : JUDGED_CALLS).get(key);
  const form = ofJudge ?? (number === null ? CALLS : OF_THE_LINE).get(key);
  if (!form) throw beginsNone(line, word, [...CALLS.keys(), ...OF_JUDGE.keys()]);
  reader.part(ofJudge ? 'judge' : 'trace');
  form(reader, rest, number);
}

/** The place of the exchange or wake-up with a number, or null if there is none. */
page.placeOf = function placeOf(exchanges, number) {
  const at = number - (exchanges[0]?.number ?? 1);
  return at >= 0 && at < exchanges.length ? at : null;
};

/** A line of `judge` that isn't of this trace, or null. It may stand in front of the trace. */
function strayLine({ verdict, master, odd, unjudged, exchanges, starts }, text) {
  const fault = (at, number, why) => {
    const line = text.slice(starts[at - 1], starts[at]).trimEnd();
    const column = line.search(new RegExp(`\\b${number}\\b`)) + 1;
    return { line: at, text: line, what: BAD, column, why, isStray: true };
  };
  const numbered = [...odd, master, verdict].filter((it) => it?.number !== undefined);
  const stray = numbered.find((it) => page.placeOf(exchanges, it.number) === null);
  if (stray) {
    return fault(stray.line, stray.number,
      `wanted: a number of the trace, it has no ${stray.number}`);
  }
  const most = exchanges.filter((it) => it.sent).length;
  if (!verdict || unjudged.count <= most) return null;
  return fault(unjudged.line, unjudged.count, `wanted: at most the ${most} exchanges of the trace`);
}

/** Reads a text up to the first line that it can't read, which it names as `fault`. */
page.read = function read(text) {
  const reader = new Reader();
  let fault = null;
  for (let start = 0; start < text.length;) {
    const feed = text.indexOf('\n', start);
    const end = feed < 0 ? text.length : feed;
    reader.starts.push(start);
    reader.line += 1;
    if (!fault) fault = tryLine(reader, text.slice(start, text[end - 1] === '\r' ? end - 1 : end));
    start = end + 1;
  }
  const { exchanges, calls, carried, record, away, carriedAway, starts, maybes } = reader;
  const stray = fault ? null : strayLine(reader, text);
  const { verdict, master, kinds, odd, oddities } = stray ? new Reader() : reader;
  fault ??= stray;
  return {
    text, exchanges, calls, carried, record, away, carriedAway, starts, maybes, verdict, master,
    kinds, odd, oddities, fault,
  };
};

/** Reads a line, and returns why it can't. */
function tryLine(reader, line) {
  try {
    readLine(reader, line);
    return null;
  } catch (error) {
    const { what, column, message } = faultOf(line, error);
    return { line: reader.line, text: line, what, column, why: message };
  }
}

/** What is wrong with a line: what `judge` refuses it for, if it does, before all else. */
function faultOf(line, error) {
  if (!(error instanceof BadLine || error instanceof NoMatch)) throw error;
  const isOfForm = error instanceof NoMatch || error.what === BAD;
  const judged = isOfJudge(line) ? null : judgedFault(line);
  if (judged || !isOfForm) return judged ?? error;
  const blanks = blankFault(bytesOf(line));
  if (blanks || error instanceof BadLine) return blanks ?? error;
  const ofTimes = /^(?:time|maybe)(?: |$)/.test(line) ? formFault(TIME_FORMS, bytesOf(line)) : null;
  return ofTimes ?? new BadLine(error.message, columnOf(line, error.rest));
}
