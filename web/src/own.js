// Finds the requests that a port makes by itself, where it has Data Storage: those of its jobs. The
// trace has no line for them. In a job no request of a client goes out (JOB-2).

/** What a check reads in turn, before it fetches or restores a set, or does nothing (STO-5). */
const STATE = 'read 3 2';
const SIZE = 'read 3 3';
const CHECKSUM = 'read 3 4';
const SERIAL_NUMBER = 'read 21 0';
/** The bits of a state that is locked, and the most octets of a set: else a check goes on. */
const LOCKED = 6;
const MOST_SIZE = 2048;
/** What begins a fetch, a restore or a block, and what ends it. A port alone writes at Index 3. */
const STORAGE = /^write 3 /;
const STORAGE_START = /^write 3 1 0[13]$/;
const STORAGE_END = /^write 3 1 0[245]$/;
const FETCHED = 'write 3 1 02';
const BLOCK_START = 'write 2 0 03';
const BLOCK_END = /^write 2 0 0[456]$/;
/** What breaks a job off. Where that is cut off itself, it goes out again (JOB-3). */
const BREAK = /^write (?:3 1 05|2 0 06)$/;
const MOST_BREAKS = 20;
/** Calls that only a port with Data Storage has. */
const OF_STORAGE = ['block', 'standing', 'set', 'saved'];

const octetsOf = (answer) => (/^read (.+)$/.exec(answer)?.[1].split(' ') ?? [])
  .map((it) => parseInt(it, 16));

/** Whether a check goes on behind the answer to one of its first two requests. */
function goesOn({ text, end, answerText }) {
  const octets = end === 'done' ? octetsOf(answerText) : [];
  if (text === STATE) return octets.length === 1 && (octets[0] & LOCKED) !== LOCKED;
  const size = octets.reduce((all, it) => all * 256 + it, 0);
  return text === SIZE && octets.length === 4 && size <= MOST_SIZE;
}

/** The jobs of a port, one behind the other, as far as the requests on the line tell them. */
class Jobs {
  /** What ends the fetch, the restore or the block under way; null if there is none. */
  ends = null;
  /** The request before, if it was of a job, and whether the job asks once more for certain. */
  before = null;
  isSure = false;
  breaks = 0;
  session = 0;

  constructor({ calls, exchanges }) {
    this.blocks = calls.filter(({ kind, text }) => kind === 'block' && /^\d+$/.test(text));
    this.isOff = calls.some(({ kind, text }) => kind === 'standing' && text === 'off');
    let wakes = 0;
    this.sessions = exchanges.map(({ rate }) => (wakes += rate === null ? 0 : 1));
  }

  /** Whether a request is the port's own; a client's may fit as well. */
  has(request, next, isFitting) {
    const session = this.sessions[request.first];
    const isFirst = session !== this.session;
    // Out of its session a job is over.
    if (isFirst) Object.assign(this, { session, ends: null, before: null, isSure: false });
    const isOwn = this.isSure || this.ends !== null || STORAGE.test(request.text)
      || this.begins(request, next, isFirst || !isFitting, isFitting);
    if (isOwn) this.goOn(request);
    else this.before = null;
    return isOwn;
  }

  /** Whether a request that a client may make too is one of a job. */
  begins({ text, first }, next, isLikely, isFitting) {
    if (text === STATE) return next?.text === SIZE || (isLikely && !this.isOff);
    if (text === BLOCK_START) return this.blocks.length > 0 && this.blocks[0].at <= first;
    if (text !== SERIAL_NUMBER || this.before !== CHECKSUM) return false;
    return STORAGE.test(next?.text) || !isFitting;
  }

  /** What follows one of the port's own. */
  goOn(request) {
    const { text, end, answerText } = request;
    const isRefused = end === 'done' && answerText !== 'written';
    this.breaks = BREAK.test(text) && end === 'aborted' ? this.breaks + 1 : 0;
    const isOver = this.breaks > MOST_BREAKS || (this.ends?.test(text) && end === 'done');
    this.before = text;
    this.isSure = this.ends ? isOver && text === FETCHED && !isRefused : goesOn(request);
    if (isOver) this.ends = null;
    else if (!this.ends && !isRefused && STORAGE_START.test(text)) this.ends = STORAGE_END;
    else if (!this.ends && !isRefused && text === BLOCK_START) this.ends = BLOCK_END;
    if (text === BLOCK_START) this.blocks.shift();
  }
}

/** How many tickets a port had kept for itself when a client was given one, by where that was. */
function ownBefore(tickets) {
  const given = tickets.filter((it) => it.submitted).sort((a, b) => a.number - b.number);
  return given.map(({ number, submitted }, at) => ({ at: submitted.at, most: number - 1 - at }));
}

/** Whether a port asks by itself: a call, a gap between tickets, or a request without one. */
function asksItself({ calls, requests, record }, tickets) {
  return calls.some((it) => OF_STORAGE.includes(it.kind))
    || ownBefore(tickets).some(({ most }) => most > 0)
    || (record !== null && requests.some((it) => !it.ticket));
}

/** Gives each request its ticket, or says of it, in a whole trace, that it is the port's own. */
function giveOwners(trace, tickets, isWhole) {
  const { requests } = trace;
  giveTickets(requests, tickets);
  if (!isWhole || !asksItself(trace, tickets)) return;
  const jobs = new Jobs(trace);
  const bounds = ownBefore(tickets);
  let [count, given] = [0, 0];
  giveTickets(requests, tickets, (request, next, isFitting) => {
    while (given < bounds.length && bounds[given].at <= request.first) given += 1;
    const { most } = bounds[given] ?? { most: Infinity };
    const isOwn = count < most && jobs.has(request, next, isFitting);
    count += isOwn;
    return isOwn;
  });
  for (const it of requests) it.isOwn ||= !it.ticket;
}
