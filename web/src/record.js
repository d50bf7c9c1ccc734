/** When devices hand a request over, and how long they know its answer (DEV-20): ours first. */
const DEVICE_KINDS = ['first keeps', 'first forgets', 'last keeps', 'last forgets'];
const handsOverLast = (kind) => kind.startsWith('last');
const forgets = (kind) => kind.endsWith('forgets');

/** The kinds that are left: by `judge`, and by an answer that was there at the first START read. */
function kindsLeft({ requests, kinds }) {
  const atOnce = requests.some((it) => it.begun !== null && it.begun === it.asked);
  const left = DEVICE_KINDS.filter((it) => kinds?.names.includes(it) ?? true);
  return left.filter((it) => handsOverLast(it) || !atOnce);
}

/** From which exchange on a device of a kind may carry a request out, or null. */
const handedAt = (request, kind) => (handsOverLast(kind) ? request.whole : request.asked);

/** How often it may do so: each START write of a whole request may be a new one there (REQ-15). */
function mostTimes(request, kind) {
  if (handedAt(request, kind) === null || request.text === null) return 0;
  const isOneSegment = request.whole === request.written;
  return handsOverLast(kind) && isOneSegment ? request.writes : 1;
}

/** Whether an entry of the record can be the one that the answer on the line is of. */
function isAnswered(request, entry, kind) {
  if (request.end !== 'done' || entry.answer === request.answerText) return true;
  return forgets(kind) && request.endsInZeros;
}

/** How many entries of the record, from a place on, can be a request's, at a device of a kind. */
function timesAt(request, carried, at, kind) {
  const times = request.end === 'done' ? [] : [0];
  const most = mostTimes(request, kind);
  for (let count = 1; count <= most; count += 1) {
    const entry = carried[at + count - 1];
    if (entry?.request !== request.text) break;
    if (isAnswered(request, entry, kind)) times.push(count);
  }
  return times;
}

/** With so many ways in all, the record is left aside. */
const MOST_WAYS = 1_000_000;

/** How many entries of the record may stand before each request: every way that fits so far. */
function waysBefore(requests, carried, begin, kind) {
  const ways = [begin];
  let all = 0;
  for (const request of requests) {
    const behind = ways.at(-1).flatMap((at) => (
      timesAt(request, carried, at, kind).map((count) => at + count)));
    ways.push(behind.length > 1 ? [...new Set(behind)] : behind);
    all += behind.length;
    if (all > MOST_WAYS) return null;
  }
  return ways;
}

/** Whether a list holds a value. */
function holder(list) {
  if (list.length < 8) return (it) => list.includes(it);
  const values = new Set(list);
  return (it) => values.has(it);
}

/** Of those ways, each that the requests behind it also fit. */
function waysLeft(requests, carried, ways, kind) {
  const left = Array(ways.length);
  left[requests.length] = ways.at(-1).filter((it) => it === carried.length);
  for (let at = requests.length - 1; at >= 0; at -= 1) {
    const isBehind = holder(left[at + 1]);
    const isLeft = (it) => (
      timesAt(requests[at], carried, it, kind).some((count) => isBehind(it + count)));
    left[at] = ways[at].filter(isLeft);
  }
  return left;
}

/** Notes how often the record has a request, of the ways that are left, and which entries. */
function giveTimes(request, carried, places, isBehind, kind) {
  const ways = places.flatMap((at) => timesAt(request, carried, at, kind)
    .filter((count) => isBehind(at + count)).map((count) => ({ at, count })));
  const [least, most] = ways.reduce(([low, high], { count }) => (
    [Math.min(low, count), Math.max(high, count)]), [Infinity, 0]);
  request.times = { least, most };
  request.carried = least > 0 ? 'yes' : most === 0 ? 'no' : 'untold';
  const [{ at, count }] = ways;
  // Entries of one request that are alike needn't be told apart.
  const texts = (way) => carried.slice(way.at, way.at + way.count).map((it) => it.answer).join();
  const isTold = ways.every((it) => texts(it) === texts(ways[0]));
  request.entries = isTold ? carried.slice(at, at + count) : [];
  request.handed = handedAt(request, kind);
}

/** Says of each request how often a device of a kind carried it out; false if none fits. */
function giveRecord(requests, carried, begin, kind) {
  const ways = waysBefore(requests, carried, begin, kind);
  const left = ways && waysLeft(requests, carried, ways, kind);
  if (!left || left[0].length === 0) return false;
  requests.forEach((request, at) => {
    giveTimes(request, carried, left[at], holder(left[at + 1]), kind);
  });
  return true;
}

/** The first kind of device that the record can be of, which it says; null if there is none. */
function giveRecords(trace, isWhole) {
  const { requests, carried, record, away } = trace;
  // Of two devices no line says which one carried a request out.
  if (record === null || carried.length !== record || away !== null) return null;
  const begin = isWhole ? [0] : carried.map((_, at) => at).concat(carried.length);
  return kindsLeft(trace).find((it) => giveRecord(requests, carried, begin, it)) ?? null;
}

/** Requests that the record has more often than the line: so one of them was done again. */
function moreThanAsked({ requests, carried, carriedAway }) {
  const left = new Map();
  const count = (text, by) => left.set(text, (left.get(text) ?? 0) + by);
  requests.forEach((it) => count(it.text, -1));
  [...carried, ...carriedAway].forEach((it) => count(it.request, 1));
  return [...left].filter(([, times]) => times > 0).map(([text, times]) => ({ text, times }));
}

/** By when the device carried it out, if it did: by the answer, or else by a wake-up. */
function giveTime(requests, exchanges) {
  let wake = exchanges.length;
  let at = exchanges.length - 1;
  for (const request of [...requests].reverse()) {
    for (; at > request.last; at -= 1) if (exchanges[at].fate === 'woken') wake = at;
    const isSettled = request.end === 'done' || request.end === 'aborted';
    request.until = request.begun ?? (isSettled ? request.last : wake);
  }
}

/**
 * A followed trace, with tickets, and with what the record says of each request. It is better told
 * where it is known what each ticket asked.
 */
page.match = function match(trace, askedBy) {
  const { requests, calls, carried, exchanges, record } = trace;
  const tickets = ticketsOf(calls, askedBy);
  const isWhole = (exchanges[0]?.number ?? 1) === 1;
  giveOwners(trace, tickets, isWhole);
  giveTime(requests, exchanges);
  const hasRecord = record !== null && carried.length === record;
  const kind = giveRecords(trace, isWhole);
  for (const it of requests) {
    it.isTwice = it.times.least > 1;
    it.isOther = it.end === 'done' && it.carried === 'yes' && it.entries.length > 0
      && it.entries.at(-1).answer !== it.answerText;
    it.isSurprise = it.isTwice || it.isOther || (it.carried === 'yes' && it.end !== 'done');
  }
  const again = isWhole && hasRecord ? moreThanAsked(trace) : [];
  return {
    ...trace, tickets, asked: allAsked(requests, tickets), hasRecord, kind, again,
    counts: countsOf(trace, tickets, again),
  };
};

/** What clients asked, and what the port asked by itself, in turn. */
function allAsked(requests, tickets) {
  const own = requests.filter((it) => it.isOwn).map((request) => ({ request }));
  const placeOf = ({ request, submitted }) => submitted?.at ?? request?.first ?? 0;
  return own.length === 0 ? tickets
    : [...own, ...tickets].sort((one, other) => placeOf(one) - placeOf(other));
}

function countsOf({ exchanges, calls, carried, carriedAway, requests }, tickets, again) {
  const fates = {};
  for (const { fate } of exchanges) fates[fate] = (fates[fate] ?? 0) + 1;
  const count = (fate) => fates[fate] ?? 0;
  return {
    wakes: count('woken') + count('nowake'),
    exchanges: exchanges.length - count('woken') - count('nowake'),
    lost: count('lost'),
    damaged: count('damaged'),
    repeats: exchanges.filter((it) => it.repeats >= 0).length,
    requests: tickets.filter((it) => it.submitted).length,
    own: requests.filter((it) => it.isOwn).length,
    unknown: tickets.filter((it) => it.outcome?.end === 'unknown').length,
    events: calls.filter((it) => it.kind === 'event').length,
    carried: carried.length + carriedAway.length,
    again: again.reduce((all, it) => all + it.times, 0),
  };
}
