// The client: tickets from submit to collect, and the answers to other calls.

/** The kinds of ranks: as it should be, cut off, cut off but carried out, and carried out twice. */
const KINDS = ['plain', 'unknown', 'unknown', 'twice'];
const ENDS = { done: '✓', unknown: '?', withdrawn: '–', noisdu: '–' };
const rankOf = ({ isTwice, isSurprise, end }) => (
  isTwice ? 3 : isSurprise ? 2 : end === 'done' ? 0 : 1);
const SPAN_OF_TICKET = (count) => ({
  from: (it) => it.submitted?.at ?? 0,
  to: (it) => it.outcome?.at ?? count,
  rank: (it) => (it.request?.isSurprise ? rankOf(it.request)
    : it.outcome?.end === 'unknown' ? 1 : 0),
});

/** Gives each ticket a row of its own while it is outstanding, as far as there are rows. */
function layRows({ tickets, exchanges }) {
  const ends = [];
  for (const it of tickets) {
    const from = it.submitted?.at ?? 0;
    const free = ends.findIndex((end) => end <= from);
    it.row = free < 0 ? ends.length : free;
    if (it.row < MOST_ROWS) ends[it.row] = it.outcome?.at ?? exchanges.length + 1;
  }
  return Math.max(1, ends.length);
}

/** What the device did, in a sign: ◆ for each time, ≠ for another answer than was told. */
page.signOf = function signOf({ isTwice, isOther, times }) {
  if (isTwice) return '◆'.repeat(times.least);
  return isOther ? '≠' : '◆';
};

/** What the client was told, as far as it fits, and in a sign what the device did besides. */
function pillOf(ticket, room) {
  const { outcome, request } = ticket;
  if (!outcome) return '';
  const sign = ENDS[outcome.end];
  const did = request?.isSurprise ? ` ${page.signOf(request)}` : '';
  const texts = [`${sign} told ${page.toldOf(ticket)}${did}`, `${sign} ${outcome.end}${did}`];
  return texts.find((it) => whole(it, room, BOLD)) ?? sign + did.trim();
}

const pillWidth = (text) => text.length * BOLD + 14;

function drawPill(ink, kind, x, y, text) {
  const width = pillWidth(text);
  ink.box(`pill ${kind}`, x, y, width, 18, 9);
  ink.text(`pill-text ${kind}`, x + width / 2, y + 13, text);
}

/** A ticket's name with its request, cut where there is much room, or in short. */
function nameThatFits(number, name, room) {
  const short = [`ticket ${number}`, `${number}`].find((it) => whole(it, room, BOLD)) ?? '';
  return room > NAME_ROOM ? fit(name || short, room, BOLD) : whole(name, room, BOLD) || short;
}

/** A ticket from submit to collect: dotted while it waits, thick while it is under way. */
function drawTicket(scene, ink, { a, b, it, many, rank }, top) {
  const y = top + it.row * ROW;
  if (many > 1) {
    ink.box(`crowd ${KINDS[rank]}`, a, y + 8, b - a, 16);
    return;
  }
  const { request } = it;
  ink.line('wait', a, y + 24, b, y + 24);
  ink.line('mark', a, y + 8, a, y + 26);
  if (request) {
    const x = scene.x(request.first);
    ink.box('under', x, y + 22, scene.endOf(request.last) - x, 4);
  }
  const [left, right] = [Math.max(a, scene.left) + 5, Math.min(b, scene.width - 4)];
  const pill = pillOf(it, Math.min(right - left - 4, MOST_PILL));
  const used = pill ? pillWidth(pill) + 10 : 0;
  const name = request?.text ? `ticket ${it.number}: ${page.requestName(request.text)}` : '';
  ink.text('name', left, y + 17, nameThatFits(it.number, name, right - left - used));
  const kind = `${it.outcome?.end}${rank === 3 ? ' twice' : ''}`;
  if (pill) drawPill(ink, kind, right - pillWidth(pill), y + 3, pill);
}

function callText(call) {
  if (call.kind === 'event') return `event ${call.qualifier} ${call.code}`;
  return call.text ? `${call.kind} ${call.text}` : call.kind;
}
page.callText = callText;

function drawCall(scene, { at, calls }, room, top) {
  const x = scene.x(at);
  const more = calls.length > 1 ? `  +${calls.length - 1}` : '';
  const text = callText(calls[0]) + more;
  const isCut = scene.detail !== 'joined';
  return line('mark', x, top + 2, x, top + 14)
    + words('call', x + 12, top + 12, isCut ? fit(text, room) : whole(text, room));
}

function drawCalls(scene, top) {
  const { otherCalls } = scene.trace;
  const seen = partOf(otherCalls, scene.left - 1, scene.width, ({ at }) => scene.x(at));
  const shown = [];
  for (const it of seen) {
    if (shown.length === 0 || scene.x(it.at) - scene.x(shown.at(-1).at) >= 2) shown.push(it);
  }
  return shown.map((it, place) => {
    const end = place + 1 < shown.length ? scene.x(shown[place + 1].at) : scene.width;
    return drawCall(scene, it, end - scene.x(it.at) - 16, top);
  }).join('');
}

function drawClient(scene, { top, height }) {
  const { tickets, ticketRows } = scene.trace;
  if (tickets.length === 0) {
    return words('none', scene.left + 8, top + 18, 'no request')
      + drawCalls(scene, top + height - CALLS);
  }
  const ink = new Ink();
  const ranges = SPAN_OF_TICKET(scene.count);
  for (const inRow of ticketRows) {
    for (const it of scene.spans(inRow, ranges)) drawTicket(scene, ink, it, top);
  }
  return ink + drawCalls(scene, top + height - CALLS);
}

// The request under way: at most one at a time.

const STEPS = {
  segment: ['write', 'w'], anew: ['anew', 'w'], ask: ['ask', '?'], busy: ['busy', 'b'],
  none: ['no service', '0'], answer: ['answer', 'a'], refused: ['refused', '!'],
  abort: ['ABORT', 'X'],
};
const SPAN_OF_REQUEST = {
  from: (it) => it.first,
  to: (it) => it.last + 1,
  ends: 'behind',
  rank: rankOf,
};
const STANDS = {
  done: 'answered', lost: 'cut off: link lost', restarted: 'cut off: restarted',
  aborted: 'cut off', dropped: 'cut off', open: 'under way',
};

function drawRequest(scene, ink, { a, b, it, many, rank }, top) {
  if (many > 1) {
    ink.box(`crowd ${KINDS[rank]}`, a, top + 12, b - a, 28);
    return;
  }
  const left = Math.max(a, scene.left) + 3;
  const room = Math.min(b, scene.width) - left - 4;
  const ticket = it.ticket ? `ticket ${it.ticket.number}` : it.isOwn ? 'the port' : 'no ticket';
  const text = whole(`${ticket}: ${STANDS[it.end]}`, room, BOLD) || whole(ticket, room, BOLD);
  ink.box(`bar ${KINDS[rank]}`, a + 0.5, top + 19, b - a - 1, 24, 4);
  ink.text('name', left, top + 14, text);
}

function stepCell(exchange) {
  const [name, sign] = STEPS[exchange.step];
  const kind = `step ${exchange.step}${missed(exchange) ? ' missed' : ''}`;
  return { at: exchange.at, kind, name, sign };
}

function drawRequests(scene, { top }) {
  const { requests } = scene.trace;
  if (requests.length === 0) return words('none', scene.left + 8, top + 30, 'none on the line');
  const ink = new Ink();
  for (const it of scene.spans(requests, SPAN_OF_REQUEST)) drawRequest(scene, ink, it, top);
  if (scene.detail === 'joined') return ink.toString();
  const steps = scene.seen().filter((it) => it.step);
  return ink + drawSteps(scene, steps.map(stepCell), top + 22);
}
