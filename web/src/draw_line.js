// Messages, replies, and what leads from one to the other.

const CELL = 38;
const LETTERS = {
  wake: 'W', page: 'p', command: 'M', cycle: 'p', segment: 'w', ask: '?', fetch: '?', abort: 'X',
  idle: 'i', status: 'd', event: 'd', confirm: 'c', process: 'o',
};
const missed = (it) => it.fate === 'lost' || it.fate === 'damaged' || it.fate === 'nowake';

/** Boxes of exchanges, all of one height. */
function drawBoxes(scene, cells, top, height) {
  const ink = new Ink();
  for (const { kind, at } of cells) {
    ink.box(kind, scene.x(at) + 1.5, top, scene.scale - 3, height);
  }
  return ink.toString();
}

/** Small boxes with a word or a letter. */
function drawSteps(scene, cells, top) {
  const boxes = drawBoxes(scene, cells, top, 18);
  const isWide = scene.detail === 'words';
  return boxes + (isWide
    ? cells.map(({ at, name }) => (
      words('step-text', scene.middle(at), top + 13, fit(name, scene.scale - 4)))).join('')
    : letters('step-text', cells.map(({ at, sign }) => [scene.middle(at), sign]), top + 13));
}

function drawCell(scene, { kind, at, name, octets, sign }, top) {
  const room = scene.scale - 4;
  const middle = scene.middle(at);
  return box(kind, scene.x(at) + 2, top, room, CELL, { rx: 4 })
    + words('cell-name', middle, top + (octets ? 16 : 24), whole(name, room + 3, BOLD) || sign)
    + words('octets', middle, top + 30, octets && fit(octets, room - 2, MONO));
}

/** Messages or replies: each a box with words and octets, or with a letter. */
function drawCells(scene, cells, top) {
  if (scene.detail === 'words') return cells.map((it) => drawCell(scene, it, top)).join('');
  const places = cells.map(({ at, sign }) => [scene.middle(at), sign]);
  return drawBoxes(scene, cells, top, CELL) + letters('cell-name', places, top + 24);
}

function messageCell(exchange) {
  const { at, sent, role, repeats } = exchange;
  const kind = `cell sent ${sent?.channel ?? 'wake'}${repeats >= 0 ? ' again' : ''}`;
  const name = page.messageName(exchange);
  return { kind, at, name, octets: sent?.octets, sign: LETTERS[role] };
}

/** An arrow from a repeat back to the message that it repeats. */
function drawRepeat(scene, exchange, top) {
  const [x, to] = [scene.middle(exchange.at) - 3, scene.middle(exchange.repeats) + 3];
  const kind = exchange.fate === 'answered' ? 'repeat' : 'repeat vain';
  const lift = Math.min(14, 5 + scene.scale / 6);
  const [middle, high] = [(x + to) / 2, top - lift * 2];
  const d = `M${round(x)} ${top} Q${round(middle)} ${round(high)} ${round(to)} ${top}`;
  const which = exchange.attempt === 2 ? '2nd' : '3rd';
  const text = exchange.fate === 'answered' ? `${which}: answered` : which;
  const label = scene.detail === 'words' ? words('again-text', middle, top - lift - 2, text) : '';
  return path(kind, d, { 'marker-end': 'url(#arrow)' }) + label;
}

const CHANNELS = ['', 'page', 'isdu', 'process', 'diagnosis'];

/** Messages too narrow for a letter: their channels, and where repeats are. */
function drawManyMessages(scene, top) {
  const channelOf = ({ sent }) => Math.max(1, CHANNELS.indexOf(sent?.channel ?? 'page'));
  const channels = scene.runs(channelOf)
    .map(({ kind, x, width }) => box(`sent ${CHANNELS[kind]}`, x, top, width, CELL));
  const repeats = scene.runs((it) => (it.repeats >= 0 ? 1 : 0)).filter((it) => it.kind)
    .map(({ x, width }) => box('often again', x, top - 14, Math.max(width, 2), 10));
  return [...channels, ...repeats].join('');
}

function drawMessages(scene, { top }) {
  const cells = top + 30;
  if (scene.detail === 'joined') return drawManyMessages(scene, cells);
  const seen = scene.seen();
  const repeats = seen.filter((it) => it.repeats >= 0);
  return drawCells(scene, seen.map(messageCell), cells)
    + repeats.map((it) => drawRepeat(scene, it, cells - 1)).join('');
}

const REPLY_SIGNS = { lost: '×', damaged: '!', nowake: '×', woken: 'W', open: '…' };

function replyCell(exchange) {
  const { at, fate, came, step } = exchange;
  const sign = REPLY_SIGNS[fate] ?? { busy: 'b', answer: 'a' }[step] ?? '';
  const name = `${missed(exchange) ? `${sign} ` : ''}${page.replyName(exchange)}`;
  const kind = `cell came ${fate}${came?.event ? ' flagged' : ''}`;
  return { kind, at, name, octets: came?.octets, sign };
}

/** From each message to its reply: an arrow, or a line that breaks off. */
function drawWays(scene, seen, top) {
  const arrow = `v9m-2.5 -3.5l2.5 3.5l2.5 -3.5`;
  const way = (it) => `M${round(scene.middle(it.at))} ${top}`;
  const [vain, good] = [seen.filter(missed), seen.filter((it) => !missed(it))];
  return path('way', good.map((it) => way(it) + arrow).join(''))
    + path('way vain', vain.map((it) => `${way(it)}v4`).join(''))
    + letters('cross', vain.map((it) => [scene.middle(it.at), '×']), top + 11);
}

function drawReplies(scene, { top }) {
  const cells = top + 12;
  if (scene.detail === 'joined') {
    const rank = { lost: 2, nowake: 2, damaged: 3 };
    const kinds = scene.runs((it) => rank[it.fate] ?? 1);
    return kinds.map(({ kind, x, width }) => (
      box(['', 'base came', 'often lost', 'often damaged'][kind], x, cells, width, CELL))).join('');
  }
  const seen = scene.seen();
  return drawWays(scene, seen, top - 1) + drawCells(scene, seen.map(replyCell), cells);
}

// What the device carried out, by its record.

function recordTexts(it) {
  const sign = it.carried === 'no' ? '×' : page.signOf(it);
  if (it.carried === 'no') return ['× not carried out', sign];
  const answer = it.entries.at(-1)?.answer ?? 'carried out';
  if (!it.isSurprise) return [`${sign} ${answer}`, sign];
  const told = it.ticket?.outcome ? `told “${it.ticket.outcome.end}”` : 'told nothing';
  const who = it.isOwn ? 'The port' : 'The client';
  const name = page.requestName(it.text);
  const times = page.timesName(it.times.least);
  if (it.isTwice) {
    return [
      `${sign} The device carried it out ${times}: ${name}. ${who} asked once.`,
      `${sign} The device did it ${times}: ${name}.`, `${sign} did it ${times}`, sign,
    ];
  }
  if (it.isOther) return [`${sign} The device answered: ${answer}.`, `${sign} ${answer}`, sign];
  return [
    `${sign} The device did it: ${name}, once. ${who} was ${told}.`,
    `${sign} The device did it. ${who} was ${told}.`, `${sign} did it`, sign,
  ];
}

const ENTRY = 9;
/** Above what was done twice is room for a sign of each time. */
const TWICE = 28;

function drawEntry(scene, ink, { it, many, rank, a, b }, room, { top }) {
  const kind = it.carried === 'no' ? 'not' : ['plain', 'plain', 'surprise', 'twice'][rank];
  const y = top + (it.isTwice ? TWICE : ENTRY);
  if (many > 1) {
    ink.box(`crowd carried ${kind}`, a, y, b - a, 18);
    return;
  }
  const x = scene.x(it.handed ?? it.first);
  const end = Math.min(scene.x(it.until), x + room);
  const texts = recordTexts(it);
  const text = texts.find((each) => pillWidth(each) <= room) ?? texts.at(-1);
  if (it.carried === 'yes') ink.line('when', x, y + 9, end, y + 9);
  drawPill(ink, `carried ${kind}`, x, y, text);
}

/** Why there is nothing to draw of the record. */
function noRecord({ requests, hasRecord, kind, away }) {
  if (requests.length === 0) return 'nothing was asked';
  if (!hasRecord) return 'the text has no record';
  if (away !== null) return 'two devices have a record each';
  return kind === null ? 'the record does not fit these requests' : '';
}

function drawRecord(scene, lane) {
  const why = noRecord(scene.trace);
  if (why) return words('none', scene.left + 8, lane.top + 22, why);
  const told = scene.trace.toldOfDevice;
  const spans = scene.spans(told, {
    from: (it) => it.handed ?? it.first, to: (it) => it.last + 1, ends: 'behind', rank: rankOf,
  });
  const ink = new Ink();
  spans.forEach((it, place) => {
    const next = place + 1 < spans.length ? spans[place + 1].a : scene.width;
    drawEntry(scene, ink, it, next - it.a - 4, lane);
  });
  return ink.toString();
}
