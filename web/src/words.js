// What is said of the trace.

function showFault() {
  const { fault } = state.trace;
  const place = byId('fault');
  place.hidden = !fault;
  if (!fault) return;
  place.innerHTML = `<pre>${safe(page.faultSaid(fault))}</pre>${badLine(fault)}${hintAt(fault)}
    ${fault.isStray ? 'All else' : 'What stands before it'} is drawn.
    <a href="#line=${fault.line}">See it in the text</a>.`;
}

/** What else a text may be that has such a line, and what is wanted in its place. */
const OTHERS = [
  [/^\d+\.\d+ (?:wake|(?:0x)?[0-9A-Fa-f]{2})$/, 'judge --octets RATE --trace'],
  [/^(?:urgent|wire|param|kind|other|devices|limits|output) |^(?:read|write|turn|collect) \d/,
    'trace'],
];

function hintAt({ text }) {
  const [, command] = OTHERS.find(([form]) => form.test(text)) ?? [];
  return command ? `Open what <code>iolink ${command}</code> prints of this text.<br>` : '';
}

/** What is wrong with a line, as `iolink judge --why` says it. */
page.faultSaid = ({ line, what, column, why }) => (
  `line ${line}: ${what}\n  column ${column}: ${why}`);

const MOST_BEFORE = 60;
const MOST_BEHIND = 200;

/** The bad line, with a mark from the column on. */
function badLine({ text, column }) {
  const at = isAscii(text) ? column - 1 : 0;
  const from = Math.max(0, at - MOST_BEFORE);
  const [, bad, rest] = /^(\S*)(.*)$/s.exec(text.slice(at, at + MOST_BEHIND));
  const dots = (is) => (is ? '…' : '');
  return `<code>${dots(from > 0)}${safe(text.slice(from, at))}<mark>${safe(bad) || ' '}</mark>${
    safe(rest)}${dots(text.length > at + MOST_BEHIND)}</code><br>`;
}

const COUNTS = [
  ['exchanges', 'exchange', 'exchanges'], ['wakes', 'wake-up', 'wake-ups'],
  ['lost', 'unanswered', 'unanswered'], ['damaged', 'damaged', 'damaged'],
  ['repeats', 'repeat', 'repeats'], ['requests', 'request', 'requests'],
  ['own', 'more by the port itself', 'more by the port itself'],
  ['unknown', 'told unknown', 'told unknown'], ['carried', 'carried out', 'carried out'],
  ['again', 'more than asked', 'more than asked'], ['events', 'event', 'events'],
];
/** What is shown only if there is some. */
const SELDOM = ['again', 'own'];
const HOT = ['lost', 'damaged', 'unknown', 'again'];

function countOf([key, one, many]) {
  const value = state.trace.counts[key];
  if (SELDOM.includes(key) && value === 0) return '';
  const isHot = HOT.includes(key) && value > 0;
  return `<div class="${isHot ? `hot ${key}` : ''}"><dt>${value === 1 ? one : many}</dt>
    <dd data-count="${key}">${value.toLocaleString('en')}</dd></div>`;
}

function showCounts() {
  byId('counts').innerHTML = COUNTS.map(countOf).join('');
}

const ruleLink = (id) => `<a href="${page.ruleLink(id)}" data-rule="${id}">${id}</a>`;
const rules = (ids) => `<span class="rules">${ids.map(ruleLink).join(' ')}</span>`;

/** Why a verdict is so: in words, by its name, and with its rules if it has some. */
const reasonInWords = ({ reason, text, rules: ids }) => (
  `${safe(text)} (${[safe(reason), ...ids.map(ruleLink)].join(', ')}).`);

const AFTERWARDS = {
  guilty: 'What came afterwards is not judged.', open: 'From there on nothing is judged.',
};

/** What follows the name of a verdict. */
function verdictRest(verdict) {
  const { kind, judged, lost } = verdict;
  const many = (value) => value.toLocaleString('en');
  if (kind === 'honest') {
    return `: in ${many(judged)} exchanges, ${many(lost)} of them lost, it found nothing that a
      device by the rules could not have sent.`;
  }
  if (kind === 'unheard') return ': no wake-up request was answered, and no exchange is judged.';
  return ` ${page.verdictPlace(verdict)}: ${reasonInWords(verdict)} ${AFTERWARDS[kind]}`;
}

/** The verdict of `judge`, in words. */
function verdictInWords(verdict) {
  if (!verdict) return [];
  const { kind, at, number, unjudged: { count: before } } = verdict;
  const early = `Exchanges before the first answered wake-up, not judged: ${before}.`;
  // An exchange behind a line that can't be read isn't drawn.
  const link = at === null ? '' : `<a href="#exchange=${number}">See it</a>`;
  return [`<li class="verdict ${kind}"><code>iolink judge</code> says
    <strong>${page.verdictName(verdict)}</strong>${verdictRest(verdict)}
    ${before > 0 ? early : ''} ${link}</li>`];
}

const linkToNumber = ({ at, number }) => (
  at === null ? '' : `<a href="#exchange=${number}">See it</a>`);

/** What is said of the master, behind its name. */
function masterRest(master) {
  const { kind, number, text } = master;
  if (kind === 'fair') return 'sent nothing that one by the rules could not have sent.';
  if (kind === 'unwatched') return 'can’t be judged: no wake-up request was made.';
  if (kind === 'unsure') return `can’t be judged from ${number} on: ${safe(text)}.`;
  return `is <strong>not by the rules</strong> at ${number}: ${reasonInWords(master)}
    Of what it sent afterwards nothing is said.`;
}

function masterInWords(master) {
  if (!master) return [];
  return [`<li class="verdict ${master.kind}"><code>iolink judge</code> says: the master
    ${masterRest(master)} ${linkToNumber(master)}</li>`];
}

/** What a kind does, by its name. */
const KIND_DOES = {
  first: 'hands a request over at the first read',
  last: 'hands a request over with its last segment',
  keeps: 'knows the answer until it is left', forgets: 'knows the answer until it was sent',
};

const inWords = (name) => name.split(' ').map((it) => KIND_DOES[it]).join(', and ');

/** The kinds that the device may be of, each by what it does. */
function kindsInWords(kinds) {
  if (!kinds) return [];
  return [`<li class="verdict kinds"><code>iolink judge</code> says: a device by the rules
    ${kinds.names.map(inWords).join('; or ')}. ${rules(['DEV-20'])}</li>`];
}

/** What was passed over, by the first of it. */
function oddInWords({ odd, oddities }) {
  if (odd.length === 0) return [];
  const [first] = odd;
  const count = (oddities ?? odd.length).toLocaleString('en');
  return [`<li class="verdict odd"><code>iolink judge</code> passed over replies that are odd, but
    harmless: ${count}. The first is ${first.number}: ${reasonInWords(first)}
    ${linkToNumber(first)}</li>`];
}

/** Whose request it is. */
function ownerInWords({ ticket, isOwn }) {
  if (isOwn) return 'A request of the port itself';
  return ticket ? `Ticket ${ticket.number}` : 'A request';
}

/** What who asked was told of a request. */
function toldTo({ ticket, isOwn, answerText }) {
  if (isOwn && answerText) return page.answerInWords(answerText);
  return ticket ? page.toldInWords(ticket) : 'nothing';
}

/** A request of which the record tells more than the client was told. */
function surpriseInWords(request) {
  const { isOwn, first, text, isTwice, isOther, times, entries } = request;
  const name = `${ownerInWords(request)}, ${safe(page.requestInWords(text))}`;
  const told = `<strong>${safe(toldTo(request))}</strong>`;
  const who = isOwn ? 'port' : 'client';
  const link = `<a href="#exchange=${state.trace.exchanges[first].number}">See it</a>`;
  if (isTwice) {
    return `<li class="twice">${page.signOf(request)} Carried out
      ${page.timesName(times.least)}: ${name}. The ${who} asked once, and was told ${told}.
      ${rules(['REQ-15'])} ${link}</li>`;
  }
  if (isOther) {
    return `<li class="other">${name}: the ${who} was told ${told}; the device answered
      <strong>${safe(page.answerInWords(entries.at(-1).answer))}</strong>. ${rules(['REQ-15'])}
      ${link}</li>`;
  }
  return `<li>${name}: the ${who} was told ${told}; the device <strong>did it</strong>, once.
    ${link}</li>`;
}

/** A request that the record has more often than was asked, where no picture says which. */
function againInWords({ again, requests }) {
  const isShown = (it) => requests.some((each) => each.isTwice && each.text === it.text);
  return again.filter((it) => !isShown(it)).map(({ text, times }) => (
    `<li class="twice">◆◆ Carried out more often than asked, by ${times}:
      ${safe(page.requestInWords(text))}.</li>`));
}

/** Of which kind the device is taken to be, where it is none of ours and no verdict says it. */
function kindTaken({ kind, kinds }) {
  if (kind === null || kind === 'first keeps' || kinds) return [];
  return [`<li class="kind">By its replies and its record this device ${inWords(kind)}.
    Ours does not. ${rules(['DEV-20'])}</li>`];
}

/** What is wanted in place of a text without a message. */
function wantedInWords({ exchanges, calls, fault }) {
  if (exchanges.length > 0 || fault) return [];
  const what = calls.length
    ? '<code>iolink run</code> prints so, without the messages' : 'Nothing is here';
  return [`<li class="wanted">${what}: open what <code>iolink trace</code> prints.</li>`];
}

const MOST_TOLD = 2;

function showStory() {
  const { trace } = state;
  const { verdict, master, kinds } = trace;
  const surprises = [...trace.surprises].sort((a, b) => b.isTwice - a.isTwice);
  const more = surprises.length - MOST_TOLD;
  byId('story').innerHTML = [
    ...wantedInWords(trace), ...againInWords(trace),
    ...surprises.slice(0, MOST_TOLD).map(surpriseInWords),
    ...(more > 0 ? [`<li>${more} more like these.</li>`] : []), ...kindTaken(trace),
    ...verdictInWords(verdict), ...kindsInWords(kinds), ...masterInWords(master),
    ...oddInWords(trace),
  ].join('');
}

function fieldRows(part, fields) {
  return fields.map(({ octets, name, means, rules: ids }, at) => (
    `<tr><th scope="row">${at === 0 ? part : ''}</th><td class="mono">${octets || '–'}</td>
    <td>${name}</td><td>${safe(means)}</td><td>${rules(ids)}</td></tr>`)).join('');
}

const lineText = (number) => {
  const { text, starts } = state.trace;
  return text.slice(starts[number - 1], starts[number] ?? text.length).replace(/\r?\n$/, '');
};

/** The lines of an exchange, and of what was said up to the next one. */
function printedLines(exchange) {
  const { exchanges, starts } = state.trace;
  const from = exchange.at === 0 ? 1 : exchange.begins;
  const end = exchanges[exchange.at + 1]?.begins ?? starts.length + 1;
  const shown = Math.min(end, from + 14);
  const list = [];
  for (let at = from; at < shown; at += 1) {
    list.push(`<li><a href="#line=${at}" aria-label="line ${at} of the text">${at}</a>${
      safe(lineText(at))}</li>`);
  }
  if (shown < end) list.push(`<li><a href="#line=${shown}">${shown}</a>…</li>`);
  return `<ol class="printed">${list.join('')}</ol>`;
}

function aboutRequest({ request }) {
  if (!request) return '';
  const { ticket, byOrder, text, isOwn } = request;
  const found = byOrder ? ' (by order)' : '';
  const other = isOwn ? 'the port itself (no client asked it)'
    : 'a request without a ticket';
  const name = ticket ? `ticket ${ticket.number}${found}` : other;
  const told = ticket ? ` Its client was told: ${page.toldInWords(ticket)}.` : '';
  return `<li>It belongs to ${name}: ${safe(page.requestInWords(text))}.${safe(told)}
    The device’s record: ${safe(page.recordOf(request))}.</li>`;
}

function meaningTable({ sent, came }) {
  if (sent.length === 0) return '';
  const heads = ['part', 'octets', 'name', 'meaning', 'rules'];
  return `<table><caption class="quiet">Octets and their meaning</caption><thead class="quiet">
    <tr>${heads.map((it) => `<th scope="col">${it}</th>`).join('')}</tr></thead>
    <tbody>${fieldRows('message', sent)}${fieldRows('reply', came)}</tbody></table>`;
}

/** What `judge` says of the master, and of what is odd, where it names this exchange. */
function alsoFound({ at }) {
  const { master, oddInOrder } = state.trace;
  const line = (said, text) => `<p class="verdict ${said.kind ?? 'odd'}"><code>iolink judge</code>
    says ${text} <a href="#line=${said.line}">Its line</a></p>`;
  const odd = page.partOf(oddInOrder, at, at + 1);
  const found = odd.map((it) => line(it, `odd: ${reasonInWords(it)}`));
  if (master?.number !== undefined && master.at === at) {
    found.push(line(master, `the master ${masterRest(master)}`));
  }
  return found.join('');
}

/** What `judge` says of an exchange: its reason if it names it, or that it isn't judged. */
function findingOf({ at, finding }) {
  const { verdict } = state.trace;
  if (!verdict) return '';
  if (at !== verdict.at) {
    return finding === 'unjudged' ? '<p><code>iolink judge</code> did not judge it.</p>' : '';
  }
  const sign = finding === 'guilty' ? '§ ' : '';
  return `<p class="verdict ${verdict.kind}"><code>iolink judge</code> says
    <strong>${sign}${page.verdictName(verdict)}</strong> ${page.verdictPlace(verdict)}:
    ${reasonInWords(verdict)} <a href="#line=${verdict.line}">Its line</a></p>`;
}

/** When an exchange began, and the cycle time that is seen: since the one before it. */
function timeInWords(exchange) {
  const times = page.timesOf(exchange, state.trace.axis);
  if (!times) return '';
  const since = times.since === null ? '' : `, ${times.since} after the one before`;
  return `<p class="time">It began at <strong>${times.begun}</strong>${since}.</p>`;
}

function maybeInWords({ at }) {
  return maybesAt(at).map(({ time }) => (
    `<li>Before it, a wake-up that isn’t shown may have been made${
      time === null ? '' : `, at ${page.timeText(time)}`}.</li>`)).join('');
}

function showDetail() {
  const at = state.pointed ?? state.chosen;
  const place = byId('detail');
  if (at === null) {
    place.innerHTML = '<h2>No exchange</h2><p>The text has none.</p>';
    return;
  }
  const exchange = state.trace.exchanges[at];
  const about = page.explain(exchange, state.trace);
  const kind = exchange.rate === null ? 'Exchange' : 'Wake-up';
  const notes = about.notes.map(([text, ids]) => `<li>${safe(text)} ${rules(ids)}</li>`);
  place.innerHTML = `<h2><a href="${linkTo(exchange)}">${kind} ${exchange.number}</a>
    <small>${page.modeName(exchange.mode)}</small></h2>${findingOf(exchange)}${alsoFound(exchange)}
    ${timeInWords(exchange)}${printedLines(exchange)}
    ${meaningTable(about)}<ul class="notes">${notes.join('')}${maybeInWords(exchange)}${
      aboutRequest(exchange)}</ul>`;
}

const say = (text) => { byId('said').textContent = text; };

const FINDINGS = { guilty: 'not honest', unjudged: 'not judged' };

function sayExchange(exchange) {
  const { number, rate, mode, repeats, finding } = exchange;
  const back = rate === null ? `, reply: ${page.replyName(exchange)}` : ` ${rate}`;
  const again = repeats >= 0 ? ', repeated' : '';
  const found = FINDINGS[finding] ? `, ${FINDINGS[finding]}` : '';
  const times = page.timesOf(exchange, state.trace.axis);
  const when = times ? `, at ${times.begun}` : '';
  say(`${number}, ${page.modeName(mode)}${when}: ${page.messageName(exchange)}${again}${back}${
    found}`);
}
