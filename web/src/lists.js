// Choosing.

/** The address of an exchange or a line; it names the example, if one is open. */
function addressOf(kind, number) {
  const example = state.name.startsWith('example ') ? `example=${state.name.slice(8)}&` : '';
  return `#${example}${kind}=${number}`;
}

const linkTo = (exchange) => addressOf('exchange', exchange.number);

function choose(at, { quiet = false } = {}) {
  state.chosen = at;
  state.pointed = null;
  showDetail();
  if (at !== null) {
    reveal(at);
    markRows();
    if (!quiet) sayExchange(state.trace.exchanges[at]);
    if (!quiet) history.replaceState(null, '', linkTo(state.trace.exchanges[at]));
  }
  redraw();
}

function point(at) {
  if (state.pointed === at) return;
  state.pointed = at;
  showDetail();
  redraw();
}

function step(by) {
  if (count() === 0) return;
  choose(Math.min(count() - 1, Math.max(0, (state.chosen ?? 0) + by)));
}

/** The faults of a trace: what was missed or sent again, what was cut off, what `judge` names. */
function faultsOf(trace) {
  const { exchanges, verdict, master, odd } = trace;
  if (trace.faults) return trace.faults;
  const named = new Set([verdict, master, ...odd].map((it) => it?.at));
  const isFault = ({ at, fate, repeats, step: its }) => (
    ['lost', 'damaged', 'nowake'].includes(fate) || repeats >= 0 || named.has(at)
    || ['abort', 'refused', 'none'].includes(its));
  trace.faults = exchanges.filter(isFault);
  return trace.faults;
}

/** Chooses the next fault, or the one before. */
function goToFault(isBack) {
  const faults = faultsOf(state.trace);
  const { chosen } = state;
  const from = isBack ? chosen ?? count() : (chosen ?? -1) + 1;
  const behind = page.firstPlace(faults.length, (at) => faults[at].at >= from);
  const next = faults[isBack ? behind - 1 : behind];
  if (next) choose(next.at);
  else say(isBack ? 'No fault before this one.' : 'No fault behind this one.');
}

const placeOf = (number) => page.placeOf(state.trace.exchanges, number);

/** Follows the address: an exchange, a line of the text. */
function followAddress() {
  const asked = new URLSearchParams(location.hash.slice(1));
  if (!state.trace) return;
  if (asked.has('exchange')) choose(placeOf(Number(asked.get('exchange'))) ?? state.chosen);
  if (!asked.has('line')) return;
  showLine(Number(asked.get('line')));
  history.replaceState(null, '', addressOf('line', asked.get('line')));
}

// Lists: requests and exchanges by pages, the text as far as it is seen.

class Pages {
  static SIZE = 50;

  constructor(panel, caption, columns, all, row) {
    Object.assign(this, { panel: byId(panel), caption, columns, all, row, first: 0 });
    this.panel.addEventListener('click', (event) => {
      const by = event.target.dataset?.turn;
      if (by) this.show(this.first + Number(by) * Pages.SIZE);
    });
  }

  show(wanted) {
    const list = this.all();
    const last = Math.max(0, Math.ceil(list.length / Pages.SIZE) - 1) * Pages.SIZE;
    this.first = Math.min(last, Math.max(0, wanted - (wanted % Pages.SIZE)));
    const part = list.slice(this.first, this.first + Pages.SIZE);
    const end = this.first + part.length;
    const range = part.length ? `${this.first + 1} to ${end} of ${list.length}` : 'none';
    const heads = this.columns().map((it) => `<th scope="col">${it}</th>`).join('');
    const pager = `<p class="pager"><button type="button" data-turn="-1">Before</button>
      <button type="button" data-turn="1">Next</button></p>`;
    this.panel.innerHTML = `${list.length > Pages.SIZE ? pager : ''}<table>
      <caption>${this.caption}, ${range}</caption><thead><tr>${heads}</tr></thead>
      <tbody>${part.map(this.row).join('')}</tbody></table>`;
  }
}

const exchangeLink = (at) => {
  const exchange = state.trace.exchanges[at];
  return exchange ? `<a href="#exchange=${exchange.number}">${exchange.number}</a>` : '–';
};

function markedRecord(request, record) {
  if (!request?.isSurprise) return record;
  const kind = request.isTwice ? 'twice' : 'once';
  return `<strong class="${kind}">${page.signOf(request)} ${record}</strong>`;
}

/** The name of what was asked: its ticket, with a link to its line, or that the port asked it. */
function askedName({ submitted, outcome, number, request }) {
  if (number === undefined) return 'port';
  const { line } = submitted ?? outcome;
  return `<a href="#line=${line}">${number}</a>${
    request?.byOrder ? ' <small>by order</small>' : ''}`;
}

function askedRow(asked) {
  const { request, number } = asked;
  const place = request ? `${exchangeLink(request.first)} to ${exchangeLink(request.last)}` : '–';
  const record = request ? safe(page.recordOf(request)) : 'not told';
  const told = number === undefined ? '–' : safe(page.toldInWords(asked));
  return `<tr><td class="number">${askedName(asked)}</td>
    <td>${request ? safe(page.requestInWords(request.text)) : '–'}</td>
    <td class="number">${place}</td><td>${told}</td>
    <td>${markedRecord(request, record)}</td></tr>`;
}

/** What `judge` found, as a note: the verdict where it names the exchange. */
function noteOfFinding({ at, finding }) {
  const { verdict } = state.trace;
  if (finding === 'guilty') return `<strong>§ ${safe(page.verdictShort(verdict))}</strong>`;
  if (finding !== 'unjudged') return '';
  return at === verdict.at ? safe(page.verdictShort(verdict)) : 'not judged';
}

/** What it found of the master, or odd, as notes. */
function otherNotes({ at }) {
  const { master, oddInOrder } = state.trace;
  const odd = page.partOf(oddInOrder, at, at + 1);
  const notes = odd.map((it) => `odd: ${page.reasonShort(it)}`);
  const isNamed = master?.number !== undefined && master.at === at;
  return (isNamed ? [page.masterShort(master), ...notes] : notes).map(safe);
}

/** A reply without what most replies have. */
const withoutUsual = (reply) => reply.replace(' event 0', '').replace(' pd valid', '');

/** When an exchange began, and how long after the one before. */
function timeCell(exchange) {
  if (!state.trace.hasTimes) return '';
  const times = page.timesOf(exchange, state.trace.axis);
  if (!times) return '<td></td>';
  const since = times.since === null ? '' : ` <small>+${times.since}</small>`;
  return `<td class="number time">${times.begun}${since}</td>`;
}

const maybesAt = (at) => page.partOf(state.trace.maybes, at, at + 1);
const maybeNote = ({ at }) => (maybesAt(at).length > 0 ? 'maybe a wake-up before' : '');

function exchangeRow(exchange) {
  const { sent, came, rate, repeats, fate, losesLink } = exchange;
  const message = sent ? sent.text : 'wake-up';
  const reply = rate ?? (came ? came.text : fate === 'open' ? 'no line' : 'none');
  const cell = (text, full) => `<td class="mono" title="${full}">${text}</td>`;
  const again = repeats >= 0 ? `repeats ${exchangeLink(repeats)}` : '';
  const { ticket: given, isOwn } = exchange.request ?? {};
  const ticket = given ? `ticket ${given.number}` : isOwn ? 'of the port itself' : '';
  const lost = losesLink ? 'link lost' : '';
  const notes = [
    noteOfFinding(exchange), ...otherNotes(exchange), again, ticket, lost, maybeNote(exchange),
  ];
  return `<tr data-at="${exchange.at}" class="${exchange.at === state.chosen ? 'is-chosen' : ''}">
    <td class="number">${exchangeLink(exchange.at)}</td>${timeCell(exchange)}
    <td>${page.modeName(exchange.mode)}</td>
    ${cell(message, message)}${cell(withoutUsual(reply), reply)}
    <td>${notes.filter(Boolean).join(', ')}</td></tr>`;
}

const tables = {
  requests: new Pages('requests-panel', 'Requests',
    () => ['Ticket', 'Request', 'On the line', 'Told the client', 'Device’s record'],
    () => state.trace.asked, askedRow),
  exchanges: new Pages('exchanges-panel', 'Exchanges and wake-ups',
    () => ['Number', ...(state.trace.hasTimes ? ['Time'] : []), 'Mode', 'Message', 'Reply', 'Note'],
    () => state.listed, exchangeRow),
};

/** Which exchanges are listed, by what is chosen for it. */
const FILTERS = {
  all: ({ exchanges }) => exchanges,
  busy: ({ exchanges }) => exchanges.filter((it) => !['idle', 'process'].includes(it.role)),
  faults: faultsOf,
  index: ({ exchanges }) => {
    const indexOf = (it) => it?.request?.text?.split(' ')[1];
    const index = indexOf(exchanges[state.chosen]);
    return exchanges.filter((it) => it.request && (!index || indexOf(it) === index));
  },
};

function listExchanges() {
  state.listed = FILTERS[byId('filter').value](state.trace);
  tables.exchanges.show(0);
  if (state.chosen !== null) markRows();
}

function markRows() {
  const { first } = tables.exchanges;
  const { chosen, listed } = state;
  const place = page.firstPlace(listed.length, (at) => listed[at].at >= chosen);
  const isShown = place >= first && place < first + Pages.SIZE;
  if (listed[place]?.at === chosen && !isShown) tables.exchanges.show(place);
  for (const row of byId('exchanges-panel').querySelectorAll('tr[data-at]')) {
    row.classList.toggle('is-chosen', Number(row.dataset.at) === chosen);
  }
  revealLine(state.trace.exchanges[chosen].line);
}

const LINE = 18;

/** The places that `judge` names. */
function namedPlaces() {
  const { verdict, master, odd } = state.trace;
  return [verdict, master, ...odd].filter((it) => it && it.at !== null);
}

/** The exchange that a line of the text belongs to: of `judge`, the one that it names. */
function exchangeOfLine(number) {
  const { trace } = state;
  const { exchanges } = trace;
  trace.named ??= new Map(namedPlaces().map((it) => [it.line, it.at]));
  if (trace.named.has(number)) return exchanges[trace.named.get(number)];
  const behind = page.firstPlace(exchanges.length, (at) => exchanges[at].begins > number);
  return exchanges[Math.max(0, behind - 1)];
}

function showText() {
  const view = byId('text-panel');
  const { starts, fault } = state.trace;
  byId('text').style.height = `${starts.length * LINE}px`;
  const first = Math.max(0, Math.floor(view.scrollTop / LINE) - 10);
  const end = Math.min(starts.length, first + 60);
  const chosen = state.chosen === null ? null : state.trace.exchanges[state.chosen];
  let out = '';
  for (let number = first + 1; number <= end; number += 1) {
    const exchange = exchangeOfLine(number);
    const isChosen = chosen && exchange === chosen && number >= chosen.begins;
    const kind = number === fault?.line ? 'is-bad' : isChosen ? 'is-chosen' : '';
    out += `<div class="${kind}"><a href="#exchange=${exchange?.number}" aria-label="line ${number
    }, draw it">${number}</a><span>${safe(lineText(number).slice(0, 400))}</span></div>`;
  }
  byId('text-lines').style.top = `${first * LINE}px`;
  byId('text-lines').innerHTML = out;
}

/** Scrolls the text so that a line is seen, if it is not. */
function revealLine(number) {
  const view = byId('text-panel');
  const top = (number - 1) * LINE;
  const isSeen = top >= view.scrollTop && top + 2 * LINE <= view.scrollTop + view.clientHeight;
  if (!isSeen) view.scrollTop = Math.max(0, top - 5 * LINE);
  showText();
}

function showLine(number) {
  selectTab('text');
  revealLine(number);
}

function selectTab(name) {
  for (const tab of document.querySelectorAll('[role="tab"]')) {
    const isChosen = tab.id === `tab-${name}`;
    tab.setAttribute('aria-selected', isChosen);
    tab.tabIndex = isChosen ? 0 : -1;
    byId(tab.getAttribute('aria-controls')).hidden = !isChosen;
  }
  byId('filter').hidden = name !== 'exchanges';
  const chosen = state.trace?.exchanges[state.chosen];
  if (name === 'text' && chosen) revealLine(chosen.line);
}
