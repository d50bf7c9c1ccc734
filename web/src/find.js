// Finding.

const FIND_FORMS = {
  octets: 'D4 41', ticket: '1', index: '16/0 or 0x10', exchange: '18', event: '8CA0',
  command: 'Operate', time: '3.8 ms', text: '', verdict: '',
};

/** Octets as the program prints them, or null if a text is none. */
function octetsIn(text) {
  const words = text.split(/[\s,]+/).map((it) => it.replace(/^0x/i, ''));
  if (!words.every((it) => /^(?:[0-9A-Fa-f]{2})+$/.test(it))) return null;
  return words.join('').toUpperCase().match(/../g).join(' ');
}

/** A number, in decimal or with 0x in hexadecimal, as a text; NaN if a text is none. */
const numberIn = (text) => (/^(?:\d+|0x[0-9a-f]+)$/i.test(text) ? String(Number(text)) : 'NaN');

/** Whether octets are among others, at the bounds of octets. */
const holds = (all, wanted) => ` ${all} `.includes(` ${wanted} `);

/** The octets of a request and of its response, each with the exchange that it came in. */
function streamsOf({ first, last }) {
  const [asked, answered] = [[], []];
  for (const it of state.trace.exchanges.slice(first, last + 1)) {
    const put = (list, octets) => octets.split(' ').forEach((octet) => list.push([octet, it.at]));
    if (['segment', 'anew'].includes(it.step) && it.repeats < 0) put(asked, it.sent.od);
    if (['answer', 'refused'].includes(it.step) && it.came?.od) put(answered, it.came.od);
  }
  return [asked, answered];
}

/** Where octets begin in a stream. */
function placesIn(stream, wanted) {
  const all = stream.map(([octet]) => octet).join(' ');
  const places = [];
  for (let at = all.indexOf(wanted); at >= 0; at = all.indexOf(wanted, at + 1)) {
    if (at % 3 === 0) places.push(stream[at / 3][1]);
  }
  return places;
}

function findOctets(text) {
  const wanted = octetsIn(text);
  if (wanted === null) return [];
  const { exchanges, requests } = state.trace;
  const isIn = ({ sent, came }) => (
    (sent && holds(sent.octets, wanted)) || (came && holds(came.octets, wanted)));
  const hits = new Set(exchanges.filter(isIn).map((it) => it.at));
  // Over several segments too.
  requests.flatMap(streamsOf).flatMap((it) => placesIn(it, wanted)).forEach((at) => hits.add(at));
  return [...hits].sort((a, b) => a - b);
}

function findText(text) {
  const wanted = text.toLowerCase();
  const { starts } = state.trace;
  const lines = starts.map((_, at) => at + 1)
    .filter((number) => lineText(number).toLowerCase().includes(wanted));
  return [...new Set(lines.map((it) => exchangeOfLine(it)?.at).filter((it) => it !== undefined))];
}

const NANOSECONDS_IN = { s: 1e9, ms: 1e6, µs: 1e3, us: 1e3, ns: 1 };

/** The exchange that was the last to begin by a time. */
function findTime(text) {
  const [, number, unit = 's'] = /^(\d+(?:\.\d+)?) ?(s|ms|µs|us|ns)?$/.exec(text) ?? [];
  const wanted = Math.round(Number(number) * NANOSECONDS_IN[unit]);
  const last = state.trace.exchanges.findLast((it) => it.time !== null && it.time <= wanted);
  return last ? [last.at] : [];
}

const FINDERS = {
  time: findTime,
  octets: findOctets,
  text: findText,
  verdict: () => [...new Set(namedPlaces().map((it) => it.at))],
  exchange: (text) => [placeOf(Number(text))].filter((it) => it !== null),
  ticket: (text) => state.trace.tickets.filter((it) => it.number === Number(text))
    .map((it) => it.request?.first ?? Math.min(it.submitted?.at ?? 0, count() - 1)),
  index: (text) => {
    const wanted = text.trim().split(/[ /.]+/).map(numberIn);
    const isIt = (asked) => wanted.every((it, at) => asked?.split(' ')[at + 1] === it);
    return state.trace.requests.filter((it) => isIt(it.text)).map((it) => it.first);
  },
  event: (text) => {
    const wanted = text.toUpperCase().replace(/^0X/, '');
    return state.trace.readings.flatMap((it) => it.events)
      .filter((it) => it.text.includes(wanted)).map((it) => it.at);
  },
  command: (text) => {
    const isIt = (it) => page.commandName(it).toLowerCase().includes(text.toLowerCase());
    return state.trace.exchanges.filter((it) => it.role === 'command' && isIt(it))
      .map((it) => it.at);
  },
};

/** Finds what is asked for; asked again, it goes to the next. */
function find() {
  const [what, text] = [byId('find-what').value, byId('find-text').value.trim()];
  if (state.asked === `${what} ${text}` && state.found.length) {
    goToFound(1);
    return;
  }
  const isUsable = text !== '' || what === 'verdict';
  state.asked = `${what} ${text}`;
  state.found = isUsable ? FINDERS[what](text) : [];
  state.foundAt = -1;
  // In the order of the trace, for the picture.
  state.marked = [...state.found].sort((a, b) => a - b);
  if (state.found.length) goToFound(1);
  else byId('found').value = text || isUsable ? 'none' : '';
  redraw();
}

function goToFound(by) {
  const { found } = state;
  if (found.length === 0) return;
  state.foundAt = (state.foundAt + by + found.length) % found.length;
  byId('found').value = `${state.foundAt + 1} of ${found.length}`;
  choose(found[state.foundAt]);
}

// Saving.

/** The drawing's styles with the colours of now, so that the file needs no page. */
function inkOfNow() {
  const probe = document.body.appendChild(document.createElement('i'));
  const ink = byId('ink').textContent.replace(/var\((--[a-z-]+)\)/g, (_, name) => {
    probe.style.color = `var(${name})`;
    return getComputedStyle(probe).color;
  });
  probe.remove();
  return ink;
}

/** The picture as a file of its own. */
page.pictureFile = function pictureFile() {
  drawNow();
  const svg = byId('picture').innerHTML;
  return svg.replace(/<svg [^>]*>/, (it) => `${it}<style>${inkOfNow()}</style>`);
};

function save() {
  const link = document.createElement('a');
  const blob = new Blob([page.pictureFile()], { type: 'image/svg+xml' });
  link.href = URL.createObjectURL(blob);
  link.download = `${state.name.replace(/[^\w.-]+/g, '_')}.svg`;
  link.click();
  setTimeout(() => URL.revokeObjectURL(link.href), 10_000);
}

function turnTheme() {
  const isDark = document.documentElement.dataset.theme
    ? document.documentElement.dataset.theme === 'dark'
    : matchMedia('(prefers-color-scheme: dark)').matches;
  document.documentElement.dataset.theme = isDark ? 'light' : 'dark';
}
