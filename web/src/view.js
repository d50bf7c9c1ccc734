// The page: what is open, what is seen of it, and what a reader does.
const page = globalThis.page;
const byId = (id) => document.getElementById(id);
const safe = (text) => String(text).replace(/[&<>"]/g, (it) => `&#${it.charCodeAt(0)};`);

const isAscii = (text) => /^[\0-\x7f]*$/.test(text);

const WIDEST = 240;
const FIRST_SCALE = 58;
const WHOLE_HEIGHT = 42;
const CLICK = 5;
const RIGHT = 170;

const state = {
  name: '', trace: null, lanes: [], view: { from: 0, scale: FIRST_SCALE }, width: 1000, left: 148,
  chosen: null, pointed: null, asked: '', found: [], foundAt: -1, marked: [], drawing: false,
  listed: [],
};
page.state = state;

// Opening a text.

function open(text, name, askedBy) {
  performance.mark('open');
  state.trace = page.prepare(page.open(text, askedBy));
  state.lanes = page.lanesOf(state.trace);
  Object.assign(state, { name, chosen: null, pointed: null, asked: '' });
  Object.assign(state, { found: [], foundAt: -1, marked: [] });
  document.title = `${name} – IO-Link`;
  byId('found').value = '';
  measure();
  firstView();
  byId('sign-pause').hidden = !state.trace.axis.isCutBehind?.includes(true);
  showFault();
  showCounts();
  showStory();
  tables.requests.show(0);
  listExchanges();
  byId('text').scrollTop = 0;
  showText();
  choose(firstChoice(), { quiet: true });
  drawWhole();
  redraw();
  performance.measure('open', 'open');
  say(`${state.trace.exchanges.length} exchanges and wake-ups are drawn.`);
}

/** What a reader wants to see first: what the verdict names, is told unknown, or was missed. */
function firstChoice() {
  const { exchanges, requests, verdict } = state.trace;
  if (exchanges.length === 0) return null;
  if (verdict && verdict.at !== null) return verdict.at;
  const surprise = requests.find((it) => it.isTwice) ?? requests.find((it) => it.isSurprise);
  const missed = exchanges.find((it) => it.fate === 'lost' || it.fate === 'damaged');
  return surprise?.first ?? missed?.at ?? 0;
}

/** Keeps a text for when the page is loaded again, where the browser lets it. */
function keep(name, text) {
  try {
    sessionStorage.removeItem(name);
    sessionStorage.setItem(name, text);
  } catch {
    // Without room or storage, F5 begins anew.
  }
}

/** The text that was kept, if the page was loaded again. */
function kept(name) {
  if (performance.getEntriesByType('navigation')[0]?.type !== 'reload') return null;
  try {
    return sessionStorage.getItem(name);
  } catch {
    return null;
  }
}

// What is seen.

const plot = () => state.width - state.left;
const count = () => state.trace.exchanges.length;
/** How many units the picture is wide: without times, one for each exchange. */
const extent = () => state.trace.axis.extent;
const leastScale = () => Math.min(130, Math.max(plot() - RIGHT, 60) / Math.max(extent(), 1));

function measure() {
  state.width = Math.max(320, byId('picture').clientWidth);
  state.left = state.width < 700 ? 122 : 148;
}

/** The whole if signs fit, else the beginning in words. */
function firstView() {
  const least = leastScale();
  state.view = { from: 0, scale: least >= 24 ? least : FIRST_SCALE };
}

function look(from, scale) {
  const least = leastScale();
  const good = Math.min(WIDEST, Math.max(scale, least));
  const most = Math.max(0, extent() - (plot() - RIGHT) / good);
  state.view = { from: Math.min(most, Math.max(0, from)), scale: good };
  redraw();
}

function zoom(factor, x = state.left + plot() / 2) {
  const { from, scale } = state.view;
  const at = from + (x - state.left) / scale;
  const next = Math.min(WIDEST, Math.max(scale * factor, leastScale()));
  look(at - (x - state.left) / next, next);
}

page.look = look;

const move = (pixels) => look(state.view.from + pixels / state.view.scale, state.view.scale);
const placeAt = (x) => {
  const at = state.trace.axis.at(state.view.from + (x - state.left) / state.view.scale);
  return x >= state.left && at >= 0 && at < count() ? at : null;
};

/** Moves so that an exchange is seen, in the middle if it was not. */
function reveal(at) {
  const { from, scale } = state.view;
  const seen = plot() / scale;
  const place = state.trace.axis.place(at);
  if (place >= from + 0.2 && place + 1 <= from + seen - 0.2) return;
  look(place + 0.5 - seen / 2, scale);
}

function redraw() {
  if (state.drawing) return;
  state.drawing = true;
  requestAnimationFrame(() => {
    state.drawing = false;
    drawNow();
  });
}

function drawNow() {
  performance.mark('draw');
  const { trace, view, width, left, chosen, pointed, marked, lanes } = state;
  const height = lanes.at(-1).top + lanes.at(-1).height;
  const inner = page.draw(trace, { view, width, left, chosen, pointed, marked, lanes });
  const size = `viewBox="0 0 ${width} ${height}" width="${width}" height="${height}"`;
  byId('picture').innerHTML = `<svg xmlns="http://www.w3.org/2000/svg" role="img"
    aria-label="${safe(state.name)}" ${size}>${inner}</svg>`;
  showWindow();
  performance.measure('draw', 'draw');
}

/** The strip of the whole trace, and which part of it is seen; there is none if all of it is. */
function showWindow() {
  const { view } = state;
  const seen = plot() / view.scale;
  byId('whole').hidden = seen >= extent();
  const strip = byId('window');
  strip.style.left = `${(view.from / Math.max(extent(), 1)) * 100}%`;
  strip.style.width = `${Math.max(0.3, Math.min(1, seen / extent()) * 100)}%`;
}

function drawWhole() {
  const inner = page.drawWhole(state.trace, state.width, WHOLE_HEIGHT);
  const size = `viewBox="0 0 ${state.width} ${WHOLE_HEIGHT}" height="${WHOLE_HEIGHT}"`;
  byId('whole').innerHTML = `<svg ${size} preserveAspectRatio="none">${inner}</svg>
    <div id="window"></div>`;
}
