// Keys, wheel, pointer.

const KEYS = {
  ArrowRight: (event) => step(event.shiftKey ? 10 : 1),
  ArrowLeft: (event) => step(event.shiftKey ? -10 : -1),
  Home: () => step(-count()),
  End: () => step(count()),
  PageDown: () => move(plot() * 0.8),
  PageUp: () => move(-plot() * 0.8),
  '+': () => zoom(1.5), '=': () => zoom(1.5), '-': () => zoom(1 / 1.5),
  0: () => look(0, 0),
  l: (event) => goToFault(event.shiftKey),
  n: () => goToFound(1),
  p: () => goToFound(-1),
  '/': () => byId('find-text').focus(),
  Enter: () => {
    if (state.chosen !== null) showLine(state.trace.exchanges[state.chosen].line);
  },
};

/** What takes all keys itself, and what takes some: the picture doesn't get them from there. */
const TAKES_ALL = 'input, select, textarea, dialog, [role="tab"]';
const TAKES_SOME = [
  ['button, a, summary', ['Enter', ' ']],
  ['#detail, [role="tabpanel"]', ['Home', 'End', 'PageUp', 'PageDown']],
];
const isTaken = ({ target, key }) => Boolean(target.closest?.(TAKES_ALL))
  || TAKES_SOME.some(([query, keys]) => keys.includes(key) && target.closest?.(query));

function onKey(event) {
  if (event.ctrlKey || event.metaKey || event.altKey) return;
  if (!state.trace || isTaken(event)) return;
  const act = KEYS[event.key] ?? KEYS[event.key.toLowerCase()];
  if (!act) return;
  event.preventDefault();
  act(event);
}

function onWheel(event) {
  event.preventDefault();
  const unit = event.deltaMode === 1 ? 16 : 1;
  if (event.ctrlKey) {
    zoom(Math.exp(-event.deltaY * unit * 0.003), event.offsetX);
    return;
  }
  const isAcross = Math.abs(event.deltaX) > Math.abs(event.deltaY);
  move((isAcross ? event.deltaX : event.deltaY) * unit);
}

const pointers = new Map();
let dragged = 0;

function onDown(event) {
  if (event.button > 0) return;
  byId('picture').setPointerCapture(event.pointerId);
  if (pointers.size === 0) dragged = 0;
  pointers.set(event.pointerId, xOf(event));
}

const xOf = (event) => event.clientX - byId('picture').getBoundingClientRect().left;

/** One pointer moves the picture, two zoom it. */
function onMove(event) {
  const x = xOf(event);
  if (!pointers.has(event.pointerId)) {
    if (event.pointerType !== 'touch') point(placeAt(x));
    return;
  }
  const before = pointers.get(event.pointerId);
  const other = [...pointers].find(([id]) => id !== event.pointerId)?.[1];
  pointers.set(event.pointerId, x);
  dragged += Math.abs(x - before);
  if (other === undefined) {
    if (dragged > CLICK) move(before - x);
    return;
  }
  const [was, is] = [Math.abs(before - other), Math.abs(x - other)];
  if (was > 10 && is > 10) zoom(is / was, (x + other) / 2);
}

function onUp(event) {
  const was = pointers.delete(event.pointerId);
  if (!was || event.type === 'pointercancel' || dragged > CLICK || pointers.size > 0) return;
  const at = placeAt(xOf(event));
  if (at !== null) choose(at);
}

function onStrip(event) {
  if (event.buttons === 0 || !state.trace) return;
  const { left, width } = byId('whole').getBoundingClientRect();
  const place = ((event.clientX - left) / width) * extent();
  look(place - plot() / state.view.scale / 2, state.view.scale);
}

function listenToPicture() {
  const picture = byId('picture');
  document.addEventListener('keydown', onKey);
  picture.addEventListener('wheel', onWheel, { passive: false });
  picture.addEventListener('pointerdown', onDown);
  picture.addEventListener('pointermove', onMove);
  picture.addEventListener('pointerup', onUp);
  picture.addEventListener('pointercancel', onUp);
  picture.addEventListener('pointerleave', () => point(null));
  byId('whole').addEventListener('pointerdown', onStrip);
  byId('whole').addEventListener('pointermove', onStrip);
}

function listenToTools() {
  const on = (id, kind, act) => byId(id).addEventListener(kind, act);
  on('find', 'submit', (event) => { event.preventDefault(); find(); });
  on('find-what', 'change', (event) => {
    byId('find-text').placeholder = FIND_FORMS[event.target.value];
  });
  on('fault-before', 'click', () => goToFault(true));
  on('fault-next', 'click', () => goToFault(false));
  on('filter', 'change', listExchanges);
  on('narrower', 'click', () => zoom(1 / 1.5));
  on('wider', 'click', () => zoom(1.5));
  on('fit', 'click', () => look(0, 0));
  on('save', 'click', save);
  on('print', 'click', () => print());
  on('theme', 'click', turnTheme);
  on('text-panel', 'scroll', showText);
}

function listenToTabs() {
  const tabs = [...document.querySelectorAll('[role="tab"]')];
  tabs.forEach((tab, at) => {
    tab.addEventListener('click', () => selectTab(tab.id.slice(4)));
    tab.addEventListener('keydown', (event) => {
      const by = { ArrowRight: 1, ArrowLeft: -1 }[event.key];
      if (!by) return;
      const next = tabs[(at + by + tabs.length) % tabs.length];
      selectTab(next.id.slice(4));
      next.focus();
    });
  });
}

function listenToSize() {
  new ResizeObserver(() => {
    if (!state.trace || byId('picture').clientWidth === state.width) return;
    measure();
    look(state.view.from, state.view.scale);
    drawWhole();
  }).observe(byId('picture'));
}

/** What a rule says, in place of its page. With a key held, the link leads there as before. */
function listenToRules() {
  const known = JSON.parse(byId('rules').textContent);
  const code = (text) => safe(text).replace(/`([^`]*)`/g, '<code>$1</code>');
  document.addEventListener('click', (event) => {
    const link = event.target.closest?.('a[data-rule]');
    if (!link || event.ctrlKey || event.metaKey || event.shiftKey) return;
    const id = link.dataset.rule;
    const [text, source] = known[id] ?? ['no rule of these', ''];
    event.preventDefault();
    byId('rule-id').textContent = id;
    byId('rule-text').innerHTML = code(text);
    byId('rule-source').textContent = source;
    byId('rule-link').href = link.href;
    byId('rule').showModal();
  });
}

function listen() {
  listenToRules();
  listenToPicture();
  listenToTools();
  listenToTabs();
  listenToSize();
  document.addEventListener('click', (event) => {
    // The address doesn't change if it is that of the link already.
    const link = event.target.closest?.('a[href^="#"]');
    if (link?.hash === '#signs') byId('signs').open = true;
    if (link?.hash === location.hash) followAddress();
  });
  selectTab('requests');
}
