// The bench: what its buttons add to the script, and what is seen of it.

const bench = { lines: [], ran: null, before: [], timer: null, isShowing: false, took: 0 };
page.bench = bench;

const chosen = (id) => byId(id).value;
const compact = (id) => chosen(id).replaceAll(' ', '').toUpperCase() || '-';

/** The settings that are chosen, for a session from its beginning. */
const settings = () => [
  `page ${chosen('page')}`, `kind ${chosen('hands')} ${chosen('recalls')}`,
  `devices ${chosen('devices')}`, ...PARAMETERS,
];

const place = () => `${chosen('index').trim()} ${chosen('subindex').trim()}`;
const urgent = () => (byId('urgent').checked ? 'urgent ' : '');
const wire = (step) => (lines, made) => withWire(lines, made, step);
const call = (text) => (lines) => [...lines, text()];
/** The ticket that was submitted first, of those that are outstanding. */
const ticket = () => ticketsOpen(bench.ran.trace)[0] ?? '1';

/** Pulls the cable, or plugs it in. */
function turnCable(lines, made) {
  return isPulled(lines) ? [...lines, PLUGGED] : [...withoutPlans(lines, made), PULLED];
}

/** Exchanges the device for the second one, which the script has from its beginning. */
function swap(lines, made) {
  const has = lines.some((it) => it.startsWith('other '));
  const first = lines.findIndex((it) => it !== '' && it[0] !== '#' && !SETTING.test(it));
  const at = first < 0 ? lines.length : first;
  const both = has ? lines : [...lines.slice(0, at), OTHER, ...lines.slice(at)];
  return withWire(both, made, 'swap');
}

/** What each button adds: from the lines, and the number of calls of the wire, new lines. */
const ACTS = {
  read: call(() => `${urgent()}read ${place()}`),
  write: call(() => `${urgent()}write ${place()} ${compact('octets')}`),
  cancel: call(() => `cancel ${ticket()}`),
  withdraw: call(() => `withdraw ${ticket()}`),
  output: call(() => `output ${compact('output-octets')}`),
  save: call(() => 'save'),
  noOutput: call(() => 'output none'),
  restart: call(() => 'restart'),
  expect: call(() => `expect ${chosen('expect')}`),
  turn: (lines, made) => withTurns(lines, made, 1),
  ten: (lines, made) => withTurns(lines, made, 10),
  outlost: wire('outlost 1'),
  outdamaged: wire('outdamaged 1'),
  backlost: wire('backlost 1'),
  backdamaged: wire('backdamaged 1'),
  cable: turnCable,
  raise: (lines, made) => withWire(lines, made, `raise ${chosen('event').trim()}`),
  input: (lines, made) => withWire(lines, made, `input ${compact('input-octets')}`),
  noInput: wire('input none'),
  power: wire('power'),
  swap,
  auto: (lines, made) => withWire(lines, made, `auto ${byId('auto').checked ? 'on' : 'off'}`),
  work: wire('work'),
};

/** What the program says of a script that it refuses, with the line that it means. */
function refusalOf(lines, said) {
  const line = lines[Number(/line (\d+): /.exec(said)?.[1]) - 1];
  return `The program refuses it:\n${said}${line ? `\n${line.slice(0, MOST_SHOWN)}` : ''}`;
}

const MOST_SHOWN = 200;

/** Runs other lines, and shows them; what the program refuses leaves the session as it was. */
function become(lines) {
  const began = performance.now();
  try {
    bench.ran = perform(lines);
  } catch (refusal) {
    if (!(refusal instanceof Refusal)) throw refusal;
    run(false);
    showRefusal(refusalOf(lines, refusal.message));
    return false;
  }
  bench.lines = bench.ran.lines;
  bench.took = performance.now() - began;
  showRefusal('');
  showSoon();
  return true;
}

function act(name) {
  const { lines } = bench;
  if (become(ACTS[name](lines, bench.ran.made))) bench.before.push(lines);
}
page.act = act;

/** Begins anew with these lines. What was before can be had again. */
function begin(lines) {
  run(false);
  const { lines: before } = bench;
  if (become(lines) && before.length) bench.before.push(before);
  showSettings();
}
page.begin = begin;

function undo() {
  run(false);
  const lines = bench.before.pop();
  if (lines) become(lines);
  showSettings();
}

function run(isOn) {
  clearInterval(bench.timer);
  bench.timer = isOn ? setInterval(() => act('turn'), 1000 / Number(chosen('speed'))) : null;
  byId('run').textContent = isOn ? 'Stop' : 'Run';
  byId('run').classList.toggle('on', isOn);
}

// What is seen.

/** Shows the session with the next picture of the screen: what comes quicker is shown at once. */
function showSoon() {
  if (bench.isShowing) return;
  bench.isShowing = true;
  requestAnimationFrame(() => {
    bench.isShowing = false;
    showBench();
  });
}

function showRefusal(text) {
  byId('refusal').hidden = text === '';
  byId('refusal').textContent = text;
}

/** The choices that the lines have made. */
function showSettings() {
  const said = (form) => bench.lines.map((it) => form.exec(it)).findLast(Boolean)?.slice(1);
  const [hands, recalls] = said(/^kind (first|last) (keeps|forgets)$/) ?? ['first', 'keeps'];
  const [devices] = said(/^devices (own|any)$/) ?? ['own'];
  const [octets] = said(/^page ((?:[0-9A-F]{2} ?){10})$/) ?? [byId('page').options[0].value];
  const [expect] = said(/^expect (\d+ \d+|any)$/) ?? ['any'];
  const [auto] = said(/^wire auto (on|off)$/) ?? ['on'];
  const chosenNow = { hands, recalls, devices, expect, page: octets };
  for (const [id, value] of Object.entries(chosenNow)) {
    const list = byId(id);
    if (![...list.options].some((it) => it.value === value)) list.add(new Option(value, value));
    list.value = value;
  }
  byId('auto').checked = auto === 'on';
}

const TO_COME = {
  outlost: 'a message lost', outdamaged: 'a message damaged', backlost: 'a reply lost',
  backdamaged: 'a reply damaged', nowake: 'no wake-up', clean: '',
};

function showCable() {
  const { lines, ran: { made, trace, status, image, standing } } = bench;
  const next = fatesToCome(lines, made).map(({ fate }) => TO_COME[fate]).filter(Boolean);
  byId('pending').textContent = next.length ? `to come: ${next.join(', ')}` : '';
  byId('cable').textContent = isPulled(lines) ? 'Plug the cable in' : 'Pull the cable';
  byId('cable').classList.toggle('on', isPulled(lines));
  byId('mode').textContent = `link: ${status.replace(/^status /, '')}`;
  byId('storage').hidden = byId('save-set').hidden = !standing;
  byId('storage').textContent = `Data Storage: ${(standing ?? '').slice('standing '.length)}`;
  byId('image').textContent = `input: ${image.replace(/^image /, '')}`;
  const last = trace.filter((it) => it.startsWith(`${made} `));
  byId('sent').textContent = last[0] ?? '';
  byId('came').textContent = last[1] ?? '';
}

const item = (text, kind = '') => `<li class="${kind}">${safe(text)}</li>`;

/** What a client was told, with the call that it is of. */
function toldItem({ call: asked, answer }) {
  const kind = / unknown /.test(answer) ? 'unknown' : /^refused/.test(answer) ? 'refused' : '';
  return item(/^(?:collect|event)/.test(asked) ? answer : `${asked}: ${answer}`, kind);
}

/** The entries of both records: that of the device that is out, if there is one, comes first. */
function entriesOf(ran, requests) {
  const [here, away] = atDevices(ran, requests);
  const entries = (record, asked, isAway) => {
    const owns = areOwn(record, asked);
    return record.map((text, at) => ({ text, isAway, isOwn: owns[at] }));
  };
  return [...entries(ran.didAway, away, true), ...entries(ran.did, here, false)];
}

/** What a device did, and who asked it, where that was no client. */
function didItem({ text, isAway, isOwn }, again) {
  const kind = again.includes(requestIn(text)) ? 'twice' : isOwn ? 'own' : '';
  return item(`${isAway ? 'the device that is out: ' : ''}${isOwn ? 'for the port: ' : ''}${text}`,
    kind);
}

/** How much was asked and carried out: by clients, and apart from it by the port itself. */
function onceInWords(asked, own, entries) {
  const ofPort = entries.filter((it) => it.isOwn).length;
  const ofClients = `${asked} asked, ${entries.length - ofPort} carried out`;
  if (!isStored(bench.lines)) return `${ofClients}: none more than once.`;
  const what = bench.lines.some((it) => it.startsWith('block ')) ? ' and blocks' : '';
  return `Clients: ${ofClients}. The port itself, for Data Storage${what}: ${own} asked, ${
    ofPort} carried out. None more than once.`;
}

function showBooks() {
  const { ran } = bench;
  const { requests } = state.trace;
  const isUncounted = state.trace.fault && isStored(ran.lines);
  const asked = [...askedBy(ran).values()];
  const own = requests.filter((it) => it.isOwn).map((it) => it.text);
  const again = isUncounted ? [] : doneAgain(ran, [...asked, ...own]);
  const entries = entriesOf(ran, requests);
  byId('told').innerHTML = ran.answers.map(toldItem).join('');
  byId('did').innerHTML = entries.map((it) => didItem(it, again)).join('');
  byId('once').className = isUncounted ? '' : again.length ? 'bad' : 'good';
  byId('once').textContent = isUncounted ? 'The trace isn’t read to its end, so nothing is counted.'
    : again.length ? `Done more often than asked: ${again.join('; ')}`
      : onceInWords(asked.length, own.length, entries);
  for (const id of ['told', 'did']) byId(id).scrollTop = byId(id).scrollHeight;
}

function showJudged() {
  const { judged, lines } = bench.ran;
  const list = judged.trim().split('\n').map((it) => item(`judge: ${it}`));
  if (hasTwoDevices(lines)) list.push(item('Of two devices, which the judge takes for one.'));
  byId('judged').innerHTML = list.join('');
}

const SCALES = [46, 90];
const hasTwoDevices = (lines) => lines.includes('wire swap');

function showBench() {
  const { ran } = bench;
  const { scale } = state.view;
  open(textOfLines(ran.trace) + (hasTwoDevices(ran.lines) ? '' : ran.judged), 'a live line',
    isStored(ran.lines) ? askedBy(ran) : undefined);
  showCable();
  showBooks();
  showJudged();
  choose(count() > 0 ? count() - 1 : null, { quiet: true });
  look(extent(), Math.min(SCALES[1], Math.max(SCALES[0], scale)));
  byId('script').textContent = textOfLines(bench.lines);
  byId('took').textContent = `${ran.made} calls of the line, run and judged in ${
    bench.took.toFixed(0)} ms`;
  byId('undo').disabled = bench.before.length === 0 && !bench.timer;
  keep('script', textOfLines(bench.lines));
}

// Sending a session to somebody.

/** The lines of a script as they are, so that the program says what is wrong with them. */
const linesOf = (text) => text.replace(/\n+$/, '').split('\n');

const linkOf = (lines) => {
  const address = location.href.split('#')[0];
  return `${address}#script=${encodeURIComponent(textOfLines(lines).trimEnd())}`;
};
page.link = () => linkOf(bench.lines);

/** Copies a text, by way of a field that is selected. */
function copy(text, what) {
  const field = document.body.appendChild(document.createElement('textarea'));
  field.value = text;
  field.select();
  const isDone = document.execCommand('copy');
  field.remove();
  byId('took').textContent = isDone ? `The ${what} is copied.` : 'This browser copies nothing.';
}

/** The script of before the page was loaded again, or that of the address. */
function scriptGiven() {
  return kept('script') ?? new URLSearchParams(location.hash.slice(1)).get('script');
}

function tell(number) {
  const { lines, says } = STORIES[number];
  begin(lines);
  byId('lesson').textContent = says;
  byId('story-of').value = number;
}
page.tell = tell;

function listenToBench() {
  const on = (id, kind, does) => byId(id).addEventListener(kind, does);
  byId('story-of').append(...STORIES.map((it, number) => new Option(it.name, number)));
  on('story-of', 'change', ({ target }) => { if (target.value) tell(Number(target.value)); });
  on('bench', 'click', ({ target }) => { if (target.dataset.act) act(target.dataset.act); });
  on('run', 'click', () => run(!bench.timer));
  on('speed', 'input', () => {
    byId('rate').textContent = `${chosen('speed')} a second`;
    if (bench.timer) run(true);
  });
  on('auto', 'change', () => act('auto'));
  on('expect', 'change', () => act('expect'));
  for (const id of ['page', 'hands', 'recalls', 'devices']) {
    on(id, 'change', () => begin(settings()));
  }
  on('anew', 'click', () => begin(settings()));
  on('undo', 'click', undo);
  on('copy-script', 'click', () => copy(textOfLines(bench.lines), 'script'));
  on('copy-link', 'click', () => copy(linkOf(bench.lines), 'link'));
  addEventListener('hashchange', followToScript);
}

/** Begins with a script; without one, or if it is refused, with the first story. */
function beginWith(given) {
  if (given !== null && become(linesOf(given))) return;
  const refused = byId('refusal').textContent;
  tell(0);
  showRefusal(refused);
}

/** Follows the address to a script, or to an exchange. */
function followToScript() {
  const given = new URLSearchParams(location.hash.slice(1)).get('script');
  if (given === null) followAddress();
  else if (given !== textOfLines(bench.lines).trimEnd()) begin(linesOf(given));
}

const NO_MEMORY64 = 'This browser can’t run the program: its WebAssembly lacks memories of 64-bit '
  + 'addresses (memory64). Chromium and Firefox have them since 2025.';

async function beginPage() {
  byId('commit').textContent = ` of commit ${byId('module').dataset.commit}`;
  listen();
  if (!canRun()) {
    showRefusal(NO_MEMORY64);
    return;
  }
  page.module = await compiled();
  listenToBench();
  beginWith(scriptGiven());
  showSettings();
  page.show = open;
}

page.ready = beginPage();
