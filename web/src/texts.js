// Texts: examples, files, what is pasted or dropped. What was opened last comes again with F5.

const examples = [...document.querySelectorAll('script[data-example]')];

function openText(text, name) {
  open(text, name);
  byId('example').value = name.startsWith('example ') ? name.slice(8) : '';
}

/** A longer text is packed before it is kept: a browser keeps some millions of characters. */
const LONGEST_PLAIN = 500_000;

const through = (octets, way) => (
  new Response(new Blob([octets]).stream().pipeThrough(way)).arrayBuffer());

async function packed(text) {
  const octets = new Uint8Array(await through(text, new CompressionStream('gzip')));
  const parts = [];
  for (let at = 0; at < octets.length; at += 8192) {
    parts.push(String.fromCharCode(...octets.subarray(at, at + 8192)));
  }
  return btoa(parts.join(''));
}

async function unpacked(text) {
  const octets = Uint8Array.from(atob(text), (it) => it.charCodeAt(0));
  return new TextDecoder().decode(await through(octets, new DecompressionStream('gzip')));
}

async function keepGiven(text, name) {
  const isLong = text.length > LONGEST_PLAIN;
  keep('given', JSON.stringify(isLong ? { packed: await packed(text), name } : { text, name }));
}

/** Opens a text that is no example, and keeps it for when the page is loaded again. */
function openGiven(text, name) {
  keepGiven(text, name);
  openText(text, name);
  history.replaceState(null, '', location.pathname);
}

async function openKept() {
  const { text, packed: rest, name } = JSON.parse(kept('given') ?? '{}');
  if (text !== undefined) openText(text, name);
  else if (rest) openText(await unpacked(rest), name);
}

function openExample(id) {
  const script = examples.find((it) => it.dataset.example === id);
  if (script) openText(script.textContent.replace(/^\n/, ''), `example ${id}`);
  return Boolean(script);
}

/** UTF-16 is told by its first two octets: some shells write it. All else is UTF-8. */
const ENCODINGS = { 'ff,fe': 'utf-16le', 'fe,ff': 'utf-16be' };

/** A text of octets that are no UTF-8: each one above 0x7F is a surrogate, which tells it. */
const textOfBytes = (octets) => Array.from(octets, (it) => (
  String.fromCharCode(it > 0x7f ? FIRST_BYTE + it : it))).join('');
const FIRST_BYTE = 0xdc00;

function textOfFile(octets) {
  const mark = [...octets.subarray(0, 2)].map((it) => it.toString(16)).join();
  try {
    return new TextDecoder(ENCODINGS[mark] ?? 'utf-8', { fatal: true }).decode(octets);
  } catch {
    return textOfBytes(octets);
  }
}

async function openFile(file) {
  if (file) openGiven(textOfFile(new Uint8Array(await file.arrayBuffer())), file.name);
}

/** Follows the address to an example as well. */
function followToText() {
  const example = new URLSearchParams(location.hash.slice(1)).get('example');
  if (example && state.name !== `example ${example}`) openExample(example);
  followAddress();
}

function listenToTexts() {
  const on = (id, kind, act) => byId(id).addEventListener(kind, act);
  on('example', 'change', (event) => {
    if (openExample(event.target.value)) location.hash = `example=${event.target.value}`;
  });
  on('choose', 'click', () => byId('file').click());
  on('file', 'change', ({ target }) => {
    openFile(target.files[0]);
    target.value = '';
  });
  on('paste', 'click', () => byId('paste-dialog').showModal());
  on('paste-dialog', 'close', ({ target }) => {
    const text = byId('paste-text').value;
    if (target.returnValue === 'draw' && text) openGiven(text, 'pasted text');
  });
  addEventListener('hashchange', followToText);
}

function listenToPasteAndDrop() {
  const isTyped = (target) => target.closest?.('input, textarea');
  document.addEventListener('paste', (event) => {
    const text = event.clipboardData.getData('text');
    if (text && !isTyped(event.target)) openGiven(text, 'pasted text');
  });
  document.addEventListener('dragover', (event) => {
    event.preventDefault();
    document.body.classList.add('is-target');
  });
  document.addEventListener('dragleave', () => document.body.classList.remove('is-target'));
  document.addEventListener('drop', (event) => {
    event.preventDefault();
    document.body.classList.remove('is-target');
    const text = event.dataTransfer.getData('text');
    if (event.dataTransfer.files[0]) openFile(event.dataTransfer.files[0]);
    else if (text) openGiven(text, 'dropped text');
  });
}

async function begin() {
  const names = examples.map((it) => it.dataset.example);
  byId('example').append(...names.map((it) => new Option(it, it)));
  listen();
  listenToTexts();
  listenToPasteAndDrop();
  if (!location.hash.includes('example=')) await openKept();
  followToText();
  if (!state.trace) openExample(examples[0].dataset.example);
  page.show = openText;
}

begin();
