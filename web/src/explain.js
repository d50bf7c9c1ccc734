// Says what an exchange's octets mean, part by part, and by which rules of protocol.md.
const page = globalThis.page;

const HEADINGS = {
  OCT: 'oct-and-chk-octets-and-checksum',
  CHK: 'oct-and-chk-octets-and-checksum',
  MSG: 'msg-messages-of-an-m-sequence',
  LAY: 'lay-the-layout-of-a-mode',
  PAGE: 'page-direct-parameter-page-1',
  ISDU: 'isdu-requests-and-responses',
  SEG: 'seg-an-isdu-in-segments',
  DEV: 'dev-what-a-device-does',
  EVT: 'evt-events',
  LINK: 'link-the-masters-data-link-layer',
  REQ: 'req-a-request-at-the-master',
  PD: 'pd-process-data-at-the-master',
  BOOK: 'book-tickets-outcomes-journal',
  PORT: 'port-the-port-as-a-whole',
};
page.ruleLink = (id) => `../docs/protocol.md#${HEADINGS[id.split('-')[0]] ?? ''}`;

const COMMANDS = {
  '5A': 'Fallback', 95: 'MasterIdent', 96: 'DeviceIdent', 97: 'DeviceStartup',
  98: 'ProcessDataOutputOperate', 99: 'DeviceOperate', '9A': 'DevicePreoperate',
};
page.commandName = ({ sent }) => `${head(sent.od)} ${COMMANDS[head(sent.od)] ?? ''}`;

const PLACES = [
  'MasterCommand', 'MasterCycleTime', 'MinCycleTime', 'M-sequence Capability', 'RevisionID',
  'ProcessDataIn', 'ProcessDataOut', 'VendorID, high octet', 'VendorID, low octet',
  'DeviceID, high octet', 'DeviceID, middle octet', 'DeviceID, low octet',
];
const RATES = { COM1: '4.8 kbit/s', COM2: '38.4 kbit/s', COM3: '230.4 kbit/s' };
const CHANNELS = { process: 'process', page: 'page', diagnosis: 'diagnosis', isdu: 'ISDU' };
const MODES = {
  down: 'down', startup: 'STARTUP', preoperate: 'PREOPERATE', operate: 'OPERATE',
  untold: 'not told',
};
page.modeName = (mode) => MODES[mode];

const hex = (value) => value.toString(16).toUpperCase().padStart(2, '0');
const head = (octets) => octets.split(' ')[0];

function flowName(address) {
  if (address < 0x10) return `COUNT ${address}`;
  return { 0x10: 'START', 0x11: 'IDLE 1', 0x12: 'IDLE 2', 0x1f: 'ABORT' }[address] ?? 'reserved';
}
page.flowName = flowName;

/** MinCycleTime and MasterCycleTime, in milliseconds. */
function cycleTime(octet) {
  const value = octet & 63;
  const tenths = [value, 64 + value * 4, 320 + value * 16][octet >> 6];
  return tenths === undefined ? 'reserved' : `${tenths / 10} ms`;
}

/** Process data of a length that ProcessDataIn or ProcessDataOut gives (PAGE-4). */
function processLength(octet) {
  const length = octet & 31;
  if (octet & 128) return `${length + 1} octets`;
  return length === 0 ? 'none' : `${length} bit${length > 1 ? 's' : ''}`;
}

function capability(octet) {
  const isdu = octet & 1 ? 'ISDU' : 'no ISDU';
  return `${isdu}, OPERATE code ${(octet >> 1) & 7}, PREOPERATE code ${(octet >> 4) & 3}`;
}

/** The meaning of an octet of Direct Parameter page 1. */
function pageValue(address, octet) {
  if (address === 1 || address === 2) return cycleTime(octet);
  if (address === 3) return capability(octet);
  if (address === 4) return { 0x11: 'V1.1', 0x10: 'V1.0' }[octet] ?? 'not supported';
  if (address === 5 || address === 6) return processLength(octet);
  return String(octet);
}

/** The meaning of a message's control octet: its way, channel and address. */
function controlMeans({ write, channel, address }) {
  const way = write ? 'write' : 'read';
  if (channel === 'isdu') return `${way}, ISDU channel, FlowCTRL ${flowName(address)}`;
  const names = { page: (it) => PLACES[it], diagnosis: placeOf };
  const place = names[channel]?.(address);
  const name = place ? `: ${place}` : '';
  return `${way}, ${CHANNELS[channel]} channel, address 0x${hex(address)}${name}`;
}

const EVENT_OCTETS = ['EventQualifier', 'EventCode, high octet', 'EventCode, low octet'];

/** What an address of the event memory holds (EVT-4). */
function placeOf(address) {
  if (address === 0) return 'StatusCode';
  return `${EVENT_OCTETS[(address - 1) % 3]} of place ${Math.ceil(address / 3)}`;
}

const SENT_DATA = {
  command: ({ sent }) => [`MasterCommand ${COMMANDS[head(sent.od)] ?? 'unknown'}`, ['PAGE-6']],
  cycle: ({ sent }) => [`MasterCycleTime ${cycleTime(sent.data[0])}`, ['LINK-7']],
  segment: ({ request }) => [
    `a segment of the request${request?.text ? `: ${request.text}` : ''}`, ['SEG-1', 'ISDU-3'],
  ],
  confirm: () => ['confirms the events; its octets mean nothing', ['EVT-2', 'MSG-6']],
};

const CAME_DATA = {
  page: ({ sent, came }) => [
    `${PLACES[sent.address] ?? 'no octet'}: ${pageValue(sent.address, came.data[0])}`,
    ['PAGE-1', 'LINK-4'],
  ],
  status: ({ came }) => [`StatusCode: places ${places(came.data[0])}`, ['EVT-4']],
  event: ({ sent }) => [placeOf(sent.address), ['EVT-4', 'EVT-6']],
  idle: () => ['zeros', ['DEV-14']],
  abort: () => ['zeros: the device no longer has the request', ['DEV-14', 'REQ-9']],
  process: () => ['zeros', ['DEV-7']],
};

const ISDU_DATA = {
  busy: () => ['busy: the application has not answered yet', ['ISDU-11', 'DEV-12']],
  none: () => ['no service', ['ISDU-11']],
  refused: ({ request }) => [
    request.endsInZeros ? 'zeros, as of a device that forgot its response' : 'no response',
    ['DEV-20', 'ISDU-9'],
  ],
  answer: ({ request }) => [
    `a segment of the response${request.answerText ? `: ${request.answerText}` : ''}`,
    ['SEG-1', 'ISDU-4'],
  ],
};

function places(code) {
  const marked = [1, 2, 3, 4, 5, 6].filter((it) => code & (1 << (it - 1)));
  return marked.length ? marked.join(', ') : 'none';
}

const field = (octets, name, means, rules) => ({ octets, name, means, rules });

/** The parts of a message, each with its octets and its meaning. */
function sentFields(exchange) {
  const { sent } = exchange;
  const octets = sent.octets.split(' ');
  const refusal = 'not a message of this layout';
  if (sent.refused) {
    return [field(sent.octets, 'as sent', `${refusal}: ${sent.refused}`, ['MSG-5'])];
  }
  const kind = parseInt(octets[1], 16);
  const sum = `M-sequence type ${kind >> 6}, checksum 0x${hex(kind & 63)}`;
  const rules = sent.channel === 'isdu' ? ['OCT-1', 'OCT-2'] : ['OCT-1'];
  const list = [
    field(octets[0], 'MC', controlMeans(sent), rules), field(octets[1], 'CKT', sum, ['OCT-3']),
  ];
  if (sent.out) list.push(field(sent.out, 'PD out', 'process data out', ['MSG-1', 'PD-4']));
  const data = SENT_DATA[exchange.role]?.(exchange) ?? ['acknowledged and ignored', ['DEV-9']];
  if (sent.od) list.push(field(sent.od, 'OD', ...data));
  return list;
}

/** The parts of a reply that came and is valid. */
function cameFields(exchange) {
  const { came, role, step } = exchange;
  const list = [];
  const data = ISDU_DATA[step] ?? CAME_DATA[role] ?? (() => ['on-request data', ['MSG-2']]);
  if (came.od) list.push(field(came.od, 'OD', ...data(exchange)));
  const input = came.valid ? 'process data in' : 'process data in, marked as invalid';
  if (came.input) list.push(field(came.input, 'PD in', input, ['MSG-2', 'PD-1']));
  const last = came.octets.split(' ').at(-1);
  const flags = `Event flag ${Number(came.event)}, PD status ${came.valid ? 'valid' : 'invalid'}`;
  const sum = `checksum 0x${hex(parseInt(last, 16) & 63)}`;
  list.push(field(last, 'CKS', `${flags}, ${sum}`, ['OCT-4', 'DEV-8']));
  return list;
}

function replyFields(exchange) {
  const { fate, came } = exchange;
  if (fate === 'open') return [field('', 'no line', 'the text ends before the reply', [])];
  if (fate === 'lost') {
    return [field('', 'none', 'nothing came: the message or its reply was lost', ['LINK-2'])];
  }
  if (fate === 'answered') return cameFields(exchange);
  return [field(came.octets, 'as it came', `not valid: ${came.refused}`, ['MSG-4', 'MSG-5'])];
}

const NOTES = {
  page: () => ['A step of start-up.', ['LINK-4']],
  cycle: () => ['A step of start-up.', ['LINK-7', 'LINK-8']],
  idle: () => ['Nothing else was due.', ['REQ-1']],
  status: () => ['The Event flag was up: the events are read.', ['EVT-5', 'EVT-6']],
  event: () => ['The events are read, octet by octet.', ['EVT-6']],
  confirm: () => ['The events are kept; now they are confirmed.', ['EVT-8', 'EVT-2']],
};
const STEPS = {
  segment: ['It carries a request to the device.', ['REQ-4', 'SEG-2']],
  anew: ['The device had heard nothing of the request: it is written anew.', ['REQ-14']],
  ask: ['It asks for the response; the first such message hands the request over.',
    ['REQ-5', 'DEV-12', 'DEV-20']],
  busy: ['It asks for the response; the device is busy.', ['REQ-5', 'DEV-12']],
  none: ['The device holds no request.', ['REQ-7', 'REQ-14']],
  answer: ['It fetches the response.', ['REQ-5', 'DEV-13']],
  refused: ['It ends the response, which the port refuses.', ['REQ-7', 'REQ-14']],
  abort: ['It cuts the request off.', ['REQ-8', 'REQ-9']],
};
const IN_DOUBT = [
  'The START write had no valid reply. It asks whether the device has the request, in its place.',
  ['REQ-14'],
];

function commandNote({ sent, mode }) {
  if (mode !== 'operate') return ['A step of start-up.', ['LINK-6', 'LINK-7', 'LINK-9']];
  const isOn = head(sent.od ?? '') === '98';
  return [`It makes the device's output ${isOn ? 'valid' : 'invalid'}.`, ['PD-5', 'DEV-6']];
}

/** What an exchange is for, and what came of it. */
function notesOf(exchange, trace) {
  const { role, step, repeats, attempt, losesLink, isInDoubt } = exchange;
  const list = isInDoubt ? [IN_DOUBT] : [];
  const what = STEPS[step] ?? (role === 'command' ? commandNote(exchange) : NOTES[role]?.());
  if (what) list.push(what);
  if (repeats >= 0) {
    const before = trace.exchanges[repeats].number;
    list.push([`The same octets as ${before}, which had no valid reply: attempt ${attempt} of 3.`,
      ['LINK-2']]);
  }
  if (losesLink) {
    list.push(['The third without a valid reply in a row: the link is lost.', ['LINK-3']]);
  }
  const next = trace.exchanges[exchange.at + 1];
  if (next?.repeats === exchange.at) list.push([`It is sent again as ${next.number}.`, ['LINK-2']]);
  return list;
}

const wakeNotes = ({ rate }) => (rate === 'none'
  ? [['A wake-up request. No device answered: the link stays down.', ['LINK-1']]]
  : [[`A wake-up request. The device answers at ${rate}, ${RATES[rate]}: STARTUP begins.`,
    ['LINK-1', 'DEV-1']]]);

/** The kinds of verdict, as `judge` prints them. */
const VERDICTS = {
  honest: 'honest', guilty: 'not honest', open: 'can’t say', unheard: 'can’t say',
};
page.verdictName = ({ kind }) => VERDICTS[kind];

/** Where a verdict names an exchange: at it, or from it on. */
page.verdictPlace = ({ kind, number }) => (
  kind === 'guilty' ? `at ${number}` : `from ${number} on`);

/** A reason in short, and its rules if it has some. */
page.reasonShort = ({ reason, rules }) => [reason, ...rules].join(', ');

/** A verdict on an exchange in short. */
page.verdictShort = (verdict) => (
  `${page.verdictName(verdict)} ${page.verdictPlace(verdict)}: ${page.reasonShort(verdict)}`);

/** What is said of the master in short. */
page.masterShort = function masterShort(master) {
  if (master.kind === 'unsure') return 'master: unsure from here on';
  return `master not by the rules: ${page.reasonShort(master)}`;
};

/** All that is said of an exchange. */
page.explain = function explain(exchange, trace) {
  if (exchange.rate !== null) return { sent: [], came: [], notes: wakeNotes(exchange) };
  return {
    sent: sentFields(exchange), came: replyFields(exchange), notes: notesOf(exchange, trace),
  };
};

const SHORT = { 95: 'Ident', 97: 'Startup', 98: 'Output', 99: 'Operate', '9A': 'Preop.' };

/** A message's name in a word or two. */
page.messageName = function messageName({ role, sent, rate }) {
  if (rate !== null) return 'wake';
  const { address } = sent;
  switch (role) {
    case 'page': return `page ${hex(address)}`;
    case 'command': return SHORT[head(sent.od)] ?? 'command';
    case 'cycle': return 'cycle';
    case 'segment': return flowName(address);
    case 'ask': case 'fetch': return `${flowName(address)}?`;
    case 'idle': return 'idle';
    case 'abort': return 'ABORT';
    case 'status': return 'status';
    case 'event': return `mem ${hex(address)}`;
    default: return role;
  }
};

/** A reply's name in a word or two. */
page.replyName = function replyName({ fate, step, role, came, rate }) {
  if (rate !== null) return rate;
  if (fate === 'lost') return 'none';
  if (fate === 'damaged') return 'damaged';
  if (fate === 'open') return '…';
  if (step === 'busy' || step === 'answer' || step === 'refused') return step;
  if (role === 'page' || role === 'status' || role === 'event') return head(came.od ?? 'ack');
  return came.od ? 'zeros' : 'ack';
};

const SAID = { done: 'done', unknown: 'unknown', withdrawn: 'withdrawn', noisdu: 'no ISDU' };

/** What the client was told of a ticket. */
page.toldOf = function toldOf({ outcome }) {
  if (!outcome) return 'nothing yet';
  if (outcome.end === 'done') return `done: ${outcome.answer}`;
  return outcome.cause ? `unknown (${outcome.cause})` : SAID[outcome.end];
};

const MOST_SHOWN = 16;

/** A request in short: its place as Index/Subindex, and the first octets of a write. */
page.requestName = function requestName(text) {
  if (!text) return 'a request, cut short';
  const [, way, index, sub, data] = /^(\w+) (\d+) (\d+)(?: (.*))?$/.exec(text);
  const name = `${way} ${index}/${sub}`;
  if (data === undefined) return name;
  const octets = data.split(' ');
  if (octets.length <= MOST_SHOWN) return `${name} = ${data}`;
  return `${name} = ${octets.slice(0, MOST_SHOWN).join(' ')} … (${octets.length} octets)`;
};

/** The standard's names of Indexes, SystemCommands and ErrorTypes: the guide lists them. */
const NAMES = JSON.parse(document.getElementById('names').textContent);

/** A text, and in brackets what the standard calls it, where it has a name for it. */
const named = (text, ...names) => {
  const known = names.filter(Boolean).join(' ');
  return known ? `${text} (${known})` : text;
};

/** A request in short, with the names of its Index and of its SystemCommand. */
page.requestInWords = function requestInWords(text) {
  const [, index, command] = /^\w+ (\d+) \d+(?: (.*))?$/.exec(text ?? '') ?? [];
  const asked = NAMES.Index[index] === 'SystemCommand' ? NAMES.SystemCommand[command] : undefined;
  return named(page.requestName(text), NAMES.Index[index], asked);
};

/** An answer, with the name of its ErrorType. */
page.answerInWords = function answerInWords(text) {
  return named(text, NAMES.ErrorType[/^refused (.. ..)$/.exec(text)?.[1]]);
};

/** What the client was told of a ticket, an answer with its name. */
page.toldInWords = function toldInWords(ticket) {
  const { outcome } = ticket;
  return outcome?.end === 'done' ? `done: ${page.answerInWords(outcome.answer)}`
    : page.toldOf(ticket);
};

/** A number of times. */
page.timesName = (count) => ['never', 'once', 'twice'][count] ?? `${count} times`;

/** What the device's record says of a request. */
page.recordOf = function recordOf({ carried, times: { least, most }, entries }) {
  if (carried !== 'yes') return { no: 'not carried out', untold: 'not told' }[carried];
  const texts = entries.map((it) => page.answerInWords(it.answer));
  const answers = texts.length ? `: ${texts.join(', ')}` : '';
  if (least < most) return `carried out at least ${page.timesName(least)}`;
  return least > 1 ? `carried out ${page.timesName(least)}${answers}` : `carried out${answers}`;
};
