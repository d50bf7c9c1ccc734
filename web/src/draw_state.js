// The mode of the link.

/** A mode begins with the end of the exchange that led to it. */
const MODE_EDGES = { starts: 'behind', ends: 'behind' };
const MODE_RANKS = { down: 3, startup: 1, preoperate: 1, operate: 0, untold: 0 };

function drawMode(scene, { a, b, it, many }, top) {
  const [left, right] = [Math.max(a, scene.left - 2), Math.min(b, scene.width + 2)];
  if (many > 1) return box('mode mixed', left, top + 4, right - left, 22);
  const isLast = it.from === scene.count;
  const { why } = scene.trace;
  const name = page.modeName(it.value) + (isLast && why ? `: ${why}` : '');
  return box(`mode ${it.value}${isLast ? ' last' : ''}`, left, top + 4, right - left, 22)
    + words('mode-text', left + 6, top + 19, fit(name, right - left - 8, BOLD));
}

/** The mode of each exchange, and behind the last one the mode that was left. */
function allModes({ modes, mode, exchanges: { length } }) {
  return [...modes, { from: length, to: length + 1e6, value: mode ?? 'untold' }];
}

function drawModes(scene, { top }) {
  const rank = (it) => MODE_RANKS[it.value];
  const spans = scene.spans(scene.trace.allModes, { ...MODE_EDGES, rank });
  return spans.map((it) => drawMode(scene, it, top)).join('');
}

// Events: from the Event flag to the confirm.

function eventStep(exchange, reading) {
  if (exchange.at === reading.from && exchange.sent.channel !== 'diagnosis') return ['flag', '⚑'];
  if (exchange.reading !== reading) return null;
  if (exchange.role === 'confirm') return ['confirm', 'c'];
  const read = reading.events.find((it) => it.at === exchange.at);
  return [read ? read.text : 'read', read ? 'E' : 'r'];
}

/** The exchanges of a reading that are seen, as boxes. */
function readingCells(scene, reading) {
  const cells = [];
  const end = Math.min(reading.to, scene.end);
  for (let at = Math.max(reading.from, scene.first); at < end; at += 1) {
    const exchange = scene.trace.exchanges[at];
    const step = exchange.sent && eventStep(exchange, reading);
    const kind = `step event${missed(exchange) ? ' missed' : ''}`;
    if (step) cells.push({ at, kind, name: step[0], sign: step[1] });
  }
  return cells;
}

function drawReading(scene, { a, b, it, many }, top) {
  if (many > 1) return box('crowd event', a, top + 8, b - a, 18);
  const text = it.events.map((each) => each.text).join(', ');
  return box('bar event', a + 0.5, top + 6, b - a - 1, 24, { rx: 4 })
    + words('name', a + 5, top + 22, scene.detail === 'joined' && whole(text, b - a - 8, BOLD));
}

function drawEvents(scene, { top }) {
  const { readings } = scene.trace;
  if (readings.length === 0) return words('none', scene.left + 8, top + 17, 'no Event flag');
  const spans = scene.spans(readings, { ends: 'behind' });
  const bars = spans.map((it) => drawReading(scene, it, top)).join('');
  if (scene.detail === 'joined') return bars;
  const cells = spans.filter((it) => it.many === 1).flatMap(({ it }) => readingCells(scene, it));
  return bars + drawSteps(scene, cells, top + 9);
}

// Process data of both ways.

function drawValues(scene, spans, top, kind) {
  return scene.spans(spans).map(({ a, b, it, many }) => {
    const isValid = it.value[0] !== '!';
    const left = Math.max(a, scene.left - 2);
    const right = Math.min(b, scene.width + 2);
    const text = isValid ? it.value : `${it.value.slice(1)} invalid`;
    const state = many > 1 ? 'mixed' : isValid ? 'valid' : 'invalid';
    const shown = many > 1 ? '' : fit(text, right - left - 8, PLAIN + 0.6);
    return box(`value ${kind} ${state}`, left, top, right - left, 18)
      + words('octets left', left + 5, top + 13, shown);
  }).join('');
}

function drawProcess(scene, { top }) {
  const { outputs, inputs } = scene.trace;
  if (outputs.length + inputs.length === 0) {
    return words('none', scene.left + 8, top + 17, 'no process data');
  }
  return drawValues(scene, outputs, top + 4, 'out') + drawValues(scene, inputs, top + 25, 'in');
}

// What `judge` found, if the text has its verdict.

const FINDINGS = {
  nothing: 'judged: nothing found', guilty: '', unjudged: 'not judged',
};
const FINDING_RANKS = { guilty: 2, unjudged: 1, nothing: 0 };

function drawFinding(scene, { a, b, it, many }, top) {
  const [left, right] = [Math.max(a, scene.left - 2), Math.min(b, scene.width + 2)];
  const kind = many > 1 ? 'mixed' : it.value;
  const room = (it.to === scene.count ? scene.width : right) - left - 8;
  const text = many > 1 ? '' : whole(FINDINGS[it.value], room);
  return box(`finding ${kind}`, left, top + 4, right - left, 20)
    + words('finding-text', left + 6, top + 18, text);
}

/** The reason, at the exchange that the verdict names, or before it where the picture ends. */
function drawReason(scene, { verdict }, top) {
  const sign = verdict.kind === 'guilty' ? '§ ' : '';
  const texts = [page.verdictShort(verdict), verdict.reason, String(verdict.number)];
  const room = scene.width - scene.left - 12;
  const text = texts.find((it) => pillWidth(sign + it) <= room) ?? sign.trim();
  const most = scene.width - pillWidth(sign + text) - 6;
  const ink = new Ink();
  drawPill(ink, verdict.kind, Math.min(scene.x(verdict.at), most), top, sign + text);
  return ink.toString();
}

function drawVerdict(scene, { top }) {
  const { trace, first, end } = scene;
  const { verdict, findings } = trace;
  const spans = scene.spans(findings, { rank: (it) => FINDING_RANKS[it.value] });
  const bars = spans.map((it) => drawFinding(scene, it, top)).join('');
  const isSeen = verdict.at !== null && verdict.at >= first && verdict.at < end;
  return bars + (isSeen ? drawReason(scene, trace, top + 27) : '');
}

/** A veil over what isn't judged, below all that is drawn. */
function drawVeil(scene, height) {
  const spans = scene.spans(scene.trace.findings.filter((it) => it.value === 'unjudged'));
  return spans.map(({ a, b }) => box('veil', a, 0, b - a, height)).join('');
}

/** The guilty exchange, or null. */
const guiltyOf = ({ verdict }) => (verdict?.kind === 'guilty' ? verdict.at : null);

/** All lanes, with a thick frame around the guilty exchange: below words, above joined boxes. */
function drawLanes(scene, lanes, height) {
  const at = guiltyOf(scene.trace);
  const drawn = lanes.map((it) => tag('g', {}, it.draw(scene, it))).join('');
  if (at === null) return drawn;
  const frame = box('frame', scene.x(at), 1.5, Math.max(scene.scale, SEEN_LEAST), height - 3);
  return (scene.detail === 'joined' ? drawn + frame : frame + drawn) + drawHead(scene, at);
}

/** The number of the guilty exchange with a §, in a dark field. */
function drawHead(scene, at) {
  const { number } = scene.trace.exchanges[at];
  const text = scene.detail === 'words' ? `§ ${number}` : '§';
  const wide = Math.max(scene.scale, pillWidth(text));
  const middle = scene.middle(at);
  return box('guilty-head', middle - wide / 2, 0, wide, 22)
    + words('guilty-text', middle, 16, text);
}
