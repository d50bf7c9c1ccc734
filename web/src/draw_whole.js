// The whole picture.

/** The answers to calls other than submit and collect, by the place between exchanges. */
function otherCallsOf(calls) {
  const list = [];
  for (const call of calls) {
    if (['ticket', 'outcome', 'record'].includes(call.kind)) continue;
    if (list.at(-1)?.at === call.at) list.at(-1).calls.push(call);
    else list.push({ at: call.at, calls: [call] });
  }
  return list;
}

/** A trace with what the picture looks up again and again. */
page.prepare = function prepare(trace) {
  const count = trace.exchanges.length;
  const status = trace.calls.findLast((it) => it.kind === 'status');
  const lost = trace.exchanges.at(-1)?.losesLink ? 'Lost' : '';
  const isTold = status && status.at === count && status.mode === trace.mode;
  const made = {
    ...trace,
    axis: page.axisOf(trace.exchanges),
    hasTimes: trace.exchanges.some((it) => it.time !== null),
    otherCalls: otherCallsOf(trace.calls),
    allModes: allModes(trace),
    oddInOrder: trace.odd.filter((it) => it.at !== null).sort((a, b) => a.at - b.at),
    surprises: trace.requests.filter((it) => it.isSurprise),
    toldOfDevice: trace.requests.filter((it) => (
      it.carried === 'yes' || (it.carried === 'no' && it.end !== 'done' && it.end !== 'open'))),
    why: (isTold ? status.why : '') || lost,
  };
  made.rows = layRows(made);
  made.ticketRows = Array.from({ length: MOST_ROWS }, (_, row) => (
    made.tickets.filter((it) => it.row === row)));
  return made;
};

/** The lanes of a trace, from top to bottom. */
page.lanesOf = function lanesOf(trace) {
  const calls = trace.otherCalls.length > 0 ? CALLS : 4;
  const hasEvents = trace.readings.length > 0;
  const hasProcess = trace.outputs.length + trace.inputs.length > 0;
  const record = trace.requests.some((it) => it.isTwice) ? 56 : 38;
  const list = [
    trace.axis.isTimed ? ['Time', 'numbers above', TIMED_RULER, drawTimedRuler]
      : ['', '', 24, drawRuler],
    ['Client', 'asks, and is told', trace.rows * ROW + calls + 4, drawClient],
    ['Request', 'under way on the line', 50, drawRequests],
    ['Master', 'sends', 72, drawMessages],
    ['Device', 'replies', 56, drawReplies],
    ['Device’s record', 'what it carried out', record, drawRecord],
    ['Link', 'mode', 30, drawModes],
    ['Events', 'raised, read, confirmed', hasEvents ? 36 : 26, drawEvents],
    ['Process data', 'out, in', hasProcess ? 48 : 26, drawProcess],
  ];
  const { verdict } = trace;
  if (verdict) list.push(['Judge', 'its verdict', verdict.at === null ? 30 : 50, drawVerdict]);
  let top = 0;
  return list.map(([name, sub, height, draw]) => {
    const lane = { name, sub, top, height, draw };
    top += height;
    return lane;
  });
};

function drawLane(scene, lane) {
  const { name, sub, top, height } = lane;
  const foot = top + height;
  const isNarrow = scene.left < 140;
  const text = height < 34 || isNarrow
    ? words(isNarrow ? 'lane narrow' : 'lane', 12, top + 18, name)
    : words('lane', 12, top + 20, name) + words('lane-sub', 12, top + 34, sub);
  const label = box('gutter', 0, top, scene.left, height) + text;
  return { label, rest: line('rule', 0, foot, scene.width, foot) };
}

function drawColumn(scene, kind, at, height) {
  if (at === null || at < scene.first || at >= scene.end) return '';
  return box(kind, scene.x(at), 0, Math.max(scene.scale, 1.5), height);
}

/** From each START write that may have been a request of its own to the record, with a sign. */
function drawTimes(scene, { written, writes, times }, from, to) {
  const places = Array.from({ length: writes }, (_, at) => scene.middle(written + at));
  const d = places.map((x) => `M${round(x)} ${from}V${to}`).join('');
  const isEach = times.least === writes;
  const sign = (at) => (isEach ? `◆ ${['1st', '2nd', '3rd'][at]}` : '◆ ?');
  return path('tie twice', d)
    + places.map((x, at) => words('times', x, to + 13, sign(at))).join('');
}

/** A request of which the record tells more than the client was told: its exchanges, and ties. */
function drawSurprise(scene, { a, b, it, many, rank }, lanes) {
  const [client, messages, record] = [lanes[1], lanes[3], lanes[5]];
  const [top, foot] = [client.top + 1, record.top + record.height - 1];
  const kind = rank === 3 ? 'story twice' : 'story';
  const band = box(kind, a, top, b - a, foot - top);
  if (many > 1) return band;
  if (it.isTwice) {
    const sent = messages.top + messages.height - 4;
    return band + (scene.detail === 'joined' ? '' : drawTimes(scene, it, sent, record.top + 8));
  }
  if (!it.ticket || it.ticket.row >= MOST_ROWS) return band;
  const end = Math.min(scene.x(it.ticket.outcome?.at ?? scene.count), scene.width - 4);
  const from = client.top + it.ticket.row * ROW + 12;
  const to = round(scene.x(it.handed));
  return band + path('tie', `M${round(end)} ${from} h6 V${record.top + 18} H${to}`);
}

const MOST_SIGNS = 500;

const DEFINED = `<defs>
<marker id="arrow" viewBox="0 0 8 8" refX="7" refY="4" markerWidth="6" markerHeight="6"
 orient="auto"><path class="head" d="M0 0 8 4 0 8z"/></marker>
<pattern id="hatch" width="5" height="5" patternUnits="userSpaceOnUse"
 patternTransform="rotate(45)"><path class="hatch" d="M0 0V5"/></pattern>
<pattern id="dense" width="3" height="3" patternUnits="userSpaceOnUse"
 patternTransform="rotate(-45)"><path class="hatch" d="M0 0V3"/></pattern>
<pattern id="pause" width="6" height="6" patternUnits="userSpaceOnUse"
 patternTransform="rotate(45)"><path class="pause-stripe" d="M0 0V6"/></pattern>
<pattern id="dots" width="7" height="7" patternUnits="userSpaceOnUse"><circle class="dot"
 cx="2" cy="2" r="1"/></pattern>
</defs>`;

/** Where a link is lost: a line through messages and replies, and one through the mode. */
function drawLost(scene, lanes) {
  if (scene.detail === 'joined') return '';
  const [messages, replies, mode] = [lanes[3], lanes[4], lanes[6]];
  return scene.seen().filter((it) => it.losesLink).map((it) => {
    const x = scene.endOf(it.at);
    return line('break', x, messages.top + 6, x, replies.top + replies.height - 4)
      + line('break', x, mode.top + 1, x, mode.top + mode.height - 1);
  }).join('');
}

/** Signs at what `judge` says of the master, and at what is odd. */
function drawNamed(scene, lanes) {
  const { trace: { master, oddInOrder }, first, end } = scene;
  const isSeen = ({ at }) => at !== null && at >= first && at < end;
  const sign = (text, lane) => ({ at }) => words('named', scene.middle(at), lane.top + 14, text);
  const faults = master?.number === undefined ? [] : [master];
  return faults.filter(isSeen).map(sign('§', lanes[3])).join('')
    + partOf(oddInOrder, first, end).slice(0, MOST_SIGNS).map(sign('~', lanes[4])).join('');
}

/** Draws what is seen, and returns the inside of an SVG. */
page.draw = function draw(trace, { view, width, left, chosen, pointed, marked, lanes }) {
  const scene = new Scene(trace, view, width, left);
  const height = lanes.at(-1).top + lanes.at(-1).height;
  const drawn = lanes.map((it) => drawLane(scene, it));
  const surprises = scene.spans(trace.surprises, SPAN_OF_REQUEST);
  const clip = `<clipPath id="plot">${box('', left, 0, width - left, height)}</clipPath>`;
  return DEFINED + clip + box('paper', 0, 0, width, height)
    + tag('g', { 'clip-path': 'url(#plot)' }, [
      drawPauses(scene, height), drawVeil(scene, height),
      drawColumn(scene, 'pointed', pointed, height), drawColumn(scene, 'chosen', chosen, height),
      ...surprises.map((it) => drawSurprise(scene, it, lanes)),
      drawLost(scene, lanes), drawMaybes(scene, lanes),
      drawLanes(scene, lanes, height), drawNamed(scene, lanes),
      ...partOf(marked, scene.first, scene.end, (at) => at).slice(0, 2000)
        .map((at) => path('found', `M${round(scene.middle(at) - 4)} 24 h8 l-4 -6z`)),
    ].join(''))
    + drawn.map((it) => it.rest).join('') + drawn.map((it) => it.label).join('');
};

/** In the narrow strip: a dark bar with wide ends where it is guilty, dots where it is unjudged. */
function drawWholeVerdict(scene, height) {
  const at = guiltyOf(scene.trace);
  if (at === null) return drawVeil(scene, height - 8);
  const x = scene.middle(at);
  return drawVeil(scene, height - 8) + box('guilty-head', x - 1.5, 0, 3, height)
    + path('guilty-head', `M${round(x - 7)} 0h14l-7 11zM${round(x - 7)} ${height}h14l-7 -11z`);
}

/** In the narrow strip: where `judge` names the master, or what is odd. */
function drawWholeNamed(scene) {
  const { master, odd } = scene.trace;
  const named = [master, ...odd.slice(0, MOST_SIGNS)].filter((it) => it?.number !== undefined);
  const d = named.filter((it) => it.at !== null)
    .map(({ at }) => `M${round(scene.middle(at) - 5)} 0h10l-5 9z`).join('');
  return d ? path('named-head', d) : '';
}

/** The whole trace in a narrow strip: modes, what was missed, and where a story hides. */
page.drawWhole = function drawWhole(trace, width, height) {
  const extent = Math.max(1, trace.axis.extent);
  const scene = new Scene(trace, { from: 0, scale: width / extent }, width, 0);
  const modes = scene.spans(trace.modes, MODE_EDGES).map(({ a, b, it, many }) => (
    box(`mode ${many > 1 ? 'mixed' : it.value}`, a, height - 8, b - a, 8)));
  const bad = scene.runs((it) => (missed(it) ? 1 : 0)).filter((it) => it.kind);
  const asked = scene.spans(trace.requests, SPAN_OF_REQUEST);
  return [
    DEFINED, box('paper', 0, 0, width, height), ...modes,
    ...asked.map(({ a, b, rank }) => {
      const [top, high] = rank === 3 ? [0, 20] : [5, 10];
      return box(`crowd ${KINDS[rank]}`, a, top, Math.max(1.5, b - a), high);
    }),
    ...bad.map(({ x, width: wide }) => box('often lost', x, 17, Math.max(wide, 1.5), height - 27)),
    drawWholeVerdict(scene, height), drawWholeNamed(scene),
  ].join('');
};
