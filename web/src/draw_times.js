// The scale of times below the numbers, pauses that are cut, and wake-ups that aren't shown.

const [SCALE_TOP, SCALE_FOOT, TIMED_RULER] = [27, 46, 54];
const MOST_PAUSES = 500;
/** What a mark and its label take, besides the label's characters. */
const MARK_ROOM = 16;
const LEAST_STEP = 1e3;

/** The unit of a scale with such steps: at most one digit stands behind the point. */
const unitOfStep = (step) => unitFor(step * 10);

function labelOf(time, step) {
  const [size, name] = unitOfStep(step);
  const digits = step < size ? 1 : 0;
  const number = (time / size).toLocaleString('en', {
    minimumFractionDigits: digits, maximumFractionDigits: digits,
  });
  return `${number} ${name}`;
}

/** The time from one mark to the next, so that their labels fit. */
function markStep({ scale, trace: { axis } }) {
  const nice = (least) => {
    const power = 10 ** Math.floor(Math.log10(Math.max(least, LEAST_STEP)));
    return [1, 2, 5, 10].map((it) => it * power).find((it) => it >= least);
  };
  const last = axis.times.at(-1);
  let step = LEAST_STEP;
  // A longer step may have a shorter label.
  for (let tries = 0; tries < 3; tries += 1) {
    const label = labelOf(last, step);
    step = nice(((label.length * PLAIN + MARK_ROOM) / scale) * axis.unit);
  }
  return step;
}

/** The marks of the scale that are seen, each with its time. */
function marksOf(scene, step) {
  const { axis } = scene.trace;
  const marks = [];
  for (let at = scene.first; at < scene.end; at += 1) {
    const end = axis.timeBehind(at);
    for (let time = Math.ceil(axis.times[at] / step) * step; time < end; time += step) {
      marks.push([scene.xOfPlace(axis.placeOf(time, at)), time]);
    }
  }
  return marks;
}

function drawScale(scene) {
  const step = markStep(scene);
  let behind = -Infinity;
  return marksOf(scene, step).map(([x, time]) => {
    const text = labelOf(time, step);
    const half = (text.length * PLAIN) / 2;
    const isFree = x - half > behind;
    if (isFree) behind = x + half + MARK_ROOM / 4;
    return line('mark', x, SCALE_TOP, x, SCALE_TOP + (isFree ? 6 : 3))
      + words('tick time', x, SCALE_FOOT, isFree ? text : '');
  }).join('');
}

/** The pauses that are seen and cut: the exchange before each, and its places. */
function pausesOf({ trace: { axis }, first, end }) {
  const list = [];
  for (let at = first; at < end && list.length < MOST_PAUSES; at += 1) {
    if (axis.isCutBehind[at]) list.push({ at, from: axis.places[at] + 1, to: axis.places[at + 1] });
  }
  return list;
}

/** Bands through all lanes, below all that is drawn. */
function drawPauses(scene, height) {
  if (!scene.trace.axis.isTimed) return '';
  return pausesOf(scene).map(({ from, to }) => {
    const [a, b] = [scene.xOfPlace(from), scene.xOfPlace(to)];
    return box('pause', a, 0, b - a, height);
  }).join('');
}

function drawPauseLabels(scene) {
  return pausesOf(scene).map(({ at, from, to }) => {
    const [a, b] = [scene.xOfPlace(from), scene.xOfPlace(to)];
    const text = `// ${page.timeText(scene.trace.axis.since(at + 1))}`;
    const shown = whole(text, b - a) || whole('//', b - a);
    return words('tick pause-text', (a + b) / 2, SCALE_TOP - 11, shown);
  }).join('');
}

/** The numbers of the exchanges, and the scale of times below. */
function drawTimedRuler(scene) {
  const starts = scene.detail === 'joined' ? '' : scene.seen()
    .map((it) => line('start', scene.x(it.at), SCALE_TOP - 5, scene.x(it.at), SCALE_TOP)).join('');
  return drawRuler(scene) + line('axis', scene.left, SCALE_TOP, scene.width, SCALE_TOP)
    + starts + drawScale(scene) + drawPauseLabels(scene);
}

/** Where a wake-up that isn't shown may have been: before the exchange behind it. */
function placeOfMaybe({ at, time }, axis) {
  if (!axis.isTimed || time === null || at === 0) return axis.place(at);
  return axis.placeOf(time, at - 1);
}

/** A dotted line with a question at each wake-up that may have been. */
function drawMaybes(scene, lanes) {
  const { maybes, axis } = scene.trace;
  const [top, foot] = [lanes[3].top + 4, lanes[4].top + lanes[4].height - 4];
  return partOf(maybes, scene.first, scene.end + 1).slice(0, MOST_PAUSES).map((it) => {
    const x = scene.xOfPlace(placeOfMaybe(it, axis));
    return line('maybe', x, top, x, foot) + words('maybe-text', x + 3, top + 9, 'W?');
  }).join('');
}
