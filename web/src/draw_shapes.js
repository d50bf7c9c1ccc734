// Draws what is seen of a trace, as SVG. It knows nothing of texts, clicks or keys.

/** From this width of an exchange on, words fit; from that on, a sign. Below, they are joined. */
const WORDS = 50;
const SIGNS = 14;
const NARROW = 4;
const MOST_ROWS = 4;
const ROW = 30;
const CALLS = 18;
const SEEN_LEAST = 2;
const NAME_ROOM = 150;
const MOST_PILL = 260;
/** The width of a character: plain, bold, and of octets. Wide fonts fit too. */
const PLAIN = 6.1;
const BOLD = 7.1;
const MONO = 5.9;

const round = (value) => Math.round(value * 10) / 10;
const safe = (text) => String(text).replace(/[&<>"]/g, (it) => `&#${it.charCodeAt(0)};`);
const attribute = ([name, value]) => (
  ` ${name}="${typeof value === 'number' ? round(value) : safe(value)}"`);
const tag = (name, values, inner = '') => (
  `<${name}${Object.entries(values).map(attribute).join('')}>${inner}</${name}>`);
const box = (kind, x, y, width, height, more = {}) => tag('rect', {
  class: kind, x, y, width: Math.max(width, 0.5), height, ...more,
});
const line = (kind, x1, y1, x2, y2) => tag('line', { class: kind, x1, y1, x2, y2 });
const path = (kind, d, more = {}) => tag('path', { class: kind, d, ...more });
const words = (kind, x, y, text) => (text ? tag('text', { class: kind, x, y }, safe(text)) : '');

/** As much of a text as fits a width, at so many pixels a character. */
function fit(text, width, each = PLAIN) {
  const most = Math.floor(width / each);
  if (text.length <= most) return text;
  return most < 4 ? '' : `${text.slice(0, most - 1)}…`;
}
const whole = (text, width, each = PLAIN) => (text.length * each <= width ? text : '');

/** Single letters at places of their own, as one text. */
function letters(kind, places, y) {
  const list = places.filter(([, letter]) => letter);
  if (list.length === 0) return '';
  const x = list.map(([place]) => round(place)).join(' ');
  const text = list.map(([, letter]) => letter).join('');
  return `<text class="${kind}" x="${x}" y="${y}">${safe(text)}</text>`;
}

/** A box with round corners, as a path. */
function boxPath(x, y, width, height, radius = 0) {
  const [left, top] = [round(x + radius), round(y)];
  const [across, down] = [round(Math.max(width - 2 * radius, 0.5)), round(height - 2 * radius)];
  if (radius === 0) return `M${left} ${top}h${across}v${down}h${-across}z`;
  const turn = (to) => `a${radius} ${radius} 0 0 1 ${to}`;
  return `M${left} ${top}h${across}${turn(`${radius} ${radius}`)}v${down}`
    + `${turn(`${-radius} ${radius}`)}h${-across}${turn(`${-radius} ${-radius}`)}v${-down}`
    + `${turn(`${radius} ${-radius}`)}z`;
}

/** What is drawn in a lane: one path for all shapes of a kind, and the texts above them. */
class Ink {
  shapes = new Map();
  texts = '';

  add(kind, d) { this.shapes.set(kind, (this.shapes.get(kind) ?? '') + d); }

  box(kind, ...place) { this.add(kind, boxPath(...place)); }

  line(kind, x1, y1, x2, y2) {
    this.add(kind, `M${round(x1)} ${round(y1)}L${round(x2)} ${round(y2)}`);
  }

  text(kind, x, y, text) { this.texts += words(kind, x, y, text); }

  toString() {
    return [...this.shapes].map(([kind, d]) => path(kind, d)).join('') + this.texts;
  }
}

/** A trace, and the part of it that is seen: `from` is a place, `scale` pixels for an exchange. */
class Scene {
  constructor(trace, view, width, left) {
    Object.assign(this, { trace, width, left, from: view.from, scale: view.scale });
    const { axis } = trace;
    this.count = axis.count;
    this.first = Math.max(0, axis.at(this.from) - 1);
    this.end = Math.min(this.count, axis.endAt(this.from + (width - left) / this.scale));
    this.detail = this.scale >= WORDS ? 'words' : this.scale >= SIGNS ? 'signs' : 'joined';
  }

  xOfPlace(place) { return this.left + (place - this.from) * this.scale; }

  /** Where an exchange begins, its middle, and its end: the next one may begin later. */
  x(at) { return this.xOfPlace(this.trace.axis.place(at)); }

  middle(at) { return this.x(at + 0.5); }

  endOf(at) { return this.x(at) + this.scale; }

  /** The exchanges that are seen. */
  seen() { return this.trace.exchanges.slice(this.first, this.end); }

  /** Where the exchange before ends, and what it brought begins. */
  behind(at) { return at > 0 ? this.endOf(at - 1) : this.x(at); }

  /**
   * The spans that are seen; those too narrow to draw are joined, with the highest rank. They start
   * and end where an exchange begins (`x`), or where the one before it ends (`behind`). The list is
   * in the order of the trace, and no span covers another: what isn't seen is passed over at once.
   */
  spans(list, asked = {}) {
    const { from = (it) => it.from, to = (it) => it.to, rank = () => 0 } = asked;
    const { starts = 'x', ends = 'x' } = asked;
    const drawn = [];
    let crowd = null;
    let at = firstPlace(list.length, (place) => this[ends](to(list[place])) >= this.left);
    for (; at < list.length; at += 1) {
      const it = list[at];
      const [a, b] = [this[starts](from(it)), this[ends](to(it))];
      if (a > this.width) break;
      if (b - a >= NARROW) crowd = null;
      if (crowd && a - crowd.b < NARROW) {
        crowd.b = Math.max(crowd.b, b);
        crowd.many += 1;
        crowd.rank = Math.max(crowd.rank, rank(it));
        continue;
      }
      const one = { a, b: Math.max(b, a + SEEN_LEAST), it, many: 1, rank: rank(it) };
      drawn.push(one);
      crowd = b - a < NARROW ? one : null;
    }
    return drawn;
  }

  /** Runs of exchanges of one kind, at least NARROW wide: of a bin, the highest kind counts. */
  runs(kindOf) {
    const step = Math.max(1, Math.ceil(NARROW / this.scale));
    const list = [];
    for (let at = this.first - (this.first % step); at < this.end; at += step) {
      let kind = 0;
      const end = Math.min(at + step, this.count);
      for (let each = at; each < end; each += 1) {
        kind = Math.max(kind, kindOf(this.trace.exchanges[each]));
      }
      if (list.at(-1)?.kind === kind) list.at(-1).to = end;
      else list.push({ from: at, to: end, kind });
    }
    return list.map(({ from, to, kind }) => (
      { kind, x: this.x(from), width: this.x(to) - this.x(from) }));
  }
}

// The ruler.

function tickStep(scale) {
  const least = 44 / scale;
  const power = 10 ** Math.max(0, Math.floor(Math.log10(least)));
  return [1, 2, 5, 10].map((it) => it * power).find((it) => it >= least) ?? 1;
}

function drawRuler(scene) {
  const step = tickStep(scene.scale);
  const shift = (scene.trace.exchanges[0]?.number ?? 1) % step;
  let out = '';
  for (let at = scene.first; at < scene.end; at += 1) {
    if ((at + shift) % step !== 0 && step > 1) {
      at += step - ((at + shift) % step) - 1;
      continue;
    }
    out += words('tick', scene.middle(at), 16, scene.trace.exchanges[at].number);
  }
  return out;
}
