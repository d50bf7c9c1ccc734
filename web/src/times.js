// Times: where exchanges stand in the picture, and how a time is written. Times are in nanoseconds.
//
// A place is a count of units, each as wide as one exchange. Without times each exchange begins a
// unit. With times, a unit is a time: a usual one between two exchanges, but a short one. What
// comes sooner behind another is moved to its end, and a long pause is cut.
const page = globalThis.page;

/** A time of more units than these is a pause, which is cut down to so many. */
const LONGEST_WHOLE = 10;
const CUT = 3;
/** Of the times between exchanges, the tenth part is shorter than a unit; or two thirds are. */
const SHORT = 0.1;
const SHORTEST = 1 / 3;

const UNITS = [[1e9, 's'], [1e6, 'ms'], [1e3, 'µs']];
const unitFor = (time) => UNITS.find(([size]) => Math.abs(time) >= size) ?? UNITS.at(-1);

/** A time in its unit, to the nanosecond. */
page.timeText = function timeText(time) {
  const [size, name] = unitFor(time);
  return `${Number((time / size).toFixed(Math.log10(size)))} ${name}`;
};

/** The first of so many places at which a test holds, which then holds at each one behind it. */
function firstPlace(count, holds) {
  let [low, high] = [0, count];
  while (low < high) {
    const middle = (low + high) >> 1;
    if (holds(middle)) high = middle;
    else low = middle + 1;
  }
  return low;
}
page.firstPlace = firstPlace;

/** What of a list is seen: its items from one place up to another, in whose order it is. */
function partOf(list, from, end, placeOf = (it) => it.at) {
  const first = (least) => firstPlace(list.length, (at) => placeOf(list[at]) >= least);
  return list.slice(first(from), first(end));
}
page.partOf = partOf;

/** Exchanges in a row, one a unit. */
class Row {
  isTimed = false;

  constructor(count) {
    this.count = count;
    this.extent = count;
  }

  place(at) { return at; }

  /** The exchange that stands at a place, or none. */
  at(place) { return Math.floor(place); }

  /** The first exchange behind a place, and one more. */
  endAt(place) { return Math.ceil(place) + 1; }
}

/** The time of a unit, by the times between exchanges. */
function unitOf(times) {
  const sorted = Float64Array.from(times.filter((it) => it > 0)).sort();
  if (sorted.length === 0) return UNITS[1][0];
  const part = (share) => sorted[Math.floor((sorted.length - 1) * share)];
  return Math.max(part(SHORT), part(0.5) * SHORTEST);
}

/** Exchanges by their times. */
class TimeAxis {
  isTimed = true;

  constructor(exchanges) {
    this.times = exchanges.map((it) => it.time);
    this.count = exchanges.length;
    const between = this.times.slice(1).map((it, at) => it - this.times[at]);
    this.unit = unitOf(between);
    this.isCutBehind = between.map((it) => it > LONGEST_WHOLE * this.unit);
    this.places = new Float64Array(this.count + 1);
    between.forEach((it, at) => { this.places[at + 1] = this.places[at] + this.unitsOf(it); });
    this.extent = this.places[this.count - 1] + 1;
    this.places[this.count] = this.extent;
  }

  unitsOf(time) {
    const units = time / this.unit;
    return units > LONGEST_WHOLE ? CUT : Math.max(1, units);
  }

  place(at) {
    if (at >= this.count) return this.extent + at - this.count;
    const begun = Math.floor(at);
    return this.places[begun] + at - begun;
  }

  at(place) {
    if (place < 0 || place >= this.extent) return place < 0 ? -1 : this.count;
    return firstPlace(this.count, (at) => this.places[at] > place) - 1;
  }

  endAt(place) { return this.at(place) + 2; }

  /** How long after the exchange before it an exchange begins, or null for the first. */
  since(at) { return at > 0 ? this.times[at] - this.times[at - 1] : null; }

  /** The time up to which the picture goes behind an exchange without a break. */
  timeBehind(at) {
    const isWhole = at + 1 < this.count && !this.isCutBehind[at];
    return isWhole ? this.times[at + 1] : this.times[at] + this.unit;
  }

  /** The place of a time that comes behind an exchange, before the next one. */
  placeOf(time, at) {
    const [passed, whole] = [time - this.times[at], this.timeBehind(at) - this.times[at]];
    const isWhole = at + 1 < this.count && !this.isCutBehind[at];
    const units = isWhole ? this.places[at + 1] - this.places[at] : 1;
    if (passed > whole) return this.places[at] + (1 + CUT) / 2;
    return this.places[at] + (whole > 0 ? (passed / whole) * units : 0);
  }
}

/** Where the exchanges stand: by their times if each has one. */
page.axisOf = function axisOf(exchanges) {
  const isTimed = exchanges.length > 0 && exchanges.every((it) => it.time !== null);
  return isTimed ? new TimeAxis(exchanges) : new Row(exchanges.length);
};

/** When an exchange began, and how long after the one before it. */
page.timesOf = function timesOf({ at, time }, axis) {
  if (time === null) return null;
  const since = axis.isTimed ? axis.since(at) : null;
  return { begun: page.timeText(time), since: since === null ? null : page.timeText(since) };
};
