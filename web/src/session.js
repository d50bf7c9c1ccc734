// A session is a script of `iolink trace`. Each button adds lines, and the whole script is run
// again: the program is fast, and the same lines always give the same trace. So going back is
// having fewer lines, and what is seen is what the program prints for the script.
//
// The calls of the wire that a script tells of are a list of their own, from the first on. Before
// something is to happen now, the calls that were made already are passed over.

const SETTINGS = 'other|kind|pulses|devices|limits|param|kept|range|atmost|in|store';
const SETTING = new RegExp(`^(?:page [0-9A-F]{2} |(?:${SETTINGS}) )`);
const FATE = /^wire (clean|outlost|backlost|outdamaged|backdamaged|nowake) (\d+)$/;
const TURN = /^turn (\d+)$/;
const SUBMIT = /^(?:urgent )?(read \S+ \S+|write \S+ \S+ \S+)$/;
const PULLED = '# The cable is pulled.';
const PLUGGED = '# The cable is plugged in.';
/** The identity 0x1234, 0x000208, with which none of the pages is. */
const OTHER = 'other 17 2D 11 00 00 12 34 00 02 08';

const isPulled = (lines) => lines.findLast((it) => it === PULLED || it === PLUGGED) === PULLED;

/** Whether the port has Data Storage: then it asks by itself too, and has tickets for that. */
const isStored = (lines) => lines.some((it) => it.startsWith('store '));

/**
 * What the lines say of calls of the wire: how many, the fates by their last call, and behind which
 * call the devices are exchanged. With `in order`, turns above a line count as well.
 */
function wireOf(lines) {
  const isInOrder = lines.includes('in order');
  const [fates, swaps] = [[], []];
  let [end, turns] = [0, 0];
  for (const it of lines) {
    const [, fate, count] = FATE.exec(it) ?? [];
    turns += Number(TURN.exec(it)?.[1] ?? 0);
    if (isInOrder) end = Math.max(end, turns);
    if (fate) fates.push({ fate, end: (end += Number(count)) });
    if (it === 'wire swap') swaps.push(end);
  }
  return { planned: end, fates, swaps };
}

const plannedIn = (lines) => wireOf(lines).planned;

/** The fates that are planned for the calls to come. */
const fatesToCome = (lines, made) => wireOf(lines).fates.filter(({ end }) => end > made);

/** The lines, and what is to happen on the wire from now on, where so many calls were made. */
function withWire(lines, made, step) {
  const missing = made - plannedIn(lines);
  return [...lines, ...(missing > 0 ? [`wire clean ${missing}`] : []), `wire ${step}`];
}

/** The lines without fates that are still to come: with the cable out, none of them is met. */
function withoutPlans(lines, made) {
  const rest = [...lines];
  while (plannedIn(rest) > made) rest.splice(rest.findLastIndex((it) => FATE.test(it)), 1);
  return rest;
}

/** The lines, and so many turns; with the cable out, nothing of them is heard. */
function withTurns(lines, made, count) {
  const before = Number(TURN.exec(lines.at(-1) ?? '')?.[1] ?? 0);
  const all = `turn ${before + count}`;
  if (!isPulled(lines)) return [...lines.slice(0, before ? -1 : undefined), all];
  if (before && lines.at(-2) === `wire outlost ${before}`) {
    return [...lines.slice(0, -2), `wire outlost ${before + count}`, all];
  }
  return [...withWire(lines, made, `outlost ${count}`), `turn ${count}`];
}

const textOfLines = (lines) => lines.map((it) => `${it}\n`).join('');

/** A port keeps at most so many events; with each click, so many are asked for. */
const EVENTS = 8;

const isCall = (it) => it !== '' && !/^(?:#|wire |turn )/.test(it) && !SETTING.test(it);
const isOfTheLine = (it) => /^\d+ /.test(it);

/** The tickets that are outstanding at the end of what was printed. */
function ticketsOpen(printed) {
  const open = new Set();
  for (const it of printed) {
    const [, ticket, end] = /^ticket (\d+)( .*)?$/.exec(it) ?? [];
    if (ticket && end) open.delete(ticket);
    else if (ticket) open.add(ticket);
  }
  return [...open];
}

/** What was printed up to the record, the record, and that of a device that isn't plugged in. */
function partsOf(printed) {
  const record = printed.findLastIndex((it) => /^record \d+$/.test(it));
  const away = printed.findLastIndex((it) => /^away \d+$/.test(it));
  const end = away < 0 ? printed.length : away;
  const entries = (from, to) => printed.slice(from, to).map((it) => it.replace(/^carried /, ''));
  return {
    said: printed.slice(0, record), behind: printed.slice(record),
    did: entries(record + 1, end), didAway: entries(end + 1, printed.length),
  };
}

class Refusal extends Error {}

const ran = (lines) => execute(['trace', '--why'], textOfLines(lines));

/** What `trace` prints for lines and what is asked behind them; of refused ones, what it says. */
function traced(lines, asked) {
  const { status, printed, wrong } = ran([...lines, ...asked]);
  // What is wrong is said of the lines alone, if they are refused without what is asked.
  if (status !== 0) throw new Refusal((ran(lines).wrong || wrong).trimEnd());
  return partsOf(printed.trimEnd().split('\n'));
}

/** How many calls of the wire a trace has. */
const callsIn = (trace) => Number(/^\d+/.exec(trace.findLast(isOfTheLine) ?? '0')[0]);

/** What each call of the script was answered: the call, and the line that was printed for it. */
function answersIn(lines, said) {
  const printed = said.filter((it) => !isOfTheLine(it));
  return lines.filter(isCall).map((call, at) => ({ call, answer: printed[at] ?? '' }));
}

/** The tickets that clients were given: from 1 on, but where a port has some for itself. */
function ticketsOf(lines) {
  if (!isStored(lines)) return lines.filter((it) => SUBMIT.test(it)).map((_, at) => at + 1);
  return ran(lines).printed.split('\n').flatMap((it) => /^ticket (\d+)$/.exec(it)?.[1] ?? []);
}

/** What is asked behind a script, besides tickets and events: how the port stands. */
const STANDS_NOW = ['status', 'image'];

/**
 * Runs a script. Behind it, each ticket is asked for, the events, and how the port stands. Of this,
 * what brought a ticket's outcome or an event stays in the script; the rest changes nothing.
 */
function perform(lines) {
  const tickets = ticketsOf(lines).map((it) => `collect ${it}`);
  const asked = [...tickets, ...Array(EVENTS).fill('event')];
  const stands = isStored(lines) ? [...STANDS_NOW, 'standing'] : STANDS_NOW;
  const { said, behind, ...records } = traced(lines, [...asked, ...stands]);
  const [status, image, standing] = said.slice(-stands.length);
  const end = said.length - stands.length - asked.length;
  const isKept = (_, at) => !said[end + at].startsWith('refused ');
  const whole = [...lines, ...asked.filter(isKept)];
  const told = [...said.slice(0, end), ...asked.map((_, at) => said[end + at]).filter(isKept)];
  const trace = [...told, ...behind];
  return {
    lines: whole, trace, status, image, standing, made: callsIn(told), ...records,
    answers: answersIn(whole, told), judged: execute(['judge'], textOfLines(trace)).printed,
  };
}

/** A request as the record names it, from a line that submits it. */
function requestOf(line) {
  const [, request] = SUBMIT.exec(line);
  const [way, index, subindex, octets] = request.split(' ');
  if (octets === undefined) return `${way} ${index} ${subindex}`;
  return `${way} ${index} ${subindex} ${octets.toUpperCase().match(/../g)?.join(' ') ?? octets}`;
}

/** What clients asked for: each request by its ticket. */
function askedBy({ answers }) {
  const given = answers.map(({ call, answer }) => [/^ticket (\d+)$/.exec(answer)?.[1], call]);
  const submits = given.filter(([ticket, call]) => ticket && SUBMIT.test(call));
  return new Map(submits.map(([ticket, call]) => [Number(ticket), requestOf(call)]));
}

/** The request of an entry of a record. */
const requestIn = (entry) => entry.slice(0, entry.lastIndexOf(':'));

/** What the devices did more often than it was asked for, by clients or by the port itself. */
function doneAgain({ did, didAway }, asked) {
  const left = new Map();
  const count = (request, by) => left.set(request, (left.get(request) ?? 0) + by);
  asked.forEach((it) => count(it, -1));
  [...did, ...didAway].forEach((it) => count(requestIn(it), 1));
  return [...left].filter(([, times]) => times > 0).map(([request]) => request);
}

/** The requests of the line at the device that is in, and at the one that is out, if there is. */
function atDevices({ lines, made }, requests) {
  const swaps = wireOf(lines).swaps.filter((it) => it < made);
  const isAway = ({ first }) => swaps.filter((it) => it > first).length % 2 === 1;
  return [requests.filter((it) => !isAway(it)), requests.filter(isAway)];
}

/** Of each entry of a device's record, whether the port asked it by itself: by their order. */
function areOwn(entries, requests) {
  let at = 0;
  return entries.map((entry) => {
    const fits = ({ text, end, answerText }) => text === requestIn(entry)
      && (end !== 'done' || entry === `${text}: ${answerText}`);
    const found = requests.findIndex((it, place) => place >= at && fits(it));
    if (found < 0) return requests.some((it) => it.isOwn && it.text === requestIn(entry));
    at = found + 1;
    return requests[found].isOwn;
  });
}
