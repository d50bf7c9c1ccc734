// What is wrong with a line, in the words of `iolink judge --why`: what was met in which column,
// and what is wanted there. The forms of a trace's lines are here again for this alone. Columns
// count bytes, from 1.

/** The most bytes of a line, and of a word that is shown. */
const LONGEST = 1024;
const SHOWN = 40;
/** How long a name is at least that may be meant by a word with other letters. */
const SURE = 4;
const LAST_CALL = 2n ** 64n - 1n;

/** What a line is that fits no form. The other kinds are of a line in the wrong place. */
const BAD = 'bad line';

/** Why a line can't be read, in which column, and what kind of a line it is. */
class BadLine extends Error {
  constructor(why, column = 1, what = BAD) {
    super(why);
    Object.assign(this, { column, what });
  }
}

/** The bytes of a text, each as one character: a file that is no UTF-8 has surrogates for some. */
function bytesOf(text) {
  if (/^[\0-\x7f]*$/.test(text)) return text;
  if (/^[\0-\x7f\udc80-\udcff]*$/.test(text)) {
    return Array.from(text, (it) => String.fromCharCode(it.charCodeAt(0) & 0xff)).join('');
  }
  return Array.from(new TextEncoder().encode(text), (it) => String.fromCharCode(it)).join('');
}

const isPrintable = (byte) => byte >= ' ' && byte <= '~';
const shownByte = (byte) => (isPrintable(byte) ? byte
  : `\\x${byte.charCodeAt(0).toString(16).toUpperCase().padStart(2, '0')}`);
const quoted = (word) => (
  `"${[...word.slice(0, SHOWN)].map(shownByte).join('')}${word.length > SHOWN ? '..' : ''}"`);

// Values, and the forms of lines.

const value = (name, form, fits, faultOf = () => null) => ({ name, form, fits, faultOf });

const isCallNumber = (word) => /^[1-9]\d{0,19}$/.test(word) && BigInt(word) <= LAST_CALL;

/** Why a word is no number of a call, where it has digits alone. */
function numberFault(word) {
  if (!/^\d+$/.test(word)) return null;
  const isZeroInFront = /^0./.test(word);
  return isZeroInFront ? 'a number has no zero in front' : `out of range, ${CALL_NUMBER.form}`;
}

const CALL_NUMBER = value(
  'number of a call', `a number from 1 to ${LAST_CALL}`, isCallNumber, numberFault);
const OCTET = value('octet', 'two hexadecimal digits', (it) => /^[0-9A-Fa-f]{2}$/.test(it));
const SECONDS = value('time', 'seconds, as 12.000042', (it) => /^\d{1,9}(?:\.\d{1,9})?$/.test(it));

const part = (names, field, least = 1, most = 1) => ({ names, field, least, most });
const named = (...names) => part(names, null);
const one = (field) => part([], field);
const octets = (least, most) => part([], OCTET, least, most);

const TRACE_FORMS = [
  [one(CALL_NUMBER), named('wake'), named('COM1', 'COM2', 'COM3', 'none')],
  [one(CALL_NUMBER), named('>'), octets(0, 128)],
  [one(CALL_NUMBER), named('<'), octets(0, 128)],
  [one(CALL_NUMBER), named('<'), named('none')],
  [named('page'), octets(10, 10)],
  [named('page'), named('none')],
];
const TIME_FORMS = [[named('time'), one(SECONDS)], [named('maybe'), named('wake')]];

const fitsPart = ({ names, field }, word) => names.includes(word) || (field?.fits(word) ?? false);

/** Where the words of a line leave a form: how many fit, and what is wanted then; null: nowhere. */
function departure(form, words) {
  let at = 0;
  for (const it of form) {
    for (let count = 0; count < it.most; count += 1, at += 1) {
      const isThere = at < words.length;
      if (!isThere && count >= it.least) break;
      if (!isThere || !fitsPart(it, words[at])) return { at, wanted: it };
    }
  }
  return at < words.length ? { at, wanted: null } : null;
}

const partText = ({ names, field }) => (
  [...names, ...(field ? [`${field.name} (${field.form})`] : [])].join(' or '));
const listedParts = (parts) => [...new Set(parts.map(partText))].join(' or ');

/** How many characters are the same from the front on, in upper or lower case. */
function sameInFront(word, name) {
  const most = Math.min(word.length, name.length);
  let count = 0;
  while (count < most && word[count].toLowerCase() === name[count].toLowerCase()) count += 1;
  return count;
}

const backwards = (text) => [...text].reverse().join('');

/** Whether a name may have been meant by a word. */
function isNear(word, name) {
  const [longer, shorter] = [word, name].map((it) => it.length).sort((a, b) => b - a);
  const same = sameInFront(word, name);
  if (same === longer || !/^[A-Za-z]+$/.test(name)) return same === longer;
  const behind = sameInFront(backwards(word), backwards(name));
  const differing = Math.max(0, longer - same - behind);
  return (shorter >= SURE && differing <= 1)
    || (shorter > SURE && longer === shorter && differing <= 2);
}

/** The value that is wanted, if the word can have been meant for it alone. */
function onlyField(wanted, word) {
  if (wanted.some((it) => it.names.length > 0) && !/^\d/.test(word)) return null;
  const fields = new Set(wanted.map((it) => it.field).filter(Boolean));
  return fields.size === 1 ? [...fields][0] : null;
}

/** What is wrong with a word that is nothing of what is wanted in its place. */
function wordFault(word, wanted) {
  const near = wanted.flatMap((it) => it.names).find((it) => isNear(word, it));
  if (near) return `${quoted(word)} is no word here, perhaps "${near}"`;
  if (wanted.length === 0) return `${quoted(word)} is one word too many: the line ends before it`;
  const field = onlyField(wanted, word);
  if (!field) return `${quoted(word)} can't stand here; wanted: ${listedParts(wanted)}`;
  const fault = field.faultOf(word);
  return fault ? `${quoted(word)} is no ${field.name}: ${fault}`
    : `${quoted(word)} is no ${field.name} (${field.form})`;
}

/** What is wrong with the blanks of a line, its end or its beginning, whatever its words. */
function blankFault(line) {
  const bad = (at, why) => new BadLine(why, at + 1);
  if (line.length > LONGEST) {
    return bad(LONGEST, 'the line goes on, and a line has at most 1,024 bytes');
  }
  if (line.endsWith('\r')) {
    return bad(line.length - 1,
      "a carriage return ends the line: drop them all, as by tr -d '\\r'");
  }
  if (/^ +$/.test(line)) {
    return bad(0, 'blanks without a word: drop them, an empty line is skipped');
  }
  const at = /\t|^ | {2}/.exec(line);
  if (at?.[0] === '\t') return bad(at.index, 'a tab: one blank parts two words');
  if (at?.[0] === ' ') return bad(0, 'a blank in front of the first word: drop it');
  if (at) return bad(at.index + 1, 'a second blank: one parts two words');
  if (!line.endsWith(' ')) return null;
  return bad(line.length - 1, 'a blank behind the last word: drop it');
}

/** What is wrong with the first word that leaves each of these forms, or null. */
function formFault(forms, line) {
  const words = line.split(' ');
  const departures = forms.map((it) => departure(it, words));
  if (departures.includes(null)) return null;
  const furthest = Math.max(...departures.map((it) => it.at));
  const wanted = departures.filter((it) => it.at === furthest).map((it) => it.wanted)
    .filter(Boolean);
  const before = words.slice(0, furthest).join(' ').length;
  const column = furthest < words.length ? before + (furthest > 0) + 1 : line.length + 1;
  const why = furthest < words.length ? wordFault(words[furthest], wanted)
    : `the line ends; wanted: ${listedParts(wanted)}`;
  return new BadLine(why, column);
}

/** Whether a line fits a form. */
const fitsForm = (forms, line) => {
  const words = line.split(' ');
  return forms.some((it) => departure(it, words) === null);
};

/** What stands before a colon. */
const beforeColon = (line) => line.split(':', 1)[0];

/** What is wrong with the form of a line, if `judge` refuses that: numbered, of a page, or long. */
function judgedFault(text) {
  const line = bytesOf(text);
  if (line.length > LONGEST) return blankFault(line);
  const read = beforeColon(line);
  if (!/^(?:\d|page(?: |$))/.test(read) || fitsForm(TRACE_FORMS, read)) return null;
  return blankFault(read) ?? formFault(TRACE_FORMS, read);
}

/** What is wrong with a line that begins with none of these words. */
function beginsNone(line, word, names) {
  const near = names.find((it) => isNear(word, it));
  if (near) return new BadLine(`${quoted(bytesOf(word))} is no word here, perhaps "${near}"`);
  const what = quoted(bytesOf(word));
  return new BadLine(`${what} begins no line of iolink trace or iolink judge`);
}
