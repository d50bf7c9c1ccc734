// Places what `judge` found: the exchanges that it names, and which it judged. It judges none
// before the first wake-up that was answered, and none behind the one that its verdict names.
const page = globalThis.page;

/** The place behind so many exchanges, without the wake-ups among them. */
function behind(exchanges, count) {
  let [at, left] = [0, count];
  for (; left > 0 && at < exchanges.length; at += 1) if (exchanges[at].sent) left -= 1;
  return at;
}

/** From which place on, and up to which, a verdict is of the exchanges. */
function judgedPart({ kind, at, unjudged }, exchanges) {
  if (kind === 'unheard') return [exchanges.length, exchanges.length];
  const from = Math.min(behind(exchanges, unjudged.count), at ?? exchanges.length);
  return [from, at ?? exchanges.length];
}

/** What names an exchange, with its place; null where it names none that is drawn. */
const placed = (exchanges, said) => (
  { ...said, at: said.number === undefined ? null : page.placeOf(exchanges, said.number) });

/** The same trace, with the places of the master's fault and of what is odd. */
function withPlaces(trace) {
  const { exchanges, master, odd } = trace;
  return {
    ...trace,
    master: master && placed(exchanges, master), odd: odd.map((it) => placed(exchanges, it)),
  };
}

/** A trace whose exchanges say what `judge` found of each. */
page.judge = function judge(read) {
  const trace = withPlaces(read);
  const { verdict, exchanges } = trace;
  if (!verdict) return { ...trace, findings: [] };
  const { at } = placed(exchanges, verdict);
  const [from, to] = judgedPart({ ...verdict, at }, exchanges);
  const findings = new page.Spans();
  for (const exchange of exchanges) {
    const isJudged = exchange.at >= from && exchange.at < to;
    const isGuilty = verdict.kind === 'guilty' && exchange.at === at;
    exchange.finding = isGuilty ? 'guilty' : isJudged ? 'nothing' : 'unjudged';
    findings.note(exchange.at, exchange.finding);
  }
  return { ...trace, verdict: { ...verdict, at }, findings: findings.list };
};

/** Reads, follows, matches and judges a text. What its tickets asked may be known. */
page.open = (text, askedBy) => page.judge(page.match(page.follow(page.read(text)), askedBy));
