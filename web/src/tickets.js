// Finds the ticket of each request on the line, and what the device's record says of it. The trace
// names neither at a message. Both are found by their order, and what can't be told stays open.
const page = globalThis.page;

/** Whether this outcome can be that of a request that ended so on the line. */
function fits(request, ticket) {
  const { outcome, asked } = ticket;
  if (asked && request.text && asked !== request.text) return false;
  if (!outcome) return true;
  if (outcome.at <= request.last) return false;
  if (outcome.end === 'done') {
    return request.end === 'done' && request.answerText === outcome.answer;
  }
  if (outcome.end !== 'unknown') return false;
  const ended = { lost: ['LinkLost'], restarted: ['Restarted'] }[request.end];
  if (ended) return ended.includes(outcome.cause);
  return request.end === 'aborted' && !['LinkLost', 'Restarted'].includes(outcome.cause);
}

/** The tickets of a trace's calls, each with what was asked by it, if that is known. */
function ticketsOf(calls, asked = new Map()) {
  const tickets = new Map();
  for (const call of calls) {
    if (call.kind === 'ticket') tickets.set(call.ticket, { number: call.ticket, submitted: call });
    if (call.kind !== 'outcome') continue;
    const ticket = tickets.get(call.ticket) ?? { number: call.ticket, submitted: null };
    ticket.outcome = call;
    tickets.set(call.ticket, ticket);
  }
  for (const it of tickets.values()) it.asked = asked.get(it.number) ?? null;
  return [...tickets.values()];
}

/**
 * Gives each request its ticket: of those that fit, the one that was submitted first. None is of
 * what the port asks by itself, which is said of a request, the next one, and whether any fits.
 */
function giveTickets(requests, tickets, isOwn = () => false) {
  let next = 0;
  let waiting = [];
  for (const it of tickets) it.request = null;
  for (const [at, request] of requests.entries()) {
    while (next < tickets.length && (tickets[next].submitted?.at ?? 0) <= request.first) {
      waiting.push(tickets[next]);
      next += 1;
    }
    waiting = waiting.filter((it) => !it.outcome || it.outcome.at > request.first);
    const fitting = waiting.filter((it) => fits(request, it));
    const [ticket] = fitting;
    request.isOwn = isOwn(request, requests[at + 1], fitting.length > 0);
    request.ticket = request.isOwn ? null : ticket ?? null;
    request.byOrder = !request.isOwn && fitting.length > 1;
    if (!request.ticket) continue;
    ticket.request = request;
    waiting.splice(waiting.indexOf(ticket), 1);
  }
}
