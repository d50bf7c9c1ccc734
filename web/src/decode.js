// What `check` prints for the octets of messages and replies, where a driver writes them alone. The
// layout follows from the wake-ups, the page and the commands, by the rules of protocol.md.

const CHANNEL_NAMES = ['process', 'page', 'diagnosis', 'isdu'];
/** The octets on request by the codes of the page: of PREOPERATE (LAY-3), of OPERATE (LAY-4). */
const OD_OF_PREOPERATE = [1, 2, 8, 32];
const OD_OF_OPERATE = { 0: 1, 1: 2, 4: 1, 5: 2, 6: 8, 7: 32 };
const STARTUP_LAYOUT = { type: 0, od: 1, in: 0, out: 0 };
const [TO_PREOPERATE, TO_OPERATE] = [0x9a, 0x99];
/** A write of a MasterCommand, and the channel of a read of the page. */
const COMMAND = 0x20;
const PAGE_READ = 0xa0;
const [CAPABILITY, PROCESS_IN, PROCESS_OUT] = [3, 5, 6];
const WRONG_LENGTH = 'refused 4 WrongLength';
const WRONG_TYPE = 'refused 5 WrongType';
const BAD_CHECKSUM = 'refused 6 BadChecksum';

const listedOctets = (octets) => (
  octets.map((it) => it.toString(16).toUpperCase().padStart(2, '0')).join(' '));

/** The six bits of octets whose own six bits, at a place, count as 0 (CHK-1). */
function checksum(octets, own) {
  const all = octets.reduce((sum, it, at) => sum ^ (at === own ? it & 0xc0 : it), 0x52);
  const bit = (...places) => places.reduce((sum, place) => sum ^ (all >> place), 0) & 1;
  return [
    bit(7, 5, 3, 1), bit(6, 4, 2, 0), bit(7, 6), bit(5, 4), bit(3, 2), bit(1, 0),
  ].reduce((sum, it) => sum * 2 + it, 0);
}

/** The octets of process data that ProcessDataIn or ProcessDataOut asks for (PAGE-4). */
function processOctets(value) {
  const length = value & 31;
  return value & 128 ? length + 1 : Math.ceil(length / 8);
}

function layoutOf(od, into, out) {
  const type = into + out > 0 ? 2 : od === 1 ? 0 : 1;
  return { type, od, in: into, out };
}

/** Which layout the next message is in: none before the first wake-up that was answered. */
class Decoder {
  layout = null;
  /** The octets of the page that were read. */
  known = Array(16).fill(0);
  sent = [];

  wake(isAnswered) {
    this.layout = isAnswered ? STARTUP_LAYOUT : null;
  }

  /** The text of a message. */
  message(octets) {
    const { layout } = this;
    this.sent = octets;
    const [control, type] = octets;
    const isRead = (control & 128) !== 0;
    const head = 2 + layout.out;
    if (octets.length !== head + (isRead ? 0 : layout.od)) return WRONG_LENGTH;
    if (type >> 6 !== layout.type) return WRONG_TYPE;
    if ((type & 63) !== checksum(octets, 1)) return BAD_CHECKSUM;
    const out = layout.out ? ` out ${listedOctets(octets.slice(2, head))}` : '';
    const od = isRead ? '' : ` od ${listedOctets(octets.slice(head))}`;
    const channel = CHANNEL_NAMES[(control >> 5) & 3];
    return `${isRead ? 'read' : 'write'} ${channel} ${listedOctets([control & 31])}${out}${od}`;
  }

  /** The text of a reply to it. */
  reply(octets) {
    const { layout } = this;
    const isRead = (this.sent[0] & 128) !== 0;
    const od = isRead ? layout.od : 0;
    const last = octets.length - 1;
    if (last !== od + layout.in) return WRONG_LENGTH;
    if ((octets[last] & 63) !== checksum(octets, last)) return BAD_CHECKSUM;
    const data = isRead ? `od ${listedOctets(octets.slice(0, od))}` : 'ack';
    const into = layout.in ? ` in ${listedOctets(octets.slice(od, last))}` : '';
    this.hear(octets);
    const status = octets[last];
    return `${data}${into} event ${status >> 7} pd ${status & 64 ? 'invalid' : 'valid'}`;
  }

  /** A valid reply: an octet of the page, or a command for another mode (LINK-9). */
  hear([value]) {
    const [control] = this.sent;
    if ((control & 0xe0) === PAGE_READ) this.known[control & 15] = value;
    if (control !== COMMAND) return;
    const { known } = this;
    const command = this.sent[2 + this.layout.out];
    if (command === TO_PREOPERATE) {
      this.layout = layoutOf(OD_OF_PREOPERATE[(known[CAPABILITY] >> 4) & 3], 0, 0);
    } else if (command === TO_OPERATE) {
      const od = OD_OF_OPERATE[(known[CAPABILITY] >> 1) & 7] ?? 1;
      const [into, out] = [PROCESS_IN, PROCESS_OUT].map((it) => processOctets(known[it]));
      this.layout = layoutOf(od, into, out);
    }
  }
}
