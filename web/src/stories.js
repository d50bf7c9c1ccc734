// Stories: each a script, and what it shows.

const PLAIN = 'page 17 2D 11 00 00 12 34 00 01 07';
const PARAMETERS = ['param 16 0 rw 4142', 'param 17 0 ro 0102030405060708090A0B0C0D0E0F1011121314'];
const WRITE = 'write 16 0 4344';
const SENSOR = 'page 17 2D 11 00 08 12 34 00 01 07';
/** Of a second sensor too, which is of the same type. */
const SENSOR_PARAMETERS = [SENSOR.replace('page', 'other'), 'param 64 0 rw 0A', 'kept 64'];

const STORIES = [
  {
    name: 'A reply is lost, and the request repeated',
    says: 'The port sends its message again. The device knows it as a repeat, and does it once.',
    lines: [
      PLAIN, ...PARAMETERS, 'wire clean 15', 'wire backlost 1', WRITE, 'turn 22', 'collect 1',
    ],
  },
  {
    name: 'The cable is pulled, and the device did it',
    says: 'Nobody can know whether the device did it: the client is told “unknown”, never “done”.',
    lines: [
      PLAIN, ...PARAMETERS, WRITE, 'turn 17', PULLED, 'wire clean 17', 'wire outlost 3', 'turn 3',
      'collect 1',
    ],
  },
  {
    name: 'A device of others, at a port for our own',
    says: 'Such a device takes the repeat for a new request, and does it twice.',
    lines: [
      PLAIN, 'kind last keeps', ...PARAMETERS, 'wire clean 15', 'wire backlost 1', WRITE, 'turn 22',
      'collect 1',
    ],
  },
  {
    name: 'The same device, at a port for any device',
    says: 'Such a port asks whether the device has the request, in place of a repeat: done once.',
    lines: [
      PLAIN, 'kind last keeps', 'devices any', ...PARAMETERS, 'wire clean 17', 'wire backlost 1',
      WRITE, 'turn 24', 'collect 1',
    ],
  },
  {
    name: 'The device is exchanged while a write waits',
    says: 'The port expects its device: the other one is left alone, and the write waits for ours.',
    lines: [
      PLAIN, OTHER, ...PARAMETERS, 'expect 4660 263', 'turn 17', 'wire clean 17', 'wire swap',
      'turn 1', WRITE, 'turn 13', 'wire clean 14', 'wire swap', 'turn 24', 'collect 1',
    ],
  },
  {
    name: 'A sensor is exchanged without a tool',
    says: 'The port kept a user’s change at the first one, and writes it to the next by itself.',
    lines: [
      'store both', SENSOR, ...SENSOR_PARAMETERS, 'turn 39', 'save', 'turn 7', 'wire clean 46',
      'wire local 64 0 32', 'turn 6', 'event', 'turn 28', 'save', 'turn 7', 'wire clean 41',
      'wire swap', 'turn 46', 'read 64 0', 'turn 3',
    ],
  },
  {
    name: 'A request is cancelled when its answer is nearly there',
    says: 'The message that is out goes first. It brings the rest, and the client is told “done”.',
    lines: [
      PLAIN, ...PARAMETERS, 'wire clean 19', 'wire backlost 1', 'read 17 0', 'turn 20', 'cancel 1',
      'turn 3', 'collect 1',
    ],
  },
  {
    name: 'The confirm of an event is lost',
    says: 'It goes out again. The device knows it as a repeat, and the event is told once.',
    lines: [
      PLAIN, ...PARAMETERS, 'turn 16', 'wire clean 16', 'wire raise F4 8CA0', 'wire clean 5',
      'wire backlost 1', 'turn 10', 'event',
    ],
  },
];
