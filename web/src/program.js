// The program `iolink`, as WebAssembly: words and input in, output and status out. It is all that
// knows the protocol here.

/** How the program ends from within. */
class Ended {
  constructor(status) {
    this.status = status;
  }
}

/** A module that has nothing but a memory of 64-bit addresses. */
const MEMORY64 = new Uint8Array([0, 0x61, 0x73, 0x6d, 1, 0, 0, 0, 5, 3, 1, 4, 1]);
const canRun = () => typeof WebAssembly === 'object' && WebAssembly.validate(MEMORY64);

/** What stands in the packed module for the digits of base64, in their order. */
const DIGITS = '!#$%()*,.:';

/** Unpacks and compiles the program. */
async function compiled() {
  const text = byId('module').textContent.trim().replace(/[^\w+/=]/g, (it) => DIGITS.indexOf(it));
  const packed = Uint8Array.from(atob(text), (it) => it.charCodeAt(0));
  const plain = new Blob([packed]).stream().pipeThrough(new DecompressionStream('gzip'));
  return WebAssembly.compile(await new Response(plain).arrayBuffer());
}

const [INPUT, OUTPUT, ERRORS] = [0, 1, 2];
const NO_WORD = -1n;
const NO_ROOM = -2n;

/** What the program calls of its host, over an input that it reads once. */
function hostOf(words, input, said) {
  const host = { memory: null };
  let place = 0;
  const room = (at, count) => new Uint8Array(host.memory.buffer, Number(at), Number(count));
  host.calls = {
    read(descriptor, to, count) {
      if (descriptor !== INPUT) return -1n;
      const part = input.subarray(place, place + Number(count));
      room(to, part.length).set(part);
      place += part.length;
      return BigInt(part.length);
    },
    write(descriptor, from, count) {
      said[descriptor].push(room(from, count).slice());
      return count;
    },
    argument(number, to, count) {
      const word = words[Number(number)];
      if (word === undefined) return NO_WORD;
      const octets = new TextEncoder().encode(word);
      if (octets.length > Number(count)) return NO_ROOM;
      room(to, octets.length).set(octets);
      return BigInt(octets.length);
    },
    end(status) {
      throw new Ended(status);
    },
  };
  return host;
}

const textOf = (chunks) => {
  const decoder = new TextDecoder();
  return chunks.map((it) => decoder.decode(it, { stream: true })).join('') + decoder.decode();
};

/** What `iolink WORDS` does with an input: its status, and what it prints, in pieces. */
page.execute = function execute(words, input) {
  const said = { [OUTPUT]: [], [ERRORS]: [] };
  const host = hostOf(['iolink', ...words], input, said);
  // Each run has an instance of its own: nothing is left from another.
  const { exports } = new WebAssembly.Instance(page.module, { host: host.calls });
  host.memory = exports.memory;
  try {
    return { status: exports.main(0, 0n), output: said[OUTPUT], errors: said[ERRORS] };
  } catch (end) {
    if (!(end instanceof Ended)) throw end;
    return { status: end.status, output: said[OUTPUT], errors: said[ERRORS] };
  }
};

/** The same, with texts. */
function execute(words, text) {
  const { status, output, errors } = page.execute(words, new TextEncoder().encode(text));
  return { status, printed: textOf(output), wrong: textOf(errors) };
}
