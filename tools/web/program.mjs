// The program in its WebAssembly module: words and bytes in, bytes and a status out. What it asks of the system is
// answered here: its words, standard input, output and error, and nothing else.
import { joined } from "./parts.mjs";

const NOTHING_SUCH = -1n, CUT = -2n;

// A run that ended without a status, as one that used up its stack.
export class Stopped extends Error {}

class Exit {
  constructor(status) { this.status = status; }
}

// What the module asks for, by the names of its imports. `run` has the words and the input, and takes what is written.
function hostOf(run) {
  const view = (at, length) => new Uint8Array(run.memory.buffer, Number(at), Number(length));
  return {
    read(file, at, length) {
      if (file !== 0) return NOTHING_SUCH;
      const piece = run.input.subarray(run.place, run.place + Number(length));
      view(at, piece.length).set(piece);
      run.place += piece.length;
      return BigInt(piece.length);
    },
    write(file, at, length) {
      if (!(file in run.written)) return NOTHING_SUCH;
      run.written[file].push(view(at, length).slice());
      return length;
    },
    word(number, at, length) {
      const word = run.words[Number(number)];
      if (!word) return NOTHING_SUCH;
      const piece = word.subarray(0, Number(length));
      view(at, piece.length).set(piece);
      return piece.length < word.length ? CUT : BigInt(word.length);
    },
    exit(status) { throw new Exit(status); },
  };
}

// Runs the program on words and bytes. Each run has a memory of its own, so no run sees another's.
export function runModule(module, words, input) {
  const run = { words: ["", ...words].map((word) => new TextEncoder().encode(word)), input, place: 0,
    written: { 1: [], 2: [] } };
  const { exports } = instanceOf(module, hostOf(run));
  run.memory = exports.memory;
  const status = statusOf(exports.run);
  return { status, output: joined(run.written[1]), errors: new TextDecoder().decode(joined(run.written[2])) };
}

function instanceOf(module, host) {
  try {
    return new WebAssembly.Instance(module, { host });
  } catch (fault) {
    throw new Stopped(fault.message);
  }
}

function statusOf(begin) {
  try {
    begin();
  } catch (ended) {
    if (ended instanceof Exit) return ended.status;
    throw new Stopped(ended.message);
  }
  throw new Stopped("it ended without a status");
}
