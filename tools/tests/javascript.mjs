// What the module for JavaScript says of the records of a file, a line of JSON for each: node javascript.mjs WASM FILE.
// With `heap` for FILE blocks of memory are taken and given back at random, and a line says what was wrong.
import { readFileSync } from "node:fs";
import { load, Refused } from "../../javascript/cip.mjs";
import { recordBytes } from "../web/parts.mjs";

const [path, file] = process.argv.slice(2);
const STEPS = 10_000, LIVE = 400;

function said(labeller, record) {
  try {
    return { labels: labeller.labels(record), over: labeller.over(record), undefined: labeller.undefined(record) };
  } catch (fault) {
    if (fault instanceof Refused) return { refused: [fault.line, fault.cause] };
    throw fault;
  }
}

async function sayRecords() {
  const labeller = await load({ source: readFileSync(path) });
  for (const record of recordBytes(new Uint8Array(readFileSync(file)))) {
    const text = Buffer.from(labeller.annotate(record)).toString("latin1");
    console.log(JSON.stringify({ ...said(labeller, record), text, explain: labeller.explain(record) }));
  }
}

// Every block is at a multiple of 16, all zero, apart from the others, and keeps what is written to it.
class Heap {
  constructor(exports) { Object.assign(this, { exports, blocks: [], state: 12345, faults: new Set() }); }

  next(below) {
    this.state = (this.state * 1103515245 + 12345) % 2147483648;
    return Math.floor(this.state / 65536) % below;
  }

  check(what, isRight) { if (!isRight) this.faults.add(what); }

  view({ place, size }) { return new Uint8Array(this.exports.memory.buffer, place, size); }

  take() {
    const size = this.next(3) ? this.next(300) : this.next(3) ? this.next(9000) : this.next(32768) * 16;
    const block = { place: Number(this.exports.take(BigInt(size))), size, byte: 1 + this.next(255) };
    this.check("a block isn't at a multiple of 16", block.place > 0 && block.place % 16 === 0);
    this.check("a block isn't zero", this.view(block).every((byte) => byte === 0));
    this.check("blocks overlap", this.blocks.every((other) =>
      block.place + size <= other.place || other.place + other.size <= block.place));
    this.view(block).fill(block.byte);
    this.blocks.push(block);
  }

  give() {
    const [block] = this.blocks.splice(this.next(this.blocks.length), 1);
    this.check("a block wasn't kept", this.view(block).every((byte) => byte === block.byte));
    this.exports.give(BigInt(block.place));
  }
}

async function sayHeap() {
  const { exports } = await WebAssembly.instantiate(await WebAssembly.compile(readFileSync(path)), {});
  const heap = new Heap(exports);
  for (let step = 0; step < STEPS; step++) {
    if (heap.blocks.length < LIVE && (heap.blocks.length < 2 || heap.next(2))) heap.take();
    else heap.give();
  }
  heap.check("more memory is taken than there is", exports.take(1n << 40n) === 0n);
  console.log(JSON.stringify([...heap.faults]));
}

await (file === "heap" ? sayHeap() : sayRecords());
