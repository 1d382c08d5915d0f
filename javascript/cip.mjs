// Cahn-Ingold-Prelog labels of molecules, by the proved library `libcip` as a WebAssembly module.
//
//     import { load } from "cip";
//
//     const labeller = await load();
//     for (const { atoms, letter, rule, sphere, order } of labeller.labels(molfile)) ..
//
// A record is the text of one molfile (V2000 or V3000), or one record of an SDfile, as a string or bytes; atoms count
// from 1 in its order. The labels are those of the program `cip`. It runs in Node 20 and in browsers since 2023. The
// module asks its host for nothing: no file, no network, no clock.

const HELD = 16, ROOM = 1 << 16;
const NO_MEMORY = -1n;
const FAULTS = new Map([[NO_MEMORY, "memory was refused"], [-3n, "the labeller was closed"],
  [-4n, "nodes: 1 to 1,000,000"], [-5n, "rule1b: 2013 or 2018"], [-6n, "the record has 2^31 bytes or more"]]);
const TERMINATOR = /^\$\$\$\$ *\r?\n/m;

// Why a record has no labels.
export class CipError extends Error {}

// A record that isn't a molfile that is read: at its line `line`, counted from 1, for `cause`, as "Short".
export class Refused extends CipError {
  constructor(line, cause) {
    super(`line ${line}: ${cause}`);
    Object.assign(this, { name: "Refused", line, cause });
  }
}

// Memory in which records are labelled, one after the other. `module` is the compiled libcip.wasm.
export class Labeller {
  constructor(module, { nodes = 100_000, rule1b = 2018 } = {}) {
    this.calls = new WebAssembly.Instance(module, {}).exports;
    this.held = this.taken(HELD);
    this.record = this.text = { place: 0n, size: 0 };
    this.checked(this.calls.make(this.held, nodes, rule1b));
  }

  // The labels of a record; `Refused` if it isn't one that is read.
  labels(record) { return this.wordsOf("values", record).slice(1).filter(isLabel).map(labelOf); }

  // The units without a label, since a digraph of theirs is larger than the bound on nodes.
  over(record) { return this.wordsOf("values", record).filter((words) => words[1] === "over").map(([unit]) => unit); }

  // The units of which a record's drawing shows no sense.
  undefined(record) { return this.wordsOf("undefined", record).map(undefinedOf); }

  // The record with its data item CIP_LABELS; bytes if it is bytes, or else a string.
  annotate(record) {
    const bytes = this.bytesOf("annotate", record);
    return typeof record === "string" ? new TextDecoder("utf-8", { ignoreBOM: true }).decode(bytes) : bytes;
  }

  // The value lines of the record's item, as they are in it.
  values(record) { return this.linesOf("values", record); }

  // A line for every unit: its label, or why it has none.
  explain(record) { return this.linesOf("explain", record, 1n).slice(1); }

  close() { this.calls.release(this.held); }

  // ---- Calls

  wordsOf(call, record) {
    const lines = this.linesOf(call, record).map((line) => line.split(" ")), refused = lines.find(isRefused);
    if (refused) throw new Refused(Number(refused[1]), refused[2]);
    return lines;
  }

  linesOf(call, record, ...before) {
    return new TextDecoder().decode(this.bytesOf(call, record, ...before)).split("\n").slice(0, -1);
  }

  // What a call writes, with more room if it doesn't fit.
  bytesOf(call, record, ...before) {
    const bytes = oneRecord(record);
    this.record = this.atLeast(this.record, bytes.length);
    this.view(this.record.place, bytes.length).set(bytes);
    for (let wanted = Math.max(ROOM, this.text.size); ;) {
      this.text = this.atLeast(this.text, wanted);
      const { place, size } = this.text;
      wanted = this.checked(this.calls[call](this.held, ...before, this.record.place, BigInt(bytes.length), place,
        BigInt(size)));
      if (wanted <= size) return this.view(place, wanted).slice();
    }
  }

  checked(answer) {
    if (answer >= 0n) return Number(answer);
    throw new CipError(FAULTS.get(answer) || `libcip answered ${answer}`);
  }

  taken(size) {
    const place = this.calls.take(BigInt(size));
    if (!place) throw new CipError(FAULTS.get(NO_MEMORY));
    return place;
  }

  // A block of memory of this size at least, which takes the place of one that is smaller.
  atLeast(block, size) {
    if (block.size >= size && block.size) return block;
    if (block.size) this.calls.give(block.place);
    const larger = Math.max(ROOM, 2 * size);
    return { place: this.taken(larger), size: larger };
  }

  view(place, length) { return new Uint8Array(this.calls.memory.buffer, Number(place), length); }
}

// A labeller. The module is beside this file, or else `source` has it: its address, bytes or a compiled module.
export async function load({ source = new URL("libcip.wasm", import.meta.url), ...settings } = {}) {
  return new Labeller(await compiled(source), settings);
}

async function compiled(source) {
  if (source instanceof WebAssembly.Module) return source;
  if (source instanceof Uint8Array || source instanceof ArrayBuffer) return WebAssembly.compile(source);
  const address = new URL(source, import.meta.url);
  if (address.protocol === "file:" && globalThis.process?.versions?.node) {
    const { readFile } = await import("node:fs/promises");
    return WebAssembly.compile(await readFile(address));
  }
  const answer = await fetch(address);
  if (!answer.ok) throw new CipError(`${address} can't be read: ${answer.status}`);
  return WebAssembly.compile(await answer.arrayBuffer());
}

let first = null;

// The labels of a record, by a labeller that is loaded once.
export async function labels(record) {
  first ??= load();
  return (await first).labels(record);
}

// ---- Records and lines

// A record as bytes; a fault if the text has several.
function oneRecord(record) {
  const bytes = typeof record === "string" ? new TextEncoder().encode(record) : record;
  if (!(bytes instanceof Uint8Array)) throw new TypeError("a record is a string or a Uint8Array");
  const text = new TextDecoder("latin1").decode(bytes), end = TERMINATOR.exec(text);
  if (end && /[^ \t\r\n]/.test(text.slice(end.index + end[0].length))) {
    throw new CipError("the text has several records");
  }
  return bytes;
}

function isRefused(words) { return words[0] === "refused"; }

function isLabel(words) { return words.length > 5; }

function atomsOf(unit) { return unit.slice(1).split("-").map(Number); }

function endsOf(order) { return order.join(" ").split(" | ").map((end) => end.split(" ")); }

function labelOf([unit, letter, rule, sphere, , ...order]) {
  return { unit, atoms: atomsOf(unit), letter, rule, sphere: Number(sphere), order: endsOf(order) };
}

function undefinedOf([unit, state, rule, sphere, , ...order]) {
  const found = { unit, atoms: atomsOf(unit), state };
  return state === "open" ? { ...found, rule, sphere: Number(sphere), order: endsOf(order) } : found;
}
