// The page's modules under Node, without its window: node web.mjs WHAT WORD ..
//   runs MODULE             runs of the program; a line of input has a file and words, divided by tabs
//   entries MODULE FILE     what the page makes of the records of a file, a line of JSON for each
//   labelled MODULE FILE    what becomes of a part: its count, what ended a run, the sum of the labelled part
//   readings FILE ..        what its readers make of the records of files, a line for each file: name, items, drawing
//   pool                    what becomes of a job whose thread says twice that it ended, how many threads are started
//                           anew, and what becomes of a job that is asked for after the end
//   parts SIZE FILE         the parts of a file that comes in pieces of some bytes: first record, length, sum
import { createHash } from "node:crypto";
import { readFileSync, writeSync } from "node:fs";
import { createInterface } from "node:readline";
import { drawn } from "../web/drawn.mjs";
import { labelled } from "../web/labelling.mjs";
import { filePartsOf } from "../web/parts.mjs";
import { Pool } from "../web/pool.mjs";
import { runModule } from "../web/program.mjs";
import { drawingOf, itemsOf, nameOf, recordsOf, shown } from "../web/sdf.mjs";

const [what, ...words] = process.argv.slice(2);

function bytesOfFile(path) { return new Uint8Array(readFileSync(path)); }

function moduleOf(path) { return new WebAssembly.Module(readFileSync(path)); }

function put(bytes) { for (let at = 0; at < bytes.length;) at += writeSync(1, bytes, at); }

function putJson(value) { put(new TextEncoder().encode(JSON.stringify(value) + "\n")); }

async function runs(path) {
  const module = moduleOf(path);
  for await (const line of createInterface({ input: process.stdin })) {
    const [file, ...given] = line.split("\t"), { status, output, errors } = runModule(module, given, bytesOfFile(file));
    const said = new TextEncoder().encode(errors);
    put(new TextEncoder().encode(`${status} ${output.length} ${said.length}\n`));
    put(output);
    put(said);
  }
}

function entries(path, file) {
  const part = { bytes: bytesOfFile(file), words: [], first: 0, isShown: true };
  labelled(moduleOf(path), part).entries.forEach(putJson);
}

function sumOf(bytes) { return createHash("sha256").update(bytes).digest("hex"); }

function labelledPart(path, file) {
  const part = { bytes: bytesOfFile(file), words: [], first: 0, isShown: true };
  const { output, count, faults, entries: shownOnes } = labelled(moduleOf(path), part);
  putJson({ count, faults, sum: sumOf(output), unlabelled: shownOnes.filter(({ m }) => m).length });
}

function readingOf(record) {
  const drawing = drawingOf(record);
  return { name: nameOf(record), items: itemsOf(record).map(({ name, values }) => [shown(name), values.map(shown)]),
    drawing: drawing && drawing.atoms.length ? drawn(drawing) : null };
}

function readings(...files) { for (const file of files) putJson(recordsOf(bytesOfFile(file)).map(readingOf)); }

async function pool() {
  const made = [];
  globalThis.navigator ??= { hardwareConcurrency: 2 };
  globalThis.Worker = class extends EventTarget {
    constructor() {
      super();
      made.push(this);
    }
    postMessage() {}
    terminate() {}
  };
  const jobs = new Pool("", null), count = made.length, asked = jobs.ask({}), ended = (fault) => fault.message;
  for (let turn = 0; turn < 2; turn++) made[0].dispatchEvent(new Event("error"));
  made[count].dispatchEvent(Object.assign(new Event("message"), { data: { result: "labelled" } }));
  const first = await asked.catch(ended), anew = made.length - count;
  jobs.close();
  putJson([first, anew, await Promise.race([jobs.ask({}).catch(ended), new Promise((go) => setTimeout(go, 1000))])]);
}

async function parts(size, file) {
  const bytes = bytesOfFile(file), step = Number(size);
  function* pieces() { for (let at = 0; at < bytes.length; at += step) yield bytes.slice(at, at + step); }
  for await (const part of filePartsOf(pieces())) {
    putJson([part.first, part.bytes.length, Boolean(part.isCut), sumOf(part.bytes)]);
  }
}

await { runs, entries, labelled: labelledPart, readings, pool, parts }[what](...words);
