// What is made of a part of an SDfile: the labelled part, its records as the gallery reads them, and rows of the table.
import { entryOf } from "./entry.mjs";
import { linesByRecord, withoutIn } from "./outputs.mjs";
import { joined, recordBytes } from "./parts.mjs";
import { runModule, Stopped } from "./program.mjs";
import { rowsOf } from "./rows.mjs";
import { answerOf, drawingOf, itemsOf, textOf } from "./sdf.mjs";
import { whichMayDiffer, withIsotopes } from "./senses.mjs";

const FINE = 0, FLAGGED = 1, OTHER_WORDS = 2;
const BESIDE = ["explain", "axes", "groups"];
const TOO_LONG = "the record is longer than 16 MiB";

// A run that gives no answer for a part: words that the program refuses, or a record that it can't take.
export class Ended extends Error {}

function output(module, command, words, bytes) {
  const { status, output: made, errors } = runModule(module, [command, ...words], bytes);
  if (status === FINE || status === FLAGGED) return made;
  const ended = new Ended(errors.trim().replace(/^cip: /, "") || `cip ${command} ended with status ${status}`);
  ended.isOfWords = status === OTHER_WORDS;
  throw ended;
}

// The labelled records of a part, each with what ended the run if it did. A part that ends a run is halved, until the
// record is alone that does; that one stays as it is.
function annotated(module, words, records) {
  try {
    return recordBytes(output(module, "annotate", words, joined(records))).map((bytes) => ({ bytes, fault: "" }));
  } catch (fault) {
    if (!(fault instanceof Stopped || fault instanceof Ended) || fault.isOfWords) throw fault;
    if (records.length === 1) return [{ bytes: records[0], fault: fault.message }];
    const half = records.length >> 1;
    return [...annotated(module, words, records.slice(0, half)), ...annotated(module, words, records.slice(half))];
  }
}

// What becomes of a record that is longer than the program takes, which comes in several parts: it stays as it is.
function tooLong(bytes, first, isFirst) {
  const faults = isFirst ? [{ number: first + 1, fault: TOO_LONG }] : [];
  return { output: bytes, count: faults.length, rows: "", faults, entries: faults.map(({ fault }) => ({ n: "", l: [],
    m: 1, q: fault })) };
}

// `first` is the number of the records before; `isShown` says whether entries for the gallery are wanted.
export function labelled(module, { bytes, words, first, isShown, isCut, isFirst }) {
  if (isCut) return tooLong(bytes, first, isFirst);
  const found = annotated(module, words, recordBytes(bytes));
  const records = found.map(({ bytes: one }) => textOf(one));
  const faults = found.flatMap(({ fault }, place) => (fault ? [{ number: first + place + 1, fault }] : []));
  const rows = records.map((record, place) => (found[place].fault ? "" : rowsOf(record, first + place + 1))).join("");
  const entries = isShown ? entriesOf(module, words, records, found) : [];
  return { output: joined(found.map(({ bytes: one }) => one)), count: records.length, rows, faults, entries };
}

// The records as the gallery reads them, with all that the program says besides of those at which it didn't stop.
function entriesOf(module, words, records, found) {
  const whole = found.flatMap(({ fault }, place) => (fault ? [] : [place]));
  const bytes = joined(whole.map((place) => found[place].bytes)), beside = {};
  for (const command of BESIDE) beside[command] = besideOf(module, command, words, bytes);
  const senses = sensesOf(module, words, whole.map((place) => records[place]), beside.explain);
  const entries = found.map(({ fault }, place) => (fault ? entryOf(records[place], { fault }) : null));
  whole.forEach((place, at) => {
    const lines = Object.fromEntries(BESIDE.map((command) => [command, beside[command][at]]));
    entries[place] = entryOf(records[place], { ...lines, senses: senses.get(at) });
  });
  return entries;
}

// What a command writes of each record; nothing if the run ends, since it explains alone.
function besideOf(module, command, words, bytes) {
  try {
    return linesByRecord(output(module, command, words, bytes));
  } catch (fault) {
    if (fault instanceof Stopped || fault instanceof Ended) return [];
    throw fault;
  }
}

// The labels of units that tie, by the place of their record: of the records that have such a unit, with an isotope
// at each atom.
function sensesOf(module, words, records, explained) {
  const wanted = new Map(), parts = [];
  records.forEach((record, place) => {
    const ties = withoutIn(explained[place] || []).filter(([, reason]) => reason === "tie").map(([unit]) => unit);
    const drawing = ties.length ? drawingOf(record) : null;
    const some = drawing ? whichMayDiffer(drawing, ties) : [];
    if (!some.length) return;
    wanted.set(place, some);
    parts.push(withIsotopes(record));
  });
  if (!parts.length) return wanted;
  const marked = annotated(module, words, parts).map(({ bytes, fault }) => (fault ? "" : textOf(bytes)));
  return new Map([...wanted].map(([place, units], at) => [place, labelsOf(marked[at], units)]));
}

function labelsOf(record, units) {
  const answer = answerOf(itemsOf(record));
  return answer ? answer.labels.filter(([unit]) => units.includes(unit)) : [];
}

// A labelled part in which one record is changed by a command of the program, as `set`, with its words.
export function changed(module, { bytes, words, first, place, command, more }) {
  const records = recordBytes(bytes);
  const one = output(module, command, [...more, ...words], records[place]);
  const { entries: [entry] } = labelled(module, { bytes: one, words, first: first + place, isShown: true });
  records[place] = one;
  const rows = records.map((record, at) => rowsOf(textOf(record), first + at + 1)).join("");
  return { output: joined(records), rows, entry };
}

