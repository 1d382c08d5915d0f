// SDfiles as the bytes that they are: records, items, label items and drawings, as tools/sdf.py reads them; tests
// compare both. A text here has a character for each byte, and `shown` makes of it what is shown.
import { isBlank, recordEnds } from "./parts.mjs";

export const LETTERS = ["R", "S", "r", "s", "Z", "E", "seqCis", "seqTrans", "M", "P", "m", "p"];
export const KINDS = { a: "centre", b: "double bond", x: "allene", c: "cumulene", t: "biaryl axis" };
const RULES = ["1a", "1b", "2", "3", "4a", "4b", "4c", "5"];
const LABEL_ITEM = "CIP_LABELS";
const FARTHEST = 50_000;
const REFERENCE_MASSES = { H: 1, Li: 7, B: 11, C: 12, N: 14, O: 16, F: 19, Si: 28, P: 31, S: 32, Cl: 35, Se: 79, Br: 80,
  I: 127 };
const V2000_CHARGES = [0, 3, 2, 1, 0, -1, -2, -3];
const V2000_MARKS = { "1 1": "up", "1 4": "either", "1 6": "down", "2 3": "either" };
const V3000_MARKS = { "1 1": "up", "1 2": "either", "1 3": "down", "2 2": "either" };
const SETTING = /^cip 2 rule1b (2013|2018) nodes [1-9]\d{0,8}$/;
const NUMBER = "(?:0|[1-9][0-9]{0,8})";
const UNIT = new RegExp(`^(?:a(${NUMBER})|[bxct](${NUMBER})-(${NUMBER}))$`);
const COUNT = new RegExp(`^${NUMBER}$`);
const LIGAND = new RegExp(`^(?:${NUMBER}|[H:|])$`);
const WORD = /(?:\([^)]*\)?|"[^"]*"?|[^ ])+/g;
const MOST_DIGITS = 10;
// this many bytes become a text at a time
const PIECE = 8192;
const UTF8 = new TextDecoder("utf-8", { fatal: true, ignoreBOM: true });
// what Python takes for white space among the first 256 characters
const WHITE = "\\t-\\r\\x1c-\\x20\\x85\\xa0";
const IS_WHITE = new RegExp(`[${WHITE}]`), GAPS = new RegExp(`[${WHITE}]+`);

// In one line, why an input can't be used.
export class Fault extends Error {}

// ---- Bytes and texts

export function textOf(bytes) {
  let text = "";
  for (let at = 0; at < bytes.length; at += PIECE) text += String.fromCharCode(...bytes.subarray(at, at + PIECE));
  return text;
}

export function bytesOf(text) {
  const bytes = new Uint8Array(text.length);
  for (let at = 0; at < text.length; at++) bytes[at] = text.charCodeAt(at);
  return bytes;
}

// A text to show: UTF-8 where its bytes are that, and else as it is.
export function shown(text) {
  if (/^[\0-\x7f]*$/.test(text)) return text;
  try {
    return UTF8.decode(bytesOf(text));
  } catch {
    return text;
  }
}

function stripped(text) {
  let begin = 0, end = text.length;
  while (begin < end && IS_WHITE.test(text[begin])) begin++;
  while (end > begin && IS_WHITE.test(text[end - 1])) end--;
  return text.slice(begin, end);
}

// Without the spaces at its end; an expression would take long where there are many elsewhere.
export function withoutSpaces(text) {
  let end = text.length;
  while (end && text[end - 1] === " ") end--;
  return text.slice(0, end);
}

export function wordsOf(text) { return text.split(GAPS).filter(Boolean); }

function integer(text) {
  const word = stripped(text);
  if (!/^[+-]?\d+(?:_\d+)*$/.test(word)) throw new RangeError("not an integer");
  return Number(word.replaceAll("_", ""));
}

// An integer of a few digits.
function whole(text) {
  if (text.length > MOST_DIGITS) throw new RangeError("no number of a drawing");
  return integer(text);
}

function coordinate(text) {
  const word = stripped(text).replace(/(\d)_(?=\d)/g, "$1");
  if (!/^[+-]?(?:\d+\.?\d*|\.\d+)(?:[eE][+-]?\d+)?$/.test(word)) throw new RangeError("not a number");
  const value = Number(word);
  if (!(Math.abs(value) <= FARTHEST)) throw new RangeError("no coordinate of a drawing");
  return value;
}

// ---- Records and lines

// The records of bytes as texts; blank lines after the last one are none.
export function recordsOf(bytes) {
  const found = [];
  let begin = 0;
  for (const end of recordEnds(bytes)) {
    found.push(textOf(bytes.subarray(begin, end)));
    begin = end;
  }
  const rest = bytes.subarray(begin);
  if (!isBlank(rest)) found.push(textOf(rest));
  return found;
}

export function isWord(content, word) { return withoutSpaces(content) === word; }

// The contents of the lines of a record, without their line ends.
export function contentsOf(record) {
  const ended = record.split("\n"), last = ended.pop();
  const lines = ended.map((line) => (line.endsWith("\r") ? line.slice(0, -1) : line));
  return last ? [...lines, last] : lines;
}

// The name line of a record; if that is an item's, in a record without a line `M  END`, the first that is none.
export function nameOf(record) {
  const lines = contentsOf(record), first = lines.length ? lines[0] : "";
  const isOwn = !["$", ">"].includes(first[0]) || moleculeEnd(lines) > 0;
  return shown(isOwn ? first : ownLines(lines)[0] || "");
}

// The number of lines up to the first line `M  END`, 0 if there is none.
function moleculeEnd(lines) { return lines.findIndex((line) => isWord(line, "M  END")) + 1; }

// The lines after `M  END`, or all if there is none, without the terminator.
function dataLines(lines) {
  const found = lines.slice(moleculeEnd(lines));
  return found.length && isWord(found.at(-1), "$$$$") ? found.slice(0, -1) : found;
}

function isLabelHead(line) { return line.startsWith(">") && line.includes(`<${LABEL_ITEM}>`); }

// The lines after `M  END` but for those of label items; a blank line ends an item, and belongs to it.
function ownLines(lines) {
  let isLabel = false;
  return dataLines(lines).filter((line) => {
    const isOwn = !isLabelHead(line) && !isLabel;
    isLabel = isLabelHead(line) || (isLabel && /[^ \t]/.test(line));
    return isOwn;
  });
}

// The data items after the first line `M  END`, or of the whole record if it has none.
export function itemsOf(record) {
  const found = [];
  let isOpen = false;
  for (const line of dataLines(contentsOf(record))) {
    const head = headOf(line), isLabel = isLabelHead(line);
    if (isLabel || (head !== null && !isOpen)) {
      found.push({ name: isLabel ? LABEL_ITEM : head, values: [] });
      isOpen = true;
    } else if (isOpen && /[^ \t]/.test(line)) {
      found.at(-1).values.push(line);
    } else {
      isOpen = false;
    }
  }
  return found;
}

// The name in the head of an item, or null if a line is none.
function headOf(line) {
  const begin = line.startsWith(">") ? line.indexOf("<") : -1, end = begin < 0 ? -1 : line.indexOf(">", begin);
  return end < 0 ? null : line.slice(begin + 1, end);
}

export function isLabelItem({ name }) { return name === LABEL_ITEM; }

// ---- What the program writes

// What the label item of a record says, or null if it has none; a fault if the program of this version didn't write it.
export function answerOf(items) {
  const item = items.find(isLabelItem);
  if (!item) return null;
  const [setting = "", ...lines] = item.values.map(shown);
  if (!SETTING.test(setting)) throw new Fault("an item CIP_LABELS that this version didn't write");
  const found = { setting, labels: [], over: [], refused: null };
  for (const line of lines) readLine(found, line.split(" "));
  return found;
}

function readLine(found, words) {
  if (words[0] === "refused" && words.length === 3 && isNumber(words[1])) found.refused = [Number(words[1]), words[2]];
  else if (isUnit(words[0]) && words[1] === "over" && words.length === 2) found.over.push(words[0]);
  else if (isLabel(words)) found.labels.push(labelOf(words));
  else if (words.join(" ") !== "none") throw new Fault("a line of CIP_LABELS that this version didn't write");
}

export function isUnit(word) { return UNIT.test(word); }

export function isNumber(word) { return COUNT.test(word); }

// Whether words are `order` and ligands.
export function isOrder(words) { return words[0] === "order" && words.slice(1).every((word) => LIGAND.test(word)); }

export function isLabel(words) {
  return words.length > 5 && isUnit(words[0]) && LETTERS.includes(words[1]) && RULES.includes(words[2]) &&
    isNumber(words[3]) && isOrder(words.slice(4));
}

// A label of a unit: unit, letter, rule, sphere, and for each end the names of its ligands, highest first.
export function labelOf(words) { return [words[0], words[1], words[2], Number(words[3]), orderOf(words.slice(5))]; }

export function orderOf(words) { return words.join(" ").split("|").map(wordsOf); }

export function atomsOf(unit) { return UNIT.exec(unit).slice(1).filter(Boolean).map(Number); }

// ---- Drawings

// The molecule of a record as it is drawn, of either version, or null where it can't be.
export function drawingOf(record) {
  const lines = contentsOf(record);
  try {
    return isV3000(lines) ? drawingV3000(lines) : drawingV2000(lines);
  } catch (fault) {
    if (fault instanceof RangeError || fault instanceof TypeError) return null;
    throw fault;
  }
}

export function isV3000(lines) { return lines.length > 3 && stripped(lines[3].slice(33, 39)) === "V3000"; }

function mark(marks, order, code) { return marks[`${order} ${code}`] || ""; }

function optional(field) { return stripped(field) ? integer(field) : 0; }

function drawingV2000(lines) {
  const counted = (field) => (field ? integer(field) : 0);
  const count = counted(lines[3].slice(0, 3)), bondCount = counted(lines[3].slice(3, 6));
  const atomLines = lines.slice(4, 4 + count);
  if (atomLines.length < count) throw new RangeError("an atom line is missing");
  const atoms = atomLines.map(atomV2000);
  const bonds = lines.slice(4 + count, 4 + count + bondCount).map((line) => {
    const [first, second, order] = [0, 3, 6].map((begin) => integer(line.slice(begin, begin + 3)));
    return bondWithin(count, first - 1, second - 1, order, mark(V2000_MARKS, order, optional(line.slice(9, 12))));
  });
  setProperties(atoms, lines.slice(4 + count + bondCount));
  return { atoms, bonds };
}

function atomV2000(line) {
  const place = [0, 10, 20].map((begin) => coordinate(line.slice(begin, begin + 10)));
  const code = optional(line.slice(36, 39)), charge = code >= 0 && code < 8 ? V2000_CHARGES[code] : 0;
  const symbol = stripped(line.slice(31, 34)), valence = optional(line.slice(48, 51));
  const isotope = isotopeOf(symbol, optional(line.slice(34, 36)));
  return { symbol, place, charge, isotope, radical: code === 4 ? 2 : 0, valence };
}

function setProperties(atoms, lines) {
  const stated = { "M  CHG": "charge", "M  RAD": "radical", "M  ISO": "isotope" };
  const properties = lines.filter((line) => line.slice(0, 6) in stated);
  const isIsotope = (line) => line.startsWith("M  ISO");
  if (properties.some((line) => !isIsotope(line))) for (const atom of atoms) atom.charge = atom.radical = 0;
  if (properties.some(isIsotope)) for (const atom of atoms) atom.isotope = 0;
  for (const line of properties) {
    const words = wordsOf(line.slice(6));
    for (let at = 1; at + 1 < words.length; at += 2) {
      // as in Python, 0 is the last atom
      const place = integer(words[at]) - 1, atom = atoms.at(place);
      if (!atom || place < -atoms.length) throw new RangeError("no such atom");
      atom[stated[line.slice(0, 6)]] = whole(words[at + 1]);
    }
  }
}

// The mass number that a mass difference states, 0 where it states none.
function isotopeOf(symbol, difference) {
  return difference && symbol in REFERENCE_MASSES ? Math.max(0, REFERENCE_MASSES[symbol] + difference) : 0;
}

function keysOf(words) {
  return new Map(words.filter((word) => word.includes("=")).map((word) => {
    const at = word.indexOf("=");
    return [word.slice(0, at), word.slice(at + 1)];
  }));
}

function drawingV3000(lines) {
  const atoms = [], bonds = [], places = new Map();
  let block = "";
  for (const line of joinedLines(lines)) {
    const words = line.match(WORD) || [];
    if (words[0] === "BEGIN" || words[0] === "END") {
      if (words[0] === "BEGIN" && words[1] === undefined) throw new RangeError("a block without a name");
      block = words[0] === "BEGIN" ? words[1] : "";
    } else if (block === "ATOM") {
      const keys = keysOf(words.slice(6)), place = words.slice(2, 5).map(coordinate);
      places.set(words[0], atoms.length);
      if (place.length < 3) throw new RangeError("a coordinate is missing");
      const valueOf = (key) => whole(keys.get(key) ?? "0");
      const [charge, isotope, radical, valence] = ["CHG", "MASS", "RAD", "VAL"].map(valueOf);
      atoms.push({ symbol: words[1], place, charge, isotope, radical, valence: valence === -1 ? 15 : valence });
    } else if (block === "BOND") {
      const keys = keysOf(words.slice(4)), order = whole(words[1]);
      const ends = [words[2], words[3]].map((index) => {
        if (!places.has(index)) throw new RangeError("no such atom");
        return places.get(index);
      });
      bonds.push(bondWithin(atoms.length, ...ends, order, mark(V3000_MARKS, order, whole(keys.get("CFG") ?? "0"))));
    }
  }
  return { atoms, bonds };
}

// The contents of V3000 lines after their first seven bytes, with those that are continued.
function* joinedLines(lines) {
  let begun = "";
  for (const line of lines.slice(4)) {
    if (!line.startsWith("M  V30 ")) return;
    const part = withoutSpaces(line.slice(7));
    if (part.endsWith("-")) {
      begun += part.slice(0, -1);
    } else {
      yield begun + part;
      begun = "";
    }
  }
}

function bondWithin(count, first, second, order, sign) {
  const isAtom = (place) => place >= 0 && place < count;
  if (!(isAtom(first) && isAtom(second) && first !== second)) throw new RangeError("a bond's end");
  return { first, second, order, mark: sign };
}
