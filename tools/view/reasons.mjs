// Why a record, a unit or a wedge has no letter. The words are those of docs/USE.md, shortened.
import { atomName, labelsOf, unitName } from "./records.mjs";

const REASONS = {
  tie: "no letter: two of its ligands are alike by Rules 1a to 5",
  tieAtWedge: "no letter: two of its ligands are alike by Rules 1a to 5; a centre of C2 symmetry may still be one",
  over: "no letter: its digraph is larger than the bound on nodes",
  unknown: "no letter: cip explain says why (cip-page --explain)",
  notUnit: "no letter: no unit that cip annotate labels",
  NoMark: "no letter: no wedge is drawn at it (cip-undefined lists those that need one)",
  Either: "no letter: a wavy or crossed bond says that it is undecided",
  Coincident: "no letter: two ligands lie in one direction, or one lies at the unit or on its line",
  Contradictory: "no letter: what is drawn of it disagrees",
  Reentrant: "no letter: the marked one of three ligands lies between the two others",
};
const STATES = {
  open: "undefined: its ligands differ, and no wedge shows its sense",
  dependent: "undefined: two ligands tie, and drawing another unit in them might tell them apart",
};
const OPEN_BOND = "undefined: its ligands differ, and it is drawn as undecided";
const MARKED = new Set([1, 4, 6]);

export function whyNot(record, { kinds, causes }) {
  if (record.refused) {
    const [line, cause] = record.refused;
    return `Refused at line ${line}: ${causes[cause] || "?"} (${cause}).`;
  }
  if (!record.hasItem) return record.fault ? `The program stopped: ${record.fault}.` : "It has no item CIP_LABELS.";
  const names = record.over.map((unit) => unitName(record, unit, kinds)).join(", ");
  return `Over the bound on nodes, so not labelled: ${names}.`;
}

export function wordsOf({ unit, state, reason = "over" }) {
  if (state === "open" && unit[0] === "b") return OPEN_BOND;
  return STATES[state] || REASONS[reason] || reason;
}

// The units of a record without a letter: those at which something is drawn, that are undefined or to which another
// program gives a letter, and the others.
export function unitsWithout(record, given = {}) {
  const marked = narrowEnds(record), isDrawn = ({ unit, reason, ends }) => record.others.has(unit) ||
    !["tie", "NoMark", "over"].includes(reason) || (reason !== "NoMark" && ends.some((end) => marked.has(end)));
  const isOpen = new Set(record.open.map(({ unit }) => unit));
  const states = new Map(record.tied.map(({ unit, state }) => [unit, state]));
  const found = record.without.filter(({ unit }) => !isOpen.has(unit))
    .map((unit) => (unit.reason === "NoMark" ? { ...unit, reason: states.get(unit.unit) || "NoMark" } : unit));
  const drawn = [...record.over, ...found.filter(isDrawn).map(atWedge), ...record.open];
  return { drawn: [...drawn, ...ofOthers(record, drawn, given)], others: found.filter((unit) => !isDrawn(unit)) };
}

// The units to which another program alone gives a letter, but for those that are named already.
function ofOthers(record, drawn, given) {
  const named = new Set([...labelsOf(record), ...drawn].map(({ unit }) => unit));
  const reason = given.explain ? "notUnit" : "unknown";
  return [...record.others.values()].filter(({ unit }) => !named.has(unit)).map((unit) => ({ ...unit, reason }));
}

function atWedge(unit) { return unit.reason === "tie" && unit.unit[0] === "a" ? { ...unit, reason: "tieAtWedge" } : unit; }

// The atoms at which a wedge, a hashed bond or a wavy one is narrow; in space these don't count.
function narrowEnds(record) {
  if (record.isInSpace) return new Set();
  return new Set(record.bonds.filter(({ order, mark }) => order === 1 && MARKED.has(mark)).map(({ first }) => first));
}

// What to say of wedges at whose narrow end nothing else is told. `given` says which outputs of the program the page
// has.
export function strayWedges(record, given) {
  if (record.refused || !record.hasItem) return [];
  const told = new Set([...labelsOf(record), ...record.over, ...record.without, ...record.open, ...record.tied]
    .flatMap(({ ends }) => ends));
  const places = [...narrowEnds(record)].filter((place) => !told.has(place)).sort((one, other) => one - other);
  return places.map((place) => strayText(record, place, given));
}

// The wide end of a wedge that is narrow at a place, if no wedge is drawn at it and it may need one, or -1.
function wideEndWithout(record, place) {
  const tied = new Set(record.tied.map(({ unit }) => unit));
  const needing = [...record.open, ...record.without.filter(({ unit, reason }) => reason === "NoMark" && !tied.has(unit))];
  const centres = new Set(needing.filter(({ unit }) => unit[0] === "a").map(({ ends }) => ends[0]));
  const wedge = record.bonds.find(({ first, second, order, mark }) =>
    first === place && order === 1 && MARKED.has(mark) && centres.has(second));
  return wedge ? wedge.second : -1;
}

function strayText(record, place, given) {
  const name = atomName(record, String(place + 1));
  if (!given.explain) return `The wedge at ${name} has no letter: cip explain says why (cip-page --explain).`;
  const turned = wideEndWithout(record, place);
  if (turned >= 0) {
    const centre = atomName(record, String(turned + 1));
    return `The wedge at ${name} has no letter: it counts at ${name}, its narrow end. Turn it round for ${centre}.`;
  }
  const isFlat = record.bonds.some(({ first, second, order }) => order > 1 && (first === place || second === place));
  const axis = given.axes ? " cip axes finds no axis there either." : " A biaryl axis is labelled by cip axes.";
  return `The wedge at ${name} has no letter: no unit that cip annotate labels stands there.${isFlat ? axis : ""}`;
}
