// What a descriptor says of a unit's drawing, with its ligands in rank order. IUPAC 2013, P-91.2.1.1, P-92.1.2.1,
// P-93.4.2.1, P-93.5.1.4.
import { isSmall } from "./records.mjs";
import { RANKS } from "./rules.mjs";

const WAYS = new Map([
  ["R", "clockwise"], ["S", "counterclockwise"], ["P", "clockwise"], ["M", "counterclockwise"],
  ["Z", "on the same side"], ["E", "on opposite sides"],
  ["seqCis", "on the same side"], ["seqTrans", "on opposite sides"],
]);
const INVERTED = new Map([["r", "s"], ["s", "r"], ["m", "p"], ["p", "m"],
  ["seqCis", "seqTrans"], ["seqTrans", "seqCis"]]);

// `names` are the names of the ligands of each end, the highest first.
export function senseOf(letter, names) {
  const way = WAYS.get(letter) || WAYS.get(letter.toUpperCase());
  if (!way || !names.length) return "";
  const words = names.length === 1 ? centreWords(names[0], way) : way.startsWith("on ") ? bondWords(names, way) :
    axisWords(names, way);
  return `${words}: ${letter}.${isSmall(letter) ? smallWords(letter) : ""}`;
}

function centreWords(names, way) {
  const lowest = `${RANKS[names.length - 1]} (${names[names.length - 1]})`, others = names.slice(0, -1);
  return `Lowest ligand ${lowest} away from you: ${RANKS.slice(0, others.length).join(", ")} ` +
    `(${others.join(", ")}) run ${way}`;
}

function bondWords([first, last], way) {
  return `The ligands a of both ends (${first[0]} and ${last[0]}) are ${way} of the double bond`;
}

function axisWords([first, last], way) {
  return `Seen along the axis, the shorter way from a in front (${first[0]}) to a at the other end (${last[0]}) runs ` +
    way;
}

function smallWords(letter) {
  const opposite = INVERTED.get(letter);
  const mirror = letter.length > 1 ? `the mirror image is ${opposite}` : "the mirror image keeps the letter";
  return ` A small letter, since inverting Rule 5 would give ${opposite}; ${mirror}.`;
}
