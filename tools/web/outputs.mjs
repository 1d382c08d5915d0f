// What `cip explain`, `axes` and `groups` write of records, one after the other: as tools/outputs.py reads it.
import { isLabel, isUnit, labelOf, shown, textOf, wordsOf } from "./sdf.mjs";

const GROUPS = ["abs", "rac", "rel"];

// The lines of each record as lists of words.
export function linesByRecord(bytes) {
  const found = [];
  for (const line of textOf(bytes).split("\n")) {
    const words = wordsOf(shown(line));
    if (words.length === 2 && words[0] === "record") found.push([]);
    else if (words.length) found.at(-1).push(words);
  }
  return found;
}

export function labelsIn(lines) { return lines.filter(isLabel).map(labelOf); }

// The units of a record without a label, each with the reason: tie, over, or why the drawing shows no sense.
export function withoutIn(lines) {
  const isOne = (words) => isUnit(words[0]) &&
    ((words.length === 2 && (words[1] === "tie" || words[1] === "over")) || words[1] === "none");
  return lines.filter(isOne).map((words) => [words[0], words.at(-1)]);
}

// The atoms of stereo groups: group, unit, the letter as drawn, and that in the group's other form.
export function groupsIn(lines) {
  return lines.filter((words) => GROUPS.includes(words[0].slice(0, 3)) && words.length === 4 && isUnit(words[1]));
}
