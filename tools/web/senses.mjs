// The senses of units whose ligands tie, as the program sees them: see tools/senses.py.
import { atomsOf, bytesOf, contentsOf, isV3000, isWord, withoutSpaces } from "./sdf.mjs";

const ISOTOPES = 400;
const ON_A_LINE = 8;

// The molfile of a record as one of its own, with another isotope at each atom.
export function withIsotopes(record) {
  const lines = contentsOf(record), last = lines.findIndex((line) => isWord(line, "M  END"));
  const kept = last < 0 ? lines : lines.slice(0, last);
  const marked = isV3000(lines) ? [...linesV3000(kept)] : [...kept, ...isotopeLines(Number(lines[3].slice(0, 3)))];
  return bytesOf([...marked, "M  END", "$$$$", ""].join("\n"));
}

// Property lines with the isotopes of so many atoms; what is stated last of an atom holds.
function isotopeLines(count) {
  const field = (number) => String(number).padStart(3), lines = [];
  for (let begin = 1; begin <= count; begin += ON_A_LINE) {
    const last = Math.min(count, begin + ON_A_LINE - 1);
    let line = "M  ISO" + field(last - begin + 1);
    for (let number = begin; number <= last; number++) line += ` ${field(number)} ${field(1 + number % ISOTOPES)}`;
    lines.push(line);
  }
  return lines;
}

// The lines of a table with an isotope after each atom; of a key that is repeated the last value holds.
function* linesV3000(lines) {
  let number = 0, isAtom = false;
  for (const line of lines) {
    const [, , third, fourth] = line.split(/[\t-\r ]+/).filter(Boolean);
    if ((third === "BEGIN" || third === "END") && fourth === "ATOM") {
      isAtom = third === "BEGIN";
      yield line;
    } else if (isAtom && !withoutSpaces(line).endsWith("-")) {
      number++;
      yield `${withoutSpaces(line)} MASS=${1 + number % ISOTOPES}`;
    } else {
      yield line;
    }
  }
}

// The units whose ligands differ in some digraph: two end atoms at one end that are alike never do.
export function whichMayDiffer(drawing, units) {
  const near = drawing.atoms.map(() => []);
  for (const { first, second } of drawing.bonds) {
    near[first].push(second);
    near[second].push(first);
  }
  const hasTwins = (place) => {
    const ends = near[place].filter((other) => near[other].length === 1)
      .map((other) => JSON.stringify({ ...drawing.atoms[other], place: null }));
    return new Set(ends).size < ends.length;
  };
  return units.filter((unit) => !atomsOf(unit).some((number) => hasTwins(number - 1)));
}
