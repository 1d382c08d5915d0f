// A record's molecule as the page draws it: atoms in the plane, and the hydrogens that aren't drawn, as in
// tools/drawn.py.

const BOND = 380;
const MARKS = { "": 0, up: 1, either: 4, down: 6 };
const NO_VALENCE = 15;
const VALENCES = {
  "B 0": [3], "B -1": [4], "C 0": [4], "C 1": [3], "C -1": [3], "N 0": [3, 5], "N 1": [4], "N -1": [2], "O 0": [2],
  "O 1": [3], "O -1": [1], "F 0": [1], "Cl 0": [1], "Br 0": [1], "I 0": [1], "Si 0": [4], "P 0": [3, 5], "P 1": [4],
  "S 0": [2, 4, 6], "S 1": [3], "S -1": [1], "As 0": [3, 5], "Se 0": [2, 4, 6],
};

// Values without the zeros at their end, but the first three.
function trimmed(values) {
  while (values.length > 3 && !values.at(-1)) values.pop();
  return values;
}

// How many hydrogens an atom has that aren't drawn.
function hydrogens(atom, orders) {
  const used = Math.floor(orders.reduce((sum, order) => sum + (order === 4 ? 1.5 : order), 0));
  if (atom.valence) return atom.valence === NO_VALENCE ? 0 : Math.max(0, atom.valence - used);
  const need = used + [0, 2, 1, 2][Math.max(0, Math.min(atom.radical, 3))];
  const valence = (VALENCES[`${atom.symbol} ${atom.charge}`] || []).find((one) => one >= need);
  return valence === undefined ? 0 : valence - need;
}

function dot(one, other) { return one.reduce((sum, part, at) => sum + part * other[at], 0); }

function cross([a, b, c], [d, e, f]) { return [b * f - c * e, c * d - a * f, a * e - b * d]; }

function unit(vector) {
  const length = Math.sqrt(dot(vector, vector));
  return length ? vector.map((part) => part / length) : [1, 0, 0];
}

// The direction in which a symmetric matrix stretches most.
function widest(matrix) {
  let vector = [0.6, 0.5, 0.62];
  for (let turn = 0; turn < 60; turn++) vector = unit(matrix.map((row) => dot(row, vector)));
  return vector;
}

// Places in space seen from where they are spread most; turned, never reflected.
function projected(places) {
  const centre = [0, 1, 2].map((at) => places.reduce((sum, place) => sum + place[at], 0) / places.length);
  const away = places.map((place) => place.map((part, at) => part - centre[at]));
  const spread = [0, 1, 2].map((i) => [0, 1, 2].map((j) => away.reduce((sum, place) => sum + place[i] * place[j], 0)));
  const trace = spread[0][0] + spread[1][1] + spread[2][2];
  const right = widest(spread);
  const least = widest(spread.map((row, i) => row.map((part, j) => (i === j ? trace : 0) - part)));
  const along = dot(least, right);
  const towards = unit(least.map((part, at) => part - right[at] * along)), up = cross(towards, right);
  return away.map((place) => [dot(place, right), dot(place, up)]);
}

function median(values) {
  const sorted = Float64Array.from(values).sort(), half = sorted.length >> 1;
  return sorted.length % 2 ? sorted[half] : (sorted[half - 1] + sorted[half]) / 2;
}

// To the nearest integer, of two the even one.
function rounded(value) {
  const below = Math.floor(value), rest = value - below;
  return rest > 0.5 || (rest === 0.5 && below % 2) ? below + 1 : below || 0;
}

// The places of atoms in the plane of the page, a bond 38 long, in tenths; y runs down.
function plane({ atoms, bonds }) {
  const places = atoms.map(({ place }) => place);
  const flat = places.some((place) => place[2]) ? projected(places) : places;
  const lengths = bonds.map(({ first, second }) =>
    Math.hypot(flat[first][0] - flat[second][0], flat[first][1] - flat[second][1])).filter((length) => length > 1e-6);
  const scale = lengths.length ? BOND / median(lengths) : BOND;
  let left = Infinity, low = Infinity;
  for (const [x, y] of flat) {
    left = Math.min(left, x);
    low = Math.min(low, y);
  }
  return flat.map(([x, y]) => [rounded((x - left) * scale), rounded((low - y) * scale)]);
}

// The atoms and bonds of a drawing as the script of the page reads them, and whether it's in space.
export function drawn(drawing) {
  const orders = drawing.atoms.map(() => []);
  for (const { first, second, order } of drawing.bonds) {
    orders[first].push(order);
    orders[second].push(order);
  }
  const flat = plane(drawing);
  const atoms = drawing.atoms.map((atom, at) => trimmed([...flat[at], atom.symbol || "?", hydrogens(atom, orders[at]),
    atom.charge, atom.isotope, atom.radical]));
  const bonds = drawing.bonds.map(({ first, second, order, mark }) => trimmed([first, second, order, MARKS[mark]]));
  return { a: atoms, b: bonds, z: Number(drawing.atoms.some(({ place }) => place[2])) };
}
