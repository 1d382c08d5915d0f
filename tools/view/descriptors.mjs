// Descriptors inside a digraph, and the rules that compare them. IUPAC 2013, P-92.3 to P-92.6; the forms are those of
// crates/cip_aux/specs and crates/cip_rules/specs. What is drawn of a unit is known from its letter and the order
// of its ligands, so no geometry is read.
import { bothReadings, viewFrom } from "./digraph.mjs";
import { arePartedBy, depthOf, finalOf, stepsOf } from "./ranking.mjs";
import { EARLY_RULES, TURNS } from "./rules.mjs";

const KIND_R = new Set(["R", "M", "seqCis"]), KIND_S = new Set(["S", "P", "seqTrans"]);
const OPPOSITES = new Map([["R", "S"], ["M", "P"], ["Z", "E"]].flatMap(([one, other]) => [[one, other], [other, one]]));
const CAPITALS = new Map([["r", "R"], ["s", "S"], ["m", "M"], ["p", "P"], ["seqCis", "Z"], ["seqTrans", "E"]]);
const SMALLS = new Map([...CAPITALS].map(([small, capital]) => [capital, small]));
const MOST_WORK = 20_000_000;

export const EARLY_KEYS = [(node) => node.key, (node) => -node.distance, (node) => node.mass];

export function isLike(letter, reference) { return (reference === "R" ? KIND_R : KIND_S).has(letter); }

function lateKey(rule, letter, isTurned) {
  if (rule === "3") return letter === "Z" ? 2 : letter === "E" ? 1 : 0;
  if (rule === "4a") return KIND_R.has(letter) || KIND_S.has(letter) ? 2 : "rsmp".includes(letter || "-") ? 1 : 0;
  if (rule === "4c") return letter === "r" || letter === "m" ? 2 : letter === "s" || letter === "p" ? 1 : 0;
  return KIND_R.has(letter) ? (isTurned ? 1 : 2) : KIND_S.has(letter) ? (isTurned ? 2 : 1) : 0;
}

// How some nodes compare by all rules: a function that gives of two nodes the rule, the sphere and the sign, or null.
// What parts all nodes ends the ranking. `early` are the steps of Rules 1a to 2 where they are known.
export function* comparisonOf(tree, nodes, letterOf, { isTurned = false, early = null } = {}) {
  const rows = [];
  for (const [place, rule] of EARLY_RULES.entries()) {
    const before = rows.length ? finalOf(rows[rows.length - 1].steps) : null;
    if (before && arePartedBy(before, nodes)) return comparing(rows);
    const until = (numbers) => arePartedBy(numbers, nodes);
    const known = early && early[place];
    rows.push({ rule, steps: known || (yield* stepsOf(tree, before, EARLY_KEYS[place], until)) });
  }
  yield* addLateRows(rows, tree, nodes, letterOf, isTurned);
  return comparing(rows);
}

function* addLateRows(rows, tree, nodes, letterOf, isTurned) {
  const letters = tree.nodes.map(letterOf);
  let last = finalOf(rows[rows.length - 1].steps);
  if (!letters.some(Boolean)) return;
  for (const rule of TURNS.slice(EARLY_RULES.length)) {
    if (arePartedBy(last, nodes)) return;
    if (rule === "4b") {
      rows.push(yield* rowOf4b(tree, last, letters));
      continue;
    }
    const key = (node) => lateKey(rule, letters[node.id], isTurned);
    const steps = yield* stepsOf(tree, last, key, (numbers) => arePartedBy(numbers, nodes));
    rows.push({ rule, steps });
    last = finalOf(steps);
  }
}

function comparing(rows) {
  return (a, b) => {
    for (const row of rows) {
      const found = row.compare ? row.compare(a, b) : difference(row.steps, a, b);
      if (found) return { rule: row.rule, steps: row.steps, ...found };
    }
    return null;
  };
}

function difference(steps, a, b) {
  const depth = depthOf(steps, a, b);
  return depth < 0 ? null : { depth, sign: Math.sign(steps[depth][a.id] - steps[depth][b.id]), nodes: [a, b] };
}

// The better reading of a branch is compared first.
function* rowOf4b(tree, earlier, letters) {
  const { twin, copies } = bothReadings(tree), before = twin.nodes.map(({ node }) => earlier[node.id]);
  const key = ({ node, side }) => (isLike(letters[node.id], "RS"[side]) ? 1 : 0);
  const steps = yield* stepsOf(twin, before, key);
  const last = finalOf(steps);
  const readings = (node) => copies.map((row) => row[node.id]).sort((one, other) => last[other.id] - last[one.id]);
  const compare = (a, b) => {
    const [ours, theirs] = [a, b].map(readings);
    return difference(steps, ours[0], theirs[0]) || difference(steps, ours[1], theirs[1]);
  };
  return { rule: "4b", steps, compare };
}

// The units whose sense is known, by the atoms of their ends, with the letter without regard to Rule 5.
function knownUnits(labels) {
  const found = new Map();
  for (const { ends, letter, order } of labels) {
    const unit = { ends, order, letter: CAPITALS.get(letter) || letter };
    for (const end of ends) found.set(end, [...(found.get(end) || []), unit]);
  }
  return found;
}

// The descriptors of the real nodes of a whole digraph, from the outermost sphere inwards; null where it is too much.
// `labels` are those of an item, and of units that tie at their own root although their sense is drawn.
export function* descriptorsOf(tree, labels) {
  const units = knownUnits(labels), letters = new Map();
  const nodes = tree.nodes.filter((node) => node.kind === "real" && node.sphere > 0 && units.has(node.vertex));
  if (nodes.length * tree.nodes.length > MOST_WORK) return null;
  for (const node of nodes.reverse()) {
    for (const unit of units.get(node.vertex)) {
      const letter = yield* letterAt(tree, node, unit, letters);
      if (letter) letters.set(node, letter);
    }
  }
  return letters;
}

function* letterAt(tree, node, unit, letters) {
  const ends = unit.ends.length === 1 ? [node] : endsBelow(tree.molecule, node, unit);
  if (!ends) return null;
  const inside = new Set(), turns = [];
  for (const [place, end] of ends.entries()) {
    const view = viewFrom(tree, end);
    if (place === 0) for (const copy of view.nodes) if (copy.inside) inside.add(copy.original);
    const letterOf = ({ original }) => (inside.has(original) ? letters.get(original) : undefined);
    const turn = yield* turnsAt(view, unit.order[unit.ends.indexOf(end.vertex)], letterOf);
    if (!turn) return null;
    turns.push(turn);
  }
  const [plain, turned] = [0, 1].map((kind) => turns.reduce((sum, turn) => sum + turn[kind], 0) % 2);
  const letter = plain ? OPPOSITES.get(unit.letter) : unit.letter;
  return plain === turned ? letter : SMALLS.get(letter);
}

// The nearer end of a bond or axis with its far end, where the rest of the unit follows as real nodes below it: over
// atoms of a cumulene, or by one bond.
function endsBelow({ vertices }, node, { ends, order }) {
  const far = ends.find((end) => end !== node.vertex);
  const ligands = order[ends.indexOf(node.vertex)];
  const reach = (from) => {
    for (const child of from.children) {
      if (child.kind !== "real" || ligands.includes(vertices[child.vertex].name)) continue;
      if (child.vertex === far) return child;
      const found = vertices[child.vertex].edges.length === 2 ? reach(child) : null;
      if (found) return found;
    }
    return null;
  };
  const found = reach(node);
  return found ? [node, found] : null;
}

// How often the ranking turns the order of the item at one end, as it is and with Rule 5 turned; null where two tie.
function* turnsAt(view, names, letterOf) {
  const free = view.spheres[1].filter(({ kind }) => kind === "real" || kind === "closure");
  const nodes = takeNamed(view.molecule, free, names);
  if (nodes.some((node) => node === undefined)) return null;
  const present = nodes.filter(Boolean);
  const plain = turnsBy(yield* comparisonOf(view, present, letterOf), present);
  if (!plain) return null;
  if (!plain.isByRule5) return [plain.turns, plain.turns];
  const turned = turnsBy(yield* comparisonOf(view, present, letterOf, { isTurned: true }), present);
  return turned && [plain.turns, turned.turns];
}

function turnsBy(compare, nodes) {
  let turns = 0, isByRule5 = false;
  for (const [place, node] of nodes.entries()) {
    for (const other of nodes.slice(place + 1)) {
      const found = compare(node, other);
      if (!found) return null;
      if (found.sign < 0) turns++;
      isByRule5 = isByRule5 || found.rule === "5";
    }
  }
  return { turns, isByRule5 };
}

// The nodes that an item's names stand for, each taken once: null for a lone pair, undefined for what isn't there.
export function takeNamed({ vertices }, nodes, names) {
  const free = [...nodes];
  return names.map((name) => {
    if (name === ":") return null;
    const place = free.findIndex((node) => vertices[node.vertex].name === name);
    return place < 0 ? undefined : free.splice(place, 1)[0];
  });
}
