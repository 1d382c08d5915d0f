// What decides at the ends of a unit. A unit is {unit, letter, rule, sphere, order, ends}: the atoms of its ends, from
// 0, and for each end its ligands in an item's order, or no order where none is known.
import { MOST_NODES, digraphOf, growSphere } from "./digraph.mjs";
import { EARLY_KEYS, comparisonOf, descriptorsOf, takeNamed } from "./descriptors.mjs";
import { arePartedBy, depthOf, finalOf, parting, stepsOf } from "./ranking.mjs";
import { EARLY_RULES, lastOf } from "./rules.mjs";

// The ends of a unit with their digraphs and decisions. `labels` are the units whose sense is known.
export function* endsOf(molecule, unit, { wording = "2018", limit = MOST_NODES, labels = [] } = {}) {
  const ends = [];
  for (const side of unit.ends.keys()) ends.push(yield* endOf(molecule, unit, side, { wording, limit }));
  if (ends.some(({ decisions }) => decisions.some(({ isOfItem }) => isOfItem))) yield* decideLate(ends, unit, labels);
  return ends;
}

// The digraph of an end up to where its ligands are told apart, and what parts each two neighbours in rank order.
// It grows until Rule 1a tells all ligands apart; where it doesn't, Rules 1b and 2 see it whole.
function* endOf(molecule, unit, side, { wording, limit }) {
  const tree = digraphOf(molecule, unit.ends[side], wording);
  yield* growSphere(tree, limit);
  const given = unit.order ? takeNamed(molecule, tree.spheres[1].filter(isReal), unit.order[side]) :
    ligandsAt(tree, unit, side);
  const nodes = given.filter(Boolean);
  // where the item names a later rule, the digraph is due whole
  while (unit.rule && unit.rule !== "1a" && (yield* growSphere(tree, limit)));
  const found = [yield* stepsOf(tree, null, EARLY_KEYS[0])];
  while (!arePartedBy(finalOf(found[0]), nodes) && (yield* growSphere(tree, limit))) {
    found[0] = yield* stepsOf(tree, null, EARLY_KEYS[0]);
  }
  for (const key of EARLY_KEYS.slice(1)) {
    const before = finalOf(found[found.length - 1]);
    if (arePartedBy(before, nodes) || !tree.isWhole) break;
    found.push(yield* stepsOf(tree, before, key));
  }
  return decided({ tree, found, numbers: finalOf(found[found.length - 1]), unit }, given);
}

function isReal({ kind }) { return kind === "real"; }

// The ligands of an end whose order isn't known: all neighbours but the rest of the unit, and a lone pair.
function ligandsAt(tree, { unit, ends }, side) {
  const root = tree.molecule.vertices[ends[side]], kind = unit[0], far = ends[1 - side];
  const isLigand = (node) => {
    if (!isReal(node)) return false;
    if (kind === "a") return true;
    return node.vertex !== far && (kind === "t" || root.edges.find(({ to }) => to === node.vertex).order === 1);
  };
  const ligands = tree.spheres[1].filter(isLigand);
  return root.hasPair && ligands.length < (kind === "a" ? 4 : 2) ? [...ligands, null] : ligands;
}

// An end with its ligands in rank order: the item's, or the own one where there is none.
function decided(end, given) {
  const value = (node) => (node ? end.numbers[node.id] : -1);
  const places = given.map((_, place) => place).sort((a, b) => value(given[b]) - value(given[a]) || a - b);
  end.ligands = end.unit.order ? given : places.map((place) => given[place]);
  end.isInOrder = !end.unit.order || places.every((place, index) => place === index);
  end.decisions = end.ligands.slice(1).map((lower, place) => decisionOf(end, end.ligands[place], lower));
  end.last = lastOf(end.decisions);
  return end;
}

// What parts a ligand from the one below it. A rule of descriptors is known from the item alone.
function decisionOf({ tree, found, unit }, higher, lower) {
  if (!lower) return { rule: "1a", sphere: 1, higher, lower };
  for (const [place, steps] of found.entries()) {
    const depth = depthOf(steps, higher, lower);
    if (depth < 0) continue;
    const isFirst = steps[depth][higher.id] > steps[depth][lower.id];
    const parted = depth ? parting(steps, higher, lower, depth) : null;
    return { rule: EARLY_RULES[place], sphere: depth + 1, higher, lower, parted, steps, isFirst };
  }
  if (!tree.isWhole) return { rule: null, sphere: 0, higher, lower, isCut: true };
  if (!unit.rule) return { rule: null, sphere: 0, higher, lower };
  return { rule: unit.rule, sphere: unit.sphere, higher, lower, isOfItem: true };
}

// What the rules of descriptors decide at the ends of a unit, where that is what the item says; else the ends stay.
function* decideLate(ends, { rule, sphere }, labels) {
  const late = [];
  for (const end of ends) {
    const decisions = yield* lateDecisions(end, labels);
    if (!decisions) return;
    late.push(decisions);
  }
  const last = lastOf(late.flatMap(({ decisions }) => decisions));
  if (last.rule !== rule || last.sphere !== sphere) return;
  ends.forEach((end, place) => Object.assign(end, late[place], { last: lastOf(late[place].decisions) }));
}

function* lateDecisions(end, labels) {
  if (!end.decisions.some(({ isOfItem }) => isOfItem)) return { decisions: end.decisions };
  const letters = end.tree.isWhole ? yield* descriptorsOf(end.tree, labels) : null;
  if (!letters) return null;
  const nodes = end.ligands.filter(Boolean), letterOf = (node) => letters.get(node);
  const compare = yield* comparisonOf(end.tree, nodes, letterOf, { early: end.found });
  const decisions = end.decisions.map((decision) => (decision.isOfItem ? lateDecision(compare, decision) : decision));
  return decisions.every(Boolean) ? { decisions, letters } : null;
}

function lateDecision(compare, { higher, lower }) {
  const found = compare(higher, lower);
  if (!found || found.sign < 0) return null;
  const { rule, depth, steps, nodes } = found;
  const plain = (node) => node.node || node;
  const parted = depth ? parting(steps, ...nodes, depth).map(plain) : null;
  const reference = rule === "4b" ? nodes.map(({ side }) => "RS"[side]) : null;
  return { rule, sphere: depth + 1, higher, lower, parted, steps, isFirst: true, isLate: true, reference };
}
