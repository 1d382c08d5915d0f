// Nodes, sets and decisions of a digraph in words.
import { isLike } from "./descriptors.mjs";
import { symbolOf } from "./molecule.mjs";
import { setsOf, sortedChildren } from "./ranking.mjs";

const SIXTHS = ["", "", "⅓", "½", "⅔", ""];

// A node's element, or the mean atomic number of a delocalised duplicate where its positions differ.
export function nameOf({ molecule }, node) {
  const { vertices, positions } = molecule;
  if (node.kind !== "delocalised") return symbolOf(vertices[node.vertex].z);
  const others = positions[node.vertex];
  if (others.some((other) => vertices[other].z !== vertices[others[0]].z)) {
    return Math.floor(node.key / 6) + SIXTHS[node.key % 6];
  }
  return symbolOf(vertices[others[0]].z);
}

// A set as it is compared: elements by Rule 1a, spheres of duplicates by Rule 1b, masses by Rule 2. It is filled up
// with phantoms, of atomic number 0, to the size of the other one.
export function setText(tree, nodes, rule = "1a", size = 0) {
  const memberText = (node) => {
    const name = nameOf(tree, node), { isotope } = tree.molecule.vertices[node.vertex];
    if (rule === "1b" && node.kind !== "real") return `(${name})${raised(node.distance)}`;
    return rule === "2" && node.kind === "real" && isotope ? raised(isotope) + name : name;
  };
  return `{${[...nodes.map(memberText), ...Array(Math.max(0, size - nodes.length)).fill("0")].join(",")}}`;
}

function raised(number) { return String(number).replace(/\d/g, (digit) => "⁰¹²³⁴⁵⁶⁷⁸⁹"[digit]); }

// The descriptors of some nodes in their digraph; for Rule 4b, whether they are like the branch's reference.
export function lateText({ letters }, nodes, { rule, reference }, side) {
  const letterText = (letter) => (rule === "4b" ? `${letter} ${isLike(letter, reference[side]) ? "l" : "u"}` : letter);
  const found = nodes.map((node) => letters.get(node)).filter(Boolean).map(letterText).sort();
  return `{${found.length ? found.join(", ") : "–"}}`;
}

// How a decision came about: a line for each sphere that was compared, as two texts with the relation between them.
export function linesOf(end, decision, letterAt = () => "") {
  const { rule, sphere, higher, lower, steps, parted } = decision, { tree } = end;
  if (!lower) return [comparedLine(1, [nameOf(tree, higher)], ">", [":"], 0)];
  if (decision.isLate) {
    const nodesOf = (node, side) => (parted ? parted[side].children : [node]);
    const sides = [higher, lower].map((node, side) => [lateText(end, nodesOf(node, side), decision, side)]);
    return [comparedLine(sphere, sides[0], ">", sides[1], 0)];
  }
  if (!steps) return rule ? letterLines(end, decision, letterAt) : [];
  if (rule === "1a") {
    return Array.from({ length: sphere }, (_, before) => sphereLine(tree, decision, before + 1));
  }
  const sides = parted ? pairText(tree, parted.map((node) => sortedChildren(node, steps[0])), rule) :
    [higher, lower].map((node) => ligandText(tree, node, rule));
  return [comparedLine(sphere, [sides[0]], ">", [sides[1]], 0)];
}

// The sets of one sphere side by side, without the places at which neither has one.
function sphereLine(tree, { rule, sphere, higher, lower, steps }, compared) {
  if (compared === 1) {
    const isLast = sphere === 1;
    const sides = [higher, lower].map((node) => [ligandText(tree, node, rule)]);
    return comparedLine(1, sides[0], isLast ? ">" : "=", sides[1], isLast ? 0 : -1);
  }
  const [ours, theirs] = [higher, lower].map((node) => setsOf(steps, node, compared));
  const all = ours.map((set, place) => [set, theirs[place] || []]);
  const pairs = all.filter(([one, other]) => one.length + other.length > 0);
  const texts = pairs.map((pair) => pairText(tree, pair, rule));
  const differs = compared === sphere ? pairs.findIndex(([one, other]) => !isSameSet(one, other, steps[0])) : -1;
  const [higherTexts, lowerTexts] = [0, 1].map((side) => texts.map((pair) => pair[side]));
  return comparedLine(compared, higherTexts, differs < 0 ? "=" : ">", lowerTexts, differs);
}

function isSameSet(one, other, numbers) {
  return one.length === other.length && one.every((node, place) => numbers[node.id] === numbers[other[place].id]);
}

function pairText(tree, pair, rule) {
  const size = Math.max(...pair.map((set) => set.length));
  return pair.map((set) => setText(tree, set, rule, size));
}

// The letters of the item at the nodes of two branches, sphere by sphere up to the deciding one. They prove nothing.
function letterLines({ numbers }, { sphere, higher, lower }, letterAt) {
  const lines = [];
  for (let at = 1, sides = [[higher], [lower]]; at <= sphere; at++) {
    const found = sides.map((nodes) => nodes.map(letterAt).filter(Boolean).sort());
    if (found.some((letters) => letters.length)) {
      const texts = found.map((letters) => [`{${letters.length ? letters.join(",") : "–"}}`]);
      lines.push(comparedLine(at, texts[0], "and", texts[1], -1));
    }
    sides = sides.map((nodes) => nodes.flatMap((node) => sortedChildren(node, numbers)));
  }
  return lines;
}

// A line: the sets of the higher and of the lower side, and the place at which they differ, or -1.
function comparedLine(sphere, higher, relation, lower, differs) { return { sphere, higher, relation, lower, differs }; }

function ligandText(tree, node, rule) { return setText(tree, [node], rule).slice(1, -1); }

// What to say of a decision that these lines don't tell.
export function noteOf({ tree }, decision) {
  const { rule, lower, isLate, isCut } = decision, grown = tree.spheres.length - 1;
  if (!lower) return "A lone pair is the lowest ligand.";
  if (isCut) return `They tie up to sphere ${grown}. The next one has more nodes than are looked at.`;
  if (!rule) return `They tie in all ${grown} spheres by Rules 1a, 1b and 2.`;
  if (rule === "1a") return "";
  if (rule === "1b") {
    return "Rule 1a ties in every sphere. A raised number is the sphere of the atom that a duplicate stands for; the " +
      "lower one precedes.";
  }
  if (rule === "2") {
    return "Rules 1a and 1b tie in every sphere. The higher mass precedes; an unmarked atom has its natural mass.";
  }
  return isLate ? lateNote(decision) : itemNote(decision);
}

function itemNote({ rule, sphere }) {
  return `Rules 1a, 1b and 2 tie in every sphere; by the item, Rule ${rule} decides in sphere ${sphere}. The letters ` +
    "here are those of the item; the descriptors that count in the digraph can be other ones.";
}

function lateNote({ reference }) {
  const before = "The rules before it tie in every sphere. Letters are the auxiliary descriptors of this digraph.";
  if (!reference) return before;
  const words = reference[0] === reference[1] ? `${reference[0]} in both branches` :
    `${reference[0]} in the higher branch, ${reference[1]} in the lower one`;
  return `${before} l: like the reference, u: unlike it; the reference is ${words}.`;
}
