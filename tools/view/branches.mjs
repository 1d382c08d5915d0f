// What of a digraph is drawn: branches up to where they are compared, with those that are alike folded into one.
import { sortedChildren } from "./ranking.mjs";

export const MOST_DRAWN = 2000;

// The drawn tree of an end: each branch up to the last sphere in which it is compared with a neighbour in rank, or all
// of them up to the deciding one. Children stand in rank order; siblings whose drawn branches are the same are one
// drawn node with their count. `letterAt(node)` gives the letter that stands at a node, or "".
export function drawnOf(end, { isWhole = false, most = MOST_DRAWN, letterAt = () => "" } = {}) {
  const wanted = end.decisions.map((decision) => sphereWanted(end, decision));
  const deepest = Math.min(Math.max(1, ...wanted), end.tree.spheres.length - 1);
  for (let last = deepest; ; last--) {
    const needs = end.ligands.map((node, place) => {
      const need = Math.max(wanted[place - 1] || 1, wanted[place] || 1);
      return Math.min(isWhole ? deepest : need, last);
    });
    const drawn = new Drawn(end, needs, letterAt);
    if (drawn.count <= most || last === 1) {
      const hasMore = end.ligands.some((node, place) => node && needs[place] < last && node.children.length > 0);
      return Object.assign(drawn, { last, isCut: last < deepest, hasMore });
    }
  }
}

// The last sphere that a decision needs: one more where only the item tells what decides, so that its letters have
// their surroundings; all of them where two ligands tie as far as the digraph goes.
function sphereWanted({ tree }, { rule, sphere, isOfItem }) {
  if (!rule) return tree.spheres.length - 1;
  return isOfItem ? sphere + 1 : sphere;
}

class Drawn {
  constructor(end, needs, letterAt) {
    Object.assign(this, { end, needs, letterAt, count: 1, places: new Map() });
    const ligands = end.ligands.map((node, place) => (node ? this.branch(node, needs[place]) : this.pair()));
    this.root = { node: end.tree.nodes[0], sphere: 0, members: 1, children: ligands, letter: "" };
    this.places.set(this.root.node, this.root);
  }

  pair() {
    this.count++;
    return { node: null, sphere: 1, members: 1, children: [], letter: "" };
  }

  branch(node, last) {
    const drawn = { node, sphere: node.sphere, members: 1, letter: this.letterAt(node), children: [] };
    if (node.sphere < last) drawn.children = this.folded(sortedChildren(node, this.end.numbers), last);
    const { edges } = this.end.tree.molecule.vertices[node.vertex];
    const goesOn = node.kind === "real" && (edges.length > 1 || edges.some((edge) => edge.counted));
    drawn.isCut = goesOn && drawn.children.length === 0;
    drawn.shape = this.shapeOf(drawn);
    this.places.set(node, drawn);
    this.count++;
    return drawn;
  }

  // Siblings from the highest down; the same branches side by side become one. Duplicates are never folded, nor are
  // single atoms whose branches go on outside the drawing.
  folded(children, last) {
    const rows = [];
    for (const child of children) {
      const before = this.count, drawn = this.branch(child, last), above = rows[rows.length - 1];
      const isFolded = above && above.shape === drawn.shape && child.kind === "real" && !drawn.isCut;
      if (!isFolded) rows.push(drawn);
      else {
        above.members++;
        this.count = before;
        this.places.set(child, above);
      }
    }
    return rows;
  }

  shapeOf({ node, letter, children }) {
    const { numbers } = this.end;
    const below = children.map((child) => `${child.members}${child.shape}`).join(" ");
    return `${node.kind[0]}${node.key}.${node.distance}.${node.mass}.${numbers[node.id]}${letter}(${below})`;
  }

  placeOf(node) { return this.places.get(node); }
}

// The letter of an item at a real node: that of the centre there, or of the double bond or axis whose nearer end it is.
export function lettersOf(labels) {
  const centres = new Map(), pairs = new Map();
  for (const { ends, letter } of labels) {
    const [one, other] = ends;
    if (other === undefined) centres.set(one, letter);
    else for (const end of ends) pairs.set(end, [...(pairs.get(end) || []), [one + other - end, letter]]);
  }
  const reaches = (node, vertex, left) => left > 0 && node.children.some((child) =>
    child.kind === "real" && (child.vertex === vertex || reaches(child, vertex, left - 1)));
  return (node) => {
    if (node.kind !== "real" || node.sphere === 0) return "";
    const found = [centres.get(node.vertex)];
    for (const [other, letter] of pairs.get(node.vertex) || []) if (reaches(node, other, 3)) found.push(letter);
    return found.filter(Boolean).join(" ");
  };
}
