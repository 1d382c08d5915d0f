// The hierarchical digraph of a unit's end. IUPAC 2013, P-92.1.4 and P-92.2; the forms are those of
// crates/cip_digraph/specs. A node is told by its kind, its vertex, its parent and its sphere; the root
// has sphere 0.

// in half units, as crates/cip_elem has them
const NATURAL_HALVES = new Map([
  [1, 3], [3, 13], [5, 21], [6, 25], [7, 29], [8, 33], [9, 38], [14, 57], [15, 62], [16, 65], [17, 71], [34, 159],
  [35, 159], [53, 254],
]);

export const MOST_NODES = 100_000;

export function digraphOf(molecule, root, wording) {
  const tree = { molecule, wording, nodes: [], spheres: [[]], isWhole: false, isOver: false };
  addNode(tree, "real", root, null);
  return tree;
}

function addNode(tree, kind, vertex, parent) {
  const node = { id: tree.nodes.length, kind, vertex, parent, sphere: parent ? parent.sphere + 1 : 0, children: [] };
  tree.nodes.push(node);
  tree.spheres[node.sphere].push(node);
  if (parent) parent.children.push(node);
  node.key = atomicKey(tree.molecule, node);
  node.counterpart = counterpartOf(tree, node);
  node.distance = node.counterpart.sphere;
  node.mass = massKey(tree.molecule, node);
}

// One sphere more; false where there is none, or where there would be more nodes than the limit.
export function* growSphere(tree, limit) {
  if (tree.isWhole || tree.isOver) return false;
  const last = tree.spheres.length - 1, before = tree.nodes.length;
  tree.spheres.push([]);
  for (const [place, node] of tree.spheres[last].entries()) {
    if (node.kind === "real") addChildren(tree, node);
    if (tree.nodes.length > limit) {
      for (const other of tree.spheres[last]) other.children = [];
      tree.nodes.length = before;
      tree.spheres.pop();
      tree.isOver = true;
      return false;
    }
    if (place % 1000 === 999) yield;
  }
  if (tree.nodes.length > before) return true;
  tree.spheres.pop();
  tree.isWhole = true;
  return false;
}

// A neighbour off the path is a real node, one on it but the parent a closure; a counted bond gives a duplicate for
// each order above one.
function addChildren(tree, node) {
  const { vertices, positions } = tree.molecule;
  for (const edge of vertices[node.vertex].edges) {
    if (!node.parent || edge.to !== node.parent.vertex) {
      addNode(tree, ancestor(node, edge.to) ? "closure" : "real", edge.to, node);
    }
    for (let order = 1; edge.counted && order < edge.order; order++) {
      const isSpread = edge.order === 2 && positions[node.vertex].length > 1;
      addNode(tree, isSpread ? "delocalised" : "multiple", isSpread ? node.vertex : edge.to, node);
    }
  }
}

function ancestor(node, vertex) {
  let above = node;
  while (above && above.vertex !== vertex) above = above.parent;
  return above;
}

// In sixths, so that means over two and three positions are whole.
function atomicKey({ vertices, positions }, { kind, vertex }) {
  if (kind !== "delocalised") return 6 * vertices[vertex].z;
  const others = positions[vertex];
  return (6 * others.reduce((sum, other) => sum + vertices[other].z, 0)) / others.length;
}

// The node whose sphere counts in Rule 1b: a node itself, or what it repeats; of a multiple bond's duplicate, by the
// wording.
function counterpartOf(tree, node) {
  if (node.kind === "real") return node;
  if (node.kind === "closure") return ancestor(node.parent, node.vertex);
  if (node.kind === "delocalised" || tree.wording !== "2013") return node.parent;
  return ancestor(node.parent, node.vertex) ||
    node.parent.children.find((other) => other.kind === "real" && other.vertex === node.vertex);
}

function massKey({ vertices }, { kind, vertex }) {
  if (kind !== "real") return 0;
  const { isotope, z } = vertices[vertex];
  return isotope ? 2 * isotope : NATURAL_HALVES.get(z) || 1;
}

// The digraph seen from another real node: the same nodes and neighbours, with spheres from there. `inside` are the
// nodes strictly below that node.
export function viewFrom(tree, root) {
  const view = { molecule: tree.molecule, nodes: [], spheres: [], isWhole: true };
  const copies = new Map();
  let row = [[root, null, false]];
  while (row.length) {
    const next = [], copied = [];
    for (const [node, from, inside] of row) {
      const copy = { id: view.nodes.length, kind: node.kind, vertex: node.vertex, key: node.key, mass: node.mass,
        sphere: view.spheres.length, children: [], original: node, inside, parent: from };
      view.nodes.push(copy);
      copied.push(copy);
      copies.set(node, copy);
      if (from) from.children.push(copy);
      const isNew = (other) => other && (!from || from.original !== other);
      for (const child of node.children.filter(isNew)) next.push([child, copy, inside || node === root]);
      if (isNew(node.parent)) next.push([node.parent, copy, false]);
    }
    view.spheres.push(copied);
    row = next;
  }
  for (const copy of view.nodes) copy.distance = copies.get(copy.original.counterpart).sphere;
  return view;
}

// Both readings of Rule 4b side by side: each node with reference kind R, and again with kind S.
export function bothReadings(tree) {
  const size = tree.nodes.length, twin = { nodes: [], spheres: [] };
  const copyOf = (node, side) => ({ id: node.id + side * size, node, side, children: [] });
  const copies = [0, 1].map((side) => tree.nodes.map((node) => copyOf(node, side)));
  copies.forEach((row) => row.forEach((copy) => { copy.children = copy.node.children.map((child) => row[child.id]); }));
  twin.nodes = copies.flat();
  twin.spheres = tree.spheres.map((sphere) => copies.flatMap((row) => sphere.map((node) => row[node.id])));
  return { twin, copies };
}
