// Comparison of branches, sphere by sphere, by one key. IUPAC 2013, P-92.1.4; the forms are those of
// crates/cip_rank/specs.

// Numbers by which the nodes of each sphere are ordered, by depth: the earlier order and then a key at depth 0, and one
// sphere further down at each next depth. A higher number is a higher node. Of a tree that isn't whole, a number counts
// only where the depth doesn't reach past its last sphere; behind the last depth nothing changes.
// With `until`, the depths end where it holds of the numbers.
export function* stepsOf(tree, earlier, keyOf, until = () => false) {
  let numbers = new Int32Array(tree.nodes.length);
  for (const sphere of tree.spheres) {
    numberBy(sphere, numbers, (a, b) => (earlier ? earlier[a.id] - earlier[b.id] : 0) || keyOf(a) - keyOf(b));
    yield;
  }
  const steps = [numbers];
  for (let depth = 1; depth < tree.spheres.length && !until(numbers); depth++) {
    const next = yield* nextNumbers(tree, numbers, depth);
    if (!next) break;
    numbers = next;
    steps.push(numbers);
  }
  return steps;
}

// The numbers one sphere further down, or nothing where they are the same.
function* nextNumbers(tree, numbers, depth) {
  const next = numbers.slice();
  let isChanged = false;
  for (let sphere = 0; sphere + depth < tree.spheres.length; sphere++) {
    const sets = new Map(tree.spheres[sphere].map((node) => [node, childNumbers(node, numbers)]));
    const compare = (a, b) => numbers[a.id] - numbers[b.id] || compareLists(sets.get(a), sets.get(b));
    isChanged = numberBy(tree.spheres[sphere], next, compare) || isChanged;
    yield;
  }
  return isChanged ? next : null;
}

function childNumbers(node, numbers) { return node.children.map((child) => numbers[child.id]).sort((a, b) => b - a); }

// Place by place; what lacks is a phantom, which is below all.
function compareLists(one, other) {
  for (let place = 0; place < Math.min(one.length, other.length); place++) {
    if (one[place] !== other[place]) return one[place] - other[place];
  }
  return one.length - other.length;
}

// Numbers nodes as a comparison orders them; whether this parts some that had one number.
function numberBy(nodes, numbers, compare) {
  const sorted = [...nodes].sort(compare), before = sorted.map((node) => numbers[node.id]);
  let value = 0, isChanged = false;
  sorted.forEach((node, place) => {
    if (place && compare(sorted[place - 1], node) !== 0) {
      value = place;
      isChanged = isChanged || before[place] === before[place - 1];
    }
    numbers[node.id] = value;
  });
  return isChanged;
}

export function finalOf(steps) { return steps[steps.length - 1]; }

export function arePartedBy(numbers, nodes) {
  return new Set(nodes.map((node) => numbers[node.id])).size === nodes.length;
}

// The least depth at which two nodes differ, or -1.
export function depthOf(steps, a, b) { return steps.findIndex((numbers) => numbers[a.id] !== numbers[b.id]); }

// The children of a node from the highest down; of those that tie, atoms stand before duplicates.
export function sortedChildren(node, numbers) {
  const isDuplicate = ({ kind }) => (kind === "real" ? 0 : 1);
  return [...node.children].sort((a, b) =>
    numbers[b.id] - numbers[a.id] || isDuplicate(a) - isDuplicate(b) || a.id - b.id);
}

// The sets of a sphere below a ligand in hierarchical order, each as nodes from the highest down.
export function setsOf(steps, ligand, sphere) {
  if (sphere === 1) return [[ligand]];
  let nodes = [ligand];
  for (let above = 2; above < sphere; above++) {
    const numbers = steps[Math.min(sphere - above, steps.length - 1)];
    nodes = nodes.flatMap((node) => sortedChildren(node, numbers));
  }
  return nodes.map((node) => sortedChildren(node, steps[0]));
}

// The two nodes at whose sets of children two ligands first differ, which do so at a depth above 0.
export function parting(steps, a, b, depth) {
  for (let [x, y, left] = [a, b, depth]; ; left--) {
    if (left === 1) return [x, y];
    const numbers = steps[Math.min(left - 1, steps.length - 1)];
    const ours = sortedChildren(x, numbers), theirs = sortedChildren(y, numbers);
    const place = ours.findIndex((child, index) => !theirs[index] || numbers[child.id] !== numbers[theirs[index].id]);
    // the first of those that tie, so that what is folded behind it need not be told apart
    [x, y] = [ours, theirs].map((row) => row.find((child) => numbers[child.id] === numbers[row[place].id]));
  }
}
