// The molecule of a record as the rules see it. The forms are those of crates/cip_mol/specs and
// crates/cip_mancude/specs. Nothing here touches a document.

const SYMBOLS = (
  "H He Li Be B C N O F Ne Na Mg Al Si P S Cl Ar K Ca Sc Ti V Cr Mn Fe Co Ni Cu Zn Ga Ge As Se Br Kr Rb Sr Y Zr Nb " +
  "Mo Tc Ru Rh Pd Ag Cd In Sn Sb Te I Xe Cs Ba La Ce Pr Nd Pm Sm Eu Gd Tb Dy Ho Er Tm Yb Lu Hf Ta W Re Os Ir Pt Au " +
  "Hg Tl Pb Bi Po At Rn Fr Ra Ac Th Pa U Np Pu Am Cm Bk Cf Es Fm Md No Lr Rf Db Sg Bh Hs Mt Ds Rg Cn Nh Fl Mc Lv Ts Og"
).split(" ");
const NUMBERS = new Map(SYMBOLS.map((symbol, place) => [symbol, place + 1]));
const HEAVY_HYDROGEN = new Map([["D", 2], ["T", 3]]);
const OUTER_ELECTRONS = new Map([[15, 5], [33, 5], [16, 6], [34, 6]]);
const RADICAL_ELECTRONS = [0, 2, 1, 2];
const LARGEST_RING = 24;
const MOST_RING_STEPS = 200_000;

export function symbolOf(z) { return SYMBOLS[z - 1] || "?"; }

// The graph of a record: atoms, then implicit hydrogens by the atoms that carry them; bonds that give duplicates;
// lone pairs; and where the double bond of an alternating atom can stand.
export function* moleculeOf({ atoms, bonds }) {
  const vertices = atoms.map((atom, place) => ({
    z: HEAVY_HYDROGEN.has(atom.symbol) ? 1 : NUMBERS.get(atom.symbol) || 0,
    isotope: atom.isotope || HEAVY_HYDROGEN.get(atom.symbol) || 0, charge: atom.charge, name: String(place + 1),
    edges: [],
  }));
  for (const { first, second, order } of bonds) {
    vertices[first].edges.push({ to: second, order, counted: false });
    vertices[second].edges.push({ to: first, order, counted: false });
  }
  atoms.forEach((atom, place) => complete(vertices, place, atom));
  for (const vertex of vertices) {
    vertex.edges.sort((one, other) => one.to - other.to);
    for (const edge of vertex.edges) {
      edge.counted = edge.order > 1 && !vertex.neglects && !vertices[edge.to].neglects;
    }
  }
  return { vertices, positions: yield* positionsOf(vertices) };
}

// Implicit hydrogens and lone pair of an atom, and whether its multiple bonds are neglected.
function complete(vertices, place, { hydrogens, radical }) {
  const vertex = vertices[place], outer = OUTER_ELECTRONS.get(vertex.z);
  const orders = vertex.edges.reduce((sum, edge) => sum + edge.order, 0);
  for (let count = 0; count < hydrogens; count++) {
    vertices.push({ z: 1, isotope: 0, charge: 0, name: "H", edges: [{ to: place, order: 1, counted: false }] });
    vertex.edges.push({ to: vertices.length - 1, order: 1, counted: false });
  }
  const used = orders + hydrogens + (RADICAL_ELECTRONS[radical] || 0);
  vertex.hasPair = outer !== undefined && outer - vertex.charge - used === 2;
  vertex.neglects = outer !== undefined && vertex.edges.length + (vertex.hasPair ? 1 : 0) >= 4;
}

// Where the double bond of each alternating atom can stand; nothing for other atoms.
function* positionsOf(vertices) {
  const partners = vertices.map(({ edges }) => {
    const counted = edges.filter((edge) => edge.counted);
    return counted.length === 1 && counted[0].order === 2 && edges.length <= 3 ? counted[0].to : -1;
  });
  const singles = vertices.map(({ edges }) =>
    edges.filter((edge) => edge.order === 1 && partners[edge.to] >= 0).map((edge) => edge.to));
  const positions = [];
  for (const [place, { edges }] of vertices.entries()) {
    const isPosition = ({ to }) => to === partners[place] ||
      (singles[place].includes(to) && closesRing(partners, singles, place, to));
    positions.push(partners[place] < 0 ? [] : edges.filter(isPosition).map((edge) => edge.to));
    yield;
  }
  return positions;
}

// Whether the single bond between two atoms lies in a ring of alternating atoms, over the double bond of the first.
function closesRing(partners, singles, from, target) {
  const begin = partners[from];
  if (begin === target || partners[begin] < 0) return false;
  const used = new Set([from, begin]);
  let steps = 0;
  const goesOn = (last, length) => {
    if (length + 2 > LARGEST_RING) return false;
    for (const next of singles[last]) {
      if (++steps > MOST_RING_STEPS) return false;
      const over = partners[next];
      if (used.has(next) || used.has(over) || partners[over] < 0) continue;
      if (over === target) return true;
      used.add(next).add(over);
      if (goesOn(over, length + 2)) return true;
      used.delete(next);
      used.delete(over);
    }
    return false;
  };
  return goesOn(begin, 2);
}
