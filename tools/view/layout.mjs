// The digraph of a unit's end as a picture of plain shapes {name, attributes, children}: classes and attributes alone,
// no shape has a style of its own.
import { drawnOf } from "./branches.mjs";
import { fixed } from "./elements.mjs";
import { symbolOf } from "./molecule.mjs";
import { sortedChildren } from "./ranking.mjs";
import { EARLY_RULES, RANKS } from "./rules.mjs";
import { lateText, nameOf, setText } from "./words.mjs";

const ROW = 21, APART = 9, TOP = 34, LEFT = 14, DISC = 8, STEEP = 75;
const NARROW = new Set("(),.:;[]il ");
const WIDE = new Set("CDGHNOQUmwMW");
const WIDEST = new Set("⅓½⅔");
const PLAIN = { colour: (symbol) => symbol, letterAt: () => "", isWhole: false };

// Between two columns; where there is less, a column's head has its number alone.
export const GAP = 44;
export const NARROW_GAP = 27;

function plainShape(name, attributes, ...children) { return { name, attributes, children }; }

function textWidth(text, size) {
  let width = 0;
  for (const letter of text) {
    width += WIDEST.has(letter) ? 1.03 : WIDE.has(letter) ? 0.8 : NARROW.has(letter) ? 0.42 : 0.69;
  }
  return width * size;
}

// The picture of an end as shapes, with its width and height, and what its signs mean.
export function pictureOf(end, asked = {}) {
  const options = { ...PLAIN, gap: GAP, ...asked };
  if (end.letters) options.letterAt = (node) => end.letters.get(node) || "";
  options.hasDistances = end.decisions.some(({ rule }) => rule === "1b");
  const drawn = drawnOf(end, options);
  options.last = drawn.last;
  const places = placed(drawn, options), bold = boldOf(drawn, chosenDecisions(end, options.decision));
  const size = Math.max(0, ...bold.sets.map(({ node }) => node.children.length));
  const sets = bold.sets.map((set) => setShapes(drawn, places, set, size));
  const discs = end.ligands.flatMap((_, place) => discShapes(drawn.root.children[place], place));
  const shapes = [
    headShapes(places, end.last.sphere, options.gap), ...edgeShapes(places.all, bold), ...sets.map((set) => set.box),
    ...places.all.map((item) => labelShape(item, bold, end)), ...discs, ...sets.map((set) => set.text),
  ];
  const { width, height } = sizeOf(places, sets);
  const svg = plainShape("svg", {
    viewBox: `0 0 ${fixed(width)} ${fixed(height)}`, width: fixed(width), height: fixed(height), role: "img",
    "aria-label": options.title || "Digraph",
  }, ...shapes);
  return { svg, width, height, drawn, signs: signsOf(places.all, options) };
}

function sizeOf({ xs, columns, bottom }, sets) {
  const left = xs[xs.length - 1], last = columns[columns.length - 1];
  const right = Math.max(left + last, left + last / 2 + 32, ...sets.map((set) => set.right));
  return { width: right + 12, height: bottom + 2 };
}

// What is in bold: the decisions of the last rule in its greatest sphere, unless another one is asked for.
export function chosenDecisions(end, asked) {
  if (asked !== undefined) return [end.decisions[asked]];
  return end.decisions.filter(({ rule, sphere }) => rule === end.last.rule && sphere === end.last.sphere);
}

// ---- Places

// Columns are spheres; a leaf has a row, and what has children stands in the middle of them.
function placed(drawn, options) {
  const columns = [], all = [], gap = options.gap;
  let bottom = TOP;
  const lay = (item, parent) => {
    Object.assign(item, { parent, parts: partsOf(drawn.end.tree, item, options) });
    item.width = partsWidth(item.parts);
    columns[item.sphere] = Math.max(columns[item.sphere] || 0, item.width);
    all.push(item);
    if (!item.children.length) {
      item.y = bottom;
      bottom += ROW;
      return;
    }
    item.children.forEach((child, place) => {
      const above = item.children[place - 1];
      if (place && (child.children.length || above.children.length)) bottom += item.sphere ? APART / 2 : APART;
      lay(child, item);
    });
    item.y = (item.children[0].y + item.children[item.children.length - 1].y) / 2;
  };
  lay(drawn.root, null);
  const xs = [LEFT];
  for (let sphere = 1; sphere < columns.length; sphere++) {
    xs[sphere] = xs[sphere - 1] + columns[sphere - 1] + gap + (sphere === 1 ? 14 : 0);
  }
  for (const item of all) item.x = xs[item.sphere];
  return { all, columns, xs, bottom };
}

// The parts of a node's label as they stand beside each other: text, class, and how far they are moved down.
function partsOf(tree, drawn, options) {
  const { node } = drawn;
  if (!node) return [{ text: ":", kind: "atom pair" }];
  const before = drawn.sphere === 0 && options.before ? [{ text: options.before, kind: "times" }] : [];
  return [...before, ...symbolParts(tree, drawn, options), ...signParts(tree, drawn, options)];
}

function symbolParts(tree, { node, members, children }, { colour }) {
  const { isotope } = tree.molecule.vertices[node.vertex], name = nameOf(tree, node);
  if (node.kind !== "real") return [{ text: `(${name})`, kind: "atom duplicate" }];
  const kind = "atom " + colour(name), parts = [];
  if (isotope) parts.push({ text: String(isotope), kind: kind + " script", down: -5 });
  parts.push({ text: name, kind });
  if (members > 1 && !children.length) parts.push({ text: String(members), kind: kind + " script", down: 4 });
  return parts;
}

function signParts(tree, { node, members, letter, children, isCut, sphere }, { hasDistances, isNumbered, last }) {
  const parts = [], isReal = node.kind === "real", { name } = tree.molecule.vertices[node.vertex];
  if (!isReal && hasDistances) parts.push({ text: String(node.distance), kind: "script distance", down: -5 });
  if (isReal && isNumbered && members === 1 && name !== "H") {
    parts.push({ text: name, kind: "script locant", down: -5 });
  }
  if (letter) parts.push({ text: " " + letter, kind: "script sense", down: -4 });
  if (members > 1 && children.length) parts.push({ text: " ×" + members, kind: "script times" });
  if (isCut && sphere < last) parts.push({ text: " …", kind: "times" });
  return parts;
}

function partsWidth(parts) {
  return parts.reduce((sum, { text, kind }) => sum + textWidth(text, kind.includes("script") ? 10 : 15), 0);
}

// What the signs in a picture mean, of those that it has.
function signsOf(all, { last, hasDistances }) {
  const isDuplicate = ({ node }) => node && node.kind !== "real";
  const isMean = (item) => isDuplicate(item) && item.parts.some(({ text }) => /\d/.test(text[1]));
  return [
    [all.some(isDuplicate), "in brackets: duplicates"],
    [all.some(isMean), "a number: the mean for a delocalised double bond"],
    [hasDistances, "raised: the sphere of what a duplicate stands for"],
    [all.some(({ members, children }) => members > 1 && children.length), "×: so many branches alike"],
    [all.some(({ isCut, sphere }) => isCut && sphere < last), "…: goes on, but decides nothing"],
  ].filter(([isThere]) => isThere).map(([, text]) => text);
}

// ---- What decides

// The paths to the sets that decide, and these sets.
function boldOf(drawn, decisions) {
  const bold = { path: new Set(), labels: new Set(), sets: [] };
  for (const decision of decisions) {
    const { sphere, higher, lower, parted, isOfItem } = decision;
    if (isOfItem) boldLetters(drawn, bold, [higher, lower], sphere);
    if (parted && parted.every((node) => isSeen(drawn, node))) boldSets(drawn, bold, decision);
    else boldLigands(drawn, bold, [higher, lower]);
  }
  return bold;
}

function isSeen(drawn, node) {
  const item = drawn.placeOf(node);
  return item && (item.children.length > 0 || node.children.length === 0);
}

function boldSets(drawn, bold, decision) {
  decision.parted.forEach((node, side) => {
    const item = drawn.placeOf(node);
    for (let above = node; above; above = above.parent) bold.path.add(drawn.placeOf(above));
    for (const child of item.children) bold.labels.add(child);
    if (!bold.sets.some((other) => other.item === item)) bold.sets.push({ item, node, decision, side });
  });
}

function boldLigands(drawn, bold, ligands) {
  const pair = drawn.root.children.find((child) => !child.node);
  for (const item of ligands.map((node) => (node ? drawn.placeOf(node) : pair)).filter(Boolean)) {
    bold.labels.add(item);
    bold.path.add(item);
  }
}

// Nodes with a letter in two branches, up to the deciding sphere.
function boldLetters(drawn, bold, ligands, sphere) {
  const visit = (item) => {
    if (item.letter && item.sphere <= sphere) {
      bold.labels.add(item);
      for (let above = item; above.parent; above = above.parent) bold.path.add(above);
    }
    item.children.forEach(visit);
  };
  ligands.forEach((node) => visit(drawn.placeOf(node)));
}

// ---- Shapes

function headShapes({ xs, columns, bottom }, deciding, gap) {
  const side = gap / 2, bands = [], heads = [];
  xs.forEach((x, sphere) => {
    const isDeciding = sphere > 0 && sphere === deciding, kind = isDeciding ? "sphere deciding" : "sphere";
    const box = { x: x - side, y: 0, width: columns[sphere] + 2 * side, height: bottom + 2 };
    if (isDeciding) bands.push(plainShape("rect", { class: "band " + kind, ...box }));
    const head = sphere === 0 ? "root" : sphere > 1 && gap < GAP ? String(sphere) : `sphere ${sphere}`;
    const [middle, anchor] = sphere ? [x + columns[sphere] / 2, "middle"] : [x - 8, "start"];
    heads.push(plainShape("text", { class: kind, x: middle, y: 13, "text-anchor": anchor }, head));
  });
  return plainShape("g", {}, ...bands, ...heads);
}

// Bold edges come last, so that no other one is drawn over them.
function edgeShapes(all, bold) {
  const isBold = (item) => bold.path.has(item) || (bold.labels.has(item) && bold.path.has(item.parent));
  const items = all.filter(({ parent }) => parent);
  return [...items.filter((item) => !isBold(item)).map((item) => edgeShape(item, "")),
    ...items.filter(isBold).map((item) => edgeShape(item, " bold"))];
}

// A straight line, or where some child of the node stands far above or below it, a bend of a bracket.
function edgeShape(item, bold) {
  const { parent } = item, kind = (item.node && item.node.kind === "real" ? "edge" : "edge weak") + bold;
  const x1 = fixed(parent.x + parent.width + 4), x2 = fixed(item.x - (item.sphere === 1 ? 2 * DISC + 7 : 4));
  const y1 = fixed(parent.y), y2 = fixed(item.y), high = y2 - y1;
  const isSteep = parent.children.some((child) => Math.abs(child.y - parent.y) > STEEP);
  if (!isSteep || Math.abs(high) < 1) return plainShape("path", { class: kind, d: `M${x1} ${y1}L${x2} ${y2}` });
  const middle = fixed(x1 + Math.min(14, (x2 - x1) / 2)), bend = Math.min(6, Math.abs(high)) * Math.sign(high);
  const curve = `Q${middle} ${y2} ${fixed(middle + Math.abs(bend))} ${y2}`;
  return plainShape("path", { class: kind, d: `M${x1} ${y1}H${middle}V${fixed(y2 - bend)}${curve}H${x2}` });
}

function labelShape(item, bold, end) {
  const parts = [];
  let down = 0;
  for (const { text, kind, down: wanted = 0 } of item.parts) {
    parts.push(plainShape("tspan", { class: kind, dy: wanted - down }, text));
    down = wanted;
  }
  const kind = "node" + (bold.labels.has(item) ? " bold" : "");
  const hint = item.node ? [plainShape("title", {}, hintOf(item, end))] : [];
  return plainShape("text", { class: kind, x: item.x, y: item.y + 5.3, "xml:space": "preserve" }, ...hint, ...parts);
}

// What a node is, in words.
function hintOf({ node, members }, { tree }) {
  const { vertices, positions } = tree.molecule;
  const told = (place) => symbolOf(vertices[place].z) + (vertices[place].name === "H" ? "" : vertices[place].name);
  if (node.kind === "real") return (members > 1 ? `${members} alike: ` : "") + told(node.vertex);
  if (node.kind === "closure") return `duplicate of ${told(node.vertex)}, which is on the path: a ring closes`;
  if (node.kind === "multiple") return `duplicate of ${told(node.vertex)} for a multiple bond`;
  return `duplicate for a double bond to one of ${positions[node.vertex].map(told).join(", ")}: their mean`;
}

function discShapes(item, place) {
  const x = item.x - DISC - 5, { y } = item, rank = "rank" + (place + 1);
  return [
    plainShape("circle", { class: "disc " + rank, cx: x, cy: y, r: DISC }),
    plainShape("text", { class: "digit " + rank, x, y: y + 4 }, RANKS[place]),
  ];
}

// A box around a set, and the set in words to its right.
function setShapes({ end }, { columns, xs }, { item, node, decision, side }, size) {
  if (!item.children.length) return noSetShapes(item, size);
  const first = item.children[0], last = item.children[item.children.length - 1];
  const width = Math.max(...item.children.map((child) => child.width)), early = EARLY_RULES.indexOf(decision.rule);
  const text = early < 0 ? lateText(end, node.children, decision, side) :
    setText(end.tree, sortedChildren(node, end.found[early][0]), decision.rule, size);
  const x = xs[xs.length - 1] + columns[columns.length - 1] + 12, y = (first.y + last.y) / 2;
  const box = { x: first.x - 5, y: first.y - 10, width: width + 10, height: last.y - first.y + 20, rx: 5 };
  return {
    box: plainShape("rect", { class: "set", ...box }), right: x + textWidth(text, 15),
    text: plainShape("text", { class: "settext", x, y: y + 5 }, text),
  };
}

// Of a node without children, which has phantoms alone.
function noSetShapes(item, size) {
  const text = `{${Array(Math.max(1, size)).fill("0").join(",")}}`, x = item.x + item.width + 10;
  return {
    box: plainShape("g", {}), right: x + textWidth(text, 15),
    text: plainShape("text", { class: "settext", x, y: item.y + 5 }, text),
  };
}
