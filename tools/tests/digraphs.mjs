// Compares the digraphs of pages with the items in them, and looks at each picture: node digraphs.mjs VIEW PAGE ...
// VIEW is the folder of the page's modules. A line with what differs is printed for each unit, and counts at the end;
// the status is 1 where something differs.
import { readFileSync } from "node:fs";
import { resolve } from "node:path";
import { pathToFileURL } from "node:url";

const [folder, ...pages] = process.argv.slice(2);
const load = (name) => import(pathToFileURL(resolve(folder, name)));
const { MOST_DRAWN, lettersOf } = await load("branches.mjs");
const { endsOf } = await load("deciding.mjs");
const { pictureOf } = await load("layout.mjs");
const { moleculeOf } = await load("molecule.mjs");
const { sortedChildren } = await load("ranking.mjs");
const { labelsOf, recordOf } = await load("records.mjs");
const { EARLY_RULES, TURNS } = await load("rules.mjs");
const { finished } = await load("slices.mjs");
const { linesOf, setText } = await load("words.mjs");

const RECORDS = /<script type="application\/json" id="records">([^<]*)<\/script>/;
const ESCAPES = { "&": "&amp;", "<": "&lt;", ">": "&gt;", '"': "&quot;" };
const counts = new Map();
let slowest = 0, differing = 0;

function count(what) { counts.set(what, (counts.get(what) || 0) + 1); }

function escaped(text) { return String(text).replace(/[&<>"]/g, (letter) => ESCAPES[letter]); }

// A picture as the text of an SVG file.
function markup({ name, attributes, children }) {
  const words = Object.entries(attributes).map(([key, value]) => ` ${key}="${escaped(value)}"`);
  const inside = children.map((child) => (typeof child === "string" ? escaped(child) : markup(child))).join("");
  return `<${name}${words.join("")}>${inside}</${name}>`;
}

// What differs between the ranking of a unit's ends and its item, or nothing.
function differenceOf({ rule, sphere }, ends) {
  const decisions = ends.flatMap((end) => end.decisions);
  if (ends.some((end) => end.ligands.some((node) => node === undefined))) return "a ligand isn't found";
  if (ends.some((end) => end.tree.isOver && end.decisions.some((decision) => !decision.rule))) return "over";
  if (ends.some((end) => !end.isInOrder)) return "another order";
  if (decisions.some((decision) => decision.isFirst === false)) return "another order";
  if (decisions.some((decision) => !decision.rule)) return "a tie";
  if (decisions.some((decision) => decision.isOfItem)) return "not told by descriptors";
  const early = decisions.filter((decision) => !decision.isLate);
  if (!EARLY_RULES.includes(rule)) return early.length < decisions.length ? "" : "no tie by the early rules";
  if (early.length < decisions.length) return "a tie";
  const last = Math.max(...early.map((decision) => TURNS.indexOf(decision.rule)));
  if (TURNS[last] !== rule) return "another rule";
  const spheres = early.filter((decision) => decision.rule === rule).map((decision) => decision.sphere);
  return Math.max(...spheres) === sphere ? "" : "another sphere";
}

// What is wrong with the picture of an end: its sets that decide have to be drawn, and to be those of the words.
function faultOf(end, letterAt) {
  const { svg, drawn } = pictureOf(end, { letterAt });
  if (drawn.count > MOST_DRAWN && drawn.last > 1) return "too many nodes";
  if (/NaN|undefined|Infinity/.test(markup(svg))) return "no numbers";
  for (const decision of end.decisions) {
    const lines = linesOf(end, decision, letterAt);
    const fault = decision.isLate || !decision.parted ? "" : setFault(end, drawn, decision, lines);
    if (fault) return fault;
  }
  return "";
}

function setFault(end, drawn, { rule, parted, steps, sphere }, lines) {
  const last = lines[lines.length - 1], before = lines.slice(0, -1);
  const sets = parted.map((node) => sortedChildren(node, steps[0]));
  const size = Math.max(...sets.map((set) => set.length));
  const texts = sets.map((set) => setText(end.tree, set, rule, size));
  if (last.sphere !== sphere || last.relation !== ">") return "no last line";
  if (last.higher[last.differs] !== texts[0] || last.lower[last.differs] !== texts[1]) return "other sets in words";
  if (texts[0] === texts[1]) return "the same sets";
  const isTie = (line) => line.higher.join() === line.lower.join() && line.relation === "=";
  if (!before.every(isTie)) return "no tie before";
  if (drawn.isCut) return "";
  const members = parted.map((node) => drawn.placeOf(node)?.children.reduce((sum, child) => sum + child.members, 0));
  return members[0] === sets[0].length && members[1] === sets[1].length ? "" : "another set is drawn";
}

function checkUnit(record, molecule, unit, where) {
  const begin = performance.now();
  const labels = [...record.labels, ...record.senses], letterAt = lettersOf(record.labels);
  const ends = finished(endsOf(molecule, unit, { wording: record.wording, labels }));
  const faults = [differenceOf(unit, ends), ...ends.map((end) => faultOf(end, letterAt))].filter(Boolean);
  slowest = Math.max(slowest, performance.now() - begin);
  count(`Rule ${unit.rule}: ${faults.length ? "differs" : "agrees"}`);
  for (const decision of ends.flatMap((end) => end.decisions)) {
    if (decision.isLate) count(`Rule ${decision.rule}: told by descriptors`);
  }
  if (faults.length) {
    differing++;
    console.log(`${where} ${unit.unit} ${unit.letter} ${unit.rule} ${unit.sphere}: ${faults.join(", ")}`);
  }
}

for (const path of pages) {
  const records = JSON.parse(RECORDS.exec(readFileSync(path, "utf8"))[1]).map(recordOf);
  for (const record of records.filter((one) => one.atoms.length)) {
    const molecule = finished(moleculeOf(record));
    for (const unit of labelsOf(record)) checkUnit(record, molecule, unit, `${path} record ${record.number}`);
  }
}
for (const [what, number] of [...counts].sort()) console.log(`${number} ${what}`);
console.log(`${differing} differ; the slowest took ${Math.round(slowest)} ms`);
process.exitCode = differing ? 1 : 0;
