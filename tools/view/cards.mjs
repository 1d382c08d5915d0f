// The card of a record: its drawing, a line for each unit, and a unit's digraph on demand.
import { lettersOf } from "./branches.mjs";
import { endsOf } from "./deciding.mjs";
import { MOST_NODES } from "./digraph.mjs";
import { asFile, button, element, save, whileOver } from "./elements.mjs";
import { GAP, NARROW_GAP } from "./layout.mjs";
import { moleculeOf } from "./molecule.mjs";
import { fillPanel, rankDisc } from "./panel.mjs";
import { Picture, colour } from "./picture.mjs";
import { strayWedges, unitsWithout, whyNot, wordsOf } from "./reasons.mjs";
import { atomName, isFlagged, isSmall, labelsOf, unitName } from "./records.mjs";
import { RULES } from "./rules.mjs";
import { senseOf } from "./senses.mjs";
import { inSlices } from "./slices.mjs";

const NARROW_WINDOW = 700;

// Cards whose drawing is too wide to stand beside its list have the list below it.
function widthClass({ atoms }) {
  const width = Math.max(0, ...atoms.map(({ x }) => x));
  return width > 1000 ? "card wide widest" : width > 250 ? "card wide" : "card";
}

export function letterBadge(letter) {
  return element("span", "letter " + letter + (isSmall(letter) ? " small" : ""), letter);
}

export function emptyCard(record) {
  const head = element("h2", "", element("span", "number", `${record.number}  `), record.name || "(no name)");
  if (record.isInSpace) head.append(element("small", "", "  in space, projected"));
  const card = element("article", widthClass(record), head);
  card.id = "r" + record.number;
  return card;
}

// A card with all that belongs into it. `page` has the words for kinds of units and for causes, what is given beside the
// items, and if records can be changed what a card has for that.
export class Card {
  constructor(card, record, page) {
    Object.assign(this, { card, record, page, molecule: null });
    this.picture = record.atoms.length ? new Picture(record) : null;
    this.svg = this.picture ? this.picture.drawn() : element("p", "undrawn", "Nothing can be drawn.");
    const drawing = element("div", "", this.svg, ...(this.picture ? [this.saveButton()] : []));
    card.append(element("div", "inside", drawing, element("div", "", ...this.lines())));
  }

  saveButton() {
    const name = `record-${this.record.number}.svg`;
    return button("chip plain keep", () => save(name, "image/svg+xml", asFile(this.svg)), "save as SVG");
  }

  lines() {
    const { record, page } = this, { drawn, others } = unitsWithout(record, page.given), parts = [];
    if (isFlagged(record)) parts.push(element("p", "why", whyNot(record, page)));
    const lines = labelsOf(record).map((unit) => this.labelLine(unit));
    lines.push(...drawn.map((unit) => this.reasonLine(unit)));
    if (lines.length) parts.push(element("ul", "units", ...lines));
    for (const text of strayWedges(record, page.given)) parts.push(element("p", "undrawn", text));
    for (const text of record.unread) parts.push(element("p", "undrawn", `Not read of the other program: ${text}`));
    if (!parts.length) parts.push(element("p", "undrawn", "No unit has a label."));
    if (others.length) parts.push(this.otherList(others));
    if (record.items.length) parts.push(itemList(record));
    return page.changesOf ? [...parts, ...page.changesOf(record)] : parts;
  }

  labelLine(unit) {
    const { letter, rule, sphere } = unit, group = this.record.groups.get(unit.unit);
    const words = [element("div", "rule", `Rule ${rule}, sphere ${sphere}: ${RULES.get(rule) || "?"}`)];
    if (group && group.isOpen) {
      words.push(element("div", "rule", `${group.words}: ${group.letter} as drawn, ${group.other} in its other form`));
    }
    return this.unitLine(unit, letterBadge(letter), words);
  }

  reasonLine(unit) {
    const badge = element("span", "letter none " + (unit.state || ""), unit.state ? "" : "–");
    return this.unitLine(unit, badge, [element("div", "rule", wordsOf(unit))]);
  }

  unitLine(unit, badge, words) {
    const name = unitName(this.record, unit, this.page.kinds);
    const line = element("li", "unit", element("div", "head", badge, element("span", "", name)), ...words);
    const compared = this.record.others.get(unit.unit);
    if (compared) line.append(otherLine(compared));
    if (unit.order && unit.order[0].length) line.append(ranked(this.record, unit.order));
    line.tabIndex = 0;
    line.setAttribute("role", "button");
    line.setAttribute("aria-expanded", "false");
    line.title = "draw its digraph";
    const toggle = () => this.toggle(unit, line, badge);
    line.addEventListener("click", toggle);
    line.addEventListener("keydown", (event) => {
      if (event.key !== "Enter" && event.key !== " ") return;
      event.preventDefault();
      toggle();
    });
    this.lightUp(unit, line, toggle);
    return line;
  }

  // With the pointer on a line or on its badge in the drawing, both and the ligands are lit up.
  lightUp(unit, line, toggle) {
    if (!this.picture) return;
    const badge = this.picture.badges.get(unit.unit);
    let lighting = null;
    const light = (isOn) => {
      if (!lighting) this.svg.append(lighting = this.picture.lighting(unit));
      lighting.classList.toggle("on", isOn);
      line.classList.toggle("lit", isOn);
      if (badge) badge.classList.toggle("lit", isOn);
    };
    whileOver(line, light);
    if (!badge) return;
    whileOver(badge, light);
    badge.addEventListener("click", toggle);
  }

  otherList(units) {
    const lines = units.map((unit) => this.reasonLine(unit));
    const count = lines.length === 1 ? "1 further unit" : `${lines.length} further units`;
    const summary = element("summary", "", `${count} without a letter`);
    return element("details", "", summary, element("ul", "units", ...lines));
  }

  // The digraphs of a unit below its card, one unit at a time.
  toggle(unit, line, badge) {
    const wasOpen = line.getAttribute("aria-expanded") === "true";
    this.close();
    if (!wasOpen && this.picture) this.open(unit, line, badge).catch(reportError);
  }

  close() {
    const panel = this.card.querySelector(".digraph");
    if (panel) panel.remove();
    const line = this.card.querySelector(".unit[aria-expanded=true]");
    if (line) line.setAttribute("aria-expanded", "false");
    this.card.classList.remove("drawn");
  }

  async open(unit, line, badge) {
    const name = unitName(this.record, unit, this.page.kinds);
    const head = element("div", "head", badge.cloneNode(true), `Digraph of ${name}`);
    const working = element("p", "working", "The digraph is grown and ranked …");
    const panel = element("section", "digraph", head, working);
    this.card.append(panel);
    this.card.classList.add("drawn");
    line.setAttribute("aria-expanded", "true");
    const ends = await inSlices(this.ends(unit), () => panel.isConnected);
    if (!ends) return;
    working.remove();
    fillPanel(panel, ends, this.panelOptions(unit, ends));
  }

  * ends(unit) {
    const { record } = this, labels = [...record.labels, ...record.senses];
    this.molecule = this.molecule || (yield* moleculeOf(record));
    const limit = Math.min(MOST_NODES, record.nodes || MOST_NODES);
    return yield* endsOf(this.molecule, unit, { wording: record.wording, limit, labels });
  }

  panelOptions({ unit, ends: places, letter = "", order = [] }, ends) {
    const names = places.length > 1 ? places.map((place) => atomName(this.record, String(place + 1))) : null;
    const isOfItem = ends.some(({ decisions }) => decisions.some((decision) => decision.isOfItem));
    const ligands = order.map((some) => some.map((name) => atomName(this.record, name)));
    return {
      sense: senseOf(letter, ligands), hasSmallLetter: letter !== "" && isSmall(letter), colour, names, letterAt: isOfItem ? lettersOf(this.record.labels) : () => "",
      before: { a: "", t: "–" }[unit[0]] ?? "=", isNumbered: document.body.classList.contains("numbers"),
      gap: innerWidth < NARROW_WINDOW ? NARROW_GAP : GAP,
      file: `record-${this.record.number}-${unit}`,
    };
  }

  // The numbers of atoms, in the drawing and in a digraph that is open.
  showNumbers(isOn) {
    if (isOn && this.picture) this.picture.drawNumbers(this.svg);
    const line = this.card.querySelector(".unit[aria-expanded=true]");
    if (!line) return;
    line.click();
    line.click();
  }
}

function otherLine({ other }) {
  return element("div", "rule", "other program: ", other ? letterBadge(other) : "no letter");
}

function ranked(record, order) {
  const row = element("div", "ranks");
  order.forEach((ligands, side) => {
    if (side) row.append(element("span", "end", "|"));
    ligands.forEach((name, place) => row.append(element("span", "rank", rankDisc(place), atomName(record, name))));
  });
  return row;
}

function itemList({ items }) {
  const list = element("dl", "");
  for (const [name, value] of items) list.append(element("dt", "", name), element("dd", "", value));
  const count = items.length === 1 ? "1 data item" : `${items.length} data items`;
  return element("details", "", element("summary", "", count), list);
}
