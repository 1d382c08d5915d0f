// The panel of a unit: for each end its digraph, and in words what parts its ligands.
import { MOST_DRAWN } from "./branches.mjs";
import { asFile, button, element, save, shown, whileOver } from "./elements.mjs";
import { chosenDecisions, pictureOf } from "./layout.mjs";
import { RANKS, RULES } from "./rules.mjs";
import { termRow, termsOf } from "./terms.mjs";
import { linesOf, noteOf } from "./words.mjs";

const MOST_SETS = 6;

// `options` are the page's colours, the letters at nodes, a name for files, what the unit's own letter says of the
// drawing, and for a unit with two ends their names and the bond before the root.
export function fillPanel(panel, ends, options) {
  if (options.sense) panel.append(element("p", "sense", options.sense));
  for (const [side, end] of ends.entries()) panel.append(endOfPanel(end, side, options));
  panel.append(termRow(termsOf(ends, options)));
}

function endOfPanel(end, side, options) {
  const title = options.names ? options.names[side] : "";
  const scroll = element("div", "scroll"), signs = element("p", "signs");
  const state = { isWhole: false };
  scroll.tabIndex = 0;
  const draw = (decision) => {
    const told = title ? `Digraph from ${title}` : "Digraph";
    const picture = pictureOf(end, { ...options, title: told, decision, isWhole: state.isWhole });
    scroll.replaceChildren(shown(picture.svg));
    signs.textContent = picture.signs.join("; ");
    return picture.drawn;
  };
  const drawn = draw();
  const part = element("div", "end", ...(title ? [element("h3", "", `From ${title}`)] : []), scroll);
  if (drawn.isCut) part.append(element("p", "sphere", cutText(drawn)));
  part.append(decisionList(end, options, draw), signs);
  if (drawn.hasMore) part.append(wholeButton(state, draw));
  part.append(button("chip plain", () => {
    save(`${options.file}${side ? "-" + (side + 1) : ""}.svg`, "image/svg+xml", asFile(scroll.querySelector("svg")));
  }, "save as SVG"));
  return part;
}

function cutText({ last }) {
  return `Drawn up to sphere ${last}; one more would take over ${MOST_DRAWN} nodes.`;
}

function wholeButton(state, draw) {
  const made = button("chip plain", () => {
    state.isWhole = !state.isWhole;
    made.setAttribute("aria-pressed", String(state.isWhole));
    draw();
  }, "all branches");
  made.setAttribute("aria-pressed", "false");
  return made;
}

function decisionList(end, { letterAt }, draw) {
  const items = end.decisions.map((decision, place) => {
    const item = decisionItem(end, decision, place, letterAt);
    item.tabIndex = 0;
    whileOver(item, (isOn) => draw(isOn ? place : undefined));
    return item;
  });
  return element("ol", "decisions", ...items);
}

function decisionItem(end, decision, place, letterAt) {
  const head = element("div", "rank", rankDisc(place), " > ", rankDisc(place + 1));
  if (!decision.rule) head.childNodes[1].textContent = " = ";
  const rows = element("div", "lines"), { rule } = decision;
  if (rule && rule !== "1a") rows.append(element("div", "", `Rule ${rule}: ${RULES.get(rule)}`));
  for (const { sphere, higher, relation, lower, differs } of linesOf(end, decision, letterAt)) {
    const sides = [sideOf(higher, differs), ` ${relation} `, sideOf(lower, differs)];
    rows.append(element("div", "", element("span", "sphere", `sphere ${sphere} `), ...sides));
  }
  const note = noteOf(end, decision);
  if (note) rows.append(element("div", "sphere", note));
  return element("li", chosenDecisions(end).includes(decision) ? "deciding" : "", head, rows);
}

export function rankDisc(place) { return element("b", "rank" + (place + 1), RANKS[place]); }

// The sets of a side, the first one that differs in bold; of many sets, those around it.
function sideOf(sets, differs) {
  const side = element("span", "side");
  const first = sets.length > MOST_SETS && differs > 2 ? differs - 2 : 0;
  const last = Math.min(sets.length, first + MOST_SETS);
  if (first) side.append("… ");
  for (let place = first; place < last; place++) {
    side.append(place > first ? " " : "", element(place === differs ? "b" : "span", "", sets[place]));
  }
  if (last < sets.length) side.append(" …");
  return side;
}
