// The terms of a digraph's panel, explained at a click. The words are those of docs/GLOSSARY.md.
import { button, element } from "./elements.mjs";

export const TERMS = new Map([
  ["hierarchical digraph", "all paths from a root that repeat no atom, with duplicate atoms"],
  ["root", "where a digraph begins: a centre, or one end of a bond or axis"],
  ["ligand", "an atom, implicit hydrogen or lone pair that is ranked at an end of a unit"],
  ["branch", "the part of a digraph below one child of the root or of an inner node"],
  ["sphere", "the nodes at the same number of bonds from the root"],
  ["duplicate atom", "a node without children that repeats an atom, for a ring closure or a multiple bond"],
  ["auxiliary descriptor", "the descriptor of a unit at a node, from the ligands as seen from that node"],
  ["reference descriptor", "R or S, with which Rule 4b compares the auxiliary descriptors of a branch"],
  ["small descriptor", "r, s, m, p, seqCis, seqTrans: inverting Rule 5 would give the opposite descriptor"],
  ["tie", "two ligands that no rule tells apart, so the unit has no label"],
]);
const ALWAYS = ["hierarchical digraph", "root", "ligand", "branch", "sphere"];

// The terms that the digraphs of a unit need.
export function termsOf(ends, { hasSmallLetter = false } = {}) {
  const decisions = ends.flatMap(({ decisions: some }) => some), wanted = new Set(ALWAYS);
  if (ends.some(({ tree }) => tree.spheres.flat().some(({ kind }) => kind !== "real"))) wanted.add("duplicate atom");
  if (decisions.some(({ isLate, isOfItem }) => isLate || isOfItem)) wanted.add("auxiliary descriptor");
  if (decisions.some(({ rule }) => rule === "4b")) wanted.add("reference descriptor");
  if (hasSmallLetter) wanted.add("small descriptor");
  if (decisions.some(({ rule, lower }) => lower && !rule)) wanted.add("tie");
  return [...TERMS.keys()].filter((term) => wanted.has(term));
}

// A button for each term, which shows and hides what it means.
export function termRow(terms) {
  const meaning = element("p", "meaning");
  meaning.hidden = true;
  const chips = terms.map((term) => {
    const made = button("chip plain", () => {
      const isOn = made.getAttribute("aria-expanded") !== "true";
      for (const chip of chips) chip.setAttribute("aria-expanded", String(isOn && chip === made));
      meaning.hidden = !isOn;
      meaning.textContent = isOn ? `${term}: ${TERMS.get(term)}` : "";
    }, term);
    made.setAttribute("aria-expanded", "false");
    return made;
  });
  meaning.setAttribute("aria-live", "polite");
  return element("div", "terms", ...chips, meaning);
}
