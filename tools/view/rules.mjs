// The sequence rules in their order, and what each prefers. IUPAC 2013, P-92.1.3.

export const RULES = new Map([
  ["1a", "higher atomic number"],
  ["1b", "duplicate nearer the root"],
  ["2", "higher mass number"],
  ["3", "Z before E"],
  ["4a", "R, S, M, P before r, s, m, p before none"],
  ["4b", "like before unlike"],
  ["4c", "r before s"],
  ["5", "R before S"],
]);
export const TURNS = [...RULES.keys()];
// The names of ligands in rank order, the highest first.
export const RANKS = ["a", "b", "c", "d"];
export const EARLY_RULES = TURNS.slice(0, 3);

// The last of some rules in their order, and the greatest sphere in which it decided.
export function lastOf(decisions) {
  let last = { rule: "1a", sphere: 0 };
  for (const { rule, sphere } of decisions) {
    const more = TURNS.indexOf(rule) - TURNS.indexOf(last.rule);
    if (more > 0 || (more === 0 && sphere > last.sphere)) last = { rule, sphere };
  }
  return last;
}
