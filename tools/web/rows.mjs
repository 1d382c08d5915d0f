// The rows of the table of labels, as tools/table writes them.
import { answerOf, itemsOf, KINDS, nameOf } from "./sdf.mjs";

const COLUMNS = ["record", "name", "unit", "kind", "letter", "rule", "sphere", "ligands", "cause", "line"];
// what a line of tab-separated values can't hold
const BREAKS = /[\0\t\n\r\v\f\x1c-\x1e\x85\u2028\u2029]+/g;

export const HEAD = COLUMNS.join("\t") + "\n";

function line(cells) {
  return COLUMNS.map((column) => String(cells[column] ?? "").replace(BREAKS, " ")).join("\t") + "\n";
}

// The rows of a record of this number, as text.
export function rowsOf(record, number) {
  const answer = answerOf(itemsOf(record)), rows = [], head = { record: number, name: nameOf(record) };
  if (!answer) return "";
  if (answer.refused) rows.push({ cause: answer.refused[1], line: answer.refused[0] });
  for (const [unit, letter, rule, sphere, order] of answer.labels) {
    const ligands = order.map((end) => end.join(" ")).join(" | ");
    rows.push({ unit, kind: KINDS[unit[0]], letter, rule, sphere, ligands });
  }
  for (const unit of answer.over) rows.push({ unit, kind: KINDS[unit[0]], cause: "over" });
  return rows.map((row) => line({ ...head, ...row })).join("");
}
