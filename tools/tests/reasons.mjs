// What a page says of each record without a letter, a line of JSON a record: node reasons.mjs PAGE
import { readFileSync } from "node:fs";
import { endsOf } from "../view/deciding.mjs";
import { moleculeOf } from "../view/molecule.mjs";
import { strayWedges, unitsWithout, wordsOf } from "../view/reasons.mjs";
import { labelsOf, recordOf } from "../view/records.mjs";
import { finished } from "../view/slices.mjs";
import { noteOf } from "../view/words.mjs";

const page = readFileSync(process.argv[2], "utf8");
const part = (id) => JSON.parse(new RegExp(`id="${id}">([^<]*)</script>`).exec(page)[1]);
const { given } = part("settings");

function told(record) {
  const { drawn, others } = unitsWithout(record, given), molecule = finished(moleculeOf(record));
  const notesOf = (unit) => finished(endsOf(molecule, unit, { limit: record.nodes })).flatMap((end) =>
    end.decisions.map((decision) => noteOf(end, decision)).filter(Boolean));
  return {
    drawn: drawn.map((unit) => [unit.unit, wordsOf(unit), ...notesOf(unit)]), others: others.map(({ unit }) => unit),
    groups: labelsOf(record).map(({ unit }) => record.groups.get(unit)?.isOpen ?? null),
    wedges: strayWedges(record, given), compared: [...record.others.values()].map(({ unit, other }) => [unit, other]),
    number: record.number, unread: record.unread,
  };
}

for (const record of part("records").map(recordOf)) console.log(JSON.stringify(told(record)));
