// What a page says of each record's letters, and its answers, a line of JSON a record: node panels.mjs PAGE; the terms
// of its digraphs: node panels.mjs PAGE terms; without a PAGE the terms with their meanings.
import { readFileSync } from "node:fs";
import { endsOf } from "../view/deciding.mjs";
import { answerOf } from "../view/exercise.mjs";
import { moleculeOf } from "../view/molecule.mjs";
import { atomName, isSmall, labelsOf, recordOf } from "../view/records.mjs";
import { senseOf } from "../view/senses.mjs";
import { finished } from "../view/slices.mjs";
import { TERMS, termsOf } from "../view/terms.mjs";

const [path, wanted] = process.argv.slice(2);

function saidOf(record) {
  const namesOf = ({ order }) => order.map((some) => some.map((name) => atomName(record, name)));
  return { senses: labelsOf(record).map((unit) => senseOf(unit.letter, namesOf(unit))), answer: answerOf(record) };
}

function termsAt(record) {
  const molecule = finished(moleculeOf(record)), { labels, wording, nodes: limit } = record;
  return labelsOf(record).map((unit) =>
    termsOf(finished(endsOf(molecule, unit, { limit, wording, labels })), { hasSmallLetter: isSmall(unit.letter) }));
}

if (!path) console.log(JSON.stringify([...TERMS]));
else {
  const records = JSON.parse(/id="records">([^<]*)<\/script>/.exec(readFileSync(path, "utf8"))[1]).map(recordOf);
  for (const record of records) console.log(JSON.stringify((wanted === "terms" ? termsAt : saidOf)(record)));
}
