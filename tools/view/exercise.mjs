// The page as an exercise sheet: drawings without letters, and in print the answers on a last page.
import { element } from "./elements.mjs";
import { labelsOf, numbersOf } from "./records.mjs";

// The answers of a record: its number and name, and each unit with its letter, or that it has none.
export function answerOf(record) {
  const letters = labelsOf(record).map((unit) => `${numbersOf(unit)} ${unit.letter}`);
  return { name: [record.number, record.name].filter(Boolean).join(" "), letters: letters.join(", ") || "none" };
}

// Fills the last page with the answers of some records.
export function writeAnswers(page, some) {
  const rows = some.map(answerOf).flatMap(({ name, letters }) => [element("dt", "", name), element("dd", "", letters)]);
  page.replaceChildren(element("h2", "", "Answers"), element("dl", "", ...rows));
}
