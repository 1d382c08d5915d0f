// A record as the gallery reads it: as tools/page writes it.
import { drawn } from "./drawn.mjs";
import { groupsIn, labelsIn, withoutIn } from "./outputs.mjs";
import { answerOf, drawingOf, isLabelItem, itemsOf, nameOf, shown } from "./sdf.mjs";

const LONGEST_VALUE = 400;
export const NODES = 100_000;

function shortened(values) {
  const value = values.map(shown).join("\n");
  if (value.length <= LONGEST_VALUE) return value;
  const characters = Array.from(value);
  return characters.length <= LONGEST_VALUE ? value : `${characters.slice(0, LONGEST_VALUE).join("")} …`;
}

// `beside` has the lines that `explain`, `axes` and `groups` wrote of the record, the labels of units that tie, and why
// the program stopped at it if it did.
export function entryOf(record, beside) {
  const found = { n: nameOf(record), l: [] }, drawing = drawingOf(record), items = itemsOf(record);
  if (drawing && drawing.atoms.length) Object.assign(found, drawn(drawing));
  found.i = items.filter((item) => !isLabelItem(item)).map(({ name, values }) => [shown(name), shortened(values)]);
  Object.assign(found, beside.fault ? { m: 1, q: beside.fault } : ofAnswer(answerOf(items)), besideItem(beside));
  const isEmpty = (value) => !value || (Array.isArray(value) && !value.length);
  return Object.fromEntries(Object.entries(found).filter(([key, value]) => key === "l" || !isEmpty(value)));
}

function ofAnswer(answer) {
  if (!answer) return { m: 1 };
  const nodes = Number(answer.setting.split(" ").at(-1));
  return { l: answer.labels, o: answer.over, f: answer.refused, w: Number(answer.setting.includes("rule1b 2013")),
    k: nodes === NODES ? 0 : nodes };
}

function besideItem({ explain = [], axes = [], groups = [], senses = [] }) {
  const without = withoutIn(explain).filter(([, reason]) => reason !== "over");
  return { e: [...without, ...withoutIn(axes)], x: labelsIn(axes), g: groupsIn(groups), s: senses };
}
