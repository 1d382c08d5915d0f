// The records of the page by names. What tools/page writes of a record is told there, in `told`.

const GROUPS = { rac: ["racemic", "&"], rel: ["relative", "or"] };

export function isSmall(letter) { return letter.length > 1 || letter === letter.toLowerCase(); }

export function recordOf(told, place) {
  return {
    number: told.r || place + 1, name: told.n || "", isInSpace: Boolean(told.z), items: told.i || [], refused: told.f,
    atoms: (told.a || []).map(atomOf), bonds: (told.b || []).map(bondOf), hasItem: !told.m,
    labels: told.l.map(labelOf), further: (told.x || []).map(labelOf), senses: (told.s || []).map(labelOf),
    over: (told.o || []).map((unit) => unitOf(unit, {})), without: (told.e || []).map(withoutOf),
    groups: new Map((told.g || []).map((group) => [group[1], groupOf(group)])), ...undefinedOf(told.u || []),
    wording: told.w ? "2013" : "2018", nodes: told.k, fault: told.q || "",
    ...comparedOf(told.c || [], (told.a || []).length),
  };
}

function atomOf([x, y, symbol, hydrogens = 0, charge = 0, isotope = 0, radical = 0]) {
  return { x: x / 10, y: y / 10, symbol, hydrogens, charge, isotope, radical };
}

function bondOf([first, second, order, mark = 0]) { return { first, second, order, mark }; }

// A unit by its name in an item, with the atoms of its ends from 0.
function unitOf(unit, more) {
  return { unit, ends: unit.slice(1).split("-").map((number) => Number(number) - 1), ...more };
}

function labelOf([unit, letter, rule, sphere, order]) { return unitOf(unit, { letter, rule, sphere, order }); }

function withoutOf([unit, reason]) { return unitOf(unit, { reason }); }

// The group of a centre: both letters, and whether the letter as drawn isn't the whole truth.
function groupOf([name, , letter, other]) {
  const [, kind, number] = /^([a-z]+)(\d*)$/.exec(name), [word, sign] = GROUPS[kind] || ["absolute", ""];
  const isOpen = kind in GROUPS && letter !== "-";
  return { words: `${word} group ${number}`, sign: sign + number, letter, other, isOpen };
}

function undefinedOf(told) {
  const units = told.map(([unit, state, rule, sphere, order]) => unitOf(unit, { state, rule, sphere, order }));
  return { open: units.filter(({ state }) => state === "open" || state === "dependent"),
    tied: units.filter(({ state }) => state === "tie" || state === "over") };
}

// Another program's letters where they aren't the same, by unit, and what of them has no place in a record of so many
// atoms: an item that isn't read, or a unit of other atoms.
function comparedOf(told, count) {
  const units = told.filter(([unit]) => unit).map(([unit, other]) => unitOf(unit, { other }));
  const isOutside = ({ ends }) => ends.some((end) => end >= count);
  const items = told.filter(([unit]) => !unit).map(([, other]) => other);
  const unread = [...items, ...units.filter(isOutside).map(({ unit }) => unit)];
  return { others: new Map(units.filter((unit) => !isOutside(unit)).map((unit) => [unit.unit, unit])), unread };
}

// ---- Names

export function numbersOf({ unit }) { return unit.slice(1).replace("-", unit[0] === "b" ? "=" : "–"); }

export function atomName(record, name) {
  const atom = record.atoms[Number(name) - 1];
  return atom ? atom.symbol + name : name === ":" ? "lone pair" : name;
}

export function unitName(record, { unit, ends }, kinds) {
  const names = ends.map((place) => atomName(record, String(place + 1)));
  return kinds[unit[0]] + " " + names.join(unit[0] === "b" ? "=" : "–");
}

export function isFlagged(record) { return Boolean(record.refused || !record.hasItem || record.over.length); }

export function labelsOf(record) { return [...record.labels, ...record.further]; }
