// The cards of labelled records, which are filled as they come into view, and filters. Records may come part by part.
import { Card, emptyCard, letterBadge } from "./cards.mjs";
import { button, element } from "./elements.mjs";
import { writeAnswers } from "./exercise.mjs";
import { whyNot } from "./reasons.mjs";
import { isFlagged, labelsOf, recordOf } from "./records.mjs";
import { RULES } from "./rules.mjs";

const KINDS_OF_RECORDS = new Map([
  ["with undefined units", ({ open }) => open.length > 0],
  ["without a label", (record) => record.hasItem && !record.refused && !labelsOf(record).length],
  ["refused or over the bound", isFlagged],
  ["other letters in the compared item", ({ others, unread }) => others.size > 0 || unread.length > 0],
]);
const WIDE_WINDOW = "(min-width: 701px)";

export function byId(id) { return document.getElementById(id); }

export function follow(id, event, act) { byId(id).addEventListener(event, act); }

export function counted(text, what) { return `${text} ${what}${text === "1" ? "" : "s"}`; }

function labelCount(some) { return some.reduce((sum, record) => sum + labelsOf(record).length, 0); }

// `page` has the words for kinds of units and for causes, what is given beside the items, the letters in their order,
// and if a record can be changed what a card has for that.
export class Gallery {
  constructor(page) {
    this.page = page;
    this.watcher = new IntersectionObserver((seen) => {
      for (const { isIntersecting, target } of seen) {
        if (!isIntersecting) continue;
        this.watcher.unobserve(target);
        this.fill(this.places.get(target));
      }
    }, { rootMargin: "500px" });
    byId("filters").open = matchMedia(WIDE_WINDOW).matches;
    this.clear();
    this.followHeader();
  }

  clear() {
    this.watcher.disconnect();
    Object.assign(this, { records: [], cards: [], places: new Map(), filled: new Map() });
    this.chosen = { letters: new Set(), rules: new Set(), kinds: new Set(), words: "" };
    byId("search").value = "";
    byId("cards").replaceChildren();
    this.show();
  }

  followHeader() {
    follow("search", "input", (event) => {
      this.chosen.words = event.target.value.trim().toLowerCase();
      this.refresh();
    });
    follow("numbers", "change", (event) => {
      document.body.classList.toggle("numbers", event.target.checked);
      for (const card of this.filled.values()) card.showNumbers(event.target.checked);
    });
    // without letters no digraph is open, and atoms have the numbers by which the answers name them
    follow("quiz", "change", (event) => {
      document.body.classList.toggle("quiz", event.target.checked);
      for (const card of this.filled.values()) card.close();
      if (event.target.checked && !byId("numbers").checked) byId("numbers").click();
    });
    follow("hydrogens", "change", (event) => document.body.classList.toggle("bare", !event.target.checked));
    follow("theme", "click", () => {
      const root = document.documentElement;
      const preferred = matchMedia("(prefers-color-scheme: dark)").matches ? "dark" : "light";
      root.dataset.theme = (root.dataset.theme || preferred) === "dark" ? "light" : "dark";
    });
    // a printed page has all cards that its filters show, and the answers of these if it is without letters
    addEventListener("beforeprint", () => {
      this.records.forEach((_, place) => { if (!this.cards[place].hidden) this.fill(place); });
      writeAnswers(byId("answers"), this.records.filter((record) => this.isWanted(record)));
    });
  }

  // ---- Cards

  // Adds records as tools/page writes them.
  add(some) {
    const added = some.map((one, place) => recordOf(one, this.records.length + place)), cards = added.map(emptyCard);
    cards.forEach((card, place) => this.places.set(card, this.records.length + place));
    this.records.push(...added);
    this.cards.push(...cards);
    byId("cards").append(...cards);
    for (const card of cards) this.watcher.observe(card);
    this.show();
  }

  // Another record in the place of one, with a card of its own.
  replace(place, one) {
    const record = recordOf(one, place), card = emptyCard(record);
    this.records[place] = record;
    this.cards[place].replaceWith(card);
    this.cards[place] = card;
    this.filled.delete(place);
    this.show();
    this.fill(place);
  }

  fill(place) {
    if (this.filled.has(place)) return;
    try {
      this.filled.set(place, new Card(this.cards[place], this.records[place], this.page));
      if (document.body.classList.contains("numbers")) this.filled.get(place).showNumbers(true);
    } catch (fault) {
      // one card that fails leaves the others
      reportError(fault);
    }
  }

  show() {
    byId("hydrogens").parentElement.hidden = !this.records.some((record) => record.isInSpace);
    this.showFilters();
    this.showFlagged();
    this.refresh();
  }

  showFlagged() {
    const flagged = [...this.records.keys()].filter((place) => isFlagged(this.records[place]));
    const items = flagged.map((place) => {
      const record = this.records[place];
      const link = element("a", "", `record ${record.number}${record.name ? ", " + record.name : ""}`);
      link.href = "#r" + record.number;
      // a card that a filter hides can't be gone to
      link.addEventListener("click", () => { if (this.cards[place].hidden) this.clearFilters(); });
      return element("li", "", link, `: ${whyNot(record, this.page)}`);
    });
    const head = element("h2", "", `${counted(String(items.length), "record")} refused or only partly labelled`);
    byId("flagged").replaceChildren(head, element("ul", "", ...items));
    byId("flagged").hidden = !items.length;
  }

  // ---- Filters

  isWanted(record) {
    const { chosen } = this;
    for (const kind of chosen.kinds) if (!KINDS_OF_RECORDS.get(kind)(record)) return false;
    if (chosen.letters.size || chosen.rules.size) {
      const isChosen = (set, value) => !set.size || set.has(value);
      const fits = ({ letter, rule }) => isChosen(chosen.letters, letter) && isChosen(chosen.rules, rule);
      if (!labelsOf(record).some(fits)) return false;
    }
    if (!chosen.words) return true;
    const text = `${record.number}\n${record.name}\n${record.items.map((item) => item[1]).join("\n")}`;
    return text.toLowerCase().includes(chosen.words);
  }

  refresh() {
    const { records, cards } = this, wanted = records.filter((record) => this.isWanted(record)), set = new Set(wanted);
    records.forEach((record, place) => { cards[place].hidden = !set.has(record); });
    const all = [records.length, labelCount(records)], shown = [wanted.length, labelCount(wanted)];
    const [recordText, labelText] = all.map((count, place) =>
      (wanted.length === records.length ? String(count) : `${shown[place]} of ${count}`));
    byId("count").textContent = records.length ? `${counted(recordText, "record")}, ${counted(labelText, "label")}` : "";
    byId("nothing").hidden = wanted.length > 0 || !records.length;
  }

  choose(set, key) {
    return (isOn) => {
      if (isOn) set.add(key);
      else set.delete(key);
      this.refresh();
    };
  }

  clearFilters() {
    for (const pressed of document.querySelectorAll("header .chip[aria-pressed=true]")) pressed.click();
    byId("search").value = this.chosen.words = "";
    this.refresh();
  }

  // A button that goes on or off, with how many records it's for.
  chip(count, content, set, key) {
    const act = this.choose(set, key);
    const made = button(typeof content === "string" ? "chip plain" : "chip", () => {
      const isOn = made.getAttribute("aria-pressed") !== "true";
      made.setAttribute("aria-pressed", String(isOn));
      act(isOn);
    }, element("span", "", `${count} ×`), content);
    made.setAttribute("aria-pressed", String(set.has(key)));
    return made;
  }

  countsOf(part) {
    const counts = new Map();
    for (const label of this.records.flatMap(labelsOf)) counts.set(label[part], (counts.get(label[part]) || 0) + 1);
    return counts;
  }

  showFilters() {
    const { chosen, records } = this, letters = this.countsOf("letter"), rules = this.countsOf("rule");
    this.showChips("letters", this.page.letters.filter((one) => letters.has(one))
      .map((letter) => this.chip(letters.get(letter), letterBadge(letter), chosen.letters, letter)));
    this.showChips("rules", [...RULES].filter(([rule]) => rules.has(rule)).map(([rule, words]) => {
      const made = this.chip(rules.get(rule), "Rule " + rule, chosen.rules, rule);
      made.title = words;
      return made;
    }));
    this.showChips("kinds", [...KINDS_OF_RECORDS].map(([words, isOne]) => [words, records.filter(isOne).length])
      .filter(([, count]) => count).map(([words, count]) => this.chip(count, words, chosen.kinds, words)));
  }

  showChips(id, chips) {
    byId(id).replaceChildren(byId(id).querySelector("legend"), ...chips);
    byId(id).hidden = !chips.length;
  }
}
