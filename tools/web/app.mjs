// The page into which an SDfile is dropped: it is labelled in this browser, part by part, and nothing leaves it.
import { button, element } from "../view/elements.mjs";
import { byId, counted, follow, Gallery } from "../view/gallery.mjs";
import { atomName, labelsOf } from "../view/records.mjs";
import { Kept } from "./kept.mjs";
import { contentOf, isBlank, mayBeMolfile, filePartsOf, recordEnds } from "./parts.mjs";
import { Pool } from "./pool.mjs";

// this many records are drawn; the files that are saved have all
const MOST_SHOWN = 5000;
const MOST_FAULTS = 100;
const OTHER_LETTER = { R: "S", S: "R", r: "s", s: "r" };
const NO_SDFILE = "not an SDfile: it has neither a line $$$$ nor a line M  END";
const NO_RECORD = "the file has no record";

const settings = JSON.parse(byId("settings").textContent);
const gallery = new Gallery({ ...settings, changesOf });
const workerAddress = URL.createObjectURL(new Blob([byId("worker").textContent], { type: "text/javascript" }));
const program = unpacked(byId("program").textContent).then((bytes) => WebAssembly.compile(bytes));
let current = null;

// A file of gzip in base64, as bytes.
async function unpacked(text) {
  const packed = Uint8Array.from(atob(text.trim()), (character) => character.charCodeAt(0));
  const stream = new Blob([packed]).stream().pipeThrough(new DecompressionStream("gzip"));
  return new Uint8Array(await new Response(stream).arrayBuffer());
}

function say(words) { byId("state").textContent = words; }

function grouped(number) { return number.toLocaleString("en"); }

function wordsOfProgram() {
  return ["--nodes", byId("nodes").value.trim(), "--rule1b", byId("wording").value, "--workers", "1"];
}

// ---- Labelling

// Labels a file; one that is being labelled is given up.
async function label(file, name) {
  if (current) current.pool.close();
  const run = current = { file, name, words: wordsOfProgram(), kept: new Kept(name, settings.head), records: 0,
    faults: 0, waiting: [], begun: performance.now(), pool: new Pool(workerAddress, await program) };
  begin();
  try {
    await labelParts(run);
    if (run === current) say(summary(run));
  } catch (fault) {
    if (run !== current) return;
    say(run.records ? `${summary(run)}, and then it ended: ${fault.message}` : `${name}: ${fault.message}`);
  }
  if (run === current) end(run);
}

function begin() {
  document.body.classList.add("used");
  gallery.clear();
  byId("faults").replaceChildren();
  byId("faults").hidden = true;
  byId("bar").value = 0;
  byId("bar").hidden = byId("stop").hidden = false;
  showFiles(null);
}

function end(run) {
  byId("bar").hidden = byId("stop").hidden = true;
  showFiles(run);
  document.body.dataset.labelled = String(run.records);
}

async function labelParts(run) {
  const note = (read) => { byId("bar").value = run.file.size ? read / run.file.size : 1; };
  for await (const part of filePartsOf(contentOf(run.file, note))) {
    if (run !== current) return;
    if (!part.first && !part.isCut) checkFirst(part.bytes);
    const answer = run.pool.ask({ part: { ...part, words: run.words, isShown: part.first < MOST_SHOWN } });
    run.waiting.push({ first: part.first, answer });
    while (run.waiting.length > run.pool.room) await takeNext(run);
  }
  while (run.waiting.length) await takeNext(run);
}

function checkFirst(bytes) {
  if (isBlank(bytes)) throw new Error(NO_RECORD);
  if (!recordEnds(bytes).length && !mayBeMolfile(bytes)) throw new Error(NO_SDFILE);
}

async function takeNext(run) {
  const { first, answer } = run.waiting.shift(), result = await answer;
  if (run !== current) throw new Error("stopped");
  run.kept.add(result, first);
  run.records += result.count;
  for (const { number, fault } of result.faults) showFault(run, number, fault);
  const left = MOST_SHOWN - gallery.records.length;
  if (result.entries.length && left > 0) gallery.add(result.entries.slice(0, left));
  say(`${Math.floor(100 * byId("bar").value)}%, ${records(run.records)}`);
}

function records(number) { return counted(grouped(number), "record"); }

function summary(run) {
  const seconds = (performance.now() - run.begun) / 1000;
  const more = run.records > MOST_SHOWN ? `; the first ${grouped(MOST_SHOWN)} are shown` : "";
  return `${run.name}: ${records(run.records)} in ${seconds.toFixed(1)} s${more}`;
}

// A record at which the program stopped; it stays as it is.
function showFault(run, number, fault) {
  run.faults++;
  byId("faults").hidden = false;
  if (run.faults > MOST_FAULTS) return;
  byId("faults").append(element("li", "", `Record ${grouped(number)} has no labels and is saved as it was: ${fault}`));
}

function showFiles(run) {
  const making = (what, words) => button("chip plain", () => run.kept.save(what).catch(reportSaving), words);
  byId("files").replaceChildren(...(run && run.records ? [
    making("file", "save the labelled SDfile"), making("table", "save the table"),
    button("chip plain", () => run.kept.savePacked("file"), "save the SDfile packed"),
  ] : []));
}

function reportSaving(fault) { if (fault.name !== "AbortError") say(`Nothing was saved: ${fault.message}`); }

// ---- Changes of a record

// What a card has to change its record: the other letter of each centre, and the mirror image.
function changesOf(record) {
  if (record.refused || !record.hasItem) return [];
  const centres = labelsOf(record).filter(({ unit, letter }) => unit[0] === "a" && letter in OTHER_LETTER);
  const buttons = centres.map(({ ends: [place], letter }) => {
    const other = OTHER_LETTER[letter], more = ["--record", "1", "--atom", String(place + 1), "--letter", other];
    const words = `${atomName(record, String(place + 1))}: ${letter} to ${other}`;
    return button("chip plain", () => change(record, "set", more), words);
  });
  buttons.push(button("chip plain", () => change(record, "mirror", []), "mirror image"));
  return [element("details", "changes", element("summary", "", "Change"), element("div", "row", ...buttons))];
}

async function change(record, command, more) {
  const run = current, place = record.number - 1, part = run && run.kept.partOf(place);
  if (!part) return;
  try {
    const packed = new Uint8Array(await part.file.arrayBuffer());
    const { first } = part, { words } = run;
    const result = await run.pool.ask({ change: { packed, words, first, place: place - first, command, more } });
    if (run !== current) return;
    run.kept.change(part, result);
    gallery.replace(place, result.entry);
    gallery.cards[place].querySelector(".changes").open = true;
    gallery.cards[place].querySelector(".changes summary").focus();
    say(`Record ${grouped(record.number)} is changed, in what is saved too`);
  } catch (fault) {
    say(`Record ${grouped(record.number)} isn't changed: ${fault.message}`);
  }
}

// ---- Ways in

function take(files) { if (files.length) label(files[0], files[0].name).catch(reportError); }

follow("file", "change", ({ target }) => {
  take(target.files);
  target.value = "";
});
addEventListener("dragover", (event) => {
  event.preventDefault();
  document.body.classList.add("over");
});
addEventListener("dragleave", (event) => { if (!event.relatedTarget) document.body.classList.remove("over"); });
addEventListener("drop", (event) => {
  event.preventDefault();
  document.body.classList.remove("over");
  take(event.dataTransfer.files);
});
addEventListener("paste", (event) => {
  if (event.clipboardData.files.length) {
    take(event.clipboardData.files);
    return;
  }
  const text = event.clipboardData.getData("text/plain"), isField = document.activeElement?.matches("input");
  if (!isField && text) label(new Blob([text]), "pasted").catch(reportError);
});
follow("stop", "click", () => { if (current) current.pool.close(); });
for (const id of ["nodes", "wording"]) {
  follow(id, "change", () => { if (current && byId("nodes").reportValidity()) take([current.file]); });
}
program.then(() => { document.body.dataset.ready = "1"; }, (fault) => {
  say(`This browser can't run the program: ${fault.message}`);
});
