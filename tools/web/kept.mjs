// The labelled parts of a file and their rows, kept packed by gzip, and how files are made of them. Members of gzip one
// after the other are a file of gzip.
import { save } from "../view/elements.mjs";

// Chromium loses a file of 500 MiB that a page makes, and says nothing
const MOST_IN_ONE = 256 << 20;
const ENDINGS = { file: "labelled.sdf", table: "labels.tsv" };
const KIND = "application/octet-stream";

export class Kept {
  constructor(name, head) {
    this.stem = name.replace(/\.gz$/i, "").replace(/\.[a-z0-9]+$/i, "") || "records";
    this.head = head;
    this.parts = [];
  }

  add({ file, table, size, tableSize, count }, first) {
    this.parts.push({ file: new Blob([file]), table: new Blob([table]), size, tableSize, count, first });
  }

  // The part that has a record of this place.
  partOf(place) { return this.parts.find(({ first, count }) => first <= place && place < first + count); }

  change(part, { file, table, size, tableSize }) {
    Object.assign(part, { file: new Blob([file]), table: new Blob([table]), size, tableSize });
  }

  nameOf(what) { return `${this.stem}.${ENDINGS[what]}`; }

  sizeOf(what) { return this.parts.reduce((sum, part) => sum + (what === "file" ? part.size : part.tableSize), 0); }

  // The bytes of a kind, as streams that are read one after the other.
  * streams(what) {
    if (what === "table") yield new Blob([this.head]).stream();
    for (const part of this.parts) yield part[what].stream().pipeThrough(new DecompressionStream("gzip"));
  }

  // Saves a file. A large one goes to a place that the user picks, or if the browser has no such call is saved packed.
  async save(what) {
    if (this.sizeOf(what) <= MOST_IN_ONE) {
      const blobs = [];
      for (const stream of this.streams(what)) blobs.push(await new Response(stream).blob());
      save(this.nameOf(what), KIND, new Blob(blobs));
    } else if (globalThis.showSaveFilePicker) {
      const file = await globalThis.showSaveFilePicker({ suggestedName: this.nameOf(what) });
      const out = await file.createWritable();
      for (const stream of this.streams(what)) await stream.pipeTo(out, { preventClose: true });
      await out.close();
    } else {
      this.savePacked(what);
    }
  }

  // Saves packed files, none of which is larger than a browser makes.
  savePacked(what) {
    const files = [[]];
    let size = 0;
    for (const part of this.parts) {
      if (size && size + part[what].size > MOST_IN_ONE) {
        files.push([]);
        size = 0;
      }
      files.at(-1).push(part[what]);
      size += part[what].size;
    }
    files.forEach((blobs, place) => {
      const number = files.length > 1 ? `.${place + 1}` : "";
      save(`${this.stem}${number}.${ENDINGS[what]}.gz`, KIND, new Blob(blobs));
    });
  }
}
