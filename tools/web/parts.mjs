// Where records end, and a file cut into parts of whole records.

const LINE_FEED = 10, RETURN = 13, SPACE = 32, TAB = 9, DOLLAR = 36;
const PART = 1 << 20;
// no record is as long as the program takes: bytes in which none ends are handed over as they are
const LONGEST = 17 << 20;
const GZIP = [0x1f, 0x8b];

// The places after terminator lines, `$$$$` with spaces at most after it, from a place on at which a line begins.
export function recordEnds(bytes, from = 0) {
  const ends = [];
  for (let begin = from; begin < bytes.length;) {
    const end = bytes.indexOf(LINE_FEED, begin);
    if (end < 0) break;
    if (bytes[begin] === DOLLAR && isTerminator(bytes, begin, end)) ends.push(end + 1);
    begin = end + 1;
  }
  return ends;
}

function isTerminator(bytes, begin, end) {
  for (let at = begin; at < begin + 4; at++) if (bytes[at] !== DOLLAR) return false;
  const last = bytes[end - 1] === RETURN ? end - 1 : end;
  for (let at = begin + 4; at < last; at++) if (bytes[at] !== SPACE) return false;
  return true;
}

export function isBlank(bytes) {
  return bytes.every((byte) => byte === SPACE || byte === TAB || byte === RETURN || byte === LINE_FEED);
}

export function joined(pieces) {
  const bytes = new Uint8Array(pieces.reduce((sum, piece) => sum + piece.length, 0));
  let place = 0;
  for (const piece of pieces) {
    bytes.set(piece, place);
    place += piece.length;
  }
  return bytes;
}

// The records of bytes as bytes. Blank bytes after the last one belong to it, and alone they are none.
export function recordBytes(bytes) {
  if (isBlank(bytes)) return [];
  const ends = recordEnds(bytes);
  if (!ends.length || !isBlank(bytes.subarray(ends.at(-1)))) ends.push(bytes.length);
  ends[ends.length - 1] = bytes.length;
  return ends.map((end, place) => bytes.subarray(place ? ends[place - 1] : 0, end));
}

export function isGzip(bytes) { return GZIP.every((byte, place) => bytes[place] === byte); }

async function* piecesOf(stream) {
  const reader = stream.getReader();
  try {
    for (;;) {
      const { done, value } = await reader.read();
      if (done) return;
      yield value;
    }
  } finally {
    await reader.cancel();
  }
}

// The bytes of a file (a Blob), unpacked if it is packed by gzip, piece by piece. `note` is handed how many bytes of
// the file have been read.
export async function* contentOf(file, note = () => {}) {
  const head = new Uint8Array(await file.slice(0, 2).arrayBuffer());
  let read = 0;
  const counted = new TransformStream({
    transform(piece, out) {
      note(read += piece.length);
      out.enqueue(piece);
    },
  });
  const stream = file.stream().pipeThrough(counted);
  yield* piecesOf(isGzip(head) ? stream.pipeThrough(new DecompressionStream("gzip")) : stream);
}

// Cuts bytes that come piece by piece into parts of whole records. A record that is longer than the program takes is a
// few parts of its own, `isCut`, the first of which has its number.
class Cutter {
  constructor() {
    Object.assign(this, { pieces: [], length: 0, rest: new Uint8Array(), searched: 0, held: null, first: 0 });
    this.isInside = false;
  }

  // Takes a piece; the part that is whole by now, or null. The last part is held back, since blank bytes may follow it.
  take(piece) {
    this.pieces.push(piece);
    this.length += piece.length;
    return this.length < PART ? null : this.cut();
  }

  cut() {
    const rest = joined([this.rest, ...this.pieces]), ends = recordEnds(rest, this.searched);
    Object.assign(this, { pieces: [], length: 0, rest });
    const end = this.endOf(ends);
    // a terminator line may begin with the open line
    this.searched = Math.max(0, rest.lastIndexOf(LINE_FEED) + 1 - end);
    if (!end) return null;
    const part = this.release(), isCut = this.isInside || !ends.length;
    this.held = { bytes: rest.slice(0, end), ends: isCut ? Math.min(1, ends.length) : ends.length, isCut,
      isFirst: !this.isInside };
    this.isInside = isCut && !ends.length;
    this.rest = rest.slice(end);
    if (isCut) this.searched = 0;
    return part;
  }

  // Up to where the bytes are whole records, or else up to where they belong to one that is too long; or 0.
  endOf(ends) {
    if (this.isInside && ends.length) return ends[0];
    return ends.at(-1) ?? (this.isInside || this.rest.length > LONGEST ? this.rest.length : 0);
  }

  release() {
    if (!this.held) return null;
    const { bytes, ends, isCut, isFirst } = this.held, part = { bytes, first: this.first, isCut, isFirst };
    this.first += ends;
    this.held = null;
    return part;
  }

  // The parts that are left at the end of the file.
  * last() {
    for (let isOpen = true; isOpen;) {
      const before = this.rest.length, part = this.cut();
      if (part) yield part;
      isOpen = this.rest.length > 0 && this.rest.length < before;
    }
    if (this.held && isBlank(this.rest)) {
      this.held.bytes = joined([this.held.bytes, this.rest]);
      yield this.release();
      return;
    }
    const held = this.release();
    if (held) yield held;
    yield { bytes: this.rest, first: this.first, isCut: this.isInside, isFirst: false };
  }
}

// The parts of bytes that come piece by piece, each with the number of the records before it.
export async function* filePartsOf(pieces) {
  const cutter = new Cutter();
  for await (const piece of pieces) {
    const part = cutter.take(piece);
    if (part) yield part;
  }
  yield* cutter.last();
}

// Whether bytes without the end of a record can be a molfile: a line `M  END` is in them, or nothing at all.
export function mayBeMolfile(bytes) {
  const text = new TextDecoder("latin1").decode(bytes);
  return /^M {2}END *\r?$/m.test(text) || isBlank(bytes);
}
