// Work in slices: generators that yield now and then, so that a page answers meanwhile.

const SLICE = 40;

// What a generator gives, all at once.
export function finished(work) {
  for (;;) {
    const { done, value } = work.next();
    if (done) return value;
  }
}

// What a generator gives, in slices of some milliseconds; nothing where `isWanted` says no between two of them.
export async function inSlices(work, isWanted) {
  for (;;) {
    const end = performance.now() + SLICE;
    do {
      const { done, value } = work.next();
      if (done) return value;
    } while (performance.now() < end);
    await new Promise((go) => setTimeout(go, 0));
    if (!isWanted()) return undefined;
  }
}
