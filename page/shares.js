// How a text's bytes came in, counted run by run while nothing else is asked.

export const KINDS = ["typed", "put in at once", "copied within", "of a source", "a fill"];
const MOST_MARKED = 2 ** 28;

/** The kind of a run whose bytes stand for the first time. */
export function kindOf(run, pasted) {
  if (run.kind === "source") return 3;
  if (run.kind === "fill") return 4;
  return run.handed >= pasted ? 1 : 0;
}

/** The shares of one text, as far as they are counted. */
export class Shares {
  constructor(poolLength, sources, length, pasted) {
    Object.assign(this, { length, pasted, counted: 0, bytes: KINDS.map(() => 0), copies: [] });
    const places = [poolLength, ...sources];
    const all = places.reduce((sum, n) => sum + n, 0);
    this.seen = all <= MOST_MARKED ? places.map((n) => new Uint8Array((n >> 3) + 1)) : null;
  }

  /** Whether bytes that are copied within the text are told from the first ones. */
  get tellsCopies() {
    return this.seen !== null;
  }

  add(run) {
    const len = Math.min(run.len, this.length - run.at);
    const copied = this.mark(run, len);
    this.bytes[kindOf(run, this.pasted)] += len - copied;
    this.bytes[2] += copied;
    this.counted = run.at + len;
  }

  // Marks a run's bytes as seen, and answers how many of them were seen before, whose places are kept.
  mark(run, len) {
    if (this.seen === null || run.kind === "fill") return 0;
    const seen = this.seen[run.kind === "pool" ? 0 : run.source + 1];
    let copied = 0;
    for (let j = 0; j < len; j++) {
      const at = run.start + j;
      const bit = 1 << (at & 7);
      if (seen[at >> 3] & bit) {
        this.keep(run.at + j);
        copied++;
      }
      seen[at >> 3] |= bit;
    }
    return copied;
  }

  keep(place) {
    const last = this.copies[this.copies.length - 1];
    if (last && last.to === place) last.to = place + 1;
    else this.copies.push({ from: place, to: place + 1 });
  }

  isCopy(place) {
    let [low, high] = [0, this.copies.length];
    while (low < high) {
      const middle = (low + high) >> 1;
      if (this.copies[middle].from <= place) low = middle + 1;
      else high = middle;
    }
    return low > 0 && place < this.copies[low - 1].to;
  }
}
