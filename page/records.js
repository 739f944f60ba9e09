// What an image that was accepted records, read in place: docs/FORMAT.md has the offsets.

export const NAMES = ["", "new", "open", "insert", "delete", "replace", "paste", "join", "cut", "fill", "back", "balance", "many"];
const [NEW, OPEN, INSERT, DELETE, REPLACE, PASTE, JOIN, CUT, FILL, , , MANY] = NAMES.map((_, k) => k).slice(1);
const HEADER = 40, SOURCE = 8, NODE = 32, REVISION = 56, SPLICE = 32;

/** The lengths of its sources that an image's first bytes state, as numbers. */
export function statedLengths(bytes) {
  if (bytes.length < HEADER) return [];
  const view = new DataView(bytes.buffer, bytes.byteOffset, bytes.length);
  const count = Math.min(view.getUint32(12), 256, Math.floor((bytes.length - HEADER) / SOURCE));
  return Array.from({ length: count }, (_, s) => Number(view.getBigUint64(HEADER + SOURCE * s)));
}

/** The commands of an image that was accepted. */
export class Records {
  constructor(bytes) {
    this.view = new DataView(bytes.buffer, bytes.byteOffset, bytes.length);
    const [sources, nodes, revisions, , splices] = [12, 16, 20, 24, 28].map((at) => this.view.getUint32(at));
    this.count = revisions;
    this.first = HEADER + SOURCE * sources + NODE * nodes;
    this.splices = this.first + REVISION * revisions;
    this.spliceCount = this.view.getUint32(8) === 1 ? 0 : splices;
    this.starts = null;
  }

  number(at) {
    return Number(this.view.getBigUint64(at));
  }

  code(k) {
    return this.view.getUint8(this.first + REVISION * k);
  }

  /** The revision whose text a command changes, or -1 where it has none. */
  parent(k) {
    const code = this.code(k);
    return code === NEW || code === OPEN ? -1 : this.view.getUint32(this.first + REVISION * k + 8);
  }

  /** The number of the first splice of revision k: those of the revisions before it are counted once. */
  firstSplice(k) {
    if (this.starts === null) {
      this.starts = new Uint32Array(this.count);
      let sum = 0;
      for (let j = 0; j < this.count; j++) {
        this.starts[j] = sum;
        if (this.code(j) === MANY) sum += this.view.getUint32(this.first + REVISION * j + 12);
      }
    }
    return this.starts[k];
  }

  /** The command of revision k: its name and fields, and the splices of `many`. */
  command(k) {
    const at = this.first + REVISION * k;
    const [r, q] = [this.view.getUint32(at + 8), this.view.getUint32(at + 12)];
    const [p, m, a, n] = [16, 24, 32, 40].map((offset) => this.number(at + offset));
    const code = this.code(k);
    const splices = code === MANY ? this.splicesOf(this.firstSplice(k), q) : [];
    return { code, name: NAMES[code], r, q, p, m, a, n, splices };
  }

  splicesOf(first, count) {
    return Array.from({ length: count }, (_, j) => {
      const at = this.splices + SPLICE * (first + j);
      const [p, m, a, n] = [0, 8, 16, 24].map((offset) => this.number(at + offset));
      return { p, m, a, n };
    });
  }

  /** How many bytes the command that put these in handed in there, at once: the pool's bytes from `start` on. */
  handed(revision, start) {
    const command = this.command(revision);
    if (command.code !== MANY) return command.n;
    return command.splices.find((x) => x.n > 0 && x.a <= start && start < x.a + x.n)?.n ?? command.n;
  }

  /** Whether each revision is one that the last one came from: the others are branches that undo left. */
  kept() {
    const kept = new Uint8Array(this.count);
    for (const next = [this.count - 1]; next.length > 0;) {
      let k = next.pop();
      while (k >= 0 && kept[k] === 0) {
        kept[k] = 1;
        const code = this.code(k);
        if (code === PASTE || code === JOIN) next.push(this.view.getUint32(this.first + REVISION * k + 12));
        k = this.parent(k);
      }
    }
    return kept;
  }
}

/** Where bytes came into a text, and where some went out of the one before: places of the text that the command gives. */
export function changesOf(command, lengthOf) {
  const { code, r, p, m, a, n } = command;
  switch (code) {
    case OPEN: return [{ at: 0, put: Infinity, gone: 0 }];
    case INSERT: case PASTE: case FILL: return [{ at: p, put: n, gone: 0 }];
    case DELETE: return [{ at: p, put: 0, gone: n }];
    case REPLACE: return [{ at: p, put: n, gone: m }];
    case JOIN: return [{ at: lengthOf(r), put: Infinity, gone: 0 }];
    case CUT: return [{ at: 0, put: 0, gone: a }, { at: n, put: 0, gone: lengthOf(r) - a - n }].filter((x) => x.gone > 0);
    case MANY: return placesOf(command.splices);
    default: return [];
  }
}

function placesOf(splices) {
  let moved = 0;
  return splices.map((x) => {
    const at = x.p + moved;
    moved += x.n - x.m;
    return { at, put: x.n, gone: x.m };
  });
}
