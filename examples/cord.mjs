// The library as WebAssembly, for a page or for node: `make wasm` builds crates/cord_c/out/cord_c.wasm. It wants memories with 64-bit
// places, as browsers have them, and node from version 24 on (before: node --experimental-wasm-memory64).

const NAMES = ["code", "kind", "number", "revisions", "nodes", "rows"];
const NO_REVISIONS = Uint8Array.from([..."CORDSESS"].map((c) => c.charCodeAt(0)).concat([0, 0, 0, 1], Array(28).fill(0)));

/** A verdict as `cordkit check` prints it. */
export function line(v) {
  if (v.code === 0) return `accepted ${v.revisions} revisions ${v.nodes} nodes ${v.rows} rows`;
  const special = { 1: `C1(I${v.kind})`, 2: "C2", 11: `C11(${v.number},${v.row})`, 12: `C12(S${v.kind})`, 13: `S${v.kind}` };
  return `refused ${special[v.code] ?? `C${v.code}(${v.number})`}`;
}

export class Library {
  constructor(instance) {
    this.calls = instance.exports;
    this.first = (BigInt(this.calls.__heap_base.value) + 15n) & ~15n;
  }

  /** The library of a file's bytes. */
  static async of(wasm) {
    return new Library((await WebAssembly.instantiate(wasm, {})).instance);
  }

  /** The verdict on an image; a source is bytes, or a length where none of its bytes are held. */
  check(image, sources = []) {
    const room = new Room(this);
    const [at, given, verdict] = [room.bytes(image), room.sources(sources), room.take(32)];
    this.calls.cord_check(at, BigInt(image.length), given, BigInt(sources.length), verdict);
    return room.verdict(verdict);
  }

  /** How many looks at nodes a check takes at most, as a BigInt; null where the bytes are no image. */
  looksBound(image) {
    const room = new Room(this);
    const [at, bound] = [room.bytes(image), room.take(8)];
    return this.calls.cord_looks_bound(at, BigInt(image.length), bound) ? room.view.getBigUint64(Number(bound), true) : null;
  }

  /** The text of a revision of an image that is accepted; null where it is not, or has no such revision. */
  text(image, sources, k) {
    const room = new Room(this);
    const [at, given, opened, verdict] = [room.bytes(image), room.sources(sources), room.take(16), room.take(32)];
    const [length, got] = [room.take(8), room.take(8)];
    room.numbers(opened, [room.bytes(NO_REVISIONS), BigInt(NO_REVISIONS.length)]);
    if (!this.calls.cord_open(at, BigInt(image.length), given, BigInt(sources.length), opened, verdict)) return null;
    if (!this.calls.cord_text_len(opened, k, length)) return null;
    const text = new Uint8Array(Number(room.view.getBigUint64(Number(length), true)));
    const out = room.take(65536);
    for (let place = 0; place < text.length; ) {
      const told = this.calls.cord_read(opened, given, BigInt(sources.length), k, BigInt(place), out, 65536n, got);
      if (told !== 0) return null;
      const count = Number(room.view.getBigUint64(Number(got), true));
      text.set(new Uint8Array(this.calls.memory.buffer, Number(out), count), place);
      place += count;
    }
    return text;
  }
}

/** Room for one call's bytes and answers, behind what the library uses itself. */
class Room {
  constructor(library) {
    this.memory = library.calls.memory;
    this.free = library.first;
  }

  get view() {
    return new DataView(this.memory.buffer);
  }

  take(count) {
    const at = this.free;
    this.free += (BigInt(count) + 31n) & ~15n;
    const missing = this.free - BigInt(this.memory.buffer.byteLength);
    if (missing > 0n) this.grow((missing + 65535n) / 65536n);
    return at;
  }

  // A memory with 64-bit places grows by a BigInt; where that was not settled yet, by a number.
  grow(pages) {
    try {
      this.memory.grow(pages);
    } catch (error) {
      if (!(error instanceof TypeError)) throw error;
      this.memory.grow(Number(pages));
    }
  }

  bytes(bytes) {
    const at = this.take(bytes.length);
    new Uint8Array(this.memory.buffer, Number(at), bytes.length).set(bytes);
    return at;
  }

  numbers(at, numbers) {
    const view = this.view;
    numbers.forEach((n, i) => view.setBigUint64(Number(at) + 8 * i, n, true));
  }

  sources(sources) {
    const held = sources.map((s) => (s instanceof Uint8Array ? s : new Uint8Array()));
    const places = held.map((bytes) => this.bytes(bytes));
    const at = this.take(24 * sources.length);
    sources.forEach((s, i) => {
      const size = BigInt(s instanceof Uint8Array ? s.length : s);
      this.numbers(at + BigInt(24 * i), [places[i], BigInt(held[i].length), size]);
    });
    return at;
  }

  verdict(at) {
    const view = this.view;
    const found = Object.fromEntries(NAMES.map((name, i) => [name, view.getUint32(Number(at) + 4 * i, true)]));
    return { ...found, row: view.getBigUint64(Number(at) + 24, true) };
  }
}
