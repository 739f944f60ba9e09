// The worker that holds the image and its sources in the checker's memory, and asks the checker. It is ended where a check is to be stopped.

let calls, free, opened, given, sourceCount, records, bytes, scratch, lengths;
const ROOM = 1 << 20;
const ORIGIN = 40, MOST_RUNS = 4096;
const KINDS = { 1: "pool", 2: "source", 3: "fill" };

const view = () => new DataView(calls.memory.buffer);

/** Room for so many bytes, behind all that was given out. */
function take(count) {
  const at = free;
  free += (BigInt(count) + 31n) & ~15n;
  const missing = free - BigInt(calls.memory.buffer.byteLength);
  if (missing > 0n) grow((missing + 65535n) / 65536n);
  return at;
}

// A memory with 64-bit places grows by a BigInt; where that was not settled yet, by a number.
function grow(pages) {
  try {
    calls.memory.grow(pages);
  } catch (error) {
    if (!(error instanceof TypeError)) throw error;
    calls.memory.grow(Number(pages));
  }
}

function put(content) {
  const at = take(content.length);
  new Uint8Array(calls.memory.buffer, Number(at), content.length).set(content);
  return at;
}

async function start({ module }) {
  calls = (await WebAssembly.instantiate(module, {})).instance.exports;
  free = (BigInt(calls.__heap_base.value) + 15n) & ~15n;
  return {};
}

/** Holds an image and its sources: bytes, or a length where none of them is held. */
function hold({ image, sources }) {
  const content = new Uint8Array(image);
  const at = put(content);
  bytes = { at, len: BigInt(content.length) };
  lengths = sources.map((s) => (s instanceof ArrayBuffer ? s.byteLength : Number(s)));
  const places = sources.map((s) => (s instanceof ArrayBuffer ? [put(new Uint8Array(s)), BigInt(s.byteLength)] : [take(0), 0n]));
  sourceCount = BigInt(sources.length);
  given = take(24 * Math.max(1, sources.length));
  places.forEach(([place, held], s) => [place, held, BigInt(lengths[s])].forEach((n, i) => view().setBigUint64(Number(given) + 24 * s + 8 * i, n, true)));
  scratch = take(ROOM);
  const bound = calls.cord_looks_bound(bytes.at, bytes.len, scratch) ? view().getBigUint64(Number(scratch), true) : null;
  return { looks: bound === null ? null : String(bound), several: "cord_origins" in calls };
}

const NONE = Uint8Array.from([..."CORDSESS"].map((c) => c.charCodeAt(0)).concat([0, 0, 0, 1], Array(28).fill(0)));

function check() {
  const none = put(NONE);
  opened = take(16);
  const verdict = take(32);
  view().setBigUint64(Number(opened), none, true);
  view().setBigUint64(Number(opened) + 8, BigInt(NONE.length), true);
  calls.cord_open(bytes.at, bytes.len, given, sourceCount, opened, verdict);
  const at = Number(verdict), seen = view();
  const [code, kind, number, revisions, nodes, rows] = [0, 4, 8, 12, 16, 20].map((offset) => seen.getUint32(at + offset, true));
  if (code === 0) records = new Records(new Uint8Array(calls.memory.buffer, Number(bytes.at), Number(bytes.len)));
  return { code, kind, number, revisions, nodes, rows, row: String(seen.getBigUint64(at + 24, true)) };
}

/** The records over the memory as it is now: a memory that grew has another buffer. */
function recorded() {
  if (records.view.buffer !== calls.memory.buffer) {
    const { starts } = records;
    records = new Records(new Uint8Array(calls.memory.buffer, Number(bytes.at), Number(bytes.len)));
    records.starts = starts;
  }
  return records;
}

function lengthOf(k) {
  return calls.cord_text_len(opened, k, scratch) ? Number(view().getBigUint64(Number(scratch), true)) : 0;
}

/** Bytes of a text; where they are of a source that is not held, nothing is in their place, and `missing` says where. */
function read(k, place, count) {
  const wanted = Math.max(0, Math.min(count, lengthOf(k) - place));
  const text = new Uint8Array(wanted), missing = [];
  const out = scratch + 64n;
  for (let done = 0; done < wanted;) {
    const most = Math.min(wanted - done, ROOM - 128);
    const told = calls.cord_read(opened, given, sourceCount, k, BigInt(place + done), out, BigInt(most), scratch);
    let got = Number(view().getBigUint64(Number(scratch), true));
    if (told === 0) {
      text.set(new Uint8Array(calls.memory.buffer, Number(out), got), done);
    } else {
      got = Math.min(most, runLength(k, place + done));
      missing.push([place + done, place + done + got]);
    }
    if (got === 0) break;
    done += got;
  }
  return { text, missing };
}

function runLength(k, place) {
  return calls.cord_locate(opened, k, BigInt(place), scratch) ? Number(view().getBigUint64(Number(scratch) + 24, true)) : 0;
}

function originAt(at, place) {
  const seen = view(), from = Number(at);
  const [revision, kind, source, byte] = [0, 4, 8, 12].map((offset) => seen.getUint32(from + offset, true));
  const [there, start, len] = [16, 24, 32].map((offset) => Number(seen.getBigUint64(from + offset, true)));
  return { at: place, len, revision, kind: KINDS[kind], source, byte, place: there, start };
}

/** The runs of a text from a place on, up to an end or so many of them. */
function origins(k, place, end, most) {
  const runs = [];
  while (place < end && runs.length < most) {
    const before = runs.length;
    place = calls.cord_origins ? several(k, place, Math.min(most - runs.length, MOST_RUNS), runs) : one(k, place, runs);
    if (runs.length === before) break;
  }
  return runs;
}

function one(k, place, runs) {
  if (!calls.cord_origin(opened, k, BigInt(place), scratch)) return place;
  const run = originAt(scratch, place);
  runs.push(run);
  return place + run.len;
}

function several(k, place, room, runs) {
  const first = scratch + 64n;
  calls.cord_origins(opened, k, BigInt(place), first, BigInt(room), scratch);
  const count = Number(view().getBigUint64(Number(scratch), true));
  for (let j = 0; j < count; j++) {
    const run = originAt(first + BigInt(ORIGIN * j), place);
    runs.push(run);
    place += run.len;
  }
  return place;
}

/** How each run came in: of the pool by how many bytes were handed in at once. */
function withHanded(runs) {
  const known = recorded();
  return runs.map((run) => (run.kind === "pool" ? { ...run, handed: known.handed(run.revision, run.start) } : run));
}

const ASKED = {
  start,
  hold,
  check,
  length: ({ k }) => lengthOf(k),
  bytes: ({ k, from, count }) => read(k, from, count),
  origins: ({ k, place, most, end }) => ({ runs: withHanded(origins(k, place, Math.min(end ?? Infinity, lengthOf(k)), most)) }),
  command: ({ k }) => {
    const command = recorded().command(k);
    const changes = changesOf(command, lengthOf);
    const typed = command.code === 3 || command.code === 5 ? poolBytes(command.a, Math.min(command.n, 60)) : null;
    const most = command.splices.length;
    return { ...command, splices: command.splices.slice(0, 100), spliceCount: most, changes: changes.slice(0, 4096), typed, length: lengthOf(k) };
  },
  parents: ({ from, to }) => Array.from({ length: Math.max(0, to - from) }, (_, j) => recorded().parent(from + j)),
  kept: () => recorded().kept(),
};

function poolBytes(a, n) {
  const known = recorded();
  const pool = Number(bytes.len) - known.number(32);
  return new Uint8Array(calls.memory.buffer.slice(Number(bytes.at) + pool + a, Number(bytes.at) + pool + a + n));
}

onmessage = async ({ data }) => {
  try {
    postMessage({ id: data.id, answer: await ASKED[data.ask](data) });
  } catch (error) {
    postMessage({ id: data.id, error: String(error) });
  }
};
