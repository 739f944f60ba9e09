// origins.mjs CORD_C.WASM IMAGE ROOM: the same as origins.c, by the library as WebAssembly.

import fs from "node:fs";

const [module, name, words] = process.argv.slice(2);
const calls = (await WebAssembly.instantiate(fs.readFileSync(module), {})).instance.exports;
const image = fs.readFileSync(name);
const room = Number(words);
const none = Uint8Array.from([..."CORDSESS"].map((c) => c.charCodeAt(0)).concat([0, 0, 0, 1], Array(28).fill(0)));
let free = (BigInt(calls.__heap_base.value) + 15n) & ~15n;
const view = () => new DataView(calls.memory.buffer);

function take(count) {
  const at = free;
  free += (BigInt(count) + 31n) & ~15n;
  const missing = free - BigInt(calls.memory.buffer.byteLength);
  const pages = (missing + 65535n) / 65536n;
  if (missing > 0n) {
    try {
      calls.memory.grow(pages);
    } catch {
      calls.memory.grow(Number(pages));
    }
  }
  return at;
}

function put(bytes) {
  const at = take(bytes.length);
  new Uint8Array(calls.memory.buffer, Number(at), bytes.length).set(bytes);
  return at;
}

const [at, opened, verdict, sources, runs, answer] = [put(image), take(16), take(32), take(24), take(40 * room), take(8)];
const nothing = put(none);
view().setBigUint64(Number(opened), nothing, true);
view().setBigUint64(Number(opened) + 8, BigInt(none.length), true);
if (!calls.cord_open(at, BigInt(image.length), sources, 0n, opened, verdict)) throw new Error("it is refused");
const last = view().getUint32(Number(verdict) + 12, true) - 1;
calls.cord_text_len(opened, last, answer);
const len = Number(view().getBigUint64(Number(answer), true));
for (const place of [0, Math.floor(len / 2), Math.max(0, len - room)]) {
  let best = Infinity;
  for (let turn = 0; turn < 5; turn++) {
    const start = performance.now();
    calls.cord_origins(opened, last, BigInt(place), runs, BigInt(room), answer);
    best = Math.min(best, performance.now() - start);
  }
  console.log(`  from ${place}: ${view().getBigUint64(Number(answer), true)} runs, ${Math.round(best * 1000)} us`);
}
