// check.mjs CORD_C.WASM [LOOKS] IMAGE [SOURCE]...: the answer of `cordkit check`, by the library as WebAssembly; with --show REV behind the library
// the text of a revision.

import fs from "node:fs";
import { Library, line } from "../../../examples/cord.mjs";

const words = process.argv.slice(2);
const library = await Library.of(fs.readFileSync(words.shift()));
const shown = words[0] === "--show" ? Number(words.splice(0, 2)[1]) : null;
const most = words[0] !== undefined && /^[0-9]+$/.test(words[0]) && words.length > 1 ? BigInt(words.shift()) : null;
const [image, ...sources] = words.map((name) => new Uint8Array(fs.readFileSync(name)));
const looks = most === null ? null : library.looksBound(image);
if (looks !== null && looks > most) {
  console.log(`refused looks ${looks}`);
  process.exitCode = 1;
} else if (shown !== null) {
  const text = library.text(image, sources, shown);
  if (text === null) process.exitCode = 1;
  else process.stdout.write(text);
} else {
  const verdict = library.check(image, sources);
  if (verdict.code === 12) console.error("read");
  else console.log(line(verdict));
  process.exitCode = verdict.code === 0 ? 0 : verdict.code === 12 ? 3 : 1;
}
