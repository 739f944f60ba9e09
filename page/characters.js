// Bytes as people read them: UTF-8 as text, a byte that is none of it as one, control bytes on wish.

const LENGTHS = (first) => (first < 0x80 ? 1 : first < 0xc2 ? 0 : first < 0xe0 ? 2 : first < 0xf0 ? 3 : first < 0xf5 ? 4 : 0);
const LEAST = { 2: 0x80, 3: 0x800, 4: 0x10000 };

/** How many bytes the character at a place has, or 0 where none of UTF-8 stands there. */
export function characterLength(bytes, at) {
  const count = LENGTHS(bytes[at]);
  if (count <= 1 || at + count > bytes.length) return count <= 1 ? count : 0;
  let code = bytes[at] & (0xff >> (count + 1));
  for (let j = 1; j < count; j++) {
    if ((bytes[at + j] & 0xc0) !== 0x80) return 0;
    code = code * 64 + (bytes[at + j] & 0x3f);
  }
  return code < LEAST[count] || code > 0x10ffff || (code >= 0xd800 && code < 0xe000) ? 0 : count;
}

const decoder = new TextDecoder();

/** What is shown of the character at a place: its text, how many bytes it has, and whether it is a byte of no character. */
export function shown(bytes, at, controls) {
  const count = characterLength(bytes, at);
  if (count === 0) return { text: `\\x${bytes[at].toString(16).padStart(2, "0")}`, count: 1, isByte: true };
  const byte = bytes[at];
  if (count > 1) return { text: decoder.decode(bytes.subarray(at, at + count)), count, isByte: false };
  if (byte === 9) return { text: controls ? "\u2192\t" : "\t", count, isByte: false };
  if (byte === 10) return { text: controls ? "\u240a" : "", count, isByte: false };
  if (byte === 13) return { text: controls ? "\u240d" : "", count, isByte: false };
  if (byte < 0x20 || byte === 0x7f) return { text: String.fromCharCode(byte === 0x7f ? 0x2421 : 0x2400 + byte), count, isByte: false };
  return { text: String.fromCharCode(byte), count, isByte: false };
}

/** A name or a short text on one line, its control bytes as pictures. */
export function oneLine(text) {
  return [...text].map((c) => (c < " " ? String.fromCharCode(0x2400 + c.charCodeAt(0)) : c === "\x7f" ? "\u2421" : c)).join("");
}
