// Rows of a text: they end behind a line's end, or where a row is full.

import { shown } from "./characters.js";

/** The first row of bytes that begin a row: where it ends, and whether it is whole, or may go on behind the bytes. */
export function rowEnd(bytes, at, columns, isLast) {
  let width = 0;
  for (let k = at; k < bytes.length; ) {
    if (bytes[k] === 10) return { end: k + 1, whole: true };
    if (width >= columns) return { end: k, whole: true };
    const { text, count } = shown(bytes, k, false);
    width += text.length;
    k += count;
  }
  return { end: bytes.length, whole: isLast };
}

/** Up to `most` rows from the first byte on. */
export function rowsOf(bytes, columns, most, isLast) {
  const rows = [];
  for (let at = 0; at < bytes.length && rows.length < most; ) {
    const { end, whole } = rowEnd(bytes, at, columns, isLast);
    if (!whole && rows.length > 0) break;
    rows.push({ from: at, to: end });
    at = end;
  }
  return rows;
}

/** Where rows begin in bytes that end where a row begins: from the first line on that begins there, or from the first byte. */
export function startsBefore(bytes, columns, isFirst) {
  let first = 0;
  if (!isFirst) {
    const end = bytes.indexOf(10);
    first = end >= 0 && end + 1 < bytes.length ? end + 1 : alignment(bytes);
  }
  const rows = rowsOf(bytes.subarray(first), columns, Infinity, true);
  return rows.map((row) => first + row.from);
}

// The first byte that is not inside a character.
function alignment(bytes) {
  let at = 0;
  while (at < 3 && at < bytes.length && (bytes[at] & 0xc0) === 0x80) at++;
  return at;
}
