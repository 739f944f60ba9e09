// A file of times, as keep_file and the language server write it: lines of a revision's number and when it was made.

const LINE = /^(\d{1,7}) (\d{4}-\d\d-\d\d)[ T](\d\d:\d\d(?::\d\d)?)/;

/** The revisions whose time is known, in order, each later one not before the ones before it. */
export function timesOf(text) {
  const found = [];
  for (const row of text.split("\n")) {
    const parts = LINE.exec(row);
    if (!parts) continue;
    const [revision, at] = [Number(parts[1]), Date.parse(`${parts[2]}T${parts[3]}`)];
    const last = found[found.length - 1];
    if (Number.isNaN(at) || (last && (revision <= last.revision || at < last.at))) continue;
    found.push({ revision, at });
  }
  return found;
}

/** The number of the last of them that is not behind this revision, or -1. */
export function entryOf(times, revision) {
  let [low, high] = [0, times.length];
  while (low < high) {
    const middle = (low + high) >> 1;
    if (times[middle].revision <= revision) low = middle + 1;
    else high = middle;
  }
  return low - 1;
}

/** The last revision that is known to be there at a time. */
export function revisionAt(times, at) {
  let found = times[0].revision;
  for (const entry of times) if (entry.at <= at) found = entry.revision;
  return found;
}

const two = (n) => String(n).padStart(2, "0");
export function timeText(at) {
  const d = new Date(at);
  return `${d.getFullYear()}-${two(d.getMonth() + 1)}-${two(d.getDate())} ${two(d.getHours())}:${two(d.getMinutes())}`;
}

/** When a revision was made, as far as the times tell; empty where they tell nothing. */
export function toldTime(times, revision) {
  if (times.length === 0) return "";
  const k = entryOf(times, revision);
  if (k >= 0 && times[k].revision === revision) return timeText(times[k].at);
  const after = k >= 0 ? `behind ${timeText(times[k].at)}` : "";
  const by = k + 1 < times.length ? `by ${timeText(times[k + 1].at)}` : "";
  return [after, by].filter(Boolean).join(", ");
}
