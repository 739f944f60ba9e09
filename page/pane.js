// The text of a revision: only what is on the screen is asked for and laid out.

import { shown } from "./characters.js";
import { rowsOf, startsBefore } from "./rows.js";

const ROW = 20, TALLEST = 8_000_000, RUNS = 4096, BACK = 4096;

export class Pane {
  /** `ask` asks the checker, `classOf` gives a run's class and colour, `told` is called with a run that was clicked. */
  constructor(scroller, spacer, text, { ask, look, told, failed }) {
    Object.assign(this, { scroller, spacer, text, ask, look, told, failed });
    Object.assign(this, { k: 0, length: 0, top: 0, drawn: 0, window: null, changes: [], controls: false, chosen: null });
    scroller.addEventListener("scroll", () => this.scrolled());
    scroller.addEventListener("wheel", (event) => this.wheel(event), { passive: false });
    scroller.addEventListener("keydown", (event) => this.key(event));
    text.addEventListener("click", (event) => this.clicked(event));
    new ResizeObserver(() => this.draw()).observe(scroller);
  }

  get rows() {
    return Math.max(1, Math.floor(this.scroller.clientHeight / ROW));
  }

  get columns() {
    this.letter ??= this.letterWidth();
    return Math.max(20, Math.floor((this.scroller.clientWidth - 4) / this.letter));
  }

  letterWidth() {
    const probe = document.createElement("span");
    probe.textContent = "m".repeat(100);
    this.text.append(probe);
    const width = probe.getBoundingClientRect().width / 100;
    probe.remove();
    return width || 8;
  }

  /** Shows a revision, from the byte on that is at the top now, or from another one. */
  async show(k, length, changes, top = this.top) {
    Object.assign(this, { k, length, changes, chosen: null });
    const lines = Math.max(1, Math.ceil(length / 40));
    this.spacer.style.height = `${Math.min(TALLEST, lines * ROW) + this.scroller.clientHeight}px`;
    this.top = await this.startOf(Math.min(top, Math.max(0, length - 1)));
    await this.draw();
  }

  /** Where the row begins that has this byte. */
  async startOf(place) {
    if (place <= 0) return 0;
    const from = Math.max(0, place - BACK);
    const { text } = await this.ask("bytes", { k: this.k, from, count: place - from + 1 });
    const starts = startsBefore(text, this.columns, from === 0).filter((at) => from + at <= place);
    return starts.length > 0 ? from + starts[starts.length - 1] : place;
  }

  async move(rows) {
    if (rows < 0) this.top = await this.above(-rows);
    else this.top = await this.below(rows);
    await this.draw();
  }

  async above(rows) {
    const from = Math.max(0, this.top - rows * this.columns * 4 - BACK);
    const { text } = await this.ask("bytes", { k: this.k, from, count: this.top - from });
    const starts = startsBefore(text, this.columns, from === 0);
    return starts.length === 0 ? 0 : from + starts[Math.max(0, starts.length - rows)];
  }

  async below(rows) {
    const count = (rows + 1) * this.columns * 4;
    const { text } = await this.ask("bytes", { k: this.k, from: this.top, count });
    const laid = rowsOf(text, this.columns, rows + 1, this.top + text.length >= this.length);
    return this.top + (laid.length > rows ? laid[rows].from : (laid[laid.length - 1]?.from ?? 0));
  }

  scrolled() {
    if (this.scroller.scrollTop === this.setTo) return;
    this.setTo = this.scroller.scrollTop;
    const most = this.scroller.scrollHeight - this.scroller.clientHeight;
    const place = Math.floor((this.length * this.scroller.scrollTop) / Math.max(1, most));
    this.queue(async () => {
      this.top = await this.startOf(Math.min(place, Math.max(0, this.length - 1)));
      await this.draw(false);
    });
  }

  wheel(event) {
    if (event.ctrlKey) return;
    event.preventDefault();
    const rows = event.deltaMode === 1 ? event.deltaY : event.deltaY / ROW;
    this.queue(() => this.move(Math.trunc(rows) || Math.sign(rows)));
  }

  key(event) {
    const rows = { ArrowDown: 1, ArrowUp: -1, PageDown: this.rows - 1, PageUp: 1 - this.rows }[event.key];
    if (rows !== undefined) this.queue(() => this.move(rows));
    else if (event.key === "Home") this.queue(() => this.to(0));
    else if (event.key === "End") this.queue(() => this.to(this.length));
    else return;
    event.preventDefault();
  }

  async to(place) {
    this.top = await this.startOf(Math.min(place, Math.max(0, this.length - 1)));
    await this.draw();
  }

  // One movement after the other: of those that wait only the last one is made.
  queue(work) {
    this.waiting = work;
    this.running ??= (async () => {
      while (this.waiting) {
        const next = this.waiting;
        this.waiting = null;
        try {
          await next();
        } catch (error) {
          this.failed(error);
        }
      }
      this.running = null;
    })();
  }

  /** Lays out what is seen: first the text, and its colours once they are told. */
  async draw(setScroll = true) {
    const drawn = ++this.drawn;
    const [k, from, rows] = [this.k, this.top, this.rows];
    const { text, missing } = await this.ask("bytes", { k, from, count: rows * this.columns * 4 + 4 });
    if (drawn !== this.drawn) return;
    const laid = rowsOf(text, this.columns, rows, from + text.length >= this.length);
    this.window = { from, text, missing, rows: laid, runs: [] };
    this.lay();
    if (setScroll) this.setScroll();
    const end = from + (laid[laid.length - 1]?.to ?? 0);
    const { runs } = await this.ask("origins", { k, place: from, most: RUNS, end });
    if (drawn !== this.drawn) return;
    this.window.runs = runs.filter((run) => run.at < end);
    this.lay();
  }

  /** Lays out the whole text, for printing, or its first bytes where it is longer than `most`; answers how many. */
  async layAll(most) {
    this.drawn++;
    const { text, missing } = await this.ask("bytes", { k: this.k, from: 0, count: most });
    const { runs } = await this.ask("origins", { k: this.k, place: 0, most: Infinity, end: text.length });
    this.window = { from: 0, text, missing, rows: rowsOf(text, this.columns, Infinity, true), runs };
    this.lay();
    return text.length;
  }

  setScroll() {
    const most = this.scroller.scrollHeight - this.scroller.clientHeight;
    this.scroller.scrollTop = Math.round((most * this.top) / Math.max(1, this.length));
    this.setTo = this.scroller.scrollTop;
  }

  lay() {
    const { from, text, rows, runs } = this.window;
    const lines = rows.map((row) => {
      const line = document.createElement("span");
      line.className = "line";
      this.fill(line, text.subarray(0, row.to), row.from, from, runs);
      return line;
    });
    if (this.length === 0) lines.push(document.createTextNode(""));
    this.text.replaceChildren(...lines);
  }

  // A row as pieces that have one run and one mark each.
  fill(line, bytes, at, from, runs) {
    let [piece, key] = [null, null];
    for (let k = at; k < bytes.length; ) {
      const place = from + k;
      const what = shown(bytes, k, this.controls);
      const run = runAt(runs, place);
      const marks = this.marksAt(place);
      const dots = this.isMissing(place);
      const here = `${run ? run.at : ""} ${marks} ${what.isByte} ${dots}`;
      if (here !== key) {
        key = here;
        piece = document.createElement("span");
        const { name, colour } = this.look(run, place);
        piece.className = [name, marks, what.isByte && !dots ? "byte" : "", dots ? "dots" : ""].filter(Boolean).join(" ");
        if (colour) piece.style.setProperty("background", colour);
        piece.dataset.place = place;
        line.append(piece);
      }
      piece.textContent += dots ? "\u00b7" : what.text;
      k += what.count;
    }
  }

  marksAt(place) {
    let marks = "";
    for (const { at, put, gone } of this.changes) {
      if (at > place) break;
      if (gone > 0 && at === place) marks += "gone ";
      if (at <= place && place < at + put) marks += "put ";
    }
    return marks.trim();
  }

  isMissing(place) {
    return this.window.missing.some(([from, to]) => from <= place && place < to);
  }

  clicked(event) {
    const piece = event.target.closest("[data-place]");
    if (!piece) return;
    this.chosen?.classList.remove("here");
    piece.classList.add("here");
    this.chosen = piece;
    const place = Number(piece.dataset.place);
    const run = runAt(this.window.runs, place);
    if (run) this.told(run, place);
  }
}

/** The run that has a place, of runs in order. */
export function runAt(runs, place) {
  let [low, high] = [0, runs.length];
  while (low < high) {
    const middle = (low + high) >> 1;
    if (runs[middle].at <= place) low = middle + 1;
    else high = middle;
  }
  const run = runs[low - 1];
  return run && place < run.at + run.len ? run : null;
}
