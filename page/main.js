// The page: what was handed in is checked first, and then its history is shown.

import { Checker, hasLongMemories, line, sentence } from "./checker.js";
import { oneLine } from "./characters.js";
import { drawGraph, revisionAtHeight, seenBeside } from "./graph.js";
import { Pane } from "./pane.js";
import { statedLengths } from "./records.js";
import { KINDS, Shares, kindOf } from "./shares.js";
import { entryOf, revisionAt, timesOf, timeText, toldTime } from "./times.js";

const at = (id) => document.getElementById(id);
const QUIET = 300, TOLD_EVERY = 200, PLAY_EVERY = 150, MOST_PRINTED = 1 << 20;
const state = { checker: null, count: 0, k: 0, times: [], kept: null, several: false, shares: null, poolLength: 0, sources: [], origin: null, asked: 0, turn: 0 };
let pane;

// ---- what is told

function tell(text, isRefused = false) {
  at("told").textContent = text;
  at("told").classList.toggle("refused", isRefused);
}

const percent = (n, all) => (all === 0 ? "0" : ((100 * n) / all).toFixed(n === all || n === 0 ? 0 : 1));
const bytesText = (n) => `${n.toLocaleString("en")} byte${n === 1 ? "" : "s"}`;

/** A command as a script has it, in short. */
function commandText(c) {
  const quoted = () => `${JSON.stringify(oneLine(new TextDecoder().decode(c.typed)))}${c.n > c.typed.length ? ` .. (${bytesText(c.n)})` : ""}`;
  const words = {
    new: "", open: `${c.q}`, insert: c.typed && `${c.r} ${c.p} ${quoted()}`, delete: `${c.r} ${c.p} ${c.n}`, replace: c.typed && `${c.r} ${c.p} ${c.m} ${quoted()}`,
    paste: `${c.r} ${c.q} ${c.p} ${c.a} ${c.n}`, join: `${c.r} ${c.q}`, cut: `${c.r} ${c.a} ${c.n}`, fill: `${c.r} ${c.p} ${c.a} ${c.n}`,
    back: `${c.r}`, balance: `${c.r}`, many: `${c.r}, ${c.spliceCount} places`,
  };
  return `${c.name} ${words[c.name] ?? ""}`.trim();
}

// ---- checking

async function digestOf(bytes) {
  if (!globalThis.crypto?.subtle) return null;
  const digest = new Uint8Array(await crypto.subtle.digest("SHA-256", bytes));
  return [...digest].map((byte) => byte.toString(16).padStart(2, "0")).join("");
}

/** Why bytes are not those that were put into this page, or nothing. */
async function differs(about, bytes) {
  if (about.length !== bytes.byteLength) return `${about.name} has ${bytes.byteLength} bytes here, and had ${about.length}`;
  const digest = await digestOf(bytes);
  return digest !== null && digest !== about.sha256 ? `${about.name} is not what was put into this page` : null;
}

async function open(name, image, sources, times, turn) {
  at("history").hidden = at("meaning").hidden = true;
  at("drop").open = true;
  tell(`${oneLine(name)}: reading ..`);
  state.times = times;
  const bytes = new Uint8Array(image);
  const size = image.byteLength;
  state.sources = sources.length > 0 ? sources.map((s) => (s instanceof ArrayBuffer ? s.byteLength : s)) : statedLengths(bytes);
  state.poolLength = size >= 40 ? Number(new DataView(image).getBigUint64(32)) : 0;
  const given = sources.length > 0 ? sources : state.sources;
  await state.checker.ready;
  const held = await state.checker.ask("hold", { image, sources: given }, [image, ...given.filter((s) => s instanceof ArrayBuffer)]);
  state.several = held.several;
  if (held.looks !== null && BigInt(held.looks) > BigInt(at("most").value)) return tell(`${oneLine(name)}: refused looks ${held.looks}`, true);
  const verdict = await checked(name, size, held.looks, turn);
  if (verdict === null || turn !== state.turn) return undefined;
  tell(`${oneLine(name)}: ${line(verdict)}\n${verdict.code === 0 ? verdict.took : sentence(verdict)}`, verdict.code !== 0);
  if (verdict.code === 0) await showHistory(verdict);
  return undefined;
}

/** The verdict of a check, which can be stopped; meanwhile the time that has gone is told. */
async function checked(name, size, looks, turn) {
  const begun = performance.now();
  const gone = () => `${((performance.now() - begun) / 1000).toFixed(1)} s`;
  const ticking = setInterval(() => tell(`${oneLine(name)}: checking, at most ${looks} looks at nodes; ${gone()} so far`), 500);
  at("stop").hidden = false;
  try {
    const verdict = await state.checker.ask("check");
    return { ...verdict, took: `${bytesText(size)}, checked here in ${((performance.now() - begun) / 1000).toFixed(2)} s, at most ${looks} looks at nodes` };
  } catch (error) {
    if (turn === state.turn) tell(`${oneLine(name)}: ${error.message === "stopped" ? "the check was stopped; nothing is shown" : `not checked: ${error.message}`}`, true);
    return null;
  } finally {
    clearInterval(ticking);
    at("stop").hidden = true;
  }
}

async function showHistory(verdict) {
  state.count = verdict.revisions;
  at("history").hidden = at("meaning").hidden = false;
  at("drop").open = false;
  if (state.count === 0) return;
  state.kept = await state.checker.ask("kept");
  at("of").textContent = `of 0 to ${state.count - 1}`;
  at("bytime").hidden = state.times.length < 2;
  at("clock").checked = state.times.length >= 2;
  at("revision").max = state.count - 1;
  setSlider();
  pane.top = 0;
  await go(state.count - 1);
  placeSlider();
}

// ---- time

const byTime = () => at("clock").checked && state.times.length >= 2;

function setSlider() {
  const slider = at("slider");
  [slider.min, slider.max] = byTime() ? [state.times[0].at, state.times[state.times.length - 1].at] : [0, state.count - 1];
  slider.step = byTime() ? 1000 : 1;
  at("marks").hidden = !byTime();
  if (byTime()) drawMarks();
}

/** Marks where states were kept: pauses are seen between them. */
function drawMarks() {
  const canvas = at("marks");
  canvas.width = canvas.clientWidth || 800;
  const drawing = canvas.getContext("2d");
  drawing.fillStyle = getComputedStyle(document.body).color;
  const [first, last] = [state.times[0].at, state.times[state.times.length - 1].at];
  for (const entry of state.times) drawing.fillRect(8 + ((entry.at - first) / Math.max(1, last - first)) * (canvas.width - 17), 0, 1, 10);
}

function placeSlider() {
  const entry = byTime() ? state.times[Math.max(0, entryOf(state.times, state.k))] : null;
  at("slider").value = entry ? entry.at : state.k;
}

/** Shows a revision. Of several that are asked for before the first is there only the last one is shown. */
async function go(k) {
  const wanted = Math.max(0, Math.min(state.count - 1, Math.trunc(k) || 0));
  const asked = ++state.asked;
  state.k = wanted;
  at("revision").value = wanted;
  state.shares = null;
  const command = await state.checker.ask("command", { k: wanted });
  if (asked !== state.asked) return;
  const when = toldTime(state.times, wanted);
  at("command").textContent = `${wanted}: ${commandText(command)} \u2192 ${bytesText(command.length)}${when ? `, ${when}` : ""}`;
  at("slider").setAttribute("aria-valuetext", `revision ${wanted}`);
  await pane.show(wanted, command.length, command.changes);
  await graph(wanted, asked);
  clearTimeout(state.counting);
  state.counting = setTimeout(() => count(wanted, command.length, asked), QUIET);
}

async function graph(k, asked) {
  const beside = seenBeside(at("graph"));
  const [from, to] = [Math.max(0, k - beside), Math.min(state.count, k + beside + 1)];
  const parents = await state.checker.ask("parents", { from, to });
  if (asked === state.asked) drawGraph(at("graph"), { from, k, parents, kept: state.kept });
}

// ---- origins

const pasted = () => Math.max(2, Number(at("pasted").value) || 24);
const hue = (part) => `hsl(${Math.round(300 * part)} 70% 50% / .3)`;

/** The class or the colour of a run at a place of the text. */
function look(run, place) {
  if (run === null) return {};
  switch (at("by").value) {
    case "kind": return { name: `k${state.shares?.isCopy(place) ? 2 : kindOf(run, pasted())}` };
    case "revision": return { colour: hue(run.revision / Math.max(1, state.count - 1)) };
    case "time": return { colour: timeColour(run.revision) };
    default: return {};
  }
}

function timeColour(revision) {
  if (state.times.length < 2) return undefined;
  const [first, last] = [state.times[0].at, state.times[state.times.length - 1].at];
  const entry = state.times[Math.max(0, entryOf(state.times, revision))];
  return hue((entry.at - first) / Math.max(1, last - first));
}

/** Counts how the text's bytes came in, as long as nothing else is asked. */
async function count(k, length, asked) {
  const shares = new Shares(state.poolLength, state.sources, length, pasted());
  state.shares = shares;
  let told = performance.now();
  for (let place = 0; place < length && asked === state.asked && state.shares === shares;) {
    const { runs } = await state.checker.ask("origins", { k, place, most: state.several ? 4096 : 64 });
    if (asked !== state.asked || state.shares !== shares || runs.length === 0) return;
    runs.forEach((run) => shares.add(run));
    place = shares.counted;
    if (performance.now() - told < TOLD_EVERY) continue;
    tellShares(shares);
    told = performance.now();
  }
  if (asked !== state.asked) return;
  tellShares(shares);
  if (shares.copies.length > 0) pane.lay();
}

function tellShares(shares) {
  const rows = KINDS.map((name, kind) => {
    const row = document.createElement("li");
    const swatch = document.createElement("span");
    swatch.className = `swatch k${kind}`;
    row.append(swatch, `${name}: ${bytesText(shares.bytes[kind])}, ${percent(shares.bytes[kind], shares.counted)} %`);
    return row;
  });
  at("legend").replaceChildren(...rows);
  const all = shares.counted === shares.length;
  const copies = shares.tellsCopies ? "" : " Copies are not told from the first bytes: the session is too large for that here.";
  at("counted").textContent = (all ? "" : `${percent(shares.counted, shares.length)} % of the text is counted so far.`) + copies;
}

function toldOrigin(run, place) {
  const off = place - run.at;
  const what = { pool: `${run.handed >= pasted() ? "put in at once with others" : "typed"} (${bytesText(run.handed ?? 0)} by that command)`,
    source: `byte ${run.start + off} of source ${run.source}`, fill: `byte ${run.byte} of a fill` }[run.kind];
  const when = toldTime(state.times, run.revision);
  at("origin").textContent = `Byte ${place}: put in by revision ${run.revision}${when ? `, ${when}` : ""}, at place ${run.place + off} of its text; ${what}; `
    + `${bytesText(run.len)} from ${run.at} on came in side by side.`;
  state.origin = { revision: run.revision, place: run.place + off };
  at("goto").hidden = false;
}

// ---- what the reader does

function play(on) {
  clearInterval(state.playing);
  at("play").setAttribute("aria-pressed", String(on));
  at("play").textContent = on ? "Pause" : "Play";
  if (!on) return;
  if (state.k >= state.count - 1) go(0);
  state.playing = setInterval(() => (state.k < state.count - 1 ? go(state.k + 1).then(placeSlider) : play(false)), PLAY_EVERY);
}

const failed = (error) => error.message !== "stopped" && tell(`stopped: ${error.message}`, true);
const moved = (k) => go(k).then(placeSlider).catch(failed);

function listen() {
  at("slider").oninput = () => go(byTime() ? revisionAt(state.times, Number(at("slider").value)) : Number(at("slider").value)).catch(failed);
  at("revision").onchange = () => moved(Number(at("revision").value));
  at("before").onclick = () => moved(state.k - 1);
  at("behind").onclick = () => moved(state.k + 1);
  at("play").onclick = () => play(at("play").getAttribute("aria-pressed") !== "true");
  at("clock").onchange = () => { setSlider(); placeSlider(); };
  at("by").onchange = () => pane.lay();
  at("pasted").onchange = () => moved(state.k);
  at("controls").onchange = () => { pane.controls = at("controls").checked; pane.lay(); };
  at("goto").onclick = () => { pane.top = state.origin.place; moved(state.origin.revision); };
  at("stop").onclick = () => state.checker.end();
  at("print").onclick = () => print().catch(failed);
  at("graph").onclick = (event) => moved(revisionAtHeight(at("graph"), state.k, event.offsetY));
  at("files").onchange = () => dropped(at("files").files);
  const drop = document.body;
  drop.ondragover = (event) => { event.preventDefault(); at("drop").classList.add("over"); };
  drop.ondragleave = () => at("drop").classList.remove("over");
  drop.ondrop = (event) => { event.preventDefault(); at("drop").classList.remove("over"); dropped(event.dataTransfer.files); };
}

/** Prints the text with its legend; of a long one its first part. */
async function print() {
  const laid = await pane.layAll(MOST_PRINTED);
  at("counted").textContent += laid < pane.length ? ` Printed: the first ${bytesText(laid)}.` : "";
  document.body.classList.add("whole");
  window.print();
  document.body.classList.remove("whole");
  await pane.draw();
}

async function dropped(files) {
  if (files.length === 0) return;
  play(false);
  const all = [...files];
  const images = all.filter((file) => file.name.endsWith(".cord")).sort((a, b) => b.size - a.size);
  const image = images[0] ?? all[0];
  const times = all.find((file) => file !== image && file.name.endsWith(".times"));
  const sources = all.filter((file) => file !== image && file !== times);
  const turn = ++state.turn;
  try {
    state.checker.end();
    const buffers = await Promise.all(sources.map((file) => file.arrayBuffer()));
    await open(image.name, await image.arrayBuffer(), buffers, times ? timesOf(await times.text()) : [], turn);
  } catch (error) {
    failed(error);
  }
}

// ---- what cordkit-page put in

function bytesOf(id) {
  const text = at(id).textContent.trim();
  const padding = text.endsWith("==") ? 2 : text.endsWith("=") ? 1 : 0;
  const bytes = new Uint8Array((text.length / 4) * 3 - padding);
  const STEP = 1 << 22;
  for (let place = 0; place < text.length; place += STEP) {
    const piece = atob(text.slice(place, place + STEP));
    const first = (place / 4) * 3;
    for (let j = 0; j < piece.length; j++) bytes[first + j] = piece.charCodeAt(j);
  }
  return bytes.buffer;
}

async function openCarried(about) {
  at("title").textContent = `The history of ${oneLine(about.image.name)}`;
  document.title = at("title").textContent;
  const names = [about.image, ...about.sources];
  const buffers = names.map((_, j) => bytesOf(`bytes-${j}`));
  for (const [j, buffer] of buffers.entries()) {
    const why = await differs(names[j], buffer);
    if (why) return tell(oneLine(why), true);
  }
  return open(about.image.name, buffers[0], buffers.slice(1), timesOf(about.times ?? ""), state.turn);
}

async function begin() {
  if (!hasLongMemories()) {
    at("drop").hidden = true;
    return tell("This browser cannot run the checker, which wants WebAssembly memories of 64 bits: Chrome and Edge have them from version 133 on, Firefox from 134. "
      + "Nothing is shown.", true);
  }
  const module = Uint8Array.from(atob(MODULE), (c) => c.charCodeAt(0));
  state.checker = new Checker(WORKER, module);
  const ask = (what, words) => state.checker.ask(what, words);
  pane = new Pane(at("scroller"), at("spacer"), at("text"), { ask, look, told: toldOrigin, failed });
  listen();
  await state.checker.ready;
  const about = JSON.parse(at("about-data").textContent);
  if (about === null) return tell("ready");
  return openCarried(about);
}

begin().catch(failed);
