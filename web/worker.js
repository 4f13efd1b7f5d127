"use strict";
// The worker: runs the module on a table, and finds in each text that it makes where the rows begin, how wide the columns are, and the fields that the
// page looks up by number. The texts are handed on as they are.

const CALLS = ["tapebox_report", "tapebox_tape", "tapebox_explain"];
// How many bytes a handle has, and how many of a text are copied out of the module at once.
const HANDLE = 16, CHUNK = 1 << 20;
const [COMMA, LINE, DOT, SPACE] = [...",\n. "].map((sign) => sign.charCodeAt(0));
const [A, C, H, O, P, Y, ZERO, CAPITAL] = [..."achopy0A"].map((sign) => sign.charCodeAt(0));
// The columns of each text.
const REPORT_COLUMNS = 12, TAPE_COLUMNS = 17, EXPLAIN_COLUMNS = 18;

let module = null;

// ## Texts

// The text that a handle of the module holds.
function copied(calls, handle, chunk) {
  const text = new Uint8Array(Number(calls.tapebox_text_length(handle)));
  for (let from = 0; from < text.length; ) {
    const count = Number(calls.tapebox_text_copy(handle, BigInt(from), chunk, BigInt(CHUNK)));
    text.set(new Uint8Array(calls.memory.buffer, Number(chunk), count), from);
    from += count;
  }
  return text;
}

// How many rows a text has below its first.
function rowsOf(text) {
  let lines = 0;
  for (let at = 0; at < text.length; at++) if (text[at] === LINE) lines++;
  return Math.max(lines - 1, 0);
}

// Where each row of a text begins, and how wide its columns are; `keep` is given each row by its number, where it begins and where its fields end.
function cut(text, columns, keep) {
  const starts = new Uint32Array(rowsOf(text) + 1), ends = new Int32Array(columns), widths = new Uint32Array(columns);
  let row = 0, column = 0, start = text.indexOf(LINE) + 1;
  starts[0] = start;
  for (let at = start; at < text.length; at++) {
    if (text[at] === COMMA) ends[column++] = at;
    if (text[at] !== LINE) continue;
    ends[column] = at;
    widen(widths, start, ends);
    keep(row++, start, ends);
    column = 0;
    start = at + 1;
    starts[row] = start;
  }
  return { starts, widths };
}

// Widens the columns to the fields of a row.
function widen(widths, start, ends) {
  let from = start;
  for (let column = 0; column < widths.length; column++) {
    widths[column] = Math.max(widths[column], ends[column] - from);
    from = ends[column] + 1;
  }
}

function numberIn(text, from, to) {
  let number = 0;
  for (let at = from; at < to; at++) number = number * 10 + text[at] - ZERO;
  return number;
}

// A price in dollars, with four decimals at most, in ten-thousandths of a dollar.
function priceIn(text, from, to) {
  let price = 0, decimals = 0;
  for (let at = from; at < to; at++) {
    if (text[at] === DOT) decimals = to - at - 1;
    else price = price * 10 + text[at] - ZERO;
  }
  return price * 10 ** (4 - decimals);
}

function nameIn(text, from, to) {
  return String.fromCharCode(...text.subarray(from, to));
}

// A symbol as a number: eight of 38 signs at most.
function keyIn(text, from, to) {
  let key = 0;
  for (let at = from; at < to; at++) key = key * 38 + (text[at] >= CAPITAL ? text[at] - CAPITAL + 1 : text[at] === DOT ? 37 : text[at] - ZERO + 27);
  return key;
}

// ## The report

// The report with its symbols: by row the symbol's place among them, and the participant's letter, 0 if the row is the consolidated one.
function reportIndex(text) {
  const count = rowsOf(text), ids = new Map(), symbols = [];
  const index = { text, count, sym: new Uint16Array(count), who: new Uint8Array(count) };
  const cuts = cut(text, REPORT_COLUMNS, (row, start, ends) => {
    const key = keyIn(text, start, ends[0]);
    if (!ids.has(key)) {
      ids.set(key, symbols.length);
      symbols.push(nameIn(text, start, ends[0]));
    }
    index.sym[row] = ids.get(key);
    index.who[row] = ends[1] - ends[0] === 2 ? text[ends[0] + 1] : 0;
  });
  return { index: { ...index, ...cuts }, ids, symbols };
}

// ## The tape

// The kind of a message by its word: report, cancel, correct, reinstate.
function kindAt(text, at) {
  if (text[at] === C) return text[at + 1] === A ? 1 : 2;
  return text[at + 2] === P ? 0 : 3;
}

// The tape, with each reason for which rows were refused and the row of each tape number.
function tapeIndex(text, ids) {
  const count = rowsOf(text), words = () => new Uint32Array(count), bytes = () => new Uint8Array(count);
  const index = { text, count, tape: words(), refused: bytes(), kind: bytes(), who: bytes(), number: words(), sym: new Uint16Array(count), target: words() };
  Object.assign(index, { last: new Float64Array(count), hasMoments: false, admitted: 0 });
  const refusals = new Map();
  const cuts = cut(text, TAPE_COLUMNS, (row, start, ends) => {
    index.tape[row] = numberIn(text, start, ends[0]);
    if (ends[1] > ends[0] + 1) index.refused[row] = refusedFor(refusals, nameIn(text, ends[0] + 1, ends[1]), row);
    else index.admitted++;
    index.kind[row] = kindAt(text, ends[1] + 1);
    index.who[row] = text[ends[2] + 1];
    index.number[row] = numberIn(text, ends[3] + 1, ends[4]);
    index.hasMoments ||= ends[5] - ends[4] !== 2 || text[ends[4] + 1] !== ZERO;
    index.sym[row] = ids.get(keyIn(text, ends[5] + 1, ends[6]));
    index.target[row] = numberIn(text, ends[6] + 1, ends[7]);
    index.last[row] = priceIn(text, ends[13] + 1, ends[14]);
  });
  const byRow = [...refusals.values()].sort((one, other) => one.first - other.first);
  return { ...index, ...cuts, refusals: byRow, rowOf: rowsByTape(index) };
}

// Counts a row that was refused for a reason, and gives the reason's number.
function refusedFor(refusals, why, row) {
  const found = refusals.get(why);
  if (found) found.count++;
  else refusals.set(why, { why, count: 1, first: row + 2 });
  return parseInt(why, 10);
}

function rowsByTape({ count, tape, admitted }) {
  const rows = new Uint32Array(admitted + 1);
  for (let row = 0; row < count; row++) if (tape[row]) rows[tape[row]] = row;
  return rows;
}

// ## The explanation

// When a condition makes a report the last, by the length of its words: no, if first, same market, yes.
function ruleOf(length) {
  return { 2: 0, 8: 1, 11: 2 }[length] ?? 3;
}

// The figures that a report sets, a bit for each of open, high, low and last, of which only the last two begin alike.
function setsIn(text, from, to) {
  let sets = 0;
  for (let at = from; at < to; at++) {
    if (at > from && text[at - 1] !== SPACE) continue;
    sets |= text[at] === O ? 1 : text[at] === H ? 2 : text[at + 1] === O ? 4 : 8;
  }
  return sets;
}

// The explanation, and by tape number its row, counted from 1; 0 if the message is no report.
function explainIndex(text, ids, admitted) {
  const count = rowsOf(text), words = () => new Uint32Array(count), bytes = () => new Uint8Array(count);
  const index = { text, count, sym: new Uint16Array(count), tape: words(), row: words(), who: bytes(), number: words(), price: new Float64Array(count) };
  Object.assign(index, { size: words(), changed: words(), cancelled: bytes(), highLow: bytes(), last: bytes(), volume: bytes(), sets: bytes() });
  Object.assign(index, { ownHighLow: bytes(), ownLast: bytes(), ownSets: bytes(), atTape: new Uint32Array(admitted + 1), fine: false });
  const cuts = cut(text, EXPLAIN_COLUMNS, (row, start, ends) => {
    index.sym[row] = ids.get(keyIn(text, start, ends[0]));
    index.tape[row] = numberIn(text, ends[0] + 1, ends[1]);
    index.row[row] = numberIn(text, ends[1] + 1, ends[2]);
    index.who[row] = text[ends[2] + 1];
    index.number[row] = numberIn(text, ends[3] + 1, ends[4]);
    index.price[row] = priceIn(text, ends[5] + 1, ends[6]);
    index.fine ||= index.price[row] % 100 !== 0;
    index.size[row] = numberIn(text, ends[6] + 1, ends[7]);
    index.cancelled[row] = Number(text[ends[8] + 1] === C);
    index.changed[row] = numberIn(text, ends[9] + 1, ends[10]);
    index.highLow[row] = Number(text[ends[10] + 1] === Y);
    index.last[row] = ruleOf(ends[12] - ends[11] - 1);
    index.volume[row] = Number(text[ends[12] + 1] === Y);
    index.sets[row] = setsIn(text, ends[13] + 1, ends[14]);
    index.ownHighLow[row] = Number(text[ends[14] + 1] === Y);
    index.ownLast[row] = ruleOf(ends[16] - ends[15] - 1);
    index.ownSets[row] = setsIn(text, ends[16] + 1, ends[17]);
    index.atTape[index.tape[row]] = row + 1;
  });
  return { ...index, ...cuts };
}

// ## Messages of the page

const buffersOf = (index) => Object.values(index).filter(ArrayBuffer.isView).map((view) => view.buffer);

function say(run, what, more, transfer = []) {
  postMessage({ run, what, ...more }, transfer);
}

// Says why a table has no text. There are no words for it if memory ran out.
function sayFault(run, text) {
  say(run, "fault", { text: new TextDecoder().decode(text) || "out of memory" });
}

// Reads a table, and makes its three texts of what was read, one at a time. Each table has a new instance of the module, so that none's memory adds to
// another's.
async function makeTexts({ table, matrix, run, most }) {
  const rows = rowsOf(table);
  if (rows > most) return say(run, "large", { rows });
  const begun = performance.now(), calls = (await WebAssembly.instantiate(await module, {})).exports, times = {};
  const [handle, chunk, at] = [HANDLE, CHUNK, Math.max(table.length, 1)].map((size) => calls.page_take(BigInt(size)));
  if (!handle || !chunk || !at) return say(run, "fault", { text: "out of memory" });
  new Uint8Array(calls.memory.buffer, Number(handle), HANDLE).fill(0);
  new Uint8Array(calls.memory.buffer).set(table, Number(at));
  const start = performance.now(), found = { ids: null, admitted: 0 };
  if (calls.tapebox_read_table(handle, at, BigInt(table.length))) return sayFault(run, copied(calls, handle, chunk));
  times.tapebox_read_table = performance.now() - start;
  calls.page_give(at);
  for (const call of CALLS) {
    say(run, "step", { call });
    const start = performance.now(), refused = calls[call](handle, matrix);
    times[call] = performance.now() - start;
    const text = copied(calls, handle, chunk);
    if (refused) return sayFault(run, text);
    tell(run, call, text, found);
  }
  return say(run, "done", { times, memory: calls.memory.buffer.byteLength, all: performance.now() - begun });
}

// Hands a text to the page. The first of the three gives the symbols, and the second how many messages were admitted.
function tell(run, call, text, found) {
  if (call === "tapebox_report") {
    const { index, ids, symbols } = reportIndex(text);
    found.ids = ids;
    return say(run, "text", { call, index, symbols }, buffersOf(index));
  }
  const index = call === "tapebox_tape" ? tapeIndex(text, found.ids) : explainIndex(text, found.ids, found.admitted);
  if (call === "tapebox_tape") found.admitted = index.admitted;
  return say(run, "text", { call, index }, buffersOf(index));
}

// The first message has the module. A table may come while that is still compiled.
async function answer(data) {
  if (!data.bytes) return makeTexts(data);
  module = WebAssembly.compile(data.bytes);
  return module;
}

onmessage = ({ data }) => answer(data).catch((error) => postMessage({ run: data.run, what: "broken", text: String(error) }));
