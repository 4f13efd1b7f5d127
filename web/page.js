"use strict";
// The page: hands a table's bytes to the worker, and shows the three texts that come back. It adds nothing to them.

const FIGURES = ["open", "high", "low", "last"];
const KINDS = ["report", "cancel", "correct", "reinstate"];
const TEXTS = ["report", "tape", "explain"];
const STEPS = { tapebox_report: "making the report", tapebox_tape: "making the tape", tapebox_explain: "explaining each report" };
// How many bytes of a faulty table's row are shown.
const SHOWN = 400;
// What a browser says that does not take the module.
const TOO_OLD = /CompileError|memory64|LinkError/;

// What is held: the table, the texts as the worker cut them, and what of them is asked for. `symbol` is a place among the symbols, -1 for all; `who` is
// 0 for all figures, 1 for the consolidated ones, else a participant's letter; `row` is the chosen one of the tape, or -1. `address` is what a link asks
// for of a table that is being read.
const state = { run: 0, file: null, isSample: false, matrix: 1, tab: "report", symbol: -1, who: 0, row: -1, symbols: [], broken: "" };
Object.assign(state, { address: new URLSearchParams(), report: null, tape: null, explain: null });
const tables = { report: null, tape: null, explain: null };
let worker = null, saved = [];

const symbolShown = () => Math.max(state.symbol, 0);

// ## The worker's messages

function start() {
  worker = new Worker(URL.createObjectURL(new Blob([byId("worker").textContent], { type: "text/javascript" })));
  worker.onmessage = ({ data }) => hear(data);
  worker.onerror = (event) => broken(event.message || "the worker failed");
  worker.postMessage({ bytes: Uint8Array.from(atob(byId("module").textContent.trim()), (sign) => sign.charCodeAt(0)) });
}

function broken(text) {
  state.broken = text;
  byId("busy").hidden = false;
  byId("busy").textContent = TOO_OLD.test(text)
    ? `This browser does not run 64-bit WebAssembly (Chrome 133 or Firefox 134 and later do): ${text}`
    : `Something outside the proved code failed: ${text}`;
}

// Has the worker read a table, of which what an address asks for is shown then.
function run(name, bytes, address = new URLSearchParams()) {
  Object.assign(state, { file: { name, bytes }, run: state.run + 1, symbol: -1, who: 0, row: -1, report: null, tape: null, explain: null });
  Object.assign(state, { address, isSample: false });
  tell("");
  for (const id of ["drop", "fault", "day", "detail"]) byId(id).hidden = true;
  byId("busy").hidden = false;
  byId("busy").textContent = `${name}: reading ${whole(bytes.length)} bytes …`;
  byId("engine").textContent = "";
  worker.postMessage({ table: bytes, matrix: state.matrix, run: state.run, most: rowsMost() });
}

function hear(message) {
  if (message.what === "broken") return NO_MEMORY.test(message.text) ? showNoMemory() : broken(message.text);
  // What is left of a table that another one followed.
  if (message.run !== state.run) return undefined;
  if (message.what === "large") return showTooManyRows(message.rows);
  if (message.what === "fault") return message.text === OUT_OF_MEMORY ? showNoMemory() : showFault(message.text);
  if (message.what === "done") return showDone(message);
  if (message.what === "text") return takeText(message);
  byId("busy").textContent = `${state.file.name}: ${STEPS[message.call]} …`;
  return undefined;
}

function takeText({ call, index, symbols }) {
  const name = call.slice("tapebox_".length);
  state[name] = index;
  offer(name, index.text);
  if (name === "report") {
    state.symbols = symbols;
    showDay();
    chooseAsked(state.address);
  }
  if (name === "tape") showSummary();
  // What is in sight stays where it is while the other texts come.
  if (name === "report" || name === state.tab) showTab();
  else if (name === "explain" && tables.tape) tables.tape.redraw();
  if (name === "explain" && state.row >= 0) showDetail(state.row);
  if (name === "tape") goToAsked(state.address);
}

// Offers a text to be saved.
function offer(name, text) {
  const to = byId(`save-${name}`), url = URL.createObjectURL(new Blob([text], { type: "text/csv" }));
  saved.push(url);
  to.href = url;
  to.download = `${state.file.name.replace(/\.[^.]*$/, "")}-${name}.csv`;
}

function showDone({ times, memory, all }) {
  byId("busy").hidden = true;
  const each = Object.entries(times).map(([call, time]) => `${call.slice("tapebox_".length)} ${time < 10 ? time.toFixed(1) : Math.round(time)} ms`);
  byId("engine").textContent = `In the module: ${each.join(", ")}; ${Math.round(memory / 1e6)} MB of memory. All: ${Math.round(all)} ms.`;
  document.body.dataset.done = state.run;
}

// ## A table at fault

// Where the records of a table begin and end, up to a row, blank ones left out. Quoted fields may hold line feeds.
function recordsTo(bytes, row) {
  const found = [], [QUOTE, LINE, RETURN] = [34, 10, 13];
  let start = 0, quoted = false;
  for (let at = 0; at <= bytes.length && found.length < row; at++) {
    if (bytes[at] === QUOTE) quoted = !quoted;
    if (at < bytes.length && (quoted || (bytes[at] !== LINE && bytes[at] !== RETURN))) continue;
    if (at > start) found.push([start, at]);
    start = at + 1;
  }
  return found;
}

// Shows why nothing is made of a table.
function showEnd(name, what, text) {
  for (const id of ["busy", "day", "fault-lines"]) byId(id).hidden = true;
  byId("fault").hidden = byId("drop").hidden = false;
  byId("fault-name").textContent = name;
  byId("fault-what").textContent = what;
  byId("fault-text").textContent = text;
}

// Shows what is wrong with a table, and of its rows the first, the bad one and the two before it.
function showFault(text) {
  showEnd(state.file.name, "has a fault, so nothing is made of it", text);
  const row = /^row (\d+): /.exec(text), lines = byId("fault-lines");
  lines.hidden = !row && !text.startsWith("header row: ");
  lines.replaceChildren();
  if (!lines.hidden) showRecords(lines, row ? Number(row[1]) : 1);
}

function showRecords(place, bad) {
  const records = recordsTo(state.file.bytes, bad), wide = String(bad).length;
  records.forEach(([from, to], at) => {
    const number = at + 1;
    if (number > 1 && number < bad - 2) return;
    if (number === bad - 2 && number > 2) place.append(`${"".padStart(wide)}  ⋮\n`);
    const record = decoder.decode(state.file.bytes.subarray(from, Math.min(to, from + SHOWN)));
    place.append(element("span", number === bad ? "bad" : "", `${String(number).padStart(wide)}  ${record}\n`));
  });
}

// ## A day

function options(names, texts) {
  return names.map((value, at) => {
    const made = element("option", "", texts[at]);
    made.value = value;
    return made;
  });
}

function participants() {
  return [...new Set(state.report.who)].filter((who) => who).sort((one, other) => one - other);
}

function showDay() {
  // The texts of the table before, of which the new report is no part.
  for (const url of saved.splice(0, saved.length - 1)) URL.revokeObjectURL(url);
  byId("day").hidden = false;
  byId("symbols").replaceChildren(...options(state.symbols, []));
  byId("symbol").value = "";
  const letters = participants();
  byId("who").replaceChildren(...options([0, 1, ...letters], ["all", "consolidated", ...letters.map((who) => `of ${letter(who)}`)]));
  Object.assign(tables, { report: makeReport(), tape: null, explain: null });
  showSummary();
}

// What the tape refused, by reason.
function refusedText({ count, admitted, refusals }) {
  const each = refusals.slice(0, 4).map((it) => `${it.count > 1 ? `${whole(it.count)} × ` : ""}${it.why}, first at row ${it.first}`);
  return `${whole(count - admitted)} refused (${each.join("; ")}${refusals.length > 4 ? "; …" : ""})`;
}

function showSummary() {
  const { tape, symbols } = state, letters = participants();
  const parts = [element("b", "", state.file.name), " · "];
  if (tape) parts.push(element("b", "", counted(tape.count, "row")), `, ${whole(tape.admitted)} admitted`);
  else parts.push("…");
  if (tape && tape.count > tape.admitted) parts.push(", ", element("span", "warn", refusedText(tape)));
  parts.push(` · ${counted(symbols.length, "symbol")}`);
  parts.push(` · participants with standing trades: ${letters.length ? letters.map(letter).join(" ") : "none"} · Matrix ${state.matrix}`);
  byId("summary").replaceChildren(...parts);
}

// ## Choosing

function showTab() {
  for (const name of TEXTS) {
    const tab = byId(`tab-${name}`);
    tab.setAttribute("aria-selected", name === state.tab);
    tab.tabIndex = name === state.tab ? 0 : -1;
    byId(name).hidden = name !== state.tab;
  }
  if (state[state.tab]) ({ report: showReport, tape: showTape, explain: showExplain })[state.tab]();
  writeAddress();
}

function setTab(name) {
  state.tab = name;
  showTab();
}

function setSymbol(sym) {
  state.symbol = sym;
  byId("symbol").value = sym < 0 ? "" : state.symbols[sym];
}

// Opens a file. A link that the page was opened by asks for the first one.
function take(file) {
  const address = state.run ? undefined : asked();
  if (file.size > memoryMost()) return showTooLarge(file.name, `It has ${gigabytes(file.size)}.`);
  return file.arrayBuffer().then((bytes) => run(file.name, new Uint8Array(bytes), address), (error) => showEnd(file.name, "can’t be read", String(error)));
}

function trySample(address) {
  run("morning.csv", new TextEncoder().encode(byId("sample").textContent), address);
  state.isSample = true;
}

// Reads the table once more by the other matrix, and shows the same of it.
function changeMatrix(matrix) {
  const { file, isSample } = state;
  state.matrix = matrix;
  if (!file) return;
  run(file.name, file.bytes, asked());
  state.isSample = isSample;
}

function listenForTables() {
  byId("file").addEventListener("change", ({ target }) => {
    if (target.files[0]) take(target.files[0]);
    target.value = "";
  });
  byId("try").addEventListener("click", () => trySample());
  document.querySelectorAll('input[name="matrix"]').forEach((choice) => choice.addEventListener("change", () => changeMatrix(Number(choice.value))));
  const over = (is) => (event) => {
    event.preventDefault();
    document.body.classList.toggle("over", is);
  };
  for (const name of ["dragenter", "dragover"]) addEventListener(name, over(true));
  for (const name of ["dragleave", "drop"]) addEventListener(name, over(false));
  addEventListener("drop", ({ dataTransfer }) => dataTransfer.files[0] && take(dataTransfer.files[0]));
}

function listenForChoices() {
  for (const name of TEXTS) byId(`tab-${name}`).addEventListener("click", () => setTab(name));
  byId("tab-report").parentElement.addEventListener("keydown", ({ key }) => {
    const step = { ArrowRight: 1, ArrowLeft: -1 }[key];
    if (!step) return;
    setTab(TEXTS[(TEXTS.indexOf(state.tab) + step + TEXTS.length) % TEXTS.length]);
    byId(`tab-${state.tab}`).focus();
  });
  byId("symbol").addEventListener("input", ({ target }) => {
    const text = target.value.trim().toUpperCase(), sym = text ? state.symbols.indexOf(text) : -1;
    target.setAttribute("aria-invalid", text !== "" && sym < 0);
    if (text && sym < 0) return;
    state.symbol = sym;
    showTab();
  });
  byId("who").addEventListener("change", ({ target }) => {
    state.who = Number(target.value);
    showTab();
  });
  matchMedia("(prefers-color-scheme: dark)").addEventListener("change", showTab);
}
