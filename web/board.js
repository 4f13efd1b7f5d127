"use strict";
// The page of tools/board.py: a running day's symbols and newest trades, and a symbol's prices. Tables and the chart are those of the page for tables.

const FIGURES = ["open", "high", "low", "last"];
const [CANCELLED, CORRECTED] = [1, 2];
// How often the times since the last trades are shown anew, and a chosen symbol's prices are asked for, in milliseconds.
const TICK_TIME = 1000, PRICES_TIME = 1000;

// What is shown: the symbols' figures and when each had its last trade, and the chosen one's reports in the form that the chart takes.
const state = { known: new Map(), names: [], symbols: [], symbol: -1, who: 0, tab: "explain", chosen: "", explain: null, tape: null };
let table = null, isDue = false;

// ## What the chart asks of its page

const symbolShown = () => 0;
// A tape number is never 0, which is what a trade that never makes the last would have.
const cellsShown = () => ({ sets: [], last: state.explain.tape });
const setsText = () => "";
const sharesText = (at) => `${whole(state.explain.size[at])} at ${dollars(state.explain.price[at])}`;
const conditionOf = (at) => state.explain.condition[at];
const goToTape = () => {};

// ## The symbols

const price = (text) => (text ? dollars(thousandths(text)) : "–");

// How far the last is from the open, with its sign.
function change(open, last) {
  if (!open || !last) return ["–", "quiet"];
  const by = thousandths(last) - thousandths(open);
  return [`${by > 0 ? "+" : by < 0 ? "−" : ""}${dollars(Math.abs(by))}`, by > 0 ? "up" : by < 0 ? "down" : ""];
}

// A time in seconds, as short as it can be told.
function since(seconds) {
  if (seconds < 60) return `${Math.floor(seconds)} s`;
  return seconds < 3600 ? `${Math.floor(seconds / 60)} min` : `${Math.floor(seconds / 3600)} h ${Math.floor((seconds % 3600) / 60)} min`;
}

function fillSymbol(name, cells) {
  const { figures: [open, high, low, last, volume, trades], seen } = state.known.get(name), [by, className] = change(open, last);
  const texts = [name, price(last), by, price(open), price(high), price(low), whole(Number(volume)), whole(Number(trades))];
  texts.push(seen === null ? "–" : since((performance.now() - seen) / 1000));
  texts.forEach((text, at) => cells[at].append(text));
  if (className) cells[2].classList.add(className);
}

function makeTable() {
  const wide = (heading, width) => [heading, `minmax(${width}ch, 1fr)`, "right"];
  const columns = [["Symbol", "minmax(9ch, 1fr)", ""], wide("Last", 9), wide("Change", 9), wide("Open", 9), wide("High", 9), wide("Low", 9)];
  columns.push(wide("Volume", 10), wide("Trades", 8), wide("Since", 8));
  return new Table(byId("symbols"), { label: "The symbols", columns, make: fillSymbol, pick: choose, most: 900 });
}

// Lists the symbols that are asked for, and leaves the rows where they are.
function list() {
  const asked = byId("symbol").value.trim().toUpperCase(), { scrollTop } = table.box;
  table.set(state.names.filter((name) => name.startsWith(asked)));
  table.chosen = table.rows.indexOf(state.chosen);
  table.box.scrollTop = scrollTop;
  table.redraw();
}

// ## The newest trades

function tradeLine([place, who, number, symbol, at, size, condition, what, by]) {
  const line = element("tr"), cost = element("td"), shown = element("span", what === CANCELLED ? "struck" : what === CORRECTED ? "dotted" : "", dollars(at));
  if (by) shown.title = `${what === CANCELLED ? "cancelled" : "changed"} by tape number ${by}`;
  cost.append(shown);
  line.append(element("td", "", String(place)), element("td", "", symbol), cost, element("td", "", whole(size)), element("td", "", `${who} ${number}`));
  line.title = `condition ${condition}`;
  return line;
}

// ## A symbol's prices

// The chosen symbol's reports, and its last after each of its entries, as the chart reads them.
function takePrices({ trades, lasts }) {
  const column = (at) => trades.map((trade) => trade[at]), states = column(7), changes = column(8);
  const explain = { count: trades.length, tape: column(0), who: column(1).map((who) => who.charCodeAt(0)), number: column(2), price: column(4), size: column(5) };
  Object.assign(explain, { condition: column(6), changed: changes, cancelled: states.map((it, at) => (it === CANCELLED ? changes[at] : 0)) });
  const tape = { count: lasts.length, sym: lasts.map(() => 0), tape: lasts.map(([at]) => at), last: lasts.map(([, last]) => last) };
  Object.assign(state, { explain, tape, symbols: [state.chosen] });
  byId("prices").hidden = false;
  byId("prices-title").textContent = `${state.chosen}: its newest ${whole(trades.length)} trade${trades.length === 1 ? "" : "s"}`;
  drawChart(trades.map((_, at) => at), []);
}

function askPrices() {
  const asked = state.chosen;
  if (!asked) return;
  fetch(`/symbol/${asked}`).then((answer) => answer.json()).then((prices) => asked === state.chosen && takePrices(prices), () => {});
}

function choose(name) {
  state.chosen = name;
  byId("hint").hidden = true;
  askPrices();
}

// ## Updates

function showPulse({ tape, rate, end }) {
  const parts = [element("b", "", `#${whole(tape)}`), ` · ${whole(rate)} entries a second · ${whole(state.names.length)} symbols`];
  byId("pulse").replaceChildren(...parts);
  byId("busy").hidden = tape > 0 && !end;
  if (end) byId("busy").textContent = end;
}

function take(update) {
  const now = performance.now();
  let isLonger = false;
  for (const [name, fields] of Object.entries(update.symbols)) {
    isLonger ||= !state.known.has(name);
    const age = fields[6];
    state.known.set(name, { figures: fields, seen: age === null ? null : now - age * 1000 });
  }
  if (isLonger) {
    state.names = [...state.known.keys()].sort();
    list();
  } else table.redraw();
  if (update.trades) byId("trades").replaceChildren(...update.trades.map(tradeLine));
  isDue ||= state.chosen in update.symbols;
  showPulse(update);
}

function begin() {
  table = makeTable();
  byId("symbol").addEventListener("input", list);
  listenForChart();
  setInterval(() => table.redraw(), TICK_TIME);
  setInterval(() => {
    if (isDue) askPrices();
    isDue = false;
  }, PRICES_TIME);
  const updates = new EventSource("/events");
  updates.onmessage = ({ data }) => take(JSON.parse(data));
  updates.onerror = () => {
    byId("busy").hidden = false;
    byId("busy").textContent = "the board does not answer";
  };
}

begin();
