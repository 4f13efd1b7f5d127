// ## The report

// A price's tape number, by which one gets there.
function placeLink(place) {
  const made = element("button", "at", `#${place}`);
  made.type = "button";
  made.title = `See tape number ${place} on the tape`;
  made.addEventListener("click", (event) => {
    // The row itself leads to the explanation.
    event.stopPropagation();
    goToTape(Number(place));
  });
  return made;
}

// How many rows are looked at for a price that is not whole cents.
const LOOKED_AT = 4000;

function hasFinePrice(report) {
  for (let row = 0; row < Math.min(report.count, LOOKED_AT); row++) {
    if (FIGURES.some((_, figure) => numberAt(report, row, 2 + 2 * figure) % 100)) return true;
  }
  return false;
}

// Fills a row of the report: its symbol and whose figures they are, four prices each with its tape number, the volume and the trades.
function fillReport(row, cells, fine) {
  const { report } = state, fields = fieldsOf(report, row), isAll = !report.who[row];
  // Below the row of all participants a symbol need not stand again.
  cells[0].textContent = isAll || state.who > 1 || sorted.column >= 0 ? fields[0] : "";
  cells[1].textContent = isAll ? "all" : fields[1];
  FIGURES.forEach((_, figure) => {
    const [price, place] = fields.slice(2 + 2 * figure);
    if (price) cells[2 + figure].append(priced(Number(price), fine), placeLink(place));
    else cells[2 + figure].append("–", element("span", "pad", fine ? "00" : ""), element("span", "at"));
  });
  cells[6].textContent = whole(Number(fields[10]));
  cells[7].textContent = whole(Number(fields[11]));
  return isAll ? "all" : "part";
}

function makeReport() {
  const { report } = state, { widths } = report, fine = hasFinePrice(report);
  const places = Math.max(...[3, 5, 7, 9].map((column) => widths[column])) + 1, prices = Math.max(...[2, 4, 6, 8].map((column) => widths[column]));
  const price = growing(wideFor(grouped(prices) + places + 1));
  const numbers = (column, heading) => [heading, growing(wideFor(grouped(widths[column]), heading)), "right"];
  const names = [["Symbol", "minmax(11ch, .7fr)", ""], ["Who", "minmax(7ch, .5fr)", ""]];
  const columns = [...names, ...FIGURES.map((figure) => [capital(figure), price, "right"]), numbers(10, "Volume"), numbers(11, "Trades")];
  const means = { Who: "All participants together, or one's own trades", Volume: "In shares", Trades: "How many reports stand" };
  const calls = { means, make: (row, cells) => fillReport(row, cells, fine), open: explainRow, sort: sortReport };
  const made = new Table(byId("report-rows"), { label: "The report", columns, ...calls });
  made.box.style.setProperty("--at", `${places}ch`);
  sorted.column = -1;
  return made;
}

// Explains the figures of a row.
function explainRow(row) {
  const { report } = state;
  setSymbol(report.sym[row]);
  state.who = report.who[row];
  byId("who").value = String(state.who);
  setTab("explain");
  byId("tab-explain").focus();
}

function showReport() {
  const { report, symbol, who } = state;
  const isWanted = (row) => who === 0 || (who === 1 ? !report.who[row] : report.who[row] === who);
  const rows = positions(report, (row) => (symbol < 0 || report.sym[row] === symbol) && isWanted(row));
  tables.report.set(sorted.column < 0 ? rows : inOrder(rows));
  tables.report.showSorted(sorted.column, sorted.falls);
}

// ## The report's order

// By which column the rows are sorted, -1 if they stand as in the text.
const sorted = { column: -1, falls: false };

// Sorts by a column: first so that it rises, then so that it falls, then no longer.
function sortReport(column) {
  const isSame = sorted.column === column;
  Object.assign(sorted, { column: isSame && sorted.falls ? -1 : column, falls: isSame && !sorted.falls });
  showReport();
}

// The place of each symbol among all by name.
function ranks() {
  const { symbols } = state, places = new Float64Array(symbols.length);
  [...symbols.keys()].sort((one, other) => (symbols[one] < symbols[other] ? -1 : 1)).forEach((sym, place) => { places[sym] = place; });
  return places;
}

// What rows are sorted by in a column, of each row of the report a number; NaN if it has none.
function sortKeys(column) {
  const { report } = state, places = ranks(), field = column < 6 ? 2 * column - 2 : column + 4;
  const keyOf = [(row) => places[report.sym[row]], (row) => report.who[row]][column] ?? ((row) => numberAt(report, row, field));
  return Float64Array.from({ length: report.count }, (_, row) => keyOf(row));
}

// The rows in the order that is asked for. Those without a price come last.
function inOrder(rows) {
  const { column, falls } = sorted, keys = sortKeys(column), sign = falls ? -1 : 1;
  const [priced, unpriced] = [rows.filter((row) => keys[row] >= 0), rows.filter((row) => !(keys[row] >= 0))];
  return [...priced.sort((one, other) => sign * (keys[one] - keys[other])), ...unpriced];
}
