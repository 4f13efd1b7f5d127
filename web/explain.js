// ## The explanation of a symbol

// The cells of a report that make the figures that are asked for: consolidated, or a participant's own.
function cellsShown() {
  const { explain } = state;
  if (state.who > 1) return { sets: explain.ownSets, last: explain.ownLast, highLow: explain.ownHighLow };
  return { sets: explain.sets, last: explain.last, highLow: explain.highLow };
}

const conditionOf = (at) => fieldsOf(state.explain, at)[8];
const sharesText = (at) => `${whole(state.explain.size[at])} at ${dollars(state.explain.price[at])}`;

function card(title, value, parts) {
  const made = element("div", "card"), text = element("p", value === "–" ? "quiet" : "");
  text.append(...parts);
  made.append(element("h3", "", title), element("div", "value", value), text);
  return made;
}

// The card of a figure: its price, and the report that set it.
function figureCard(figure, at) {
  const { explain } = state;
  if (at === undefined) return card(figure, "–", ["no report that stands sets it"]);
  const what = `, ${letter(explain.who[at])}’s report ${explain.number[at]}, ${whole(explain.size[at])} shares, condition `;
  const change = explain.changed[at] ? ["; ", ...changeParts(at)] : [];
  const parts = ["set by ", tapeLink(explain.tape[at]), what, element("span", "code", conditionOf(at)), ` (row ${explain.row[at]})`];
  return card(figure, `$${dollars(explain.price[at])}`, [...parts, ...change]);
}

function volumeCard(rows) {
  const { explain } = state, standing = rows.filter((at) => !explain.cancelled[at]), counted = standing.filter((at) => explain.volume[at]);
  if (state.who > 1) return card("trades", whole(standing.length), [`reports of ${letter(state.who)} that stand, of ${whole(rows.length)}`]);
  const shares = counted.reduce((sum, at) => sum + explain.size[at], 0), gone = rows.length - standing.length;
  const cancelled = gone ? `; ${whole(gone)} more ${gone === 1 ? "is" : "are"} cancelled` : "";
  return card("volume", whole(shares), [`the shares of ${whole(counted.length)} of the ${whole(standing.length)} reports that stand${cancelled}`]);
}

function showExplain() {
  const { explain } = state, sym = symbolShown(), name = state.symbols[sym], own = state.who > 1, cells = cellsShown();
  const rows = positions(explain, (at) => explain.sym[at] === sym && (!own || explain.who[at] === state.who));
  const setters = FIGURES.map((_, bit) => rows.find((at) => cells.sets[at] & (1 << bit)));
  byId("explain-title").textContent = `${name}: ${own ? `${letter(state.who)}’s own figures` : "the consolidated figures"}, and what set them`;
  byId("explain-symbol").textContent = own ? `${letter(state.who)} in ${name}` : name;
  byId("cards").replaceChildren(...FIGURES.map((figure, bit) => figureCard(figure, setters[bit])), volumeCard(rows));
  byId("reasons").replaceChildren(...reasonLists(rows, setters));
  tables.explain ??= makeExplain();
  tables.explain.set(rows);
  // Of very many trades the page gets to other things first, unless others are shown by then.
  points = null;
  if (rows.length > VERY_MANY) setTimeout(() => tables.explain?.rows === rows && drawChart(rows, setters));
  else drawChart(rows, setters);
}

// ## All reports of a symbol

// Each figure of a field as a tag.
function tags(field) {
  const made = element("span");
  for (const word of field ? field.split(" ") : []) made.append(element("span", "tag sets", word), " ");
  return made;
}

// The cells of a row of the explanation, in order, the symbol left out.
function explainCells(at) {
  const { explain } = state, fields = fieldsOf(explain, at), [, place, row, who, number, , , size, condition] = fields;
  const [changed, highLow, last, volume, sets, ownHighLow, ownLast, ownSets] = fields.slice(10);
  const report = [place, row, who, number, priced(explain.price[at], explain.fine), whole(Number(size)), condition];
  const became = [explain.cancelled[at] ? element("span", "tag cancelled", "cancelled") : "standing", changed && `#${changed}`];
  return [...report, ...became, highLow, last, volume, tags(sets), ownHighLow, ownLast, tags(ownSets)];
}

// What columns of the explanation are whose headings are short.
const EXPLAIN_MEANS = {
  Tape: "The tape number under which it was admitted",
  Row: "The report's row of the table",
  By: "The participant that sent it",
  "No.": "The participant's number of the report",
  "Cond.": "The latest sale condition",
  "By tape": "The tape number of the last message that corrected, cancelled or reinstated it",
  "High/low": "Whether its condition counts for the consolidated high and low",
  Last: "Whether its condition makes it the consolidated last",
  Volume: "Whether its shares count in the volume",
  Sets: "The consolidated figures that it sets",
  "Own high/low": "Whether its condition counts for its participant's own high and low",
  "Own last": "Whether its condition makes it its participant's own last",
  "Sets of its own": "The figures of its participant that it sets",
};

function makeExplain() {
  const { widths } = state.explain, right = (column, heading) => [heading, wideFor(widths[column], heading), "right"];
  const words = (column, heading) => [heading, wideFor(widths[column], heading), ""], sets = "minmax(24ch, 1fr)";
  const report = [right(1, "Tape"), right(2, "Row"), ["By", "5ch", ""], right(4, "No."), ["Price", wideFor(grouped(widths[6]) + 1), "right"]];
  report.push(["Size", wideFor(grouped(widths[7]), "Size"), "right"], ["Cond.", wideFor(5), "code"], ["State", "12ch", ""]);
  report.push(["By tape", wideFor(widths[10] + 1, "By tape"), "right"], ["High/low", "10ch", ""], words(12, "Last"), ["Volume", "9ch", ""], ["Sets", sets, ""]);
  const columns = [...report, ["Own high/low", "14ch", ""], words(16, "Own last"), ["Sets of its own", sets, ""]];
  return new Table(byId("explain-rows"), {
    label: "What became of each report",
    open: (at) => goToTape(state.explain.tape[at]),
    most: 460,
    means: EXPLAIN_MEANS,
    columns,
    make: (at, cells) => explainCells(at).forEach((content, cell) => cells[cell].append(content)),
  });
}
