// ## A table that is shown, copied and printed: its rows by the fields of the text, all that are asked for

// How many rows are printed.
const PRINTED = 5000;

// The text of the view that is shown, and its rows there.
function shown() {
  return { index: state[state.tab], rows: tables[state.tab].rows };
}

const headingsOf = (index) => decoder.decode(index.text.subarray(0, index.starts[0] - 1)).split(",");

// The rows with tabs between fields, as a spreadsheet takes them. No field of a text has a comma.
function shownText() {
  const { index: { text, starts }, rows } = shown(), sizes = rows.map((row) => starts[row + 1] - starts[row]);
  const bytes = new Uint8Array(sizes.reduce((sum, size) => sum + size, starts[0]));
  bytes.set(text.subarray(0, starts[0]));
  let at = starts[0];
  rows.forEach((row, which) => {
    bytes.set(text.subarray(starts[row], starts[row + 1]), at);
    at += sizes[which];
  });
  return decoder.decode(bytes).replaceAll(",", "\t");
}

function copyShown() {
  if (!tables[state.tab]) return undefined;
  const { length } = shown().rows, text = `${counted(length, "row")} copied, with tabs between fields.`;
  return navigator.clipboard.writeText(shownText()).then(() => tell(text), () => tell("The browser did not let the page copy."));
}

// What is printed, in words.
function printedTitle(count) {
  const symbol = state.symbol < 0 && state.tab !== "explain" ? "" : ` of ${state.symbols[symbolShown()]}`;
  const names = { report: "the report", tape: "the tape", explain: "what became of each report" };
  const some = count > PRINTED ? `, the first ${whole(PRINTED)} of ${whole(count)} rows` : "";
  return `${state.file.name}: ${names[state.tab]}${symbol}, by Matrix ${state.matrix}${some}`;
}

// A table of the rows that are asked for, as a page is printed: the ones in sight alone are there else.
function fillPrinted() {
  if (!tables[state.tab]) return;
  const { index, rows } = shown(), table = element("table"), head = element("thead"), body = element("tbody");
  const line = (name, fields) => {
    const made = element("tr");
    made.append(...fields.map((field) => element(name, "", field)));
    return made;
  };
  head.append(line("th", headingsOf(index)));
  body.append(...Array.from(rows.slice(0, PRINTED), (row) => line("td", fieldsOf(index, row))));
  table.append(element("caption", "", printedTitle(rows.length)), head, body);
  byId("printed").replaceChildren(table);
}

// Prints in the colours of the day.
function setPrinting(is) {
  document.documentElement.toggleAttribute("data-printing", is);
  if (is) fillPrinted();
  else byId("printed").replaceChildren();
  if (state.explain && state.tab === "explain") drawAgain();
}

function listenForCopies() {
  byId("copy").addEventListener("click", copyShown);
  byId("print").addEventListener("click", () => print());
  addEventListener("beforeprint", () => setPrinting(true));
  addEventListener("afterprint", () => setPrinting(false));
}
