// ## The tape

// The row of the explanation of the report with a tape number.
const explained = (place) => state.explain.atTape[place] - 1;

// The report that a message of the tape names, as a row of the explanation, or -1.
function targetOf(row) {
  const { tape, explain } = state;
  for (let at = 0; at < explain.count; at++) if (explain.number[at] === tape.target[row] && explain.who[at] === tape.who[row]) return at;
  return -1;
}

function kindCell(row, why) {
  const { tape } = state, kind = KINDS[tape.kind[row]];
  if (tape.refused[row]) {
    const made = element("span", "tag refused", why);
    made.title = REASONS[why] ?? "";
    return made;
  }
  return tape.kind[row] ? element("span", `tag ${kind}`, kind) : kind;
}

// A price of the tape, which shows what became of the report later.
function priceCell(row, price) {
  const { tape, explain } = state, made = element("span", "", dollars(thousandths(price)));
  const at = explain && !tape.refused[row] && tape.kind[row] === 0 ? explained(tape.tape[row]) : -1;
  if (at < 0 || !explain.changed[at]) return made;
  made.className = explain.cancelled[at] ? "struck" : "dotted";
  made.title = `${explain.cancelled[at] ? "cancelled" : "changed"} by tape number ${explain.changed[at]}`;
  return made;
}

// The cells of a row of the tape, in order.
function tapeCells(row) {
  const { tape } = state, fields = fieldsOf(tape, row), [place, why, , who, number, moment, symbol, target, price, size, condition] = fields;
  const moments = tape.hasMoments ? [moment] : [], figures = fields.slice(11, 15).map((figure) => (figure ? dollars(thousandths(figure)) : "–"));
  const message = [kindCell(row, why), who, number, ...moments, symbol, target, price && priceCell(row, price), size && whole(Number(size)), condition];
  return [String(row + 2), place, ...message, ...figures, whole(Number(fields[15])), whole(Number(fields[16]))];
}

// What columns of the tape are whose headings are short.
const TAPE_MEANS = {
  Row: "The row of the table; the row of the columns' names is the first",
  Tape: "The tape number; none if the message was refused",
  By: "The participant that sent it",
  "No.": "The participant's number of the message",
  Moment: "The sender's moment, as the table has it",
  Target: "The number of the participant's report that is cancelled, corrected or reinstated",
  "Cond.": "The sale condition",
  Open: "The symbol's open after the message",
  High: "The symbol's high after the message",
  Low: "The symbol's low after the message",
  Last: "The symbol's last after the message",
  Volume: "The symbol's volume after the message, in shares",
  Trades: "The symbol's number of trades after the message",
};

function makeTape() {
  const { tape } = state, { widths } = tape, price = (column, heading) => [heading, growing(wideFor(grouped(widths[column]), heading)), "right"];
  const digits = (column, heading) => [heading, wideFor(widths[column], heading), "right"];
  const groups = (column, heading) => [heading, wideFor(grouped(widths[column]), heading), "right"];
  const kinds = Math.max(9, ...tape.refusals.map((it) => it.why.length * 0.9)) + 2;
  const columns = [["Row", wideFor(String(tape.count + 1).length, "Row"), "right"], digits(0, "Tape"), ["Kind", wideFor(kinds), ""], ["By", "5ch", ""]];
  columns.push(digits(4, "No."), ...(tape.hasMoments ? [digits(5, "Moment")] : []), ["Symbol", wideFor(widths[6] * 1.25, "Symbol"), ""]);
  columns.push(digits(7, "Target"), price(8, "Price"), groups(9, "Size"), ["Cond.", wideFor(5), "code"]);
  columns.push(...FIGURES.map((figure, at) => price(11 + at, capital(figure))), price(15, "Volume"), groups(16, "Trades"));
  const make = (row, cells) => {
    tapeCells(row).forEach((content, at) => cells[at].append(content));
    return tape.refused[row] ? "is-refused" : "";
  };
  return new Table(byId("tape-rows"), { label: "The readable tape", pick: showDetail, means: TAPE_MEANS, columns, make });
}

function showTape() {
  const { tape, symbol, who } = state;
  tables.tape ??= makeTape();
  tables.tape.set(positions(tape, (row) => (symbol < 0 || tape.sym[row] === symbol) && (who < 2 || tape.who[row] === who)));
  hideDetail();
}

function hideDetail() {
  byId("detail").hidden = true;
  state.row = -1;
}

// Shows a row of the tape, with what is left out by a choice if need be.
function goToRow(row) {
  const { tape } = state;
  if (state.symbol >= 0 && state.symbol !== tape.sym[row]) setSymbol(-1);
  if (state.who > 1 && state.who !== tape.who[row]) {
    state.who = 0;
    byId("who").value = "0";
  }
  setTab("tape");
  tables.tape.choose(placeIn(tables.tape.rows, row));
}

// Shows a tape number on the tape, which has the keyboard then.
function goToTape(place) {
  if (!state.tape) return setTab("tape");
  goToRow(state.tape.rowOf[place]);
  return tables.tape.box.focus({ preventScroll: true });
}

// Where a row is among rising rows, or -1.
function placeIn(rows, row) {
  let low = 0, high = rows.length;
  while (low < high) {
    const middle = (low + high) >> 1;
    if (rows[middle] < row) low = middle + 1;
    else high = middle;
  }
  return rows[low] === row ? low : -1;
}

const tapeLink = (place) => link(`#${place}`, () => goToTape(place));

// ## A row of the tape

function messageText(row) {
  const { tape } = state, [, , , who, number, , symbol, target, price, size, condition] = fieldsOf(tape, row);
  const what = `${who}’s message ${number} of ${symbol}`, shares = price && `${whole(Number(size))} at ${dollars(thousandths(price))} (${condition})`;
  const does = [`reports ${shares}`, `cancels its report ${target}`, `corrects its report ${target} to ${shares}`, `reinstates its report ${target}`];
  return `${what} ${does[tape.kind[row]]}.`;
}

// The figures of a row's symbol after the row before it.
function figuresBefore(row) {
  const { tape } = state;
  for (let before = row - 1; before >= 0; before--) if (tape.sym[before] === tape.sym[row]) return fieldsOf(tape, before).slice(11);
  return ["", "", "", "", "0", "0"];
}

function tableLine(name, cells) {
  const line = element("tr");
  cells.forEach(([text, className], at) => line.append(element(at ? name : "th", className, text)));
  return line;
}

// A table of the figures of a row's symbol before it and after it.
function figuresTable(row) {
  const fields = fieldsOf(state.tape, row), old = figuresBefore(row), made = element("table"), head = element("thead");
  head.append(tableLine("th", [[fields[6]], ["before"], ["after"]]));
  made.append(head);
  [...FIGURES, "volume", "trades"].forEach((name, at) => {
    const text = (field) => (field === "" ? "–" : at < FIGURES.length ? dollars(thousandths(field)) : whole(Number(field)));
    const now = fields[11 + at];
    made.append(tableLine("td", [[name], [text(old[at])], [text(now), old[at] === now ? "" : "changed"]]));
  });
  return made;
}

const setsText = (sets) => FIGURES.filter((_, bit) => sets & (1 << bit)).join(", ");

// The figures that a report sets at the day's end, in words.
function setsSentence(at) {
  const { explain, symbols } = state, all = setsText(explain.sets[at]), own = setsText(explain.ownSets[at]), parts = [];
  if (all) parts.push(`the ${all} of ${symbols[explain.sym[at]]}`);
  if (own) parts.push(`${letter(explain.who[at])}’s own ${own}`);
  return parts.length ? `It sets ${parts.join(", and ")}.` : "It sets no figure.";
}

// What is told of the report that a row is, or names, as it is at the day's end.
function endParts(row, at) {
  const { tape, explain } = state, sym = tape.sym[row], told = element("p", "told");
  if (tape.kind[row]) told.append("Its target is tape number ", tapeLink(explain.tape[at]), ". ");
  told.append(`At the day’s end that report ${explain.cancelled[at] ? "is cancelled" : "stands"} with ${sharesText(at)}`);
  if (explain.changed[at]) told.append("; last changed by ", tapeLink(explain.changed[at]));
  told.append(`. ${setsSentence(at)}`);
  const more = link(`Explain ${state.symbols[sym]}`, () => {
    setSymbol(sym);
    setTab("explain");
  });
  return [told, more];
}

function showDetail(row) {
  const { tape, explain } = state, place = byId("detail"), close = element("button", "close", "×");
  close.setAttribute("aria-label", "Close");
  close.addEventListener("click", () => {
    hideDetail();
    writeAddress();
    tables.tape.box.focus({ preventScroll: true });
  });
  const isRefused = tape.refused[row] > 0, title = isRefused ? `Row ${row + 2}: refused` : `Row ${row + 2}: tape number ${tape.tape[row]}`;
  const parts = [close, element("h3", "", title), element("p", "", messageText(row))];
  if (isRefused) parts.push(element("p", "", `The tape refuses it: ${refusalText(fieldsOf(tape, row)[1])}. It changes nothing.`));
  parts.push(figuresTable(row));
  const at = !explain || isRefused ? -1 : tape.kind[row] === 0 ? explained(tape.tape[row]) : targetOf(row);
  if (at >= 0) parts.push(...endParts(row, at));
  place.replaceChildren(...parts);
  place.hidden = false;
  state.row = row;
  writeAddress();
}
