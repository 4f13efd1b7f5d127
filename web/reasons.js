// ## Why a message is refused, and why a report sets no figure, in the words of docs/RULES.md, which web/build puts beside the script

const REASONS = JSON.parse(byId("words").textContent);

// The words of a reason, with these parts of a report if the words name them.
function worded(reason, parts) {
  return REASONS[reason].split(/\{(\w+)\}/).map((piece, at) => (at % 2 ? parts[piece] : piece)).filter((piece) => piece !== "");
}

// What the tape says of a message that it refuses, with the words for it.
const refusalText = (why) => (REASONS[why] ? `${why}, as ${REASONS[why]}` : why);

// By what a report was changed last; nothing if it was not.
function changeParts(at) {
  const { explain, tape } = state, by = explain.changed[at];
  if (!by) return [];
  const reason = ["", "cancelled", "corrected", "reinstated"][tape.kind[tape.rowOf[by]]];
  return worded(reason, { changed: tapeLink(by) });
}

// Why a report is not the last, or not the open, if another is.
function lastReason(at, holder) {
  if (state.explain.cancelled[at]) return changeParts(at);
  const reason = ["never last", "last if first", "last of its market"][cellsShown().last[at]];
  return reason ? worded(reason, { condition: conditionOf(at), holder: holder < 0 ? "" : letter(state.explain.who[holder]) }) : [];
}

// Why a report is not the high or the low, if its price lies beyond them.
function rangeReason(at) {
  if (state.explain.cancelled[at]) return changeParts(at);
  return cellsShown().highLow[at] ? [] : worded("no high or low", { condition: conditionOf(at) });
}

// By what a report that stands was changed, and what it was at first.
function correctionParts(at) {
  const { explain, tape } = state, fields = fieldsOf(tape, tape.rowOf[explain.tape[at]]), [price, size, condition] = fields.slice(8);
  const was = thousandths(price) !== explain.price[at] || Number(size) !== explain.size[at] || condition !== conditionOf(at);
  return [...changeParts(at), was ? `; reported as ${whole(Number(size))} at ${dollars(thousandths(price))} (${condition})` : ""];
}

// The lists of the reports that set no figure, and why.
function reasonLists(rows, [opens, high, low, last]) {
  const { explain } = state, isBeyond = (at) => high === undefined || explain.price[at] > explain.price[high] || explain.price[at] < explain.price[low];
  const later = rows.filter((at) => last === undefined || explain.tape[at] > explain.tape[last]).reverse();
  const earlier = rows.filter((at) => opens === undefined || explain.tape[at] < explain.tape[opens]);
  const corrected = rows.filter((at) => !explain.cancelled[at] && explain.changed[at]);
  const titled = (figure, title, other) => (figure === undefined ? other : title), noted = (note) => (rows.length ? note : "There is no report.");
  const ofLast = titled(last, "Why no later trade is the last", "Why no trade is the last");
  const ofRange = titled(high, "Prices beyond the high and the low", "Why no price is the high or the low");
  const ofOpen = titled(opens, "Earlier reports that are not the open", "Why no trade is the open");
  const lists = [
    list(ofLast, later, noted("The last is the latest report."), (at) => lastReason(at, last ?? -1)),
    list(ofRange, rows.filter(isBeyond), noted("None: every report lies between them."), rangeReason),
    list(ofOpen, earlier, noted("The open is the earliest report."), (at) => lastReason(at, -1)),
    list("Cancelled", rows.filter((at) => explain.cancelled[at]), "None.", changeParts),
  ];
  return corrected.length ? [...lists, list("Corrected or reinstated, and standing", corrected, "", correctionParts)] : lists;
}

// How many reports a list has at most.
const LISTED = 12;

// A list of reports, each with why it is there; the note stands if there is none.
function list(title, items, note, describe) {
  const section = element("section"), table = element("table");
  section.append(element("h3", "", title));
  for (const at of items.slice(0, LISTED)) table.append(listLine(at, describe(at)));
  section.append(items.length ? table : element("p", "quiet", note));
  if (items.length > LISTED) section.append(element("p", "quiet", `and ${whole(items.length - LISTED)} more, in the rows below`));
  return section;
}

function listLine(at, reasons) {
  const { explain } = state, line = element("tr"), place = element("td", "num left"), why = element("td");
  place.append(tapeLink(explain.tape[at]), ` ${letter(explain.who[at])} ${explain.number[at]}`);
  why.append(...reasons);
  line.append(place, element("td", "num", sharesText(at)), why);
  return line;
}
