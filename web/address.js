// ## The address, which says what is shown: a link to a symbol or a row

// The figures that are asked for, as the address names them.
const figuresWord = (who) => (who > 1 ? letter(who) : "consolidated");

// What the address asks for, by name.
const asked = () => new URLSearchParams(location.hash.slice(1));

// Puts what is shown into the address. A row is there by its number in the table; the header row is the first.
function writeAddress() {
  if (!state.report) return;
  const parts = [...(state.isSample ? ["sample"] : []), ...(state.matrix === 2 ? ["matrix=2"] : []), `view=${state.tab}`];
  if (state.symbol >= 0) parts.push(`symbol=${state.symbols[state.symbol]}`);
  if (state.who) parts.push(`figures=${figuresWord(state.who)}`);
  if (state.tab === "tape" && state.row >= 0) parts.push(`row=${state.row + 2}`);
  history.replaceState(null, "", `#${parts.join("&")}`);
}

// Chooses what an address asks for once there is a report; what it names and there is not, it does not ask for.
function chooseAsked(address) {
  const view = address.get("view"), figures = address.get("figures") ?? "";
  if (TEXTS.includes(view)) state.tab = view;
  setSymbol(state.symbols.indexOf(address.get("symbol") ?? ""));
  state.who = figures === "consolidated" ? 1 : participants().find((who) => letter(who) === figures) ?? 0;
  byId("who").value = String(state.who);
}

// Goes to the row that an address asks for once there is a tape.
function goToAsked(address) {
  const row = Number(address.get("row")) - 2;
  if (Number.isInteger(row) && row >= 0 && row < state.tape.count) goToRow(row);
}

function matrixOf(address) {
  return address.get("matrix") === "2" ? 2 : 1;
}

function setMatrix(matrix) {
  state.matrix = matrix;
  document.querySelector(`input[name="matrix"][value="${matrix}"]`).checked = true;
}

// Shows what the address asks for: of the sample if it names that, else of the table that is open, or of the first one that is opened.
function readAddress() {
  const address = asked();
  if (address.has("sample") && !(state.isSample && state.matrix === matrixOf(address))) {
    setMatrix(matrixOf(address));
    return trySample(address);
  }
  if (!state.report) return undefined;
  chooseAsked(address);
  showTab();
  return state.tape ? goToAsked(address) : undefined;
}
