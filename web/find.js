// ## A message by its number

// A message as it is asked for: its participant's letter, or none, and its number; or a tape number.
const MESSAGE = /^(?:([A-Z]?)\s*(\d+)|#\s*(\d+))$/;

function tell(text) {
  byId("told").textContent = text;
}

// Whether a row of the tape is the message that is asked for.
function isAsked([, who, number, place]) {
  const { tape } = state;
  if (place) return (row) => tape.tape[row] === Number(place);
  return (row) => tape.number[row] === Number(number) && (!who || letter(tape.who[row]) === who);
}

// The next row of the tape for which this holds, behind the one that is chosen and then from the first on, or -1.
function nextRow(holds) {
  const { tape, row: from } = state;
  for (let step = 1; step <= tape.count; step++) {
    const row = (from + step) % tape.count;
    if (holds(row)) return row;
  }
  return -1;
}

function findMessage(text) {
  const message = MESSAGE.exec(text.trim().toUpperCase());
  if (!message) return tell("A message is a letter and a number, as N 3, or a tape number, as #12.");
  if (!state.tape) return tell("The tape is not made yet.");
  const row = nextRow(isAsked(message));
  if (row < 0) return tell(`There is no message ${message[0]}.`);
  tell(`Message ${message[0]} is in row ${row + 2}.`);
  return goToRow(row);
}

function listenForMessages() {
  byId("find").addEventListener("submit", (event) => {
    event.preventDefault();
    findMessage(byId("message").value);
  });
}
