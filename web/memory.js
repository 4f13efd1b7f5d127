// ## Tables for which a browser has no memory

// How many rows of a table are read at most, and how many bytes a row takes, in the module and in the page: 2.93 GB were measured for 3,000,000 rows.
const ROWS_MOST = 4000000, ROW_TAKES = 1200;
// What the module says that gets no memory, and what a browser says.
const OUT_OF_MEMORY = "out of memory", NO_MEMORY = /allocation failed|allocation size overflow|out of memory/i;

const gigabytes = (bytes) => `${(bytes / 1e9).toFixed(1)} GB`;

// How many bytes may be taken: half of the memory, which some browsers tell in units of 2 to the 30th power.
function memoryMost() {
  const { deviceMemory } = navigator;
  return Math.min(deviceMemory ? deviceMemory * 2 ** 29 : Infinity, ROWS_MOST * ROW_TAKES);
}

const rowsMost = () => Math.floor(memoryMost() / ROW_TAKES);

// Says that a table is too large, before any row is read.
function showTooLarge(name, text) {
  showEnd(name, "is too large for this page", `${text} The page takes ${whole(rowsMost())} rows at most here, and the program 16,777,216.`);
}

function showTooManyRows(rows) {
  showTooLarge(state.file.name, `${whole(rows)} rows need ${gigabytes(rows * ROW_TAKES)} of memory.`);
}

function showNoMemory() {
  showEnd(state.file.name, "needs more memory than the browser has", "Nothing is shown of it. The program needs far less.");
}
