// ## Small things

const byId = (id) => document.getElementById(id);
const decoder = new TextDecoder();

function element(name, className, text) {
  const made = document.createElement(name);
  if (className) made.className = className;
  if (text !== undefined) made.textContent = text;
  return made;
}

// A link that does something in the page.
function link(text, go) {
  const made = element("button", "plain", text);
  made.type = "button";
  made.addEventListener("click", go);
  return made;
}

const whole = (number) => number.toLocaleString("en-US");
const counted = (number, name) => `${whole(number)} ${name}${number === 1 ? "" : "s"}`;

// A price of ten-thousandths in dollars, with two decimals, or four if it is not whole cents.
function dollars(price) {
  const text = String(price).padStart(5, "0"), decimals = price % 100 === 0 ? text.slice(-4, -2) : text.slice(-4);
  return `${whole(Number(text.slice(0, -4)))}.${decimals}`;
}

// The same with room for the two decimals that others in the column have.
function priced(price, fine) {
  const made = element("span", "", dollars(price));
  if (fine && price % 100 === 0) made.append(element("span", "pad", "00"));
  return made;
}

// A price of a text in ten-thousandths.
function thousandths(text) {
  const [head, tail = ""] = text.split(".");
  return Number(head + tail.padEnd(4, "0"));
}

const letter = (code) => String.fromCharCode(code);
const fieldsOf = (index, row) => decoder.decode(index.text.subarray(index.starts[row], index.starts[row + 1] - 1)).split(",");

// The whole number in a column of a row, or NaN if the field is empty.
function numberAt({ text, starts }, row, column) {
  const [COMMA, ZERO] = [44, 48];
  let at = starts[row], number = NaN;
  for (let left = column; left; at++) if (text[at] === COMMA) left--;
  for (; text[at] >= ZERO; at++) number = (number || 0) * 10 + text[at] - ZERO;
  return number;
}

// The rows of a text for which this holds.
function positions(index, wanted) {
  const found = [];
  for (let row = 0; row < index.count; row++) if (wanted(row)) found.push(row);
  return found;
}

// The width of a column of so many signs under a heading; numbers have commas between thousands.
const wideFor = (signs, heading = "") => `${(Math.max(signs * 1.05, heading.length * 1.25) + 1.9).toFixed(1)}ch`;
const grouped = (digits) => digits + Math.floor(Math.max(digits - 1, 0) / 3);
const growing = (width) => `minmax(${width}, 1fr)`;
const capital = (word) => word[0].toUpperCase() + word.slice(1);

// ## A table of which only the rows in sight are made

// The height of a row, of the row of headings, and of a whole table at most, since a page is not endlessly high: beyond this, a step of the bar is
// more than a row.
const ROW = 30, HEAD = 34, HIGHEST = 15e6;
// How many rows are made beyond those in sight, on either side.
const SPARE = 6;

class Table {
  // columns: [heading, width, classes]; make(row, cells) fills the cells of a row and may give it classes. pick(row) is called if a row is chosen, and
  // open(row) if it is clicked, or Enter is pressed on it. sort(column) is called if a heading is clicked.
  // `means` has by a heading what its column is.
  constructor(place, { columns, label, make, pick, open, sort, means = {}, most = 620 }) {
    Object.assign(this, { columns, make, pick, open, sort, most, rows: [], chosen: -1, made: new Map(), name: place.id });
    this.box = element("div", "table");
    this.box.tabIndex = 0;
    this.box.setAttribute("role", "grid");
    this.box.setAttribute("aria-label", label);
    this.box.style.setProperty("--columns", columns.map(([, width]) => width).join(" "));
    this.body = element("div", "body");
    this.body.setAttribute("role", "rowgroup");
    const inner = element("div", "inner");
    this.head = this.line("row head", "columnheader", columns.map(([heading]) => heading));
    this.head.setAttribute("aria-rowindex", 1);
    [...this.head.children].forEach((cell) => { cell.title = means[cell.textContent] ?? ""; });
    if (sort) [...this.head.children].forEach((cell, column) => cell.replaceChildren(this.sorter(cell.textContent, column)));
    inner.append(this.head, this.body);
    this.box.append(inner);
    place.replaceChildren(this.box);
    this.box.addEventListener("scroll", () => this.draw(), { passive: true });
    this.box.addEventListener("keydown", (event) => this.key(event));
    new ResizeObserver(() => this.draw()).observe(this.box);
  }

  // A row with a cell for each column.
  line(className, role, texts = []) {
    const line = element("div", className);
    line.setAttribute("role", "row");
    this.columns.forEach(([, , classes], at) => {
      const cell = element("span", classes, texts[at]);
      cell.setAttribute("role", role);
      line.append(cell);
    });
    return line;
  }

  // A heading by which rows are sorted.
  sorter(heading, column) {
    const made = element("button", "sorter", heading);
    made.type = "button";
    made.addEventListener("click", () => this.sort(column));
    return made;
  }

  // Shows by which column the rows are sorted, and whether they fall; by none if that is -1.
  showSorted(column, falls) {
    [...this.head.children].forEach((cell, at) => cell.setAttribute("aria-sort", at !== column ? "none" : falls ? "descending" : "ascending"));
  }

  set(rows) {
    this.rows = rows;
    this.chosen = -1;
    this.box.removeAttribute("aria-activedescendant");
    this.full = Math.min(rows.length * ROW, HIGHEST);
    this.body.style.height = `${this.full}px`;
    this.box.style.height = `${Math.min(this.full + HEAD + 2, this.most)}px`;
    this.box.setAttribute("aria-rowcount", rows.length + 1);
    this.box.scrollTop = 0;
    this.redraw();
  }

  redraw() {
    this.body.replaceChildren();
    this.made.clear();
    this.draw();
  }

  // The height in which rows are seen.
  view() {
    return Math.max(this.box.clientHeight - HEAD, ROW);
  }

  // How many rows fit into it.
  inView() {
    return this.view() / ROW;
  }

  // The position of the first row in sight, which may lie between two.
  first() {
    if (this.rows.length * ROW <= this.full) return this.box.scrollTop / ROW;
    return (this.box.scrollTop / Math.max(this.full - this.view(), 1)) * (this.rows.length - this.inView());
  }

  draw() {
    if (!this.box.clientHeight) return;
    const first = this.first(), shift = this.box.scrollTop - first * ROW;
    const from = Math.max(Math.floor(first) - SPARE, 0), to = Math.min(Math.ceil(first + this.inView()) + SPARE, this.rows.length);
    this.forget(from, to);
    for (let at = from; at < to; at++) {
      if (!this.made.has(at)) this.add(at);
      this.made.get(at).style.transform = `translateY(${at * ROW + shift}px)`;
    }
  }

  // Removes the rows that are not among these.
  forget(from, to) {
    for (const [at, row] of this.made) {
      if (at >= from && at < to) continue;
      row.remove();
      this.made.delete(at);
    }
  }

  add(at) {
    const row = this.line("row", "gridcell");
    row.id = `${this.name}-${at}`;
    row.setAttribute("aria-rowindex", at + 2);
    const classes = this.make(this.rows[at], [...row.children]);
    if (classes) row.className += ` ${classes}`;
    row.addEventListener("click", () => {
      this.choose(at);
      this.open?.(this.rows[at]);
    });
    this.mark(row, at === this.chosen);
    this.made.set(at, row);
    this.body.append(row);
  }

  // Marks a row as chosen or not. The links of the chosen one alone are on the way of the Tab key, which would else go through all rows.
  mark(row, is) {
    row.classList.toggle("chosen", is);
    row.setAttribute("aria-selected", is);
    for (const button of row.querySelectorAll("button")) button.tabIndex = is ? 0 : -1;
  }

  // Brings a row into sight.
  show(at) {
    const top = at * ROW, { scrollTop } = this.box;
    if (this.rows.length * ROW > this.full) {
      this.box.scrollTop = (Math.max(at - 8, 0) / (this.rows.length - this.inView())) * (this.full - this.view());
    } else if (top < scrollTop || top + ROW > scrollTop + this.view()) {
      this.box.scrollTop = Math.max(top - this.view() / 3, 0);
    }
    this.draw();
  }

  choose(at) {
    const before = this.made.get(this.chosen);
    if (before) this.mark(before, false);
    this.chosen = at;
    this.show(at);
    const row = this.made.get(at);
    if (row) this.mark(row, true);
    this.box.setAttribute("aria-activedescendant", `${this.name}-${at}`);
    this.pick?.(this.rows[at]);
  }

  key(event) {
    const { chosen } = this, last = this.rows.length - 1, page = Math.max(Math.floor(this.inView()) - 1, 1);
    const to = { ArrowDown: chosen + 1, ArrowUp: chosen - 1, PageDown: chosen + page, PageUp: chosen - page, Home: 0, End: last }[event.key];
    if (event.target !== this.box || last < 0) return;
    if (to !== undefined) {
      event.preventDefault();
      this.choose(Math.min(Math.max(to, 0), last));
    } else if (event.key === "Enter" && chosen >= 0) this.open?.(this.rows[chosen]);
  }
}
