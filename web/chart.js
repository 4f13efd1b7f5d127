// ## The chart of a symbol's trades, by tape number and price

// The room around the chart, for prices at the left, the figures' names at the right, and tape numbers below.
const LEFT = 66, RIGHT = 92, TOP = 14, FOOT = 26;
// From so many trades on they are drawn as pixels, or as small dots.
const VERY_MANY = 3000, MANY = 400;
// How far, in pixels, a trade may be from the pointer that shows it.
const NEAR = 18;
// How wide the figures' names stand apart, and how many pixels a tape number below the chart takes.
const LABEL = 15, TICK = 64;

// What is drawn: the trades with their places, and what set each figure.
let points = null;

function colours() {
  const style = getComputedStyle(document.documentElement);
  return Object.fromEntries(["line", "quiet", "blue", "red", "amber"].map((name) => [name, style.getPropertyValue(`--${name}`).trim()]));
}

// The rows of the tape that show the last after each message of the symbol; none for a participant's own figures.
function lastRows(sym) {
  const { tape, who } = state;
  return who > 1 ? [] : positions(tape, (row) => tape.sym[row] === sym && tape.tape[row] > 0);
}

// The least and the most of the prices of some rows, those without one left out, and of these two.
function leastAndMost(rows, priceOf, [least, most] = [Infinity, -Infinity]) {
  for (const row of rows) {
    const price = priceOf(row);
    if (!price) continue;
    if (price < least) least = price;
    if (price > most) most = price;
  }
  return [least, most];
}

// Where rows lie on a canvas, by one of its two scales.
function placesOf(rows, place) {
  const places = new Float32Array(rows.length);
  for (let index = 0; index < rows.length; index++) places[index] = place(rows[index]);
  return places;
}

// Where tape numbers and prices lie on a canvas.
function scaleFor(canvas, rows, steps) {
  const { explain, tape } = state, { clientWidth: width, clientHeight: height } = canvas;
  const lasts = leastAndMost(steps, (row) => tape.last[row]);
  const [lowest, highest] = leastAndMost(rows, (at) => explain.price[at], lasts), room = (highest - lowest) * 0.1 || 100;
  const least = lowest - room, most = highest + room, first = explain.tape[rows[0]];
  const last = Math.max(explain.tape[rows.at(-1)], steps.length ? tape.tape[steps.at(-1)] : 0);
  const x = (place) => LEFT + ((place - first) / Math.max(last - first, 1)) * (width - LEFT - RIGHT);
  const y = (price) => TOP + ((most - price) / (most - least)) * (height - TOP - FOOT);
  return { width, height, least, most, first, last, x, y };
}

function drawAgain() {
  if (points) drawChart(points.rows, points.setters);
}

function drawChart(rows, setters) {
  const canvas = byId("chart"), { explain } = state, sym = symbolShown(), ratio = window.devicePixelRatio || 1;
  const told = FIGURES.map((figure, bit) => `${figure} ${setters[bit] === undefined ? "none" : dollars(explain.price[setters[bit]])}`);
  canvas.setAttribute("aria-label", `The ${rows.length} trades of ${state.symbols[sym]} by tape number and price: ${told.join(", ")}.`);
  if (!canvas.clientWidth) return;
  canvas.width = canvas.clientWidth * ratio;
  canvas.height = canvas.clientHeight * ratio;
  points = { rows, setters, width: canvas.clientWidth, px: [], py: [] };
  if (!rows.length) return;
  const pen = canvas.getContext("2d"), inks = colours(), steps = lastRows(sym), scale = scaleFor(canvas, rows, steps);
  pen.scale(ratio, ratio);
  pen.font = `12px ${getComputedStyle(document.body).fontFamily}`;
  pen.textBaseline = "middle";
  points.px = placesOf(rows, (at) => scale.x(explain.tape[at]));
  points.py = placesOf(rows, (at) => scale.y(explain.price[at]));
  drawLevels(pen, inks, scale);
  drawTicks(pen, inks, scale);
  drawLast(pen, inks, scale, steps);
  if (rows.length > VERY_MANY) drawPixels(pen, inks, canvas, ratio);
  else rows.forEach((at, index) => drawTrade(pen, inks, at, index));
  drawMarks(pen, inks, scale, setters, rows.length > VERY_MANY ? 4.5 : 7);
}

// Prices at one, two or five of a power of ten.
function drawLevels(pen, inks, { width, least, most, y }) {
  const rough = (most - least) / 7, power = 10 ** Math.floor(Math.log10(rough)), step = Math.max(power * [1, 2, 5, 10].find((it) => it * power >= rough), 1);
  pen.textAlign = "right";
  for (let level = Math.ceil(least / step) * step; level <= most; level += step) {
    pen.strokeStyle = inks.line;
    pen.beginPath();
    pen.moveTo(LEFT, y(level));
    pen.lineTo(width - RIGHT, y(level));
    pen.stroke();
    pen.fillStyle = inks.quiet;
    if (level >= 0) pen.fillText(dollars(Math.round(level)), LEFT - 8, y(level));
  }
}

// Tape numbers below the chart, as many as there is room for.
function drawTicks(pen, inks, { width, height, first, last, x }) {
  const ticks = Math.min(6, last - first, Math.max(Math.floor((width - LEFT - RIGHT) / TICK), 1));
  pen.textAlign = "center";
  pen.fillStyle = inks.quiet;
  for (let tick = 0; tick <= ticks; tick++) {
    const place = Math.round(first + ((last - first) * tick) / Math.max(ticks, 1));
    pen.fillText(`#${place}`, x(place), height - 10);
  }
}

// The last after each message, as steps; of many in one column of pixels the least and the most.
function drawLast(pen, inks, { width, x, y }, steps) {
  if (!steps.length) return;
  const { tape } = state;
  let column = null;
  const close = () => {
    if (!column || column.least === column.most) return;
    pen.moveTo(column.at, y(column.least));
    pen.lineTo(column.at, y(column.most));
    pen.moveTo(column.at, y(column.price));
  };
  const step = (at, price) => {
    if (!column) pen.moveTo(at, y(price));
    else if (at === column.at) return { at, price, least: Math.min(column.least, price), most: Math.max(column.most, price) };
    close();
    if (column) pen.lineTo(at, y(column.price));
    pen.lineTo(at, y(price));
    return { at, price, least: Math.min(column?.price ?? price, price), most: Math.max(column?.price ?? price, price) };
  };
  pen.strokeStyle = inks.quiet;
  pen.globalAlpha = 0.8;
  pen.beginPath();
  for (const row of steps) {
    const price = tape.last[row];
    if (!price) close();
    column = price ? step(Math.round(x(tape.tape[row])), price) : null;
  }
  close();
  if (column) pen.lineTo(width - RIGHT, y(column.price));
  pen.stroke();
  pen.globalAlpha = 1;
}

// A trade: a cross if it was cancelled, a ring if it never makes the last, else a dot.
function drawTrade(pen, inks, at, index) {
  const { rows, px, py } = points, [x, y] = [px[index], py[index]], size = rows.length > MANY ? 2.2 : 3.6;
  const isCancelled = state.explain.cancelled[at] > 0, isRing = cellsShown().last[at] === 0;
  pen.strokeStyle = isCancelled ? inks.red : inks.blue;
  pen.fillStyle = inks.blue;
  pen.lineWidth = isCancelled ? 1.8 : 1.6;
  pen.globalAlpha = isCancelled ? 1 : isRing ? 0.65 : 0.9;
  pen.beginPath();
  if (isCancelled) {
    pen.moveTo(x - 4, y - 4);
    pen.lineTo(x + 4, y + 4);
    pen.moveTo(x + 4, y - 4);
    pen.lineTo(x - 4, y + 4);
  } else pen.arc(x, y, size, 0, 7);
  if (isCancelled || isRing) pen.stroke();
  else pen.fill();
  pen.globalAlpha = 1;
  pen.lineWidth = 1;
}

// The names of the figures at the right, each beside its price or as near as the others leave room.
function labelled(marks, height) {
  let below = TOP - 8, above = height - FOOT + 10;
  for (const mark of marks) below = mark.label = Math.max(mark.y, below + LABEL);
  for (const mark of [...marks].reverse()) above = mark.label = Math.min(mark.label, above - LABEL);
  return marks;
}

// The four marks: a ring at the trade that sets a figure, and the figure's name.
function drawMarks(pen, inks, { width, height, x, y }, setters, radius) {
  const { explain } = state, set = FIGURES.map((figure, bit) => ({ figure, at: setters[bit] })).filter(({ at }) => at !== undefined);
  const marks = set.map(({ figure, at }) => ({ figure, at, y: y(explain.price[at]) })).sort((one, other) => one.y - other.y), end = width - RIGHT;
  pen.textAlign = "left";
  pen.strokeStyle = pen.fillStyle = inks.amber;
  for (const mark of labelled(marks, height)) {
    const left = x(explain.tape[mark.at]);
    pen.lineWidth = 2;
    pen.beginPath();
    pen.arc(left, mark.y, radius, 0, 7);
    pen.stroke();
    pen.lineWidth = 1;
    pen.setLineDash([3, 3]);
    pen.beginPath();
    pen.moveTo(left + 8, mark.y);
    pen.lineTo(end, mark.y);
    pen.lineTo(end + 6, mark.label);
    pen.stroke();
    pen.setLineDash([]);
    pen.fillText(`${mark.figure} ${dollars(explain.price[mark.at])}`, end + 9, mark.label);
  }
}

// A colour as the four bytes of a pixel.
function pixelOf(pen, ink, alpha) {
  pen.clearRect(0, 0, 1, 1);
  pen.globalAlpha = alpha;
  pen.fillStyle = ink;
  pen.fillRect(0, 0, 1, 1);
  return new Uint32Array(pen.getImageData(0, 0, 1, 1).data.buffer)[0];
}

// Very many trades: a square of pixels each, those that were cancelled above the others.
function drawPixels(pen, inks, { width, height }, ratio) {
  const layer = element("canvas"), own = layer.getContext("2d"), { cancelled } = state.explain, { rows } = points;
  Object.assign(layer, { width, height });
  const image = own.createImageData(width, height), pixels = new Uint32Array(image.data.buffer);
  const [blue, red] = [pixelOf(own, inks.blue, 0.75), pixelOf(own, inks.red, 1)];
  rows.forEach((at, index) => cancelled[at] || setSquare(pixels, width, ratio, index, blue));
  rows.forEach((at, index) => cancelled[at] && setSquare(pixels, width, ratio, index, red));
  own.putImageData(image, 0, 0);
  pen.drawImage(layer, 0, 0, width / ratio, height / ratio);
}

function setSquare(pixels, width, ratio, index, ink) {
  const side = Math.max(Math.round(1.6 * ratio), 1), left = Math.round(points.px[index] * ratio), top = Math.round(points.py[index] * ratio);
  for (let line = top; line < top + side; line++) pixels.fill(ink, line * width + left, line * width + left + side);
}

// ## The pointer on the chart

// The trade that is nearest to the pointer, or -1.
function nearest(event) {
  if (!points) return -1;
  const box = byId("chart").getBoundingClientRect(), x = event.clientX - box.left, y = event.clientY - box.top;
  let found = -1, least = NEAR * NEAR;
  for (let index = 0; index < points.px.length; index++) {
    const far = (points.px[index] - x) ** 2 + (points.py[index] - y) ** 2;
    if (far < least) [least, found] = [far, index];
  }
  return found;
}

function tipText(at) {
  const { explain } = state, sets = setsText(cellsShown().sets[at]), by = explain.changed[at];
  const parts = [`#${explain.tape[at]}`, `${letter(explain.who[at])} ${explain.number[at]}`, sharesText(at), conditionOf(at)];
  if (by) parts.push(`${explain.cancelled[at] ? "cancelled" : "changed"} by #${by}`);
  if (sets) parts.push(`sets ${sets}`);
  return parts.join(" · ");
}

function showTip(event) {
  const index = nearest(event), tip = byId("tip");
  tip.hidden = index < 0;
  if (index < 0) return;
  tip.textContent = tipText(points.rows[index]);
  tip.style.left = `${Math.max(Math.min(points.px[index] + 28, byId("chart").clientWidth - 300), 0)}px`;
  tip.style.top = `${points.py[index] + 18}px`;
}

function listenForChart() {
  const chart = byId("chart");
  chart.addEventListener("mousemove", showTip);
  chart.addEventListener("mouseleave", () => { byId("tip").hidden = true; });
  chart.addEventListener("click", (event) => {
    const index = nearest(event);
    if (index >= 0) goToTape(state.explain.tape[points.rows[index]]);
  });
  new ResizeObserver(() => {
    if (state.tab === "explain" && state.explain && points && points.width !== chart.clientWidth) drawAgain();
  }).observe(chart.parentElement);
}
