
// What wheel, pointer and keys do, what is told of a bar, and the list of a row's states.

const find = (selector) => document.querySelector(selector);

/** What the page knows of the trace, with names for what its lines and items have. */
function readTrace(text) {
  const trace = JSON.parse(text);
  trace.lines = trace.lines.map(([tick, words, place]) => ({ tick: BigInt(tick), at: Number(tick), words, place }));
  trace.items = trace.items.map(([row, kind, first, last, label]) => ({ row, kind, first, last, label }));
  return trace;
}

const trace = readTrace(find("#trace").textContent);
const svg = find("figure svg");
const plot = new Plot(svg, trace);

/** Where the pointer holds the plot, if it does. */
let held = null;

function milliseconds(ticks) {
  return grouped(Number(ticks) / trace.ticksOfAMillisecond, 4);
}

/** A line of the trace: its moment, its number and its words, and what stands at its address. */
function lineText(number) {
  const { tick, words, place } = trace.lines[number];
  const text = `tick ${grouped(tick)}, ${milliseconds(tick)} ms, line ${grouped(number + 1)}: ${words}`;
  return place ? `${text}\n${place}` : text;
}

/** What is told of a bar, a mark or a line of the trace. */
function itemText({ kind, first, last }) {
  const what = kind ? `${trace.legend[kind]}\n` : "";
  if (first === last) return what + lineText(first);
  const ticks = trace.lines[last].tick - trace.lines[first].tick;
  const length = `${grouped(ticks)} ticks, ${milliseconds(ticks)} ms`;
  return `${what}from ${lineText(first)}\nto ${lineText(last)}\n${length}`;
}

/** What is told of items that are drawn as one. */
function groupText(group) {
  const more = group.length > 3 ? [`and ${grouped(group.length - 3)} more`] : [];
  return [...group.slice(0, 3).map(itemText), ...more].join("\n");
}

/** Tells what is under the pointer, beside it. */
function hover(event) {
  const told = find("#told");
  const group = plot.told.get(event.target);
  told.hidden = !group || held !== null;
  if (told.hidden) return;
  told.textContent = groupText(group);
  const fits = (place, size, room) => `${Math.max(Math.min(place + 14, room - size - 4), 4)}px`;
  told.style.left = fits(event.clientX, told.offsetWidth, document.documentElement.clientWidth);
  told.style.top = event.clientY + 14 + told.offsetHeight < window.innerHeight
    ? `${event.clientY + 14}px` : `${event.clientY - 10 - told.offsetHeight}px`;
}

/** Tells which part is shown. */
function tellShown() {
  const [from, to] = [plot.from, plot.to];
  const lines = `lines ${grouped(Math.ceil(from + 0.5))} to ${grouped(Math.floor(to + 0.5))}`;
  const ticks = `ticks ${grouped(Math.ceil(from))} to ${grouped(Math.floor(to))}`;
  find("#shown").value = trace.byLine ? lines : `${milliseconds(from)} to ${milliseconds(to)} ms, ${ticks}`;
}

/** A row of the list: one state of a thread, or one bar or mark of another row. */
function stateRow({ kind, first, last }) {
  const line = trace.lines[first];
  const ticks = first === last ? "" : grouped(trace.lines[last].tick - line.tick);
  const row = document.createElement("tr");
  const cells = [milliseconds(line.tick), grouped(line.tick), grouped(first + 1), trace.legend[kind], ticks];
  for (const text of cells) row.insertCell().textContent = text;
  if (line.place) row.cells[3].textContent += `: ${line.place}`;
  return row;
}

/** Lists the states of a row, or closes the list where none is given. */
function list(pressed) {
  for (const row of svg.querySelectorAll(".row")) row.setAttribute("aria-expanded", row === pressed);
  find("#states").hidden = !pressed;
  if (!pressed) return;
  const number = Number(pressed.dataset.row);
  const states = trace.items.filter((item) => item.row === number);
  find("#listed").textContent = `${trace.rows[number]}: ${grouped(states.length)} in order`;
  find("#states tbody").replaceChildren(...states.map(stateRow));
  find("#states").scrollTop = 0;
}

function press(row) {
  list(row.getAttribute("aria-expanded") === "true" ? null : row);
}

/** Closes the list; who was in it is back at the row. */
function closeList() {
  const row = svg.querySelector("[aria-expanded=true]");
  if (row && find("#states").contains(document.activeElement)) row.focus();
  list(null);
}

function showWhole() {
  plot.show(...trace.whole);
}

const KEYS = {
  "+": () => plot.zoom(1 / 2), "=": () => plot.zoom(1 / 2), "-": () => plot.zoom(2), 0: showWhole, Escape: closeList,
  ArrowLeft: () => plot.move(-plot.room / 8), ArrowRight: () => plot.move(plot.room / 8),
};

function onKey(event) {
  const row = event.target.closest?.(".row");
  const isPressed = row && ["Enter", " "].includes(event.key);
  const act = isPressed ? () => press(row) : KEYS[event.key];
  if (!act || event.ctrlKey || event.metaKey || event.altKey) return;
  event.preventDefault();
  act();
}

/** Where an event is in the picture, if it is in the plot. */
function xInPlot(event) {
  const edges = svg.getBoundingClientRect();
  const [x, y] = [event.clientX - edges.left, event.clientY - edges.top];
  return plot.isInside(x) && y >= trace.top && y <= trace.bottom ? x : null;
}

function onWheel(event) {
  const x = xInPlot(event);
  if (x === null || event.ctrlKey) return;
  event.preventDefault();
  const pixels = event.deltaMode === WheelEvent.DOM_DELTA_PIXEL ? 1 : 30;
  if (event.deltaX) plot.move(event.deltaX * pixels);
  if (event.deltaY) plot.zoom(2 ** ((event.deltaY * pixels) / 240), x);
}

function beginMoving(event) {
  if (event.button !== 0 || xInPlot(event) === null) return;
  held = event.clientX;
  svg.setPointerCapture(event.pointerId);
  svg.classList.add("moving");
}

function onPointer(event) {
  if (held !== null) {
    plot.move(held - event.clientX);
    held = event.clientX;
  }
  hover(event);
}

function endMoving() {
  held = null;
  svg.classList.remove("moving");
}

find("#nearer").addEventListener("click", KEYS["+"]);
find("#farther").addEventListener("click", KEYS["-"]);
find("#whole").addEventListener("click", showWhole);
for (const row of svg.querySelectorAll(".row")) row.addEventListener("click", () => press(row));
document.addEventListener("keydown", onKey);
svg.addEventListener("wheel", onWheel, { passive: false });
svg.addEventListener("pointerdown", beginMoving);
svg.addEventListener("pointermove", onPointer);
svg.addEventListener("pointerup", endMoving);
svg.addEventListener("pointercancel", endMoving);
svg.addEventListener("pointerleave", () => { find("#told").hidden = true; });
svg.addEventListener("drawn", tellShown);
find("#tools").hidden = false;
document.body.classList.add("scripted");
new ResizeObserver(() => plot.fit(find("figure").clientWidth)).observe(find("figure"));
