// Draws bars, marks and scales for the part of the trace that is shown, as picture.py does for the whole.

/** Makes an element of SVG. */
function shape(name, attributes, text = "") {
  const made = document.createElementNS("http://www.w3.org/2000/svg", name);
  for (const [key, value] of Object.entries(attributes)) made.setAttribute(key, value);
  made.textContent = text;
  return made;
}

/** The step of round numbers from first to last, at most `most` + 1, and the numbers. */
function roundNumbers(first, last, most) {
  let step = 1;
  for (let power = 1; last - first > step * most; power *= 10) {
    step = [power, 2 * power, 5 * power, 10 * power].find((one) => last - first <= one * most) ?? step;
  }
  const start = Math.ceil(first / step);
  const count = Math.max(Math.floor(last / step) - start + 1, 0);
  return { step, numbers: Array.from({ length: count }, (_, n) => (start + n) * step) };
}

/** What writes numbers with commas, by how many decimals they have. */
const FORMATS = Array.from({ length: 8 }, (_, decimals) =>
  new Intl.NumberFormat("en", { minimumFractionDigits: decimals, maximumFractionDigits: decimals }));

/** A number with commas and so many decimals. */
function grouped(number, decimals = 0) {
  return FORMATS[decimals].format(number);
}

/** The plot of a picture. Places of its axis are ticks, or lines of the trace, counted from 0. */
class Plot {
  constructor(svg, trace) {
    this.svg = svg;
    this.trace = trace;
    this.layer = svg.querySelector(".plot");
    this.width = trace.width;
    this.leastWidth = this.widthOfHead();
    this.height = trace.byLine ? this.heightOfColumns() : trace.height;
    [this.from, this.to] = trace.whole;
    this.least = trace.byLine ? 2 : Math.max(8, this.to / 2 ** 44);
    const isMark = (item) => item.kind in trace.marks;
    const drawn = trace.items.filter((item) => item.kind in trace.colours);
    this.items = [...drawn.filter((item) => !isMark(item)), ...drawn.filter(isMark)];
    this.told = new WeakMap();
  }

  /** How wide the picture has to be for the texts above the plot, with room for the one at the right. */
  widthOfHead() {
    const ends = [...this.svg.querySelectorAll(".head text:not(.right)")].map((text) => {
      const { x, width } = text.getBBox();
      return x + width + (text.classList.contains("heading") ? 188 : 16);
    });
    return Math.max(640, ...ends);
  }

  /** How wide the plot is, without its margins. */
  get room() {
    return this.width - this.trace.left - this.trace.right;
  }

  /** Where a place of the axis stands. */
  xOf(place) {
    return this.trace.left + (this.room * (place - this.from)) / (this.to - this.from);
  }

  /** Where a line of the trace stands. */
  x(line) {
    return this.xOf(this.trace.byLine ? line + 0.5 : this.trace.lines[line].at);
  }

  inside(x) {
    return Math.min(Math.max(x, this.trace.left), this.width - this.trace.right);
  }

  isInside(x) {
    return x === this.inside(x);
  }

  /** Shows from one place to another, as far as they lie in the whole, and not less than can be told apart. */
  show(from, to) {
    const [first, last] = this.trace.whole;
    const span = Math.min(Math.max(to - from, this.least), last - first);
    this.from = Math.min(Math.max(from, first), last - span);
    this.to = this.from + span;
    this.draw();
  }

  /** Shows so many times as much; what stands at x stays there. */
  zoom(times, x = this.trace.left + this.room / 2) {
    const part = (this.inside(x) - this.trace.left) / this.room;
    const span = this.to - this.from;
    const next = Math.max(span * times, this.least);
    this.show(this.from + part * (span - next), this.from + part * (span - next) + next);
  }

  /** Moves what is shown by so many pixels. */
  move(pixels) {
    const way = (pixels * (this.to - this.from)) / this.room;
    this.show(this.from + way, this.to + way);
  }

  /** Fits the picture to a width, as far as there is room for its texts. */
  fit(width) {
    this.width = Math.max(Math.floor(width), Math.ceil(this.leastWidth));
    const size = { width: this.width, height: this.height, viewBox: `0 0 ${this.width} ${this.height}` };
    for (const [key, value] of Object.entries(size)) this.svg.setAttribute(key, value);
    for (const wide of this.svg.querySelectorAll(".band, svg > rect")) wide.setAttribute("width", this.width);
    this.svg.querySelector("svg > rect").setAttribute("height", this.height);
    this.svg.querySelector(".head .right").setAttribute("x", this.width - 16);
    this.draw();
  }

  draw() {
    const { top, bottom, left } = this.trace;
    const plane = { x: left, y: top, width: this.room, height: bottom - top, class: "plane" };
    this.layer.replaceChildren(shape("rect", plane));
    if (this.trace.byLine) this.drawColumns();
    else this.drawClock();
    for (const group of this.groups()) this.drawGroup(group);
    const end = this.trace.lines.length - 1;
    if (this.trace.lines[end].words.startsWith("end ") && this.isInside(this.x(end))) {
      this.tell([{ first: end, last: end }], this.stroke(this.x(end), top, bottom, "end"));
    }
    this.svg.dispatchEvent(new Event("drawn"));
  }

  /** Lets an element tell of items, or of a line of the trace. */
  tell(items, element) {
    this.told.set(element, items);
  }

  add(name, attributes, text) {
    return this.layer.appendChild(shape(name, attributes, text));
  }

  text(x, y, text, style, more = {}) {
    return this.add("text", { x: x.toFixed(1), y: y.toFixed(1), class: style, ...more }, text);
  }

  stroke(x, top, bottom, style) {
    return this.add("path", { d: `M${x.toFixed(1)} ${top}V${bottom}`, class: style });
  }

  /** The items that are seen. Those of one kind that fall on the same pixels are one group. */
  groups() {
    const groups = new Map();
    for (const item of this.items) {
      const ends = [this.x(item.first), this.x(item.last)];
      if (ends[1] < this.trace.left || ends[0] > this.width - this.trace.right) continue;
      const key = [item.row, item.kind, ...ends.map((x) => Math.round(this.inside(x)))].join(" ");
      if (groups.has(key)) groups.get(key).push(item);
      else groups.set(key, [item]);
    }
    return groups.values();
  }

  /** Draws items as one: what is seen of a bar, with an ellipsis where it goes on outside, or a mark. */
  drawGroup(group) {
    const { row, kind, first, label } = group[0];
    const ends = [this.x(first), this.x(group.at(-1).last)];
    const [x, end] = ends.map((one) => this.inside(one));
    const y = this.trace.top + this.trace.row * (row + 0.5);
    const mark = this.trace.marks[kind];
    if (mark) this.drawMark(group, x, y);
    else this.drawBar(group, ends, y);
    for (const [place, edge, way] of [[ends[0], x, -8], [ends[1], end, 8]]) {
      if (place !== edge) this.text(edge + way, y + 2, "\u2026", "middle");
    }
    const length = this.trace.letter * label.length;
    if (label && mark && this.isFree(row, x + 5, x + 15 + length)) this.text(x + 9, y + 4, label, "small");
    else if (label && !mark && end - x > length + 8) this.text(x + 5, y + 4, label, "inside");
  }

  drawMark(group, x, y) {
    const { kind } = group[0];
    const place = { d: `M${x.toFixed(1)} ${y}${this.trace.marks[kind]}`, fill: this.trace.colours[kind] };
    this.tell(group, this.add("path", { ...place, class: kind }));
  }

  /** Draws a bar. One that fades has an edge where it begins. */
  drawBar(group, ends, y) {
    const { colours, fading, shades, bar } = this.trace;
    const { kind } = group[0];
    const [x, end] = ends.map((one) => this.inside(one));
    const opaque = ends.map((one) => this.opaque(ends, this.inside(one)));
    const fill = fading.includes(kind) ? `url(#${this.gradient(kind, opaque)})` : colours[kind];
    const place = { x: x.toFixed(1), y: y - bar / 2, width: Math.max(end - x, 1).toFixed(1), height: bar };
    this.tell(group, this.add("rect", { ...place, fill, class: kind }));
    if (fading.includes(kind) && opaque[0] === shades[0]) {
      this.add("path", { d: `M${(x + 0.5).toFixed(1)} ${y - bar / 2}v${bar}`, stroke: colours[kind], class: "edge" });
    }
  }

  /** How opaque a fading bar is at x, in percent. */
  opaque(ends, x) {
    const [first, last] = this.trace.shades;
    return Math.floor(first - ((first - last) * (x - ends[0])) / (ends[1] - ends[0] || 1));
  }

  /** The name of a gradient, which is made where there is none. */
  gradient(kind, [first, last]) {
    const id = `${kind}-${first}-${last}`;
    if (!this.svg.getElementById(id)) {
      const stops = [first, last].map((opaque, offset) =>
        shape("stop", { offset, "stop-color": this.trace.colours[kind], "stop-opacity": opaque / 100 }));
      this.add("linearGradient", { id }).append(...stops);
    }
    return id;
  }

  /** Whether no bar or mark of the row stands between two places. */
  isFree(row, x, end) {
    return !this.items.some((item) => item.row === row && this.x(item.first) < end && this.x(item.last) > x);
  }

  /** Texts at their places, as far as there is room; the same one only once in a row. A stroke marks each. */
  drawScale(unit, places, y, mark) {
    let [free, before] = [this.trace.left - 40, ""];
    this.text(this.trace.left - 46, y, unit, "small right");
    for (const [x, label] of places) {
      const half = (this.trace.letter * label.length) / 2;
      if (label === before || x - half < free || x + half > this.width) continue;
      this.text(x, y, label, "small middle");
      this.stroke(x, mark, mark + 6, "axis");
      [free, before] = [x + half + 12, label];
    }
  }

  /** Draws both scales along the clock. */
  drawClock() {
    const { ticksOfAMillisecond, top, bottom } = this.trace;
    const millionth = ticksOfAMillisecond / 1e6;
    const most = Math.floor(this.width / 120);
    const marks = roundNumbers(this.from / millionth, this.to / millionth, most);
    const decimals = Math.max(0, 7 - String(marks.step).length);
    const times = marks.numbers.map((mark) => [this.xOf(mark * millionth), grouped(mark / 1e6, decimals)]);
    this.drawScale("ms", times, top - 11, top - 6);
    const { numbers } = roundNumbers(this.from, this.to, most);
    this.drawScale("ticks", numbers.map((tick) => [this.xOf(tick), grouped(tick)]), bottom + 19, bottom);
  }

  /** A line of the trace as it stands below its column. */
  columnText(line) {
    const { tick, words } = this.trace.lines[line];
    return `${grouped(tick)} ${words.replace(/ ok .*/, " ok")}`;
  }

  /** How high the picture has to be for the longest of its lines. */
  heightOfColumns() {
    const [first, last] = this.trace.whole;
    let most = 0;
    for (let line = first; line < last; line += 1) most = Math.max(most, this.columnText(line).length);
    return Math.ceil(this.trace.bottom + 24 + 0.72 * this.trace.letter * most);
  }

  /** Draws the upper scale, and the lines of the trace below their columns, as far as there is room. */
  drawColumns() {
    const { top, bottom, lines, whole, ticksOfAMillisecond } = this.trace;
    const every = Math.ceil((16 * (this.to - this.from)) / this.room);
    const shown = [];
    for (let line = whole[0]; line < whole[1]; line += every) if (this.isInside(this.x(line))) shown.push(line);
    const times = shown.map((line) => [this.x(line), grouped(lines[line].at / ticksOfAMillisecond, 2)]);
    this.drawScale("ms", times, top - 11, top - 6);
    for (const line of shown) {
      const [x, y] = [this.x(line) + 4, bottom + 16];
      const turned = { transform: `rotate(-45 ${x.toFixed(1)} ${y})` };
      const told = [{ first: line, last: line }];
      this.tell(told, this.stroke(x - 4, top, bottom + 6, "guide"));
      this.tell(told, this.text(x, y, this.columnText(line), "small right label", turned));
    }
  }
}
