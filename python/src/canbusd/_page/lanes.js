// The time line: a ruler and a lane for each node. A step has the same horizontal position in all of them. The time
// line is redrawn when the visible part changes. The cursor at the chosen step is an element on top of the lanes, so it
// can be moved without redrawing.

const STRIP = 20, BAND = 13, CURVES = 48, SPACE = 9, TOP = 264;
const view = { from: 0, to: 1, step: 0 };
let axis = new Axis([0], 1), lanes = [];
// The settings of the time line. `isInstant` means that steps have no length on the current axis. If `lengthOf` is
// given, steps have a length and end before the next step begins. Then `ends` is an axis with the ends of the steps.
const time = { isInstant: false, lengthOf: null, ends: null, axisWords: [], ticks: () => [], words: () => "", choose: () => {}, moved: () => {} };

// The positions of lanes and steps.

const isNarrow = () => window.innerWidth < 640;
function plotted() {
  const full = at("field").clientWidth, right = isNarrow() ? 0 : 84;
  return { full, width: Math.max(full - right, 1), isNarrow: isNarrow() };
}
const placeOf = (plot, place) => (place - view.from) / (view.to - view.from) * plot.width;

// `widthOf` returns the width in pixels of a step that has a length, and `endOf` returns where any step ends.
const widthOf = (plot, step) => time.lengthOf(step) / (view.to - view.from) * plot.width;
const endOf = (plot, step) => time.lengthOf ? placeOf(plot, axis.start[step]) + widthOf(plot, step)
  : placeOf(plot, axis.start[step + 1] ?? axis.length);

// Returns which steps each pixel shows: pixel x shows the steps from edges[x] up to, but not including, edges[x + 1].
function edgesOf(width, from, to, places = axis) {
  const edges = new Int32Array(width + 1);
  for (let x = 0; x <= width; x++) edges[x] = places.from(from + (to - from) * x / width);
  // A step at the right end of the axis belongs to the last pixel.
  if (to >= axis.length) edges[width] = axis.count;
  return edges;
}
function sized(canvas, width, height) {
  const scale = window.devicePixelRatio || 1, pen = canvas.getContext("2d");
  canvas.style.height = height + "px";
  canvas.width = Math.round(width * scale);
  canvas.height = Math.round(height * scale);
  pen.scale(scale, scale);
  pen.font = "12px system-ui, 'DejaVu Sans', sans-serif";
  pen.textBaseline = "middle";
  return pen;
}

// Helper functions for drawing.

function write(pen, text, x, y, tint = theme.text, align = "left") {
  pen.fillStyle = tint;
  pen.textAlign = align;
  pen.fillText(text, x, y);
}
function across(plot, y, tint, dashes = []) {
  const { pen } = plot;
  pen.strokeStyle = tint;
  pen.setLineDash(dashes);
  pen.beginPath();
  pen.moveTo(0, Math.round(y) + 0.5);
  pen.lineTo(plot.width, Math.round(y) + 0.5);
  pen.stroke();
  pen.setLineDash([]);
}
function block(pen, fill, x, y, width, height) {
  pen.fillStyle = fill;
  pen.fillRect(x, y, width, height);
}
// Calls `each` for each pixel with x and with the minimum, the maximum and the last value of the steps at this pixel. A
// pixel without a step repeats the last value before it.
function pixels(plot, numbers, each) {
  const { edges } = plot, found = { low: 0, high: 0 };
  let last = edges[0] ? numbers.all[edges[0] - 1] : 0;
  for (let x = 0; x < plot.width; x++) {
    const first = edges[x], end = edges[x + 1];
    if (end > first) {
      numbers.range(first, end, found);
      last = numbers.all[end - 1];
    } else found.low = found.high = last;
    each(x, found.low, found.high, last);
  }
}
function curve(plot, numbers, top, height, most, tint, dashes = []) {
  const { pen } = plot, y = value => top + height - value / most * height;
  pen.strokeStyle = tint;
  pen.lineWidth = 1.5;
  pen.setLineDash(dashes);
  pen.beginPath();
  let before = -1;
  pixels(plot, numbers, (x, low, high, last) => {
    if (low === high && high === before) return;
    if (before < 0) pen.moveTo(x, y(high)); else pen.lineTo(x, y(before));
    pen.lineTo(x, y(high));
    if (low !== high) pen.lineTo(x, y(low));
    pen.lineTo(x, y(last));
    before = last;
  });
  pen.lineTo(plot.width, y(Math.max(before, 0)));
  pen.stroke();
  pen.setLineDash([]);
  pen.lineWidth = 1;
}
function area(plot, numbers, top, height, most, tint) {
  plot.pen.fillStyle = tint;
  pixels(plot, numbers, (x, _, high) => {
    if (high) plot.pen.fillRect(x, top + height - high / most * height, 1, high / most * height);
  });
}
// Draws the number of waiting frames on an axis by time. The number is `queue` from the start of a step to its end, and
// `left` after that.
function waitingArea(plot, queue, left, top, height, most) {
  const { edges } = plot, each = (view.to - view.from) / plot.width, found = { low: 0, high: 0 };
  plot.pen.fillStyle = theme.queue;
  for (let x = 0; x < plot.width; x++) {
    const before = edges[x] - 1;
    let high = 0;
    if (before >= 0) {
      const over = axis.start[before] + (time.lengthOf ? time.lengthOf(before) : 0);
      high = (over > view.from + x * each ? queue : left).all[before];
    }
    if (edges[x + 1] > edges[x]) {
      queue.range(edges[x], edges[x + 1], found);
      high = Math.max(high, found.high);
    }
    if (high) plot.pen.fillRect(x, top + height - high / most * height, 1, high / most * height);
  }
}
// Draws the states of a node. Error active is a line, and each other state is a bar with the name of the state. Error
// warning is an outline, or a low bar if it is short. Each pixel shows the worst state that occurs there.
function band(plot, tec, rec, top, fills, down) {
  const { pen } = plot, worst = new Uint8Array(plot.width);
  pixels(plot, tec, (x, _, high) => { worst[x] = severity(high); });
  pixels(plot, rec, (x, _, high) => { worst[x] = Math.max(worst[x], severity(high)); });
  if (down) pixels(plot, down, (x, _, high) => { if (high) worst[x] = IS_DOWN; });
  block(pen, theme.line, 0, top + BAND - 3, plot.width, 2);
  for (let x = 0; x < plot.width;) {
    let end = x + 1;
    while (end < plot.width && worst[end] === worst[x]) end++;
    if (worst[x]) stateBar(pen, worst[x], x, top, Math.max(end - x, 2), fills);
    x = end;
  }
}
function stateBar(pen, state, x, top, wide, fills) {
  const text = ["", "warning", "passive", "bus off", "down"][state];
  const isFrame = state === 1 && wide > 5;
  if (state === 1 && !isFrame) block(pen, theme.warning, x, top + BAND / 2, wide, BAND / 2 - 1);
  else block(pen, state >= IS_OFF ? fills[STATES[state]] : theme[text], x, top, wide, BAND - 1);
  if (isFrame) block(pen, theme.page, x + 1.5, top + 1.5, wide - 3, BAND - 4);
  pen.font = "11px system-ui, 'DejaVu Sans', sans-serif";
  const room = pen.measureText(text).width + 6;
  if (room <= wide) {
    if (state >= IS_OFF) block(pen, theme.page, x + 1, top + 1, room, BAND - 3);
    write(pen, text, x + 4, top + BAND / 2, state === 2 ? theme.on : theme.text);
  }
  pen.font = "12px system-ui, 'DejaVu Sans', sans-serif";
}
// Writes the first of the texts that fits, on a background in the colour of the element below.
function plate(pen, texts, x, wide, y, back, tint) {
  const text = texts.find(one => pen.measureText(one).width < wide - 6);
  if (!text) return;
  const room = pen.measureText(text).width + 6;
  block(pen, back, x + (wide - room) / 2, y - 8, room, 16);
  write(pen, text, x + wide / 2, y + 0.5, tint, "center");
}

// The lane of a node: its attempts, its state, its error counters and its queue. The counters and the queue are folded
// if the error counts stay 0, the queue never holds two frames, and the node is never down.

class NodeLane {
  constructor(number, name, columns, strip) {
    Object.assign(this, { number, name, strip, ...columns });
    this.isFolded = this.isQuiet = !this.tec.most && !this.rec.most && this.queue.most < 2 && !this.down?.most;
    this.canFold = true;
  }
  get height() { return STRIP + BAND + (this.isFolded ? 0 : CURVES) + SPACE; }
  draw(plot, top, fills) {
    this.strip(plot, this.number, top, fills);
    // Counts and states apply to the time after the end of a step.
    const after = plot.ends ? { ...plot, edges: plot.ends } : plot;
    band(after, this.tec, this.rec, top + STRIP + 2, fills, this.down);
    if (!this.isFolded) this.curves(plot, after, top + STRIP + BAND + 4, CURVES - 2);
    across(plot, top + this.height - 4, theme.line);
  }
  curves(plot, after, top, height) {
    const y = limit => top + height - limit / TOP * height, most = Math.max(2, this.queueMost);
    if (this.queue.most && this.leftOf && (time.isInstant || time.lengthOf)) {
      this.left ||= this.leftOf(this.number);
      waitingArea(plot, this.queue, this.left, top, height, most);
    }
    else if (this.queue.most) area(plot, this.queue, top, height, most, theme.queue);
    for (const [limit] of LIMITS) across(plot, y(limit), theme.soft, [2, 4]);
    curve(after, this.rec, top, height, TOP, theme.rec, [5, 2]);
    curve(after, this.tec, top, height, TOP, theme.tec);
    const aside = { 96: 5, 128: -5, 256: 4 };
    for (const [limit, text] of LIMITS) {
      if (plot.isNarrow) write(plot.pen, String(limit), plot.width - 1, y(limit) + aside[limit], theme.soft, "right");
      else write(plot.pen, `${limit} ${text}`, plot.width + 6, y(limit) + aside[limit], theme.soft);
    }
  }
  // Returns the words to the left of the lane: the values at a step.
  values(step) {
    const of = numbers => numbers.all.length ? grouped(numbers.all[step]) : "0";
    return [["tec", `transmit ${of(this.tec)}`], ["rec", `receive ${of(this.rec)}`], ["queue", `queue ${of(this.queue)}`]];
  }
}

// A lane that shows one column of numbers as an area or a curve, with marks at some steps.
class CurveLane {
  constructor(name, numbers, words, more = {}) {
    Object.assign(this, { name, numbers, words, height: 58, marks: null, hasArea: true, most: Math.max(1, numbers.most) }, more);
  }
  draw(plot, top) {
    const high = this.height - 18;
    if (this.hasArea) area(plot, this.numbers, top + 8, high, this.most, theme.queue);
    curve(plot, this.numbers, top + 8, high, this.most, theme.tec);
    across(plot, top + this.height - 6, theme.line);
    if (!plot.isNarrow) write(plot.pen, this.scale || grouped(this.most), plot.width + 6, top + 10, theme.soft);
    if (!plot.isNarrow && this.foot) write(plot.pen, this.foot, plot.width + 6, top + 6 + high, theme.soft);
    if (this.marks) this.drawMarks(plot, top);
  }
  drawMarks(plot, top) {
    for (let x = 0; x < plot.width; x++) {
      const first = plot.edges[x], last = plot.edges[x + 1];
      if (last > first && this.marks.subarray(first, last).includes(1)) {
        block(plot.pen, theme.destroyed, x, top, 2, 6);
      }
    }
  }
  values(step) { return [["tec", this.words(step)]]; }
}

// Draws the whole time line.

let layer = "";
function drawTime() {
  const plot = plotted();
  plot.edges = edgesOf(plot.width, view.from, view.to);
  if (time.ends) plot.ends = edgesOf(plot.width, view.from, view.to, time.ends);
  drawRuler(plot);
  const high = lanes.reduce((sum, lane) => sum + lane.height, 2);
  plot.pen = sized(at("lanes"), plot.full, high);
  const fills = fillsOf(plot.pen);
  let top = 2;
  for (const lane of lanes) {
    lane.draw(plot, top, fills);
    top += lane.height;
  }
  placeWindow();
}
function drawRuler(plot) {
  const pen = sized(at("ruler"), plot.full, 32);
  let free = 0;
  pen.strokeStyle = theme.soft;
  for (const { place, words } of time.ticks(plot)) {
    const x = Math.round(placeOf(plot, place)), wide = Math.max(...words.map(text => pen.measureText(text).width));
    if (x < 0 || x > plot.width) continue;
    pen.beginPath();
    pen.moveTo(x + 0.5, 26);
    pen.lineTo(x + 0.5, 32);
    pen.stroke();
    const left = Math.min(x, plot.full - wide);
    if (left < free) continue;
    words.forEach((text, k) => write(pen, text, left, words.length > 1 ? 7 + k * 14 : 14, k ? theme.soft : theme.text));
    free = left + wide + 14;
  }
}
// Returns round numbers between `from` and `to`, about `most` of them, and the distance between them.
function rounded(from, to, most, least) {
  const rough = Math.max((to - from) / Math.max(most, 1), least), power = 10 ** Math.floor(Math.log10(rough));
  const each = [1, 2, 5, 10].map(by => by * power).find(by => by >= rough * 0.9999) || 10 * power;
  const found = [];
  for (let k = Math.ceil(from / each); k * each <= to && found.length < 100; k++) found.push(k * each);
  return { each, found };
}

// A name that does not fit is shortened before its last five characters, because names mostly differ at the end.
const nameParts = name => name.length < 9 ? name : [element("span", name.slice(0, -5)), element("span", name.slice(-5))];
// Builds the column to the left of the lanes, with the names of the lanes and the values at the chosen step.
function buildGutter() {
  const axisWords = element("div", time.axisWords.map(text => element("div", text)), { className: "axis" });
  at("gutter").replaceChildren(axisWords, ...lanes.map(lane => {
    const isButton = lane.canFold || lane.canGo;
    const name = element(isButton ? "button" : "span", nameParts(lane.name), { className: "name", title: lane.title || lane.name });
    if (isButton) name.type = "button";
    if (lane.canGo) {
      name.classList.add("goes");
      name.title += "; choose to take the lane away";
      name.onclick = () => {
        lanes = lanes.filter(one => one !== lane);
        happened("lane gone", lane);
        buildGutter();
        redraw();
      };
    }
    if (lane.canFold) {
      name.setAttribute("aria-expanded", !lane.isFolded);
      name.title = `${lane.name}: ${lane.isFolded ? "show" : "fold"} counters and queue`;
      name.onclick = () => { lane.isFolded = !lane.isFolded; buildGutter(); redraw(); };
    }
    lane.said = element("div", [], { className: "values" });
    const box = element("div", lane.isFolded ? name : [name, lane.said], { className: "lane" });
    box.style.height = lane.height + "px";
    return box;
  }));
  sayValues();
}
function sayValues() {
  for (const lane of lanes) {
    const said = lane.values(view.step);
    if (lane.said.childElementCount !== said.length) {
      lane.said.replaceChildren(...said.map(([name]) => element("div", [...name ? [mark(name)] : [], ""])));
    }
    said.forEach(([, text], k) => { lane.said.children[k].lastChild.data = text; });
  }
}
// Positions the cursor for the chosen step over the ruler and the lanes.
function placeCursor(step = view.step, cursor = at("cursor")) {
  const plot = plotted(), from = placeOf(plot, axis.start[step]);
  moveCursor(cursor, plot, from, time.isInstant ? from : endOf(plot, step));
}
// Moves a cursor. It is at least 3 pixels wide, and stays within the lanes.
function moveCursor(cursor, plot, from, to) {
  const left = Math.min(Math.max(from, 0), plot.width - 3);
  cursor.hidden = !axis.count || Math.max(to, from + 3) < 0 || from > plot.width;
  cursor.style.transform = `translateX(${left}px)`;
  cursor.style.width = Math.max(Math.min(to, plot.width) - left, 3) + "px";
}
// Marks the visible part in the overview of the run.
function placeWindow() {
  const wide = at("overview").clientWidth, box = at("window");
  box.style.left = view.from / axis.length * wide + "px";
  box.style.width = Math.max((view.to - view.from) / axis.length * wide, 4) + "px";
}
