"use strict";
// Code for both pages: elements, words, colours, columns of numbers and positions on the time line.

const KINDS = ["done", "lastbit", "destroyed", "noack", "restart", "down", "idle"];
const KIND_WORDS = ["done", "last bit", "destroyed", "no acknowledgement", "restart", "down", "idle"];
// All kinds before RESTART are attempts.
const RESTART = 4, DOWN = 5, IDLE = 6;
const STATES = ["active", "warning", "passive", "off", "down"];
const IS_OFF = 3, IS_DOWN = 4;
// The names of states as in CAN documents, with a non-breaking space.
const stateWords = state => ({ off: "bus\u00a0off", down: "down" })[state] || `error\u00a0${state}`;
const LIMITS = [[96, "warning"], [128, "passive"], [256, "bus off"]];
const WARNING = 96, PASSIVE = 128, OFF = 256;

const at = id => document.getElementById(id);
const grouped = number => number.toLocaleString("en");
const severity = count => (count >= WARNING) + (count >= PASSIVE) + (count >= OFF);
// Formats seconds since 1970 as the local time of day.
const clock = seconds => new Date(seconds * 1000).toTimeString().slice(0, 8);
const times = (number, one, many = one + "s") => `${grouped(number)} ${number === 1 ? one : many}`;

function element(tag, content = [], more = {}) {
  const made = Object.assign(document.createElement(tag), more);
  made.append(...[content].flat());
  return made;
}
function cell(tag, content) {
  if (content instanceof Node && content.tagName === tag.toUpperCase()) return content;
  const isNumber = typeof content === "number" || /^[\d,]+( \u2192 [\d,]+)?$/.test(content);
  return element(tag, typeof content === "number" ? grouped(content) : content, isNumber ? { className: "number" } : {});
}
const tableRow = (tag, cells) => element("tr", cells.map(one => cell(tag, one)));
// Returns the rows of a table. The heading of a column with numbers is aligned right. On a narrow page every cell shows
// the heading of its column.
function rowsOf(heads, rows) {
  const made = rows.map(cells => tableRow("td", cells)), head = tableRow("th", heads);
  for (const row of made) {
    [...row.children].forEach((one, k) => {
      one.dataset.head = heads[k];
      if (one.classList.contains("number")) head.children[k].className = "number";
    });
  }
  return [head, ...made];
}
// Returns a cell with a count. The cell is marked as bad unless the count is 0.
const loss = number => element("td", grouped(number), { className: number ? "number bad" : "number" });
// Returns the symbol for a kind of attempt, or for another entry of the legend.
const mark = name => element("i", [], { className: "mark " + name });

// Callbacks that one script registers for an event, and that run when another script announces this event.
const added = {};
function on(what, each) { (added[what] ||= []).push(each); }
function happened(what, ...given) { for (const each of added[what] || []) each(...given); }

// Statistics of the periods between timestamps, in seconds: the number of timestamps, and the minimum, mean and maximum
// period.
class Periods {
  constructor() { Object.assign(this, { number: 0, least: Infinity, most: 0, first: 0, last: 0 }); }
  add(moment) {
    if (this.number++) {
      this.least = Math.min(this.least, moment - this.last);
      this.most = Math.max(this.most, moment - this.last);
    } else this.first = moment;
    this.last = moment;
  }
  get mean() { return (this.last - this.first) / (this.number - 1); }
  // The largest deviation of a period from the mean.
  get jitter() { return Math.max(this.mean - this.least, this.most - this.mean); }
  // Returns the periods in milliseconds, with the mean first. The strings are empty if there is only one timestamp.
  get words() {
    if (this.number < 2) return ["", "", "", ""];
    return [this.mean, this.least, this.most, this.jitter].map(seconds => grouped3(seconds * 1000));
  }
}
const grouped3 = number => number.toLocaleString("en", { minimumFractionDigits: 3, maximumFractionDigits: 3 });
const PERIOD_COLUMNS = ["period, ms", "least", "largest", "jitter"].map(head => [head, "minmax(0, 8.5ch)", "n h"]);

// Colours and hatching. The hatching lines repeat every 6 pixels, so that kinds differ by more than their colours.

const HATCH = {
  lastbit: by => [by + 3, 0, by + 3, 6],
  destroyed: by => [by, 6, by + 6, 0],
  noack: by => [0, by + 3, 6, by + 3],
  off: by => [by, 0, by + 6, 6],
  down: by => [0, by + 3, 6, by + 3],
};
// Whether the background of the hatching is that of the page, as for a node that is off the bus.
const isHollow = name => name === "off" || name === "down";
const COLOURS = ["text", "soft", "line", "on", "stripe", "tec", "rec", "queue", "accepted", "hit", "off", "warning",
  "passive", "page", "panel", ...KINDS];
let theme = {};
function readTheme() {
  const style = getComputedStyle(document.documentElement);
  theme = Object.fromEntries(COLOURS.map(name => [name, style.getPropertyValue("--" + name).trim()]));
}
function hatched(pen, name) {
  const tile = document.createElement("canvas"), brush = tile.getContext("2d");
  tile.width = tile.height = 6;
  brush.fillStyle = isHollow(name) ? theme.page : theme[name];
  brush.fillRect(0, 0, 6, 6);
  brush.strokeStyle = isHollow(name) ? theme[name] : theme.stripe;
  brush.lineWidth = 1.4;
  brush.beginPath();
  for (const by of [-6, 0, 6]) {
    const [x0, y0, x1, y1] = HATCH[name](by);
    brush.moveTo(x0, y0);
    brush.lineTo(x1, y1);
  }
  brush.stroke();
  return pen.createPattern(tile, "repeat");
}
const fillsOf = pen => Object.fromEntries([...KINDS, "off"].map(name =>
  [name, HATCH[name] ? hatched(pen, name) : theme[name]]));

// The steps on the time line. Step k begins at position start[k], and these positions never decrease.

class Axis {
  // `least` is the minimum length of the visible part.
  constructor(start, least) {
    this.start = start;
    this.count = start.length - 1;
    this.length = Math.max(start[this.count], least);
    this.least = least;
  }
  // Returns the first step that begins at or after this position.
  from(place) {
    let low = 0, high = this.count;
    while (low < high) {
      const middle = low + high >> 1;
      if (this.start[middle] < place) low = middle + 1; else high = middle;
    }
    return low;
  }
  // Returns the last step that begins at or before this position.
  stepAt(place) {
    let low = 0, high = this.count - 1;
    while (low < high) {
      const middle = low + high + 1 >> 1;
      if (this.start[middle] <= place) low = middle; else high = middle - 1;
    }
    return low;
  }
}

// A column of numbers, with the minimum and maximum of each block of numbers.

const BLOCK = 64;
class Numbers {
  constructor(all) {
    this.all = all;
    const blocks = Math.floor(all.length / BLOCK);
    this.high = new Uint16Array(blocks);
    this.low = new Uint16Array(blocks);
    this.most = 0;
    for (let block = 0, step = 0; block < blocks; block++) {
      let high = all[step], low = high;
      for (const end = step + BLOCK; step < end; step++) {
        if (all[step] > high) high = all[step];
        if (all[step] < low) low = all[step];
      }
      this.high[block] = high;
      this.low[block] = low;
      if (high > this.most) this.most = high;
    }
    for (let step = blocks * BLOCK; step < all.length; step++) this.most = Math.max(this.most, all[step]);
  }
  // Finds the minimum and maximum of the numbers with indices from `first` up to, but not including, `last`.
  range(first, last, found) {
    let low = Infinity, high = 0;
    const { all } = this;
    for (let step = first; step < last;) {
      if (step % BLOCK === 0 && step + BLOCK <= last) {
        const block = step / BLOCK;
        if (this.high[block] > high) high = this.high[block];
        if (this.low[block] < low) low = this.low[block];
        step += BLOCK;
      } else {
        if (all[step] > high) high = all[step];
        if (all[step] < low) low = all[step];
        step++;
      }
    }
    found.low = low;
    found.high = high;
    return found;
  }
}

// Counts how often each of the codes below `codes` occurs in a range of a column. It uses precomputed sums for whole
// blocks, and counts the remaining numbers one by one.
class Tallies {
  constructor(column, codes) {
    Object.assign(this, { column, codes });
    const blocks = Math.floor(column.length / BLOCK);
    this.sums = new Uint32Array((blocks + 1) * codes);
    for (let block = 0; block < blocks; block++) {
      const here = block * codes, next = here + codes;
      for (let code = 0; code < codes; code++) this.sums[next + code] = this.sums[here + code];
      for (let k = block * BLOCK; k < (block + 1) * BLOCK; k++) this.sums[next + column[k]]++;
    }
  }
  of(first, last) {
    const found = new Uint32Array(this.codes), from = Math.ceil(first / BLOCK), to = Math.floor(last / BLOCK);
    const each = (one, other) => { for (let k = one; k < other; k++) found[this.column[k]]++; };
    if (from >= to) { each(first, last); return found; }
    each(first, from * BLOCK);
    each(to * BLOCK, last);
    for (let code = 0; code < this.codes; code++) {
      found[code] += this.sums[to * this.codes + code] - this.sums[from * this.codes + code];
    }
    return found;
  }
}

// Handles key presses, and clicks on buttons that do the same as a key.
function listenToKeys(keys) {
  for (const button of document.querySelectorAll("[data-key]")) button.onclick = () => keys[button.dataset.key]();
  document.addEventListener("keydown", event => {
    const taken = event.key === " " ? "input, select, button, summary" : "input:not([type=checkbox]), select";
    if (event.target.matches?.(taken) || event.target.closest?.("[role=tablist]")?.contains(event.target)
      && event.key.startsWith("Arrow")) return;
    if (event.ctrlKey || event.altKey || event.metaKey || !Object.hasOwn(keys, event.key)) return;
    event.preventDefault();
    keys[event.key]();
  });
}
function legend(id, marks) {
  at(id).replaceChildren(...marks.map(([name, words, title]) => element("span", [mark(name), words], { title })));
}
