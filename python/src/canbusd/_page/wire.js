// Time on the wire: bus load, and how long frames took and waited. This script is only in pages of runs whose bus has
// bit rates, and extends the other scripts.

// Times are in nanoseconds since the start of the first attempt.
const wire = {};

// Reads the columns, and computes running totals of the time during which the wire was busy.

on("taken", column => {
  for (const name of ["begin", "nominal", "fast", "frame", "busy", "since"]) wire[name] = column(run.wire[name]);
  const count = steps.kind.length, starts = new Float64Array(count + 1);
  wire.sums = new Float64Array(count + 1);
  for (let k = 0; k < count; k++) {
    starts[k] = wire.begin[k] / 1e9;
    wire.sums[k + 1] = wire.sums[k] + wire.busy[k];
  }
  starts[count] = Math.max(run.wire.end / 1e9, 1e-5);
  axes[1] = new Axis(starts, 1e-5);
  byTime.lengthOf = step => wire.busy[step] / 1e9;
  let over = 0;
  byTime.ends = new Axis(starts.map((start, k) => over = Math.max(over, start + (wire.busy[k] || 0) / 1e9)), 1e-5);
  showAxis(true);
  view.to = axis.length;
  placeIdentifiers();
});
// Finds the index of the identifier of each frame in `run.texts`.
function placeIdentifiers() {
  const numbers = new Map();
  wire.identifierOf = Uint32Array.from(run.texts, text => {
    const identifier = text.split("#")[0];
    if (!numbers.has(identifier)) numbers.set(identifier, numbers.size);
    return numbers.get(identifier);
  });
  wire.identifiers = [...numbers.keys()];
}
// Returns how long the wire was busy up to a time. If an attempt overlaps the next one, its whole time counts before
// the next one begins.
function busyUntil(nanos) {
  if (!axes[1].count) return 0;
  const step = axes[1].stepAt(nanos / 1e9), begin = wire.begin[step];
  const room = Math.min(wire.busy[step], (wire.begin[step + 1] ?? Infinity) - begin);
  return wire.sums[step] + wire.busy[step] * (room ? Math.min(Math.max((nanos - begin) / room, 0), 1) : 0);
}
// Returns the time at a position on the current axis.
function nanosAt(place) {
  if (byTime.isOn || !axis.count) return place * 1e9;
  const step = axis.stepAt(place), from = axis.start[step], next = wire.begin[step + 1] ?? run.wire.end;
  return wire.begin[step] + (next - wire.begin[step]) * Math.min((place - from) / (axis.start[step + 1] - from), 1);
}
// Returns the bus load between two times, or NaN if no time passed.
const loadIn = (from, to) => to > from ? (busyUntil(to) - busyUntil(from)) / (to - from) : NaN;
const loadOfAll = () => run.wire.end ? loadIn(0, run.wire.end) : 0;
const loadSeen = () => loadIn(nanosAt(view.from), nanosAt(view.to));
const fixed = (number, digits) => number.toLocaleString("en", { minimumFractionDigits: digits, maximumFractionDigits: digits });
// If attempts took no time, the load may be arbitrarily high.
const percent = share => Number.isNaN(share) ? "none" : share > 9.99 ? "> 999 %" : `${fixed(100 * share, 1)} %`;
function duration(nanos) {
  const [unit, by] = nanos < 1e6 ? ["\u00b5s", 1e3] : nanos < 1e9 ? ["ms", 1e6] : ["s", 1e9];
  return `${grouped(Number((nanos / by).toFixed(3)))} ${unit}`;
}

// The lane.

const BIN = 3;
class LoadLane {
  constructor() {
    const title = "share of the time in which the wire was busy; red above: more than it can carry";
    Object.assign(this, { name: "bus load", height: 58, title });
  }
  draw(plot, top) {
    const { pen, width } = plot, high = this.height - 18, foot = top + 8 + high, each = (view.to - view.from) / width;
    const line = new Path2D();
    across(plot, top + 8, theme.soft, [2, 4]);
    for (let x = 0, from = nanosAt(view.from), last = 0; x < width; x += BIN) {
      const wide = Math.min(BIN, width - x), to = nanosAt(view.from + (x + wide) * each), load = loadIn(from, to);
      if (!Number.isNaN(load)) last = load;
      const y = foot - Math.min(last, 1) * high;
      block(pen, theme.queue, x, y, wide, foot - y);
      // Here the load exceeds what the wire can carry.
      if (last > 1.001) block(pen, theme.destroyed, x, top, wide, 6);
      if (x) line.lineTo(x, y); else line.moveTo(x, y);
      line.lineTo(x + wide, y);
      from = to;
    }
    pen.strokeStyle = theme.tec;
    pen.lineWidth = 1.5;
    pen.stroke(line);
    pen.lineWidth = 1;
    across(plot, top + this.height - 6, theme.line);
    if (plot.isNarrow) {
      write(pen, "100 %", width - 1, top + 15, theme.soft, "right");
      return;
    }
    write(pen, "100 %", width + 6, top + 10, theme.soft);
    write(pen, "0 %", width + 6, foot - 4, theme.soft);
  }
  values() { return [["", `in view ${percent(loadSeen())}`], ["", `in all ${percent(loadOfAll())}`]]; }
}
on("lanes made", () => {
  lanes.unshift(new LoadLane());
  makeTab();
});

// Words.

function rateWords() {
  const words = rate => rate % 1e6 ? `${grouped(rate / 1e3)} kbit/s` : `${grouped(rate / 1e6)} Mbit/s`;
  return words(run.wire.bitrate) + (run.wire.dbitrate ? `, data at ${words(run.wire.dbitrate)}` : "");
}
// Counts the attempts that begin before all earlier attempts have ended.
function overlaps() {
  let found = 0;
  for (let k = 0, over = 0; k < axis.count; k++) {
    if (!wire.busy[k]) continue;
    if (wire.begin[k] < over) found++;
    over = Math.max(over, wire.begin[k] + wire.busy[k]);
  }
  return found;
}
on("worded", () => {
  const early = overlaps();
  at("facts").append(` Bus load ${percent(loadOfAll())} at ${rateWords()}.`, early ? ` ${times(early, "attempt begins", "attempts begin")} `
    + "before the wire is free: this run did not take the time of its bits, so times on the wire mean little." : "");
  const help = at("help").querySelector("p");
  help.textContent = help.textContent.replace(/By time an attempt is an instant.*?how many there were\./s,
    "By time an attempt is as long as it took the wire, until the next one might begin. Bus load is the share of the time "
    + "in which the wire was busy, with frames, flags of errors and the 3 bits after them, for each three pixels; red "
    + "above it: more than the wire can carry, as in a run whose frames took no time.");
});
on("tip", (lines, first, last) => {
  if (last - first > 1) lines.push(`bus load ${percent(loadIn(wire.begin[first], wire.begin[last] ?? run.wire.end))}`);
  else if (isAttempt(first)) {
    lines.push(isWhole(first) ? `${duration(wire.frame[first])} on the wire` : `busy for ${duration(wire.busy[first])}`);
  }
});
on("fields", (pairs, step) => {
  const identifier = wire.identifierOf[steps.frame[step]], of = sumsSeen();
  pairs.push(
    [isWhole(step) ? "on the wire" : "whole frame", `${duration(wire.frame[step])}: ${bitWords(step)}`],
    ["attempt", `${duration(wire.busy[step])}, from its start until the next one may begin`],
    ["response time", delayWords(step)],
    [`${wire.identifiers[identifier]} in view`, shareWords(of.busy[identifier], of)],
  );
});
// Whether the frame was sent completely. In other attempts it was destroyed before its end, or was not acknowledged.
const isWhole = step => ["done", "lastbit"].includes(KINDS[steps.kind[step]]);
function bitWords(step) {
  const nominal = times(wire.nominal[step], "bit"), fast = wire.fast[step];
  return `${nominal}${fast ? `, and ${grouped(fast)} at the data bit rate` : ""}${isWhole(step) ? "" : ", not all of which were sent"}`;
}
// Describes the response time as far as it is known. It is a lower bound, because the record has no timestamp for a
// send.
function delayWords(step) {
  const first = step - wire.since[step], nanos = wire.begin[step] + wire.frame[step] - wire.begin[first];
  if (!isWhole(step)) {
    const before = duration(wire.begin[step] - wire.begin[first]);
    return first === step ? "not sent in this attempt, the first in which it took part"
      : `not sent in this attempt; the first in which it took part, ${grouped(attemptOf[first])}, began ${before} before`;
  }
  if (first === step) return `at least ${duration(nanos)}, the frame itself: it took part in no attempt before`;
  return `at least ${duration(nanos)}, from the start of attempt ${grouped(attemptOf[first])}, its first, to this end of frame`;
}
const shareWords = (busy, { all, nanos }) => `load ${percent(busy / nanos)}, ${percent(all ? busy / all : 0)} of the busy time`;

// The load caused by each identifier, over the attempts that begin in the visible part.

function sumsSeen() {
  const first = axis.from(view.from), last = axis.from(view.to), key = [first, last, view.from, view.to].join();
  if (wire.seen?.key === key) return wire.seen;
  const make = () => new Float64Array(wire.identifiers.length), [busy, attempts, failed] = [make(), make(), make()];
  for (let step = first; step < last; step++) {
    if (!isAttempt(step)) continue;
    const identifier = wire.identifierOf[steps.frame[step]];
    busy[identifier] += wire.busy[step];
    attempts[identifier]++;
    if (steps.kind[step]) failed[identifier]++;
  }
  const nanos = nanosAt(view.to) - nanosAt(view.from);
  return wire.seen = { key, busy, attempts, failed, nanos, all: busy.reduce((sum, one) => sum + one, 0) };
}
const MOST_IDENTIFIERS = 10;
function makeTab() {
  const button = element("button", "Load", { type: "button" });
  button.setAttribute("role", "tab");
  button.setAttribute("aria-controls", "tab-load");
  at("tabs").append(button);
  const panel = element("div", [element("p", "", { id: "load-words", className: "note" }),
    element("table", [], { id: "loads", className: "broad" })], { id: "tab-load" });
  panel.setAttribute("role", "tabpanel");
  panel.setAttribute("aria-label", "Load");
  at("lists").append(panel);
}
function showLoads() {
  const sums = sumsSeen(), order = [...sums.busy.keys()].filter(one => sums.attempts[one]);
  const most = order.sort((one, other) => sums.busy[other] - sums.busy[one]).slice(0, MOST_IDENTIFIERS);
  at("load-words").textContent = `Bus load in view: ${percent(loadSeen())} of ${duration(sums.nanos)}. Below: the `
    + `identifiers that take most, of the attempts that begin there${order.length > most.length ? `, ${MOST_IDENTIFIERS} of ${grouped(order.length)}` : ""}.`;
  const number = text => element("td", text, { className: "number" });
  at("loads").replaceChildren(...rowsOf(["identifier", "attempts", "failed", "busy, ms", "load", "of the busy time"],
    most.map(one => [element("td", wire.identifiers[one]), sums.attempts[one], sums.failed[one],
      number(fixed(sums.busy[one] / 1e6, 3)), number(percent(sums.busy[one] / sums.nanos)),
      number(percent(sums.busy[one] / sums.all))])));
}
on("list shown", name => { if (name === "tab-load") showLoads(); });
on("shown", () => { if (tab === "tab-load") showLoads(); });
on("printed", isOn => { if (isOn) showLoads(); });
