// Signals, if a database file is given: a list of all signals with their values at the cursor, and a lane for each
// chosen signal. The lane shows a curve, or bands if the file has names for the values.
//
// Each page sets the functions that read the values. `all` lists the signals, each with its message, name, unit and
// `key`. `at` returns the value of a signal at the cursor. `column` returns the values after each step, which are NaN
// before the first value, and the names of an enumeration.

const signals = { all: () => [], changing: () => [], at: () => undefined, column: () => ({ of: new Float64Array(0), texts: [] }), shown: [] };
const signalKey = (message, name) => `${message}.${name}`;
const signalWords = (value, unit) => value === undefined ? "" : `${typeof value === "number" ? +value.toFixed(6) : value} ${unit}`.trim();

// A lane for a signal with named values. A band shows how long each value lasts.
class BandLane {
  constructor(name, numbers, texts, more) { Object.assign(this, { name, numbers, texts, height: 34 }, more); }
  draw(plot, top) {
    const { pen } = plot, tints = [theme.tec, theme.rec, theme.queue, theme.soft], last = new Int32Array(plot.width);
    pixels(plot, this.numbers, (x, _, __, value) => { last[x] = value; });
    for (let x = 0; x < plot.width;) {
      let end = x + 1;
      while (end < plot.width && last[end] === last[x]) end++;
      if (last[x]) {
        block(pen, theme.panel, x, top + 4, end - x, 20);
        block(pen, tints[(last[x] - 1) % tints.length], x, top + 21, Math.max(end - x - 1, 1), 3);
        plate(pen, [this.texts[last[x] - 1]], x, end - x, top + 13, theme.panel, theme.text);
      }
      x = end;
    }
    across(plot, top + this.height - 5, theme.line);
  }
  values() { return [["", signalWords(signals.at(this.signal), "")]]; }
}
function signalLane(one) {
  const { of, texts } = signals.column(one), more = { signal: one, canGo: true, title: `${one.key}: the last value that was sent` };
  if (texts.length) return new BandLane(one.name, new Numbers(Uint16Array.from(of, value => Number.isNaN(value) ? 0 : value + 1)), texts, more);
  let low = Infinity, high = -Infinity;
  for (const value of of) {
    if (value < low) low = value;
    if (value > high) high = value;
  }
  const part = value => Number.isNaN(value) ? 0 : Math.round((value - low) / (high - low || 1) * 9999) + 1;
  return new CurveLane(one.name, new Numbers(Uint16Array.from(of, part)), () => signalWords(signals.at(one), one.unit) || "none yet", {
    ...more, most: 10000, hasArea: false, ...high < low ? {} : { scale: signalWords(high, one.unit), foot: signalWords(low, one.unit) },
  });
}
const isShown = one => signals.shown.some(({ key }) => key === one.key);
function toggleSignal(one) {
  signals.shown = isShown(one) ? signals.shown.filter(({ key }) => key !== one.key) : [...signals.shown, one];
  lanes = [...lanes.filter(lane => lane.signal?.key !== one.key), ...isShown(one) ? [signalLane(one)] : []];
  buildGutter();
  redraw();
  happened("signals shown");
}
on("lane gone", lane => {
  if (!lane.signal) return;
  signals.shown = signals.shown.filter(({ key }) => key !== lane.signal.key);
  happened("signals shown");
});
function signalList() {
  const made = new Rolling("signals", [["message", "minmax(0, 1fr)", "w"], ["signal", "minmax(0, 1fr)", "w"],
    ["value at the cursor", "minmax(0, 1fr)", "n h"], ["lane", "6ch", "h"]],
  one => [one.message, one.name, signalWords(signals.at(one), one.unit), isShown(one) ? "shown" : ""], toggleSignal);
  made.isChosen = isShown;
  for (const what of ["signals shown", "cursor moved"]) on(what, () => { made.clear(); made.show(); });
  return made;
}
function findSignals() {
  const words = at("of-signal").value.trim().toLowerCase().split(/\s+/), all = signals.all();
  return [all.filter(({ key }) => words.every(word => key.toLowerCase().includes(word))), all.length];
}
// Returns a button that shows or hides the lane of a signal.
function laneButton(one) {
  const button = element("button", "lane", { type: "button", title: `${one.name} as a lane, or no longer` });
  button.setAttribute("aria-pressed", isShown(one));
  button.onclick = () => toggleSignal(one);
  return button;
}
