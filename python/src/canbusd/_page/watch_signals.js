// The signals in the frames that arrive, each with its timestamps and values, and the lanes of the signals.

const MOST_VALUES = 4000, bySignal = new Map();
let signalLanes = new Map();
function takeSignals(moment, message, values) {
  for (const [name, value, unit] of values) {
    const key = signalKey(message, name);
    let one = bySignal.get(key);
    if (!one) bySignal.set(key, one = { message, name, unit, key, moments: [], values: [] });
    one.moments.push(moment);
    one.values.push(value);
    if (one.moments.length > 2 * MOST_VALUES) [one.moments, one.values] = [one.moments.slice(-MOST_VALUES), one.values.slice(-MOST_VALUES)];
  }
}
// The functions that signals.js requires, for the signals that are known so far.
signals.all = () => [...bySignal.values()].sort((one, other) => one.key < other.key ? -1 : 1);
signals.at = ({ key }) => {
  const { moments, values } = bySignal.get(key) || { moments: [], values: [] };
  return values[chosenAt === null ? values.length - 1 : moments.findLastIndex(moment => moment <= chosenAt)];
};
signals.column = ({ key }) => {
  const { moments, values } = bySignal.get(key) || { moments: [], values: [] };
  const texts = [...new Set(values.filter(value => typeof value === "string"))], of = new Float64Array(ticks.length);
  if (texts.length) texts.push(...new Set(values.filter(value => typeof value !== "string").map(String)));
  for (let k = 0, next = 0, now = NaN; k < ticks.length; k++) {
    for (; moments[next] <= ticks[k].time; next++) now = texts.length ? texts.indexOf(String(values[next])) : values[next];
    of[k] = now;
  }
  return { of, texts };
};
// The lanes and their names at the left are kept. Only the contents of the lanes are replaced.
function measureSignals() {
  signalLanes = new Map(signals.shown.map(one => {
    const made = signalLane(one), old = signalLanes.get(one.key);
    return [one.key, old?.constructor === made.constructor ? Object.assign(old, made) : made];
  }));
}
