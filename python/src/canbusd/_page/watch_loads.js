// The buses, the nodes on each bus, and the bus loads.

// Nodes that received the same frame are on the same bus.
function joinBuses(seen) {
  if (joined.has(seen)) return;
  joined.add(seen);
  const got = new Set(busOf.filter((_, i) => seen >> i & 1)), first = Math.min(...got);
  busOf = busOf.map(bus => got.has(bus) ? first : bus);
}
// The buses that were busy, each given by its first node, and a description of a bus's load.
const busyBuses = some => [...new Set(busOf)].filter(bus => some.some(tick => tick.loads[bus]));
const percent = permille => `${(permille / 10).toFixed(1)} %`;
const loadWords = (tick, bus) => `bus load ${percent(tick.loads[bus])}${new Set(busOf).size > 1 ? ` (${names[bus]})` : ""}`;
// Creates a lane for each bus that was busy, above the lanes of the nodes.
function measureLoads() {
  const buses = busyBuses(ticks), isOne = new Set(busOf).size === 1;
  const none = new Numbers(new Uint16Array(0)), laneOf = bus => loadLanes.get(bus) || new CurveLane("", none, null, { scale: "100 %" });
  const made = buses.map(bus => [bus, laneOf(bus)]);
  for (const [bus, lane] of made) {
    const title = `share of the last whole second in which the wire was busy, as the server says of ${names[bus]}`;
    const numbers = new Numbers(Uint16Array.from(ticks, tick => Math.min(tick.loads[bus], 1000)));
    const words = step => percent(ticks[step].loads[bus]), name = isOne ? "bus load" : `load ${names[bus]}`;
    Object.assign(lane, { name, title, numbers, words, most: 1000 });
  }
  measureSignals();
  const lanesNow = [...made.map(([, lane]) => lane), ...nodeLanes, ...signalLanes.values()];
  const said = lanesNow.map(({ name, signal }) => [name, signal?.key, lanes.length]).join();
  loadLanes = new Map(made);
  if (said === measure.said) return;
  [lanes, measure.said] = [lanesNow, said];
  buildGutter();
}
// Returns a table cell with a bus load and a small bar.
function loadCell(permille) {
  const bar = element("meter", [], { max: 1000, value: permille, title: "of the last whole second" });
  return element("td", [bar, ` ${percent(permille)}`], { className: "number" });
}
