// The live page. It shows the ticks and frames that `canbusd watch` sends, on the same time line as the page of a run.

const { names, source, isDecoded, isTimed, messages = [] } = JSON.parse(at("run").textContent);
const MOST = 4000, MOST_TICKS = 2400, FOLLOWED = 60;
// The kinds of events, most severe first.
const EVENTS = ["bus off", "error passive", "error warning", "error active", "restarted", "no acknowledgement",
  "bus error"];
const QUEUE = 5, SENT_DONE = 4;
let ticks = [], frames = [], events = [], offs = [], busiest = 1, total = 0, isLatest = true, isPaused = false;
let chosenAt = null, chosen = null, byKey = new Map(), byIdentifier = new Map(), chips, showTab, tab;
const held = [], lists = {};
// For each node, the first node that is known to be on the same bus. `busyInAll` is the total time that the frames took
// on the wire.
let busOf = names.map((_, i) => i), busyInAll = 0, nodeLanes = [], loadLanes = new Map();
// The sets of nodes that received the same frame.
const joined = new Set();

// Handles ticks and frames that arrive.

function take(news) {
  if (news.start) {
    [ticks, frames, events, offs, total, busyInAll] = [[], [], [], [], 0, 0];
    bySignal.clear();
    byKey = new Map();
    byIdentifier = new Map();
  }
  for (const tick of news.ticks) takeTick(tick);
  for (const frame of news.frames) takeFrame(...frame);
  // Ticks are kept longer while the user looks at the past.
  const more = isLatest ? 1 : 10;
  if (ticks.length > MOST_TICKS * more) ticks = ticks.slice(-MOST_TICKS);
  if (frames.length > MOST * more) {
    for (const { key } of frames.slice(0, -MOST)) byKey.delete(key);
    frames = frames.slice(-MOST);
  }
  if (events.length > MOST * more) events = fewer(events);
}
// Keeps the last events of each kind, so that one kind does not displace another.
function fewer(all) {
  const numbers = new Map();
  const kept = all.slice().reverse().filter(({ kind }) => {
    numbers.set(kind, (numbers.get(kind) || 0) + 1);
    return numbers.get(kind) <= MOST / EVENTS.length;
  });
  return kept.reverse();
}
// Counts the attempts since the previous tick: the successful ones, and the failed ones that were reported.
function takeTick(tick) {
  const before = ticks.length ? ticks[ticks.length - 1] : tick;
  tick.wins = names.map((_, i) => [Math.max(0, tick.ifaces[i][SENT_DONE] - before.ifaces[i][SENT_DONE]), ...tick.faults[i]]);
  // The rates are per second, because a tick that is late covers more attempts.
  tick.rates = tick.wins.map(kinds => kinds.map(number => tick.span ? number / tick.span : 0));
  ticks.push(tick);
}
// An error message frame has bit 29 set in its first digit.
const isError = text => /^[23].{7}#/.test(text);
// Adds a frame. If another interface later receives the same frame, the frame stays in the same row.
function takeFrame(moment, text, seen, says, sender, busy, decoded) {
  const key = `${moment} ${text}`, known = isError(text) ? undefined : byKey.get(key);
  if (known && !(known.seen & seen)) {
    known.seen |= seen;
    if (sender >= 0) known.sender = byIdentifier.get(text.split("#")[0]).sender = sender;
    joinBuses(known.seen);
    return;
  }
  const frame = { key, moment, text, seen, says, sender };
  if (isError(text)) {
    frame.kind = says.includes("no acknowledgement") ? "no acknowledgement" : says.split(",")[0];
    frame.iface = Math.log2(seen);
    events.push(frame);
    if (frame.kind === "bus off") offs.push(frame);
    return;
  }
  byKey.set(key, frame);
  frames.push(frame);
  total++;
  busyInAll += busy;
  joinBuses(seen);
  if (decoded) takeSignals(moment, ...decoded);
  const identifier = text.split("#")[0], one = byIdentifier.get(identifier) || { periods: new Periods(), sender: -1, busy: 0 };
  one.periods.add(moment);
  const from = sender < 0 ? one.sender : sender;
  byIdentifier.set(identifier, { identifier, periods: one.periods, moment, text, sender: from, busy: one.busy + busy });
}
// The time line. Each tick is a step, and the time of the tick is its position.

function measure() {
  const sum = numbers => numbers.reduce((all, one) => all + one, 0), first = ticks.length ? ticks[0].time : 0;
  busiest = ticks.reduce((most, tick) => Math.max(most, ...tick.rates.map(sum)), 1);
  const start = new Float64Array(ticks.length + 1);
  for (let k = 1; k < ticks.length; k++) start[k] = ticks[k - 1].time - first;
  start[ticks.length] = ticks.length ? ticks[ticks.length - 1].time - first : 1;
  axis = new Axis(start, Math.min(1, Math.max(start[ticks.length], 0.1)));
  // The visible part stays the same, even if older ticks are removed.
  const moved = first - (measure.first ?? first);
  measure.first = first;
  if (isLatest) {
    view.to = axis.length;
    view.from = Math.max(0, view.to - FOLLOWED);
  } else if (moved) {
    view.from = Math.max(0, view.from - moved);
    view.to = Math.max(view.from + axis.least, view.to - moved);
  }
  view.step = chosenAt === null ? Math.max(0, ticks.length - 1) : tickAt(chosenAt);
  const column = place => names.map((_, i) => new Numbers(Uint16Array.from(ticks, tick => tick.ifaces[i][place])));
  const [tec, rec, queue] = [1, 2, QUEUE].map(column), queueMost = Math.max(...queue.map(one => one.most));
  const down = names.map((_, i) => new Numbers(Uint8Array.from(ticks, tick => tick.ifaces[i][0] === "down")));
  nodeLanes.forEach((lane, i) => Object.assign(lane, { tec: tec[i], rec: rec[i], queue: queue[i], down: down[i], queueMost }));
  measureLoads();
}
function tickAt(seconds) {
  let low = 0, high = ticks.length - 1;
  while (low < high) {
    const middle = low + high >> 1;
    if (ticks[middle].time < seconds) low = middle + 1; else high = middle;
  }
  return Math.max(low, 0);
}
function strip(plot, i, top, fills) {
  const high = STRIP - 3, first = axis.stepAt(view.from);
  for (let tick = first; tick < Math.min(axis.from(view.to) + 1, ticks.length); tick++) {
    const x = Math.max(placeOf(plot, axis.start[tick]), 0), to = Math.min(placeOf(plot, axis.start[tick + 1]), plot.width);
    let y = top + STRIP - 2;
    ticks[tick].rates[i].forEach((number, kind) => {
      if (!number) return;
      const share = Math.max(number / busiest * high, 1);
      block(plot.pen, fills[KINDS[kind]], x, y -= share, Math.max(to - x - (to - x > 5 ? 1 : 0), 1), share);
    });
  }
  // Shows the rate that a bar of full height stands for.
  if (!plot.isNarrow) write(plot.pen, `${grouped(Math.floor(busiest))}/s`, plot.width + 6, top + 8, theme.soft);
}
// A lane that marks every bus off, even if it had ended before the next tick read the counts.
class LiveLane extends NodeLane {
  draw(plot, top, fills) {
    super.draw(plot, top, fills);
    for (const { iface, moment } of offs) {
      const x = ticks.length && iface === this.number ? placeOf(plot, moment - ticks[0].time) : -1;
      if (x >= 0 && x <= plot.width) stateBar(plot.pen, 3, Math.min(x, plot.width - 6), top + STRIP + 2, 6, fills);
    }
  }
}
function ticksOf(plot) {
  if (ticks.length < 2) return [];
  const from = ticks[0].time + view.from, spacing = [0.1, 0.5, 1, 2, 5, 10, 15, 30, 60, 120, 300, 600];
  const each = spacing.find(one => (view.to - view.from) / one * 90 < plot.width) || 1200, found = [];
  for (let time = Math.ceil(from / each) * each; time <= from + view.to - view.from; time += each) {
    const words = each < 1 ? clock(time) + (time % 1).toFixed(1).slice(1) : clock(time);
    found.push({ place: time - ticks[0].time, words: [words] });
  }
  return found;
}
function tipWords(first, last) {
  const lines = names.map((name, i) => {
    const said = KIND_WORDS.slice(0, RESTART).map((word, kind) =>
      [ticks.slice(first, last).reduce((sum, tick) => sum + (tick.wins[i][kind] || 0), 0), word]);
    const words = said.filter(([number]) => number).map(([number, word]) => `${grouped(number)} ${word}`);
    const [state, transmit, receive] = ticks[last - 1].ifaces[i];
    return `${name}: ${words.join(", ") || "nothing"}; ${state}, counts ${transmit}/${receive}`;
  });
  const loads = busyBuses(ticks).map(bus => loadWords(ticks[last - 1], bus));
  return [clock(ticks[first].time), ...lines, ...loads].join("\n");
}
function drawOverview() {
  const canvas = at("overview"), width = canvas.parentElement.clientWidth, pen = sized(canvas, width, 24);
  const fills = fillsOf(pen);
  block(pen, theme.panel, 0, 0, width, 24);
  ticks.forEach((tick, k) => {
    const x = axis.start[k] / axis.length * width, wide = Math.max((axis.start[k + 1] - axis.start[k]) / axis.length * width, 2);
    for (const name of ["off", "down"]) {
      if (tick.ifaces.some(([state]) => state === name)) block(pen, fills[name], x, 0, wide, 24);
    }
    const failed = tick.rates.reduce((sum, [, ...kinds]) => sum + kinds.reduce((a, b) => a + b, 0), 0);
    const high = Math.min(failed / busiest, 1) * 20;
    if (failed) block(pen, theme.destroyed, x, 24 - Math.max(high, 3), wide, Math.max(high, 3));
  });
  for (const { moment } of offs) {
    const x = ticks.length ? (moment - ticks[0].time) / axis.length * width : -1;
    if (x >= 0) block(pen, theme.off, Math.min(x, width - 2), 0, 2, 24);
  }
}

// Words and lists.

const momentWords = seconds => clock(seconds) + (seconds % 1).toFixed(6).slice(1);
const seenBy = frame => names.filter((_, i) => frame.seen >> i & 1 && i !== frame.sender).join(", ");
const senderOf = one => one.sender >= 0 ? names[one.sender] : "";
const isBad = kind => kind === "bus off";

function makeLists() {
  const chooseFrame = frame => { chosen = frame; chooseAt(frame.moment); };
  const make = (id, columns, cellsOf) => {
    const list = new Rolling(id, columns, cellsOf, chooseFrame);
    list.isChosen = one => one === chosen;
    return list;
  };
  lists["tab-frames"] = make("frames", [["moment", "15ch", "n"], ["sender", "minmax(0, 1fr)", "h"],
    ["frame", "minmax(0, 2fr)"], ["received by", "minmax(0, 2fr)", "h w"], ...isDecoded ? [["says", "minmax(0, 3fr)", "w"]] : []],
    frame => [momentWords(frame.moment), senderOf(frame), frame.text, seenBy(frame), ...isDecoded ? [frame.says] : []]);
  lists["tab-events"] = make("events", [["moment", "15ch", "n"], ["node", "minmax(0, 12ch)"], ["kind", "18ch"],
    ["what", "minmax(0, 1fr)", "w"]], frame => [momentWords(frame.moment), names[frame.iface],
    isBad(frame.kind) ? element("span", frame.kind, { className: "bad" }) : frame.kind, frame.says]);
  lists["tab-identifiers"] = make("identifiers", [["identifier", "10ch", "n"], ["sender", "minmax(0, 1fr)", "h"],
    ["frames", "9ch", "n h"], ...isTimed ? [["share of wire time", "18ch", "n h"]] : [],
    ...PERIOD_COLUMNS, ["last", "minmax(0, 2fr)", "f"],
    ["moment", "15ch", "n"]],
    one => [one.identifier, senderOf(one), grouped(one.periods.number), ...isTimed ? [percent(1000 * one.busy / busyInAll)] : [],
      ...one.periods.words, one.text, momentWords(one.moment)]);
  lists["tab-signals"] = signalList();
  chips = new Chips("kinds", () => showLists());
}
function found() {
  const text = at("of-frame").value.trim().toUpperCase().replace(/^0X/, ""), node = at("of-node").value;
  const fits = one => (text.includes("#") ? one : one.split("#")[0]).startsWith(text);
  if (tab === "tab-identifiers") {
    return [...byIdentifier.values()].filter(one => fits(one.text)).sort((one, other) => one.identifier < other.identifier ? -1 : 1);
  }
  if (tab === "tab-signals") return findSignals()[0];
  if (tab === "tab-frames") return frames.filter(one => fits(one.text) && (node === "" || one.sender === Number(node)));
  const seen = events.filter(one => node === "" || one.iface === Number(node));
  chips.set(new Map(EVENTS.map(kind => [kind, seen.reduce((sum, one) => sum + (one.kind === kind), 0)])
    .filter(([kind, number]) => number || chips.made.has(kind))));
  return seen.filter(one => chips.has(one.kind));
}
// Shows the lists. A list stays at its end while the latest rows are followed. Otherwise the row at the top stays
// there.
function showLists() {
  const list = lists[tab], isLog = tab === "tab-frames" || tab === "tab-events", top = list.list[Math.round(list.box.scrollTop / list.step)];
  const all = found(), of = { "tab-frames": frames, "tab-events": events, "tab-identifiers": [...byIdentifier], "tab-signals": signals.all() }[tab].length;
  list.set(all);
  at("found").textContent = `${grouped(all.length)} of ${grouped(of)}`;
  if (!isLog) return;
  const place = isLatest ? all.length : all.indexOf(top);
  if (isLatest || place > 0) list.box.scrollTop = place * list.step;
  list.show();
}
function showList(name) {
  tab = name;
  for (const label of document.querySelectorAll("#filters [data-for]")) {
    label.hidden = !label.dataset.for.split(" ").some(one => name === "tab-" + one);
  }
  showLists();
}
function showIfaces() {
  const heads = ["node", "state", "transmit count", "receive count", "sent", "done", "waiting", "lost", "refused"];
  const { ifaces, loads } = ticks.length ? ticks[ticks.length - 1] : { ifaces: [], loads: [] };
  if (isTimed) heads.push("bus load");
  at("ifaces").replaceChildren(...rowsOf(heads, ifaces.map(([state, ...counts], i) => [names[i],
    element("td", stateWords(state), { className: state === "active" ? "" : "bad" }),
    ...counts.slice(0, 5), ...counts.slice(5).map(loss), ...isTimed ? [busOf[i] === i ? loadCell(loads[i]) : ""] : []])));
}
function showMoment() {
  const made = [];
  if (chosenAt !== null && ticks.length) {
    made.push(element("h2", `Chosen: ${momentWords(chosenAt)}`), ...tipWords(view.step, view.step + 1).split("\n").slice(1)
      .map(line => element("p", line)));
  }
  if (chosen?.text) {
    const from = chosen.kind ? `, of ${names[chosen.iface]}` : senderOf(chosen) && `, sent by ${senderOf(chosen)}`;
    made.push(element("p", [element("code", chosen.text), from]), chosen.says ? element("p", chosen.says) : "");
  }
  at("moment").replaceChildren(...made);
}
function sayNow() {
  const recent = ticks.slice(-5), last = recent[recent.length - 1];
  if (!last) return;
  const sent = recent.slice(1).reduce((sum, tick) => sum + tick.wins.reduce((all, one) => all + one[0], 0), 0);
  const span = recent.slice(1).reduce((sum, tick) => sum + tick.span, 0), rate = span ? sent / span : 0;
  const loads = busyBuses(recent).map(bus => loadWords(last, bus)).join(", ");
  at("facts").textContent = `${source}: ${grouped(Math.floor(rate))} frames a second, ${grouped(total)} received so far.`
    + (loads ? ` ${loads[0].toUpperCase()}${loads.slice(1)}.` : "")
    + (last.missed ? ` ${grouped(last.missed)} missed: they came too fast for \`canbusd watch\`.` : "")
    + (isPaused ? ` Paused at ${clock(last.time)}.` : "");
  sayOffs(last);
}
// Shows the nodes that are bus off or down, and the last times at which a node went bus off. Other events never
// displace these.
function sayOffs(last) {
  const [off, down] = ["off", "down"].map(state => names.filter((_, i) => last.ifaces[i][0] === state));
  const shown = offs.slice(-3).reverse();
  at("offs").hidden = !off.length && !down.length && !offs.length;
  const more = offs.length > 3 ? ` and ${grouped(offs.length - 3)} before` : "";
  const buttons = shown.map(one => element("button", `${names[one.iface]} ${momentWords(one.moment)}`, {
    type: "button", title: "choose this moment", onclick: () => { chosen = one; chooseAt(one.moment); showTab("tab-events"); },
  }));
  at("offs").replaceChildren(off.length ? `Bus off now: ${off.join(", ")}. ` : "No node is bus off now. ",
    down.length ? `Down now: ${down.join(", ")}. ` : "",
    shown.length ? "Went bus off: " : "", ...buttons, more);
}

// Handles the user's keys, clicks and drags.

function show() {
  measure();
  drawOverview();
  drawTime();
  placeCursor();
  at("cursor").hidden ||= chosenAt === null;
  buildGutterOnce();
  sayValues();
  showLists();
  showIfaces();
  showMoment();
  at("latest").setAttribute("aria-pressed", isLatest);
  at("pause").setAttribute("aria-pressed", isPaused);
}
// Unfolds the lanes of nodes whose counts or queues start to change.
function buildGutterOnce() {
  const changed = lanes.filter(lane => lane.isQuiet && (lane.tec.most || lane.rec.most || lane.queue.most > 1));
  for (const lane of changed) lane.isQuiet = lane.isFolded = false;
  if (changed.length) { buildGutter(); redraw(); }
}
function chooseAt(seconds) {
  chosenAt = seconds;
  isLatest = false;
  const place = seconds - ticks[0].time, span = view.to - view.from;
  if (place < view.from || place > view.to) look(place - span / 2, place + span / 2);
  redraw();
}
// A click on the time line chooses a tick, and scrolls the lists to the time of the tick.
function chooseTick(first, last) {
  chosen = null;
  chooseAt(ticks[last - 1].time);
  const list = lists[tab], place = list.list.findIndex(one => one.moment >= axis.start[last - 1] + ticks[0].time);
  if (place >= 0 && (tab === "tab-frames" || tab === "tab-events")) list.box.scrollTop = Math.max(0, place - 2) * list.step;
}
function pause() {
  isPaused = !isPaused;
  if (!isPaused) for (const news of held.splice(0)) take(news);
  sayNow();
  redraw();
}
function setLatest(isOn) {
  isLatest = isOn;
  if (isOn) chosenAt = chosen = null;
  redraw();
}
function move(by) {
  isLatest = false;
  const span = (view.to - view.from) * by;
  look(view.from + span, view.to + span);
}
const KEYS = {
  " ": pause, l: () => setLatest(!isLatest), ArrowLeft: () => move(-0.25), ArrowRight: () => move(0.25),
  "+": () => { isLatest = false; zoom(0.5, view.to); }, "=": () => { isLatest = false; zoom(0.5, view.to); },
  "-": () => { isLatest = false; zoom(2, view.to); }, 0: () => { isLatest = false; look(0, axis.length); },
  "/": () => { if (at("of-frame").parentElement.hidden) showTab("tab-frames"); at("of-frame").focus(); },
};
function listen() {
  for (const id of ["of-frame", "of-node", "of-signal"]) at(id).addEventListener("input", redraw);
  Object.assign(time, { ticks: ticksOf, words: tipWords, choose: chooseTick, axisWords: ["time of day"] });
  for (const id of ["lanes", "ruler", "overview"]) {
    at(id).addEventListener("pointerdown", () => { isLatest = false; });
    at(id).addEventListener("wheel", event => { if (event.ctrlKey) isLatest = false; });
  }
  for (const list of Object.values(lists)) list.box.addEventListener("wheel", event => { if (event.deltaY < 0) isLatest = false; });
  listenToTime();
  listenToKeys(KEYS);
}
const LEGEND = [["done", "done", "the frame was sent"],
  ["lastbit", "last bit", "the sender saw a fault in the last bit: receivers have the frame, and it is sent again"],
  ["destroyed", "destroyed", "an error frame destroyed it: it is sent again"],
  ["noack", "no acknowledgement", "nobody acknowledged it: it is sent again"],
  ["warning", "error warning", "a count of 96 or more"], ["passive", "error passive", "a count of 128 or more"],
  ["off", "bus off", "a transmit count of 256 or more"], ["down", "down", "a node was taken off the bus"]];

function listenToNews() {
  const news = new EventSource("news");
  news.onmessage = event => {
    const said = JSON.parse(event.data);
    happened("news", said);
    if (said.end !== undefined) {
      at("facts").textContent = `The server has ended: ${said.end}`;
      news.close();
    } else if (isPaused) held.push(said);
    else {
      take(said);
      sayNow();
      redraw();
    }
    document.body.dataset.drawn = ticks.length;
  };
  news.onerror = () => {
    at("facts").textContent = "`canbusd watch` has ended, or can't be reached.";
    happened("news", {});
  };
}
function begin() {
  document.title = `${names.join(", ")}: canbusd`;
  at("title").textContent = `Live: ${names.join(", ")}`;
  legend("legend", LEGEND);
  at("of-node").append(...[["all", ""], ...names.map((name, i) => [name, i])].map(([text, value]) => element("option", text, { value })));
  const none = new Numbers(new Uint16Array(0));
  nodeLanes = names.map((name, i) => new LiveLane(i, name, { tec: none, rec: none, queue: none, queueMost: 0 }, strip));
  lanes = nodeLanes;
  makeLists();
  listen();
  readTheme();
  buildGutter();
  at("tabs").querySelector("[aria-controls=tab-signals]").hidden = !isDecoded;
  showTab = makeTabs("tabs", showList);
  showTab("tab-frames");
  keepDrawn(show, () => {});
  happened("begun");
  listenToNews();
}
begin();
