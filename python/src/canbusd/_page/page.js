// Handles the user's keys, clicks and drags.

function choose(step) {
  if (!axis.count) return;
  view.step = Math.min(Math.max(0, step), axis.count - 1);
  const span = view.to - view.from, place = axis.start[view.step];
  if (place < view.from || axis.start[view.step + 1] > view.to) look(place - span / 2, place + span / 2);
  dueHash();
  sayStep();
}
function sayStep() {
  placeCursor();
  happened("cursor placed");
  sayValues();
  showChosen();
  if (tab === "tab-signals") happened("cursor moved");
  follow();
}
// Chooses the most important of several steps.
function chooseIn(first, last, isMark) {
  let best = first;
  for (let step = first; step < last; step++) {
    if (steps.off[step]) { best = step; break; }
    if (isFault(step) && !isFault(best)) best = step;
  }
  if (isMark) markStep(best); else choose(best);
}
function nextFault(by) {
  let step = view.step + by;
  while (step >= 0 && step < axis.count && !isFault(step)) step += by;
  if (step >= 0 && step < axis.count) choose(step);
}
function nextEvent(by) {
  const places = lists["tab-events"].list.map(event => event[0]);
  const next = by > 0 ? places.find(step => step > view.step) : places.findLast(step => step < view.step);
  if (next !== undefined) choose(next);
}
function stepOfAttempt(number) {
  let low = 0, high = axis.count;
  while (low < high) {
    const middle = low + high >> 1;
    if (attemptOf[middle + 1] <= number) low = middle + 1; else high = middle;
  }
  return Math.min(low, Math.max(axis.count - 1, 0));
}
// Switches to the other axis, and keeps the same steps in view.
function turnAxis() {
  const first = axis.stepAt(view.from), last = Math.min(axis.from(view.to), axis.count);
  showAxis(!byTime.isOn);
  sayAxis();
  look(axis.start[first], axis.start[last]);
}
function sayAxis() {
  at("by-time").setAttribute("aria-pressed", byTime.isOn);
  time.axisWords = byTime.isOn ? ["since the first", "attempt"] : ["attempt", "moment"];
  buildGutter();
}
const KEYS = {
  ArrowLeft: () => choose(view.step - 1), ArrowRight: () => choose(view.step + 1),
  Home: () => choose(0), End: () => choose(axis.count - 1),
  f: () => nextFault(1), F: () => nextFault(-1), e: () => nextEvent(1), E: () => nextEvent(-1),
  "+": () => zoom(0.5), "=": () => zoom(0.5), "-": () => zoom(2), 0: () => look(0, axis.length), t: turnAxis,
  m: () => { if (axis.count) markStep(view.step); },
  "/": () => { if (at("of-frame").parentElement.hidden) showTab("tab-attempts"); at("of-frame").focus(); },
};

function listen() {
  for (const id of ["of-node", "of-frame", "of-outcome", "of-socket", "of-fate", "in-view", "of-signal"]) {
    at(id).addEventListener("input", () => find(tab));
  }
  at("number").onchange = () => choose(stepOfAttempt(Number(at("number").value)));
  Object.assign(time, { ticks: ticksOf, words: tipWords, choose: chooseIn,
    moved: () => {
      if (at("in-view").checked) for (const one of Object.values(lists)) one.isStale = true;
      dueHash();
    } });
  listenToTime();
  listenToKeys(KEYS);
  window.addEventListener("hashchange", event => {
    // Uses the address in this event, because the page's address may have changed by now: `sayHash` runs with a delay.
    const words = hashWords(new URL(event.newURL).hash);
    if (run.other && (words.get("run") === "2") !== wasOtherRun) { location.reload(); return; }
    readHash(words);
    redraw();
  });
  at("csv").onclick = () => saveCsv(`${run.title}.${tab.slice(4)}.csv`, csvOf(lists[tab], at(tab)));
}
const LEGEND = [["done", "done", "the frame was sent, and accepted by all that saw no fault"],
  ["lastbit", "last bit", "the sender saw a fault in the last bit: receivers have the frame, and it is sent again"],
  ["destroyed", "destroyed", "an error frame destroyed it: it is sent again"],
  ["noack", "no acknowledgement", "nobody acknowledged it: it is sent again"],
  ["restart", "restart", "a node came back from bus off"], ["accepted", "accepted", "this node accepted the frame"],
  ["hit", "local fault", "only this node and others with this mark saw a fault"],
  ["warning", "error warning", "a count of 96 or more"], ["passive", "error passive", "a count of 128 or more"],
  ["off", "bus off", "a transmit count of 256 or more"], ["down", "down", "a node was taken off the bus"]];
function showWords() {
  document.title = `${run.heading} (${run.title})`;
  at("title").textContent = run.heading;
  const isUnnamed = names.some(name => name.startsWith("interface "));
  at("facts").textContent = `${run.title}. ${run.facts}${dayWords()}`
    + (isUnnamed ? " No log beside the record names all interfaces: --names NAME,.. does." : "");
  legend("legend", LEGEND);
  const options = words => [["all", ""], ...words].map(([text, value]) => element("option", text, { value }));
  at("of-node").append(...options(names.map((name, i) => [name, i])));
  at("of-outcome").append(...options([["failed, or a local fault", "failed"], ...KIND_WORDS.map((words, k) => [words, k])]));
  at("of-socket").append(...options(run.sockets.map(one => [`${one.number} on ${names[one.iface]}`, one.number])));
  at("of-fate").append(...options(FATE_WORDS.map((words, k) => [words, k])));
  at("none").hidden = run.events.length > 0;
  at("events").hidden = at("kinds").hidden = !run.events.length;
  const numbers = [run.events.length, attemptOf[axis.count], run.itemsInAll, names.length, run.sockets.length, allIdentifiers,
    signals.all().length];
  [...at("tabs").children].forEach((button, k) => { if (k < numbers.length) button.append(` ${grouped(numbers[k])}`); });
  at("tabs").querySelector("[aria-controls=tab-signals]").hidden = !signals.all().length;
  happened("worded");
}
function show() {
  drawOverview();
  drawTime();
  sayStep();
  if (lists[tab]?.isStale) showList(tab);
  happened("shown");
}
function print(isOn) {
  for (const panel of document.querySelectorAll("[role=tabpanel]")) {
    panel.hidden = !isOn && panel.id !== tab;
    const list = lists[panel.id];
    if (isOn && FINDERS[panel.id] && list.isStale !== false) list.list = FINDERS[panel.id](finders())[0];
    if (!panel.hidden) list?.print(isOn);
  }
  happened("printed", isOn);
}

// Returns the first list that is worth showing.
function firstTab() {
  if (run.other) return "tab-differences";
  return run.events.length ? "tab-events" : signals.all().length ? "tab-signals" : "tab-attempts";
}
let wasOtherRun = false;
async function begin() {
  wasOtherRun = isOtherRun();
  take(await unpack(at(wasOtherRun && at("second").textContent ? "second" : "run").textContent));
  showWords();
  makeLists();
  makeLanes();
  listen();
  showIfaces();
  readTheme();
  showTab = makeTabs("tabs", showList);
  firstLanes = signals.changing().map(({ key }) => key).join(",");
  readHash(hashWords());
  keepDrawn(show, print);
  document.body.dataset.drawn = Math.round(performance.now());
}
begin().catch(fault => { at("facts").textContent = `This browser can't draw the page: ${fault.message}`; throw fault; });
