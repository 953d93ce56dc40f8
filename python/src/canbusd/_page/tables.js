// Lists.

const attemptCell = step => isAttempt(step) ? grouped(attemptOf[step]) : KINDS[steps.kind[step]];
function makeLists() {
  const moment = ["moment", `${Math.max(8, axis.count ? momentOf(axis.count - 1).length : 0)}ch`, "n"];
  // Timestamps of a bench count from 0 at the start of the run. If timestamps come from the system clock, long lists
  // show the time since the start instead.
  const isClock = hasClock(), since = isClock ? [["since the start", "15ch", "n h"]] : [], last = ["since last", "minmax(0, 11ch)", "n x"];
  const timeColumns = [isClock ? ["since start", "13ch", "n"] : moment, last];
  const timeCells = (step, before) => [isClock ? sinceStart(step) : momentOf(step), sinceStep(step, before)];
  const nameWide = `minmax(0, ${Math.max(7, ...names.map(name => name.length))}ch)`;
  const toStep = (id, columns, cellsOf, stepOf) => {
    const list = new Rolling(id, columns, cellsOf, one => choose(stepOf(one)));
    list.isChosen = one => stepOf(one) === view.step;
    list.stepOf = stepOf;
    return list;
  };
  lists["tab-events"] = toStep("events",
    [["attempt", "7ch", "n"], moment, ...since, last, ["kind", "11ch"], ["what", "minmax(0, 1fr)", "w"]],
    ([step, kind, , words], before) => [attemptCell(step), momentOf(step), ...isClock ? [sinceStart(step)] : [],
      sinceStep(step, before?.[0]), kindCell(kind), words],
    event => event[0]);
  lists["tab-attempts"] = toStep("tried",
    [["attempt", "8ch", "n"], ...timeColumns, ["sender", nameWide, "w"], ["frame no.", "8ch", "n h"],
      ["frame", "minmax(0, 2.2fr)", "f"], ["outcome", "minmax(0, 1.9fr)"], ["fault", "minmax(0, 1.4fr)", "w"],
      ["accepted by", "minmax(0, 1.5fr)", "h w"]], (step, before) => attemptCells(step, timeCells(step, before)), step => step);
  lists["tab-items"] = toStep("items",
    [["attempt", "8ch", "n"], ...timeColumns, ["socket", "6ch", "n h"], ["from", nameWide, "h w"],
      ["frame no.", "8ch", "n h"], ["frame", "minmax(0, 2fr)", "f"], ["says", "minmax(0, 2fr)", "w"],
      ["what became of it", "minmax(0, 1.5fr)"]], (item, before) => itemCells(item, timeCells(items.step[item], items.step[before])), item => items.step[item]);
  lists["tab-sockets"] = new Rolling("sockets",
    [["socket", "6ch", "n h"], ["node", nameWide, "w"],
      ...["capacity", "queued", "taken", "waiting", "unread", "dropped"].map(head => [head, "minmax(0, 9ch)", "n h"]),
      ["open", "minmax(0, 1fr)"]], one => [String(one.number), names[one.iface], ...[one.capacity, one.queued, one.taken,
      one.waiting, one.unread].map(grouped), one.dropped ? badText(grouped(one.dropped)) : "0", one.open],
    one => chooseSocket(one.number));
  lists["tab-sockets"].isChosen = one => lanes.some(lane => lane.name === `socket ${one.number}`);
  lists["tab-sockets"].set(run.sockets);
  lists["tab-identifiers"] = identifierList();
  lists["tab-signals"] = signalList();
  chips = new Chips("kinds", () => find("tab-events"));
}
const badText = text => element("span", text, { className: "bad" });
const isWorst = kind => ["bus off", "lost", "dropped"].includes(kind);
const kindCell = kind => isWorst(kind) ? badText(kind) : kind;
function attemptCells(step, time) {
  const kind = steps.kind[step];
  if (kind === IDLE) return ["idle", ...time, "", "", times(steps.number[step], "idle attempt"), "", "", ""];
  if (kind >= RESTART) return [KINDS[kind], ...time, names[steps.iface[step]], "", "", outcome(kind), "", ""];
  const fault = faultOf(step).replace(/, by .*/, "").replace(/^none$/, "");
  return [grouped(attemptOf[step]), ...time, names[steps.iface[step]], grouped(steps.number[step]),
    [textOf(step), messageOf(steps.frame[step])], outcome(kind), fault,
    steps.accepted[step] ? listed(steps.accepted[step]) : ""];
}
const messageOf = place => run.messages[place] ? ` ${run.messages[place]}` : "";
const outcome = kind => element("span", [mark(KINDS[kind]), KIND_WORDS[kind]]);
function itemCells(item, time) {
  const step = items.step[item], error = items.error[item], words = FATE_WORDS[items.fate[item]];
  const sender = error ? run.sockets[items.socket[item]].iface : steps.iface[step];
  return [attemptCell(step), ...time, String(items.socket[item]), names[sender],
    error ? "" : grouped(steps.number[step]), error ? run.texts[error] : textOf(step),
    error ? run.meanings[error] || "" : run.messages[steps.frame[step]] || "",
    items.fate[item] === DROPPED ? badText(words) : words];
}
function chooseSocket(socket) {
  lanes = lanes.filter(lane => !lane.isSocket);
  lanes.push(socketLane(run.sockets[socket]));
  at("of-socket").value = String(socket);
  lists["tab-items"].isStale = true;
  buildGutter();
  lists["tab-sockets"].show();
  redraw();
}

// Filters. A list is filtered again when it is shown, and whenever a filter or the visible part has changed.

function finders() {
  const node = at("of-node").value, text = at("of-frame").value.trim().toUpperCase().replace(/^0X/, "");
  const isSeen = at("in-view").checked, from = axis.stepAt(view.from), to = axis.from(view.to);
  const matches = run.texts.map(one => !text || (text.includes("#") ? one : one.split("#")[0]).startsWith(text));
  return { node: node === "" ? -1 : Number(node), isText: !!text, matches,
    from: isSeen ? from : 0, to: isSeen ? to : axis.count };
}
function findEvents({ node, from, to }) {
  const numbers = new Map(), seen = run.events.filter(([step, , iface]) =>
    step >= from && (step < to || !axis.count) && (node < 0 || iface === node));
  for (const kind of EVENTS) {
    const number = seen.reduce((sum, event) => sum + (event[1] === kind), 0);
    if (number || chips.made.has(kind)) numbers.set(kind, number);
  }
  chips.set(numbers);
  return [seen.filter(event => chips.has(event[1])), run.events.length];
}
function findAttempts({ node, isText, matches, from, to }) {
  const outcomes = at("of-outcome").value, found = new Uint32Array(to - from);
  let count = 0;
  for (let step = from; step < to; step++) {
    const kind = steps.kind[step];
    if (node >= 0 && (kind === IDLE || steps.iface[step] !== node)) continue;
    if (isText && (!isAttempt(step) || !matches[steps.frame[step]])) continue;
    if (outcomes === "failed" ? !isFault(step) : outcomes !== "" && kind !== Number(outcomes)) continue;
    found[count++] = step;
  }
  return [found.subarray(0, count), axis.count];
}
function findItems({ node, isText, matches, from, to }) {
  const socket = at("of-socket").value, fate = at("of-fate").value;
  const found = new Uint32Array(items.step.length);
  let count = 0;
  for (let item = itemsAt(from)[0]; item < items.step.length && items.step[item] < to; item++) {
    if (socket !== "" && items.socket[item] !== Number(socket)) continue;
    if (fate !== "" && items.fate[item] !== Number(fate)) continue;
    const error = items.error[item];
    if (node >= 0 && (error ? run.sockets[items.socket[item]].iface : steps.iface[items.step[item]]) !== node) continue;
    if (!isText || matches[error || steps.frame[items.step[item]]]) found[count++] = item;
  }
  return [found.subarray(0, count), run.itemsInAll];
}
const FINDERS = { "tab-events": findEvents, "tab-attempts": findAttempts, "tab-items": findItems,
  "tab-identifiers": findIdentifiers, "tab-signals": findSignals };
function find(name) {
  for (const one of Object.values(lists)) one.isStale = true;
  showList(name);
}
function showList(name) {
  tab = name;
  for (const label of document.querySelectorAll("#filters [data-for]")) {
    label.hidden = !label.dataset.for.split(" ").some(one => name === "tab-" + one);
  }
  const list = lists[name];
  at("found").textContent = "";
  happened("list shown", name);
  if (!list) return;
  if (FINDERS[name] && list.isStale !== false) {
    const [found, all] = FINDERS[name](finders());
    list.isStale = false;
    list.all = all;
    list.set(found);
  }
  if (FINDERS[name]) sayFound(name, list);
  follow();
}
function sayFound(name, list) {
  const cut = name === "tab-items" && isCut() ? `, of which the page has the first ${grouped(items.step.length)}` : "";
  at("found").textContent = `${grouped(list.list.length)} of ${grouped(list.all)}${cut}`;
}
// Scrolls the visible list to the chosen step.
function follow() {
  const list = lists[tab];
  if (!list?.stepOf) { list?.show(); return; }
  const near = list.list[list.active];
  if (near !== undefined && list.stepOf(near) === view.step) { list.follow(list.active); return; }
  let low = 0, high = list.list.length;
  while (low < high) {
    const middle = low + high >> 1;
    if (list.stepOf(list.list[middle]) < view.step) low = middle + 1; else high = middle;
  }
  list.follow(low);
}
function showIfaces() {
  const heads = ["node", "state", "transmit count", "receive count", "sent", "done", "waiting", "lost",
    "refused: queue full", "refused: bus off", "refused: down"];
  // Long names leave less room for the other columns.
  at("ifaces").classList.toggle("long", names.some(name => name.length > 8));
  at("ifaces").replaceChildren(...rowsOf(heads, run.ifaces.map((one, i) => [names[i],
    element("td", stateWords(one.state), { className: one.state === "active" ? "" : "bad" }),
    one.tec, one.rec, one.sent, one.done, one.waiting, loss(one.lost), loss(one.full), loss(one.off), loss(one.down)])));
}
