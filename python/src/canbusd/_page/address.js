// The address of the page stores the user's choices, so that a link to the page restores them.

const FILTERS = ["of-node", "of-frame", "of-outcome", "of-socket", "of-fate", "of-signal"];
const hashWords = (hash = location.hash) => new URLSearchParams(hash.slice(1));
const isOtherRun = () => hashWords().get("run") === "2";
const lanesWords = () => signals.shown.map(({ key }) => key).join(",");
let hashDue = 0, firstLanes = "";
function dueHash() {
  clearTimeout(hashDue);
  hashDue = setTimeout(sayHash, 150);
}
const stepWords = step => isAttempt(step) ? ["attempt", attemptOf[step]] : ["step", step];
const isAllSeen = () => view.from <= 0 && view.to >= axis.length;
function sayHash() {
  const words = new URLSearchParams(axis.count ? [stepWords(view.step)] : []);
  if (isOtherRun()) words.set("run", 2);
  if (byTime.isOn !== !!byTime.lengthOf) words.set("by", byTime.isOn ? "time" : "attempt");
  if (!isAllSeen()) words.set("view", [view.from, view.to].map(place => +place.toPrecision(12)).join());
  if (second.step !== null) words.set("mark", second.step);
  if (tab !== firstTab()) words.set("list", tab.slice(4));
  for (const id of FILTERS) if (at(id).value) words.set(id.slice(3), at(id).value);
  if (at("in-view").checked) words.set("in-view", 1);
  if (lanesWords() !== firstLanes) words.set("lanes", lanesWords());
  history.replaceState(null, "", `#${words}`);
}
// Restores the choices in an address. All other choices get their initial values.
function readHash(words) {
  const isByTime = words.has("by") ? words.get("by") === "time" : !!byTime.lengthOf;
  for (const id of FILTERS) at(id).value = words.get(id.slice(3)) ?? "";
  at("in-view").checked = words.has("in-view");
  showAxis(isByTime);
  const [from, to] = (words.get("view") || `0,${axis.length}`).split(",").map(Number);
  if (to > from) [view.from, view.to] = [Math.max(from, 0), Math.min(to, axis.length)];
  second.step = words.has("mark") ? Number(words.get("mark")) || 0 : null;
  at("mark").setAttribute("aria-pressed", second.step !== null);
  showLanes((words.get("lanes") ?? firstLanes).split(","));
  const wanted = `tab-${words.get("list")}`;
  sayAxis();
  showTab(at(wanted)?.getAttribute("role") === "tabpanel" ? wanted : firstTab());
  view.step = stepInHash(words) ?? run.first;
}
function showLanes(keys) {
  signals.shown = signals.all().filter(({ key }) => keys.includes(key));
  lanes = [...lanes.filter(lane => !lane.signal), ...signals.shown.map(signalLane)];
}
function stepInHash(words) {
  const number = Number(words.get("attempt") ?? words.get("step") ?? NaN);
  if (!(number >= 0)) return null;
  return words.has("attempt") ? stepOfAttempt(number) : Math.min(Math.floor(number), Math.max(axis.count - 1, 0));
}
for (const what of ["list shown", "signals shown"]) on(what, () => { if (document.body.dataset.drawn) dueHash(); });
