// Shows another run on the axis of this run, with a lane for each node of the other run. On the axis by attempts, each
// attempt of the other run is at the position of the matching attempt of this run. An attempt that only the other run
// contains is between its neighbours. On the axis by time, all attempts are at their times since the first attempt of
// the other run.

const other = {};
on("taken", column => {
  for (const name of ["kind", "iface", "line", "partner", "place", "since", "took"]) other[name] = column(run.other[name]);
  other.count = other.kind.length;
  other.partnerOf = new Int32Array(attemptOf[axis.count] + 1).fill(-1);
  other.partner.forEach((number, k) => { if (number) other.partnerOf[number - 1] = k; });
  other.spans = [spansByAttempt(), [other.since, other.since.map((since, k) => since + other.took[k])]];
});
// The start and the end of each attempt. Attempts that fall between two attempts of this run share the space around the
// border between these.
const HALF = 0.3;
function spansByAttempt() {
  const starts = new Float64Array(other.count), ends = new Float64Array(other.count), { start } = axes[0], between = new Map();
  const border = number => start[Math.min(stepOfAttempt(number) + (number >= attemptOf[axis.count]), axis.count)];
  for (let k = 0; k < other.count; k++) {
    if (!other.partner[k]) {
      if (!between.has(other.place[k])) between.set(other.place[k], []);
      between.get(other.place[k]).push(k);
      continue;
    }
    const step = stepOfAttempt(other.partner[k] - 1);
    [starts[k], ends[k]] = [start[step], start[step + 1]];
  }
  for (const [number, all] of between) {
    const middle = border(number), each = 2 * HALF / all.length;
    all.forEach((k, n) => { starts[k] = middle - HALF + n * each; ends[k] = starts[k] + each; });
  }
  return [starts, ends];
}
class OtherLane {
  constructor(number, name) {
    const title = `${name} in ${run.other.title}`;
    Object.assign(this, { number, name: `${name} \u2032`, title, height: STRIP + BAND + SPACE });
  }
  draw(plot, top, fills) {
    const [starts, ends] = other.spans[Number(byTime.isOn)], kinds = new Uint8Array(plot.width);
    // Attempts that only the other run contains are drawn over their neighbours.
    for (const isPaired of byTime.isOn ? [null] : [true, false]) {
      for (let k = 0; k < other.count; k++) {
        if (other.iface[k] !== this.number || starts[k] > view.to || isPaired !== null && isPaired !== other.partner[k] > 0) continue;
        const from = placeOf(plot, starts[k]), to = time.isInstant ? from + 3 : placeOf(plot, ends[k]);
        if (to < 0 || from >= plot.width) continue;
        const left = Math.max(Math.floor(from), 0), room = Math.min(to, plot.width) - left;
        if (room < 2) kinds[left] = Math.max(kinds[left], 1 + other.kind[k]);
        else this.bar(plot, k, left, Math.max(room - (room > 5 ? 1 : 0), 1), top, fills);
      }
    }
    // If a pixel contains several attempts, it shows the worst one.
    kinds.forEach((kind, x) => { if (kind) block(plot.pen, fills[KINDS[kind - 1]], x, top + 2, byTime.lengthOf ? 2 : 1, STRIP - 4); });
    this.outages(plot, top + STRIP + 2, fills);
    across(plot, top + this.height - 4, theme.line);
  }
  bar(plot, k, left, wide, top, fills) {
    const frame = run.other.texts[other.line[k]].slice(run.other.names[this.number].length + 1).split(" ")[0];
    block(plot.pen, fills[KINDS[other.kind[k]]], left, top + 2, wide, STRIP - 4);
    plate(plot.pen, [frame, frame.split("#")[0]], left, wide, top + STRIP / 2, theme[KINDS[other.kind[k]]], theme.on);
  }
  outages(plot, top, fills) {
    block(plot.pen, theme.line, 0, top + BAND - 3, plot.width, 2);
    for (const [iface, state, first, begin, last, end] of run.other.away) {
      if (iface !== this.number) continue;
      const border = number => number < other.count ? other.spans[0][0][number] : axis.length;
      const [from, to] = (byTime.isOn ? [begin, end] : [border(first), border(last)]).map(place => placeOf(plot, place));
      const left = Math.max(from, 0), wide = Math.min(to, plot.width) - left;
      if (to >= 0 && from < plot.width) stateBar(plot.pen, state, left, top, Math.max(wide, 2), fills);
    }
  }
  values() { return []; }
}

// The list of differences, and the buttons that go to the next difference or to the other run.

function nextDifference(by) {
  const places = run.other.differences.map(([, attempt]) => stepOfAttempt(attempt));
  const next = by > 0 ? places.find(step => step > view.step) : places.findLast(step => step < view.step);
  if (next !== undefined) choose(next);
}
function showOtherRun() {
  const number = attemptOf[view.step], there = other.partnerOf[number] ?? -1;
  clearTimeout(hashDue);
  history.replaceState(null, "", `#attempt=${there < 0 ? number : there}${isOtherRun() ? "" : "&run=2"}`);
  location.reload();
}
function differenceList() {
  const wide = `${Math.max(8, grouped(Math.max(axis.count, other.count)).length)}ch`;
  const list = new Rolling("differing", [["attempt", wide, "n"], ["there", wide, "n h"], ["kind", "14ch"], ["what", "minmax(0, 1fr)", "w"]],
    ([kind, here, there, words]) => [kind === "only there" ? "" : grouped(here), kind === "only here" ? "" : grouped(there), kind, words],
    one => choose(stepOfAttempt(one[1])));
  list.stepOf = one => stepOfAttempt(one[1]);
  list.isChosen = one => list.stepOf(one) === view.step;
  return list;
}
on("lanes made", () => {
  lanes.push(...run.other.names.map((name, i) => new OtherLane(i, name)));
  lists["tab-differences"] = differenceList();
  FINDERS["tab-differences"] = () => [run.other.differences, run.other.differences.length];
});
on("worded", () => {
  at("facts").append(` Beside it, with \u2032: ${run.other.title}, ${times(other.count, "attempt")}.`);
  const button = (key, text, title) => {
    const made = element("button", text, { type: "button", title: `${title} (${key})` });
    made.dataset.key = key;
    return made;
  };
  at("number").parentElement.before(button("D", "\u25c0 difference", "previous difference"),
    button("d", "difference \u25b6", "next difference"), button("o", "other run", `all of ${run.other.title}, with this one beside it`));
  Object.assign(KEYS, { d: () => nextDifference(1), D: () => nextDifference(-1), o: showOtherRun });
  const tab = element("button", `Differences ${grouped(run.other.differences.length)}`, { type: "button" });
  tab.setAttribute("role", "tab");
  tab.setAttribute("aria-controls", "tab-differences");
  at("tabs").prepend(tab);
  const panel = element("div", element("div", [], { id: "differing", className: "rolling" }), { id: "tab-differences" });
  panel.setAttribute("role", "tabpanel");
  panel.setAttribute("aria-label", "Differences");
  at("lists").append(panel);
});
on("chosen", made => {
  if (!isAttempt(view.step)) return;
  const number = attemptOf[view.step], there = other.partnerOf[number], line = run.other.texts[other.line[there]];
  for (const [kind, here, , words] of run.other.differences) {
    if (here === number) made.push(element("p", [element("b", `${kind}: `, { className: "bad" }), words]));
  }
  made.push(element("p", there < 0 ? `Not in ${run.other.title}.`
    : [`The same in ${run.other.title}, attempt ${grouped(there)}: `, element("code", line)]));
});
