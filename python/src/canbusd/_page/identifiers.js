// Statistics for each identifier over the attempts that pass the filters: the number of successful attempts, their
// periods, and the last data.

function identifierList() {
  const columns = [["identifier", "10ch", "n"], ["sender", "minmax(0, 1fr)", "w"], ["done", "minmax(0, 7ch)", "n h"],
    ["failed", "minmax(0, 6ch)", "n h"], ...PERIOD_COLUMNS, ["last", "minmax(0, 2.2fr)", "f"]];
  const cells = one => [one.identifier, listed(one.senders), grouped(one.periods.number),
    one.failed ? badText(grouped(one.failed)) : "0", ...one.periods.words, one.last && [one.last, messageOf(one.place)]];
  const made = new Rolling("identifiers", columns, cells, one => choose(one.step));
  made.isChosen = one => isAttempt(view.step) && one.identifier === identifierOf(textOf(view.step));
  return made;
}
const identifierOf = text => text.slice(0, text.indexOf("#"));
// How many different identifiers the run has. Set after the run has been read.
let allIdentifiers = 0;
on("taken", () => {
  const isTried = new Uint8Array(run.texts.length), found = new Set();
  for (let step = 0; step < axis.count; step++) if (isAttempt(step)) isTried[steps.frame[step]] = 1;
  // Numbers are faster than strings here. Extended identifiers are mapped to a separate range of numbers.
  const numberOf = text => parseInt(text, 16) + (text[3] === "#" ? 0 : 2 ** 29);
  isTried.forEach((is, place) => { if (is) found.add(numberOf(run.texts[place])); });
  allIdentifiers = found.size;
});
function findIdentifiers({ node, matches, from, to }) {
  const found = new Map(), keys = run.texts.map(identifierOf);
  for (let step = from; step < to; step++) {
    if (!isAttempt(step) || node >= 0 && steps.iface[step] !== node || !matches[steps.frame[step]]) continue;
    const identifier = keys[steps.frame[step]];
    let one = found.get(identifier);
    if (!one) found.set(identifier, one = { identifier, senders: 0, failed: 0, periods: new Periods(), last: "", place: 0 });
    one.senders |= 1 << steps.iface[step];
    one.step = step;
    if (steps.kind[step]) { one.failed++; continue; }
    one.periods.add(moments[step]);
    one.place = steps.frame[step];
    one.last = run.texts[one.place];
  }
  const order = [...found.values()].sort((one, other) => one.identifier < other.identifier ? -1 : 1);
  return [order, allIdentifiers];
}
