// The signals in all frames that the run tried to send, and the steps in which each message was sent.

const sentIn = new Map(), MOST_CURVES = 4;
on("taken", () => {
  const known = new Map();
  for (const [place, message] of Object.entries(run.messages)) {
    if (!sentIn.has(message)) sentIn.set(message, []);
    for (const [name, value, unit] of signalsOf(place)) {
      const key = signalKey(message, name), one = known.get(key);
      if (!one) known.set(key, { message, name, unit, value, isMeant: !!unit || typeof value === "string", changes: false });
      else if (one.value !== value) one.changes = true;
    }
  }
  for (let step = 0; step < axis.count; step++) {
    const message = steps.kind[step] < 2 ? run.messages[steps.frame[step]] : undefined;
    if (message !== undefined) sentIn.get(message).push(step);
  }
  const all = [...known].map(([key, one]) => ({ ...one, key })).sort((one, other) => one.key < other.key ? -1 : 1);
  signals.all = () => all;
  // The page first shows signals that change. Counters and checksums, which have no unit, are shown only if there is
  // room for them.
  const changing = all.filter(({ changes }) => changes), meant = changing.filter(({ isMeant }) => isMeant);
  signals.changing = () => [...meant, ...changing.filter(({ isMeant }) => !isMeant)].slice(0, MOST_CURVES);
});
const valueOf = (step, name) => signalsOf(steps.frame[step]).find(([signal]) => signal === name)?.[1];
// Returns the signal's value in the last message that contains it, up to the cursor. A multiplexed signal is not in
// every message.
signals.at = ({ message, name }) => {
  const sent = sentIn.get(message) || [];
  let low = 0, high = sent.length;
  while (low < high) {
    const middle = low + high >> 1;
    if (sent[middle] <= view.step) low = middle + 1; else high = middle;
  }
  for (let k = low - 1; k >= 0; k--) {
    const value = valueOf(sent[k], name);
    if (value !== undefined) return value;
  }
  return undefined;
};
signals.column = ({ message, name }) => {
  const of = new Float64Array(axis.count).fill(NaN), sent = sentIn.get(message) || [];
  const values = sent.map(step => valueOf(step, name)), texts = [...new Set(values.filter(value => typeof value === "string"))];
  let from = 0, now = NaN;
  sent.forEach((step, k) => {
    if (values[k] === undefined) return;
    of.fill(now, from, step);
    [from, now] = [step, texts.length ? codeOf(texts, values[k]) : Number(values[k])];
  });
  return { of: of.fill(now, from), texts };
};
// Returns the code of a value. A number that has no name gets a new code.
function codeOf(texts, value) {
  const found = texts.indexOf(String(value));
  return found >= 0 ? found : texts.push(String(value)) - 1;
}
on("signals shown", showChosen);
