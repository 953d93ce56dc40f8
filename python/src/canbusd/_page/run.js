// The page of a run. The data contain the results of the replay in columns, and this script only shows them.

// The kinds of events, most severe first.
const EVENTS = ["bus off", "down", "lost", "dropped", "refused", "passive", "warning", "active", "restart", "second copy"];
const FATES = ["taken", "waiting", "unread", "dropped"];
const FATE_WORDS = ["taken by the client", "waiting at the end", "unread at the close", "dropped: no room"];
const DROPPED = 3;
const ARRAYS = { B: Uint8Array, H: Uint16Array, I: Uint32Array, d: Float64Array };
const STEP_WIDTH = { [RESTART]: 0.8, [DOWN]: 0.8, [IDLE]: 0.5 };
// The axis, by attempts or by time. If there is no `lengthOf`, attempts are instants on the axis by time.
const byTime = { isOn: false, lengthOf: null, ends: null };
let run, steps, items, names, tec, rec, queues, downs, attemptOf, moments, axes, tallies, failures, firstMoment = 0;
let chips, showTab, tab = "tab-events";
const lists = {};

// The data consist of columns, a JSON header that describes them, and the size of the header in bytes.

// Browsers limit the length of a data URL, so the data are decoded in parts.
const PART = 1 << 22;
async function unpack(text) {
  const coded = text.trim(), parts = [];
  for (let k = 0; k < coded.length; k += PART) {
    const part = await fetch("data:application/octet-stream;base64," + coded.slice(k, k + PART));
    parts.push(await part.arrayBuffer());
  }
  const packed = new Blob(parts).stream().pipeThrough(new DecompressionStream("deflate"));
  const whole = await new Response(packed).arrayBuffer();
  const end = whole.byteLength - 4, size = new DataView(whole).getUint32(end, true);
  const header = JSON.parse(new TextDecoder().decode(new Uint8Array(whole, end - size, size)));
  return { header, column: one => numbersIn(whole, ...one) };
}
// Returns the numbers of a column, which stores the lowest bytes of all numbers first. A column with `rises` stores the
// differences between consecutive numbers.
function numbersIn(whole, code, place, length, rises) {
  const numbers = new ARRAYS[code](length), size = numbers.BYTES_PER_ELEMENT;
  const from = [...Array(size).keys()].map(byte => new Uint8Array(whole, place + byte * length, length));
  if (size < 8) joinWhole(numbers, from); else joinBytes(new Uint8Array(numbers.buffer), from);
  if (rises) for (let k = 1; k < length; k++) numbers[k] += numbers[k - 1];
  return numbers;
}
function joinWhole(numbers, [first, second, third, fourth]) {
  const { length } = numbers;
  if (!second) numbers.set(first);
  else if (!third) for (let k = 0; k < length; k++) numbers[k] = first[k] | second[k] << 8;
  else for (let k = 0; k < length; k++) numbers[k] = first[k] | second[k] << 8 | third[k] << 16 | fourth[k] << 24;
}
function joinBytes(bytes, from) {
  from.forEach((each, byte) => { for (let k = 0, n = byte; k < each.length; k++, n += from.length) bytes[n] = each[k]; });
}
const columnsOf = (table, column) =>
  Object.fromEntries(Object.entries(table).map(([name, one]) => [name, column(one)]));

function take({ header, column }) {
  run = header;
  names = run.names;
  run.texts = new TextDecoder().decode(column(run.texts)).split("\n");
  steps = columnsOf(run.steps, column);
  items = columnsOf(run.items, column);
  [tec, rec, queues] = [run.tec, run.rec, run.waiting].map(columns => columns.map(one => new Numbers(column(one))));
  // For each node, whether it is down at each step. The list is empty if no node is ever down.
  downs = steps.down.some(set => set) ? names.map((_, i) => new Numbers(steps.down.map(set => set >> i & 1))) : [];
  placeSteps();
  sumUp();
  happened("taken", column);
}
// Computes the positions of steps on both axes, the numbers of the attempts, and the times of the steps.
function placeSteps() {
  const count = steps.kind.length, byStep = new Float64Array(count + 1), byTime = new Float64Array(count + 1);
  attemptOf = new Uint32Array(count + 1);
  moments = new Float64Array(count);
  firstMoment = count ? steps.seconds[0] : 0;
  let latest = 0;
  for (let k = 0; k < count; k++) {
    byStep[k + 1] = byStep[k] + (STEP_WIDTH[steps.kind[k]] || 1);
    attemptOf[k + 1] = attemptOf[k] + (steps.kind[k] < RESTART);
    moments[k] = steps.seconds[k] - firstMoment + steps.micros[k] / 1e6;
    byTime[k] = latest = Math.max(latest, moments[k] - moments[0]);
  }
  byTime[count] = latest + Math.max(latest / 1000, 1e-5);
  axes = [new Axis(byStep, Math.min(5, Math.max(byStep[count], 1))), new Axis(byTime, 1e-5)];
  showAxis(false);
  view.to = axis.length;
}
function showAxis(isByTime) {
  byTime.isOn = isByTime;
  time.isInstant = isByTime && !byTime.lengthOf;
  time.lengthOf = isByTime ? byTime.lengthOf : null;
  time.ends = isByTime ? byTime.ends : null;
  axis = axes[Number(isByTime)];
  layer = "";
}
// Computes sums over the steps: the attempts that each node won, by kind, and the failed attempts.
function sumUp() {
  const count = steps.kind.length, codes = new Uint8Array(count);
  failures = new Uint8Array(count);
  for (let k = 0; k < count; k++) {
    const kind = steps.kind[k];
    codes[k] = kind === IDLE ? 0 : 1 + steps.iface[k] * IDLE + kind;
    failures[k] = kind > 0 && kind < RESTART ? 1 : 0;
  }
  tallies = new Tallies(codes, 1 + names.length * IDLE);
  failures = new Tallies(failures, 2);
}
const won = (sums, iface, kind) => sums[1 + iface * IDLE + kind];

// Words.

const members = set => names.filter((_, i) => set >> i & 1);
const listed = set => members(set).join(", ") || "nobody";
const isAttempt = step => steps.kind[step] < RESTART;
// A row of idle attempts has no single timestamp. If timestamps come from the system clock (seconds since 1970), they
// are shown as times of day.
const momentOf = step => steps.kind[step] === IDLE ? ""
  : `${hasClock() ? clock(steps.seconds[step]) : steps.seconds[step]}.${String(steps.micros[step]).padStart(6, "0")}`;
function dayWords() {
  if (!hasClock()) return "";
  const begin = new Date(steps.seconds[Math.max(0, firstStep())] * 1000);
  return ` Times of day: ${begin.toLocaleDateString("en-CA")}, ${begin.toString().match(/GMT[+-]\d{4}/)[0]}.`;
}
// The first attempt, and the seconds since then. If timestamps are shown as times of day, the seconds are in a separate
// column.
const firstStep = () => steps.kind.findIndex(kind => kind !== IDLE);
const sinceStart = step => sinceStep(step, firstStep());
const sinceStep = (step, first) => {
  if (first === undefined || steps.kind[step] === IDLE || steps.kind[first] === IDLE) return "";
  return (steps.seconds[step] - steps.seconds[first] + (steps.micros[step] - steps.micros[first]) / 1e6).toFixed(6);
};
const hasClock = () => axis.count && steps.seconds[Math.max(0, firstStep())] >= 1e8;
const textOf = step => run.texts[steps.frame[step]];
const isFault = step => steps.kind[step] > 0 && steps.kind[step] < RESTART || steps.hit[step] > 0;
const faultOf = step => run.verdicts[steps.verdict[step]];

function titleOf(step) {
  if (steps.kind[step] === RESTART || steps.kind[step] === DOWN) return KINDS[steps.kind[step]];
  if (steps.kind[step] === IDLE) return `${grouped(steps.number[step])} idle`;
  return `attempt ${grouped(attemptOf[step])}`;
}
const placeWords = step => titleOf(step) + (momentOf(step) && ` at ${momentOf(step)}`);
function sentence(step) {
  const who = names[steps.iface[step]], kind = steps.kind[step];
  if (kind === RESTART) return `${who} is restarted: it is back on the bus, with both counts 0.`;
  if (kind === DOWN) return `${who} goes down: it takes no part until it is up, and its transmit queue is empty.`;
  if (kind === IDLE) return `No node on the bus had a frame to send.${awayWords(step)}`;
  const off = steps.off[step] ? ` ${who} goes bus off.` : "";
  return `${who} wins with its frame ${steps.number[step]}, ${textOf(step)}. `
    + `Fault: ${faultOf(step)}. Outcome: ${KIND_WORDS[kind]}. `
    + `Accepted by ${listed(steps.accepted[step])}.${off}`;
}
function awayWords(step) {
  const down = members(steps.down[step]), away = names.filter((name, i) => tec[i].all[step] >= OFF && !down.includes(name));
  return (away.length ? ` Bus off: ${away.join(", ")}.` : "") + (down.length ? ` Down: ${down.join(", ")}.` : "");
}
function tipWords(first, last) {
  const lines = tipLines(first, last);
  happened("tip", lines, first, last);
  return lines.join("\n");
}
function tipLines(first, last) {
  if (last - first === 1) {
    const counts = names.map((name, i) => `${name} ${tec[i].all[first]}/${rec[i].all[first]}`).slice(0, 8).join(", ");
    return [placeWords(first), sentence(first), `Counts after it (transmit/receive): ${counts}`];
  }
  const sums = tallies.of(first, last), of = kind => names.reduce((all, _, i) => all + won(sums, i, kind), 0);
  const parts = KIND_WORDS.slice(0, IDLE).map((word, kind) => [of(kind), word]).filter(([number]) => number);
  const words = parts.map(([number, word]) => `${grouped(number)} ${word}`).join(", ");
  const to = Math.max(attemptOf[first], attemptOf[last] - 1);
  return [`attempts ${grouped(attemptOf[first])} to ${grouped(to)}`, words];
}
