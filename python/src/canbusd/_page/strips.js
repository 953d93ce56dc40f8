// The attempts of a node: one bar for each attempt if there is room, otherwise the share of each kind of attempt.

function strip(plot, i, top, fills) {
  const first = plot.edges[0], last = plot.edges[Math.floor(plot.width)], wide = 3;
  if (!time.isInstant && last - first <= plot.width / 2) {
    for (let step = axis.stepAt(view.from); step < last; step++) {
      const left = Math.max(placeOf(plot, axis.start[step]), 0), end = endOf(plot, step), to = Math.min(end, plot.width);
      const wide = Math.max(to - left - (to - left > 5 ? 1 : 0), time.lengthOf ? 2 : 1);
      const room = placeOf(plot, axis.start[step + 1]) - to - 6;
      if (end >= 0 && left < plot.width) bar(plot, i, step, top, left, wide, fills, time.lengthOf && room > wide ? room : 0);
    }
    return;
  }
  const sums = bucketsOf(plot, wide);
  for (const { x, first: from, steps: count, sums: sum } of sums.all) {
    const wider = Math.min(wide, plot.width - x);
    if (count === 1) {
      bar(plot, i, from, top, x, wider, fills, labelRoom(plot, from, x));
      continue;
    }
    stack(plot, i, sum, top, x, wider, fills, time.isInstant ? sums.most : count);
  }
}
// Returns the sums for each group of three pixels that contains steps. All lanes use these sums. `most` is the largest
// number of steps in a group.
function bucketsOf(plot, wide) {
  if (plot.buckets) return plot.buckets;
  const all = [];
  let most = 1;
  for (let x = 0; x < plot.width; x += wide) {
    const first = plot.edges[x], last = plot.edges[Math.min(x + wide, Math.floor(plot.width))], count = last - first;
    if (!count) continue;
    all.push({ x, first, steps: count, sums: count > 1 ? tallies.of(first, last) : null });
    most = Math.max(most, count);
  }
  return plot.buckets = { all, most };
}
function stack(plot, i, sums, top, x, wide, fills, whole) {
  let y = top + STRIP - 2;
  for (let kind = 0; kind < RESTART; kind++) {
    const number = won(sums, i, kind);
    if (!number) continue;
    // Failed attempts stay visible even if their share is very small.
    const high = Math.max(number / whole * (STRIP - 4), kind ? 1.5 : 0.5);
    block(plot.pen, fills[KINDS[kind]], x, y -= high, wide, high);
  }
  if (won(sums, i, RESTART)) block(plot.pen, theme.restart, x, top, wide, 4);
  if (won(sums, i, DOWN)) block(plot.pen, theme.down, x, top, wide, 4);
}
// Returns the width that is free for words to the right of an instant.
function labelRoom(plot, step, x) {
  if (!time.isInstant) return 0;
  const next = step + 1 < axis.count ? placeOf(plot, axis.start[step + 1]) : plot.width;
  return Math.min(next, plot.width) - x - 6;
}
function bar(plot, i, step, top, left, wide, fills, room = 0) {
  const { pen } = plot, kind = steps.kind[step], high = STRIP - 4;
  if (kind === IDLE) {
    block(pen, theme.idle, left, top + STRIP - 5, wide, 3);
    if (i === 0) plate(pen, [titleOf(step), grouped(steps.number[step])], left, wide, top + 9, theme.page, theme.soft);
    return;
  }
  if (steps.accepted[step] >> i & 1) block(pen, theme.accepted, left, top + STRIP - 5, wide, 3);
  if (steps.hit[step] >> i & 1) block(pen, theme.hit, left, top, wide, 4);
  if (steps.iface[step] !== i) return;
  block(pen, fills[KINDS[kind]], left, top + 2, wide, high);
  const words = isAttempt(step) ? [textOf(step), textOf(step).split("#")[0]] : [KINDS[kind]];
  if (!room) plate(pen, words, left, wide, top + 2 + high / 2, theme[KINDS[kind]], theme.on);
  else {
    const text = words.find(one => pen.measureText(one).width < room);
    if (text) write(pen, text, left + wide + 3, top + 2 + high / 2, theme.soft);
  }
}

// The ruler. By attempts, it shows attempt numbers with their timestamps. By time, it shows times with the attempt
// numbers.

function ticksOf(plot) {
  if (!axis.count) return [];
  const most = plot.width / (plot.isNarrow ? 110 : 130);
  return byTime.isOn ? secondTicks(most) : attemptTicks(most);
}
function attemptTicks(most) {
  const [first, last] = [view.from, view.to - 1e-9].map(place => attemptOf[axis.stepAt(place)]);
  return rounded(first, last, most, 1).found.map(number => {
    const step = stepOfAttempt(number);
    return { place: axis.start[step], words: [grouped(number), momentOf(step)] };
  });
}
function secondTicks(most) {
  const { each, found } = rounded(view.from, view.to, most, 1e-6);
  const digits = Math.max(0, -Math.floor(Math.log10(each) + 1e-9));
  return found.map(place => ({
    place, words: [`${place.toFixed(digits)} s`, grouped(attemptOf[axis.stepAt(place + 1e-9)])],
  }));
}

// The overview of the whole run: the share of failed attempts, and when a node was bus off or down.

function drawOverview() {
  const canvas = at("overview"), width = canvas.parentElement.clientWidth, key = [width, byTime.isOn].join();
  if (layer === key) return;
  layer = key;
  const pen = sized(canvas, width, 24), edges = edgesOf(width, 0, axis.length), shares = new Float64Array(width);
  const fills = fillsOf(pen), plot = { pen, width, edges };
  block(pen, theme.panel, 0, 0, width, 24);
  tec.forEach(numbers => pixels(plot, numbers, (x, _, high) => { if (high >= OFF) block(pen, fills.off, x, 0, 2, 24); }));
  downs.forEach(numbers => pixels(plot, numbers, (x, _, high) => { if (high) block(pen, fills.down, x, 0, 2, 24); }));
  for (let x = 0; x < width; x++) {
    const count = edges[x + 1] - edges[x];
    shares[x] = count ? failures.of(edges[x], edges[x + 1])[1] / count : 0;
  }
  const most = shares.reduce((one, other) => Math.max(one, other), 0.01);
  shares.forEach((share, x) => { if (share) block(pen, theme.destroyed, x, 24 - share / most * 20, 1, share / most * 20); });
}

// Lanes.

function makeLanes() {
  const queueMost = Math.max(...queues.map(one => one.most));
  lanes = names.map((name, i) => new NodeLane(i, name, { tec: tec[i], rec: rec[i], queue: queues[i], down: downs[i], leftOf, queueMost }, strip));
  const worst = run.sockets[run.socket];
  if (worst && worst.dropped) lanes.push(socketLane(worst));
  happened("lanes made");
}
// Returns how many frames of a node are still waiting after each step.
function leftOf(i) {
  return new Numbers(queues[i].all.map((waiting, step) => (steps.off[step] | steps.down[step]) >> i & 1 ? 0
    : waiting - (steps.kind[step] === 0 && steps.iface[step] === i)));
}
// Returns a lane that shows how many items a socket's receive queue contains after each step, with marks at steps that
// dropped items.
function socketLane(socket) {
  const count = steps.kind.length, fill = new Int32Array(count + 1), marks = new Uint8Array(count);
  for (let item = 0; item < items.step.length; item++) {
    if (items.socket[item] !== socket.number) continue;
    if (items.fate[item] === DROPPED) { marks[items.step[item]] = 1; continue; }
    fill[items.step[item]]++;
    if (FATES[items.fate[item]] !== "waiting") fill[Math.max(items.step[item], items.end[item])]--;
  }
  for (let k = 1; k <= count; k++) fill[k] += fill[k - 1];
  const numbers = new Numbers(Uint16Array.from(fill.subarray(0, count)));
  const cut = isCut() ? `; only up to ${titleOf(items.step[items.step.length - 1])}` : "";
  return new CurveLane(`socket ${socket.number}`, numbers, step => `${grouped(numbers.all[step])} of ${grouped(socket.capacity)}`, {
    marks, isSocket: true, scale: `most ${grouped(numbers.most)}`,
    title: `receive queue of socket ${socket.number} on ${names[socket.iface]}; red above: dropped${cut}`,
  });
}
const isCut = () => run.itemsInAll > items.step.length;
