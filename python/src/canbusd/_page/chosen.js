// The chosen step.

const signalsOf = place => run.signals[place] || [];
function signalTable(step) {
  const message = run.messages[steps.frame[step]];
  if (!isAttempt(step) || message === undefined) return [];
  const rows = signalsOf(steps.frame[step]).map(([name, value, unit]) => [name,
    element("td", `${value} ${unit}`.trim(), { className: "number" }),
    element("td", laneButton({ message, name, unit, key: signalKey(message, name) }))]);
  return [element("h3", `Signals of ${message}`), rows.length ? element("table", rowsOf(["signal", "value", ""], rows))
    : element("p", "The frame is shorter than its message.")];
}

// Returns the frame with which a node takes part in arbitration: the next frame that it tries, or the first frame in
// its queue at the end of the run.
function headOf(iface, step) {
  while (step < axis.count && !(isAttempt(step) && steps.iface[step] === iface)) step++;
  return step < axis.count ? textOf(step) : run.heads[iface];
}
// Returns the bits that arbitration compares (Bosch CAN 2.0). Blanks separate the fields at the same positions in all
// frames.
function bitsOf(text) {
  const [identifier, payload] = text.split("#"), rtr = payload.startsWith("R") ? "1" : "0";
  const bits = parseInt(identifier, 16).toString(2);
  if (identifier.length === 3) return `${bits.padStart(11, "0")} ${rtr}0`;
  return bits.padStart(29, "0").replace(/^.{11}/, "$& 11 ") + ` ${rtr}`;
}
// Returns the nodes that take part in the arbitration of an attempt, with their frames.
const takingPart = step => names.map((_, iface) => iface).filter(iface => queues[iface].all[step])
  .map(iface => ({ iface, text: headOf(iface, step) }));
function arbitration(step) {
  if (!isAttempt(step)) return [];
  const taking = takingPart(step);
  if (taking.length < 2) return [element("p", "No other node had a frame to send.")];
  const best = bitsOf(taking.find(one => one.iface === steps.iface[step]).text);
  const wide = Math.max(...names.map(name => name.length));
  const rows = taking.map(({ iface, text }) => {
    const bits = bitsOf(text), lost = [...bits].findIndex((bit, k) => k < best.length && bit !== best[k]);
    const shown = [names[iface].padEnd(wide) + "  "];
    if (iface === steps.iface[step]) shown.push(bits + "  wins with ");
    else if (lost < 0) shown.push(bits + "  equal bits, the lower number wins: ");
    else {
      const rest = " ".repeat(Math.max(best.length, bits.length) - lost);
      shown.push(bits.slice(0, lost), element("b", bits[lost]), rest + " loses here: ");
    }
    return element("div", [...shown, text]);
  });
  return [element("h3", "Arbitration, bit by bit (0 is dominant)"), element("pre", rows)];
}
function countersAround(step) {
  const change = counts => {
    const old = step ? counts[step - 1] : 0;
    return old === counts[step] ? grouped(old) : `${grouped(old)} \u2192 ${grouped(counts[step])}`;
  };
  const part = i => [isAttempt(step) && steps.iface[step] === i && "sent", steps.hit[step] >> i & 1 && "local fault",
    steps.accepted[step] >> i & 1 && "accepted"].filter(Boolean).join(", ");
  const state = i => {
    const now = steps.down[step] >> i & 1 ? IS_DOWN : severity(Math.max(tec[i].all[step], rec[i].all[step]));
    return element("td", stateWords(STATES[now]), { className: now ? "bad" : "" });
  };
  const rows = names.map((name, i) =>
    [name, part(i), state(i), change(tec[i].all), change(rec[i].all), queues[i].all[step]]);
  const heads = ["node", "part in it", "state after it", "transmit count", "receive count", "queue before it"];
  return element("table", rowsOf(heads, rows));
}
// Returns the fields of a frame in the usual CAN terms.
function fieldsOf(text) {
  const [identifier, payload] = [text.slice(0, text.indexOf("#")), text.slice(text.indexOf("#") + 1)];
  const isRemote = payload.startsWith("R"), isFd = payload.startsWith("#"), data = isRemote ? "" : payload.slice(isFd ? 2 : 0);
  const flags = isFd ? ["", " with BRS", " with ESI", " with BRS and ESI"][Number(payload[1])] : "";
  const kind = [identifier.length === 3 ? "11-bit" : "29-bit", isFd ? "FD" : isRemote ? "remote" : "data", "frame"].join(" ") + flags;
  const bytes = data.match(/../g) || [];
  const length = isRemote ? Number(payload.slice(1) || 0) : bytes.length;
  return { identifier, kind, length, bytes: bytes.join(" ") };
}
function fieldList(step) {
  const frame = fieldsOf(textOf(step)), pairs = [
    ["frame", element("code", textOf(step))], ["identifier", `${frame.identifier}, ${frame.kind.startsWith("11") ? "an" : "a"} ${frame.kind}`],
    [times(frame.length, "byte"), element("code", frame.bytes || "none")],
  ];
  happened("fields", pairs, step);
  return element("dl", pairs.flatMap(([name, value]) => [element("dt", name), element("dd", value)]));
}
// The other details of a step: its events, lost frames and items.
function eventsAt(step) {
  const events = run.events.filter(event => event[0] === step), lost = run.lost[step] || [];
  const words = ([, kind, , text]) => element("p", [element("b", `${kind}: `, { className: isWorst(kind) ? "bad" : "" }), text]);
  const rows = lost.map(([number, text]) => [number, element("code", run.texts[text])]);
  const table = [element("h3", "Lost with it"), element("table", rowsOf(["frame no.", "frame"], rows))];
  return [...events.map(words), ...lost.length ? table : []];
}
function itemsOf(step) {
  const [first, last] = itemsAt(step);
  if (first === last) return [];
  const rows = Array.from({ length: last - first }, (_, k) => itemRow(first + k));
  return [element("h3", "Items"), element("table", rowsOf(["socket", "node", "item", "what became of it"], rows))];
}
function itemRow(item) {
  const error = items.error[item], says = error ? `${run.texts[error]}: ${run.meanings[error] || ""}` : "the frame";
  const fate = FATE_WORDS[items.fate[item]], socket = items.socket[item];
  return [socket, names[run.sockets[socket].iface], says,
    element("td", fate, { className: items.fate[item] === DROPPED ? "bad" : "" })];
}
function itemsAt(step) {
  const find = wanted => {
    let low = 0, high = items.step.length;
    while (low < high) {
      const middle = low + high >> 1;
      if (items.step[middle] < wanted) low = middle + 1; else high = middle;
    }
    return low;
  };
  return [find(step), find(step + 1)];
}
function showChosen() {
  if (!axis.count) { at("chosen").replaceChildren(element("p", "No frame was tried.")); return; }
  const step = view.step, title = placeWords(step);
  const entry = momentOf(step) && `, entry ${grouped(steps.entry[step])} of the record`;
  const more = [], isInBits = at("bits")?.contains(document.activeElement);
  happened("chosen", more);
  at("chosen").replaceChildren(element("h2", title[0].toUpperCase() + title.slice(1) + entry),
    element("p", sentence(step)), ...more, ...eventsAt(step), ...isAttempt(step) ? [fieldList(step)] : [], ...signalTable(step),
    countersAround(step),
    ...arbitration(step), ...bitTable(step), ...itemsOf(step));
  if (isInBits) keepBits();
  if (isAttempt(step)) at("number").value = attemptOf[step];
}
