// The bits of a frame on the wire, as `canbusd bits` prints them. They are computed here because a page can't run
// programs.

const lowBits = (count, number) => Array.from({ length: count }, (_, k) => Math.floor(number / 2 ** (count - 1 - k)) % 2);
// Written by scripts/words: lengths of FD frames in JavaScript
const FD_LENGTHS = [0, 1, 2, 3, 4, 5, 6, 7, 8, 12, 16, 20, 24, 32, 48, 64];
// end of words
const GENERATORS = { 15: 0x4599, 17: 0x1685B, 21: 0x102899 };
// Returns the CRC. The shift register starts with all zeros for a classic frame, and with a leading one for an FD
// frame.
function crcOf(bits, width, isFd) {
  let register = isFd ? 1 << width - 1 : 0;
  for (const bit of bits) {
    const differs = bit ^ register >> width - 1;
    register = register << 1 & (1 << width) - 1;
    if (differs) register ^= GENERATORS[width];
  }
  return lowBits(width, register);
}

// Collects bits in the order in which they are sent. A stuff bit belongs to the field of the bit before it, and a fixed
// stuff bit belongs to the field of the bit after it.
class Sender {
  constructor() { Object.assign(this, { bits: [], run: 0, stuffBits: 0 }); }
  put(field, bit, isStuff = false) {
    this.run = bit === this.bits.at(-1)?.bit ? this.run + 1 : 1;
    this.bits.push({ field, bit, isStuff });
  }
  // Adds a stuff bit after five equal bits.
  flush() {
    if (this.run < 5) return;
    const { field, bit } = this.bits.at(-1);
    this.put(field, 1 - bit, true);
    this.stuffBits++;
  }
  send(fields) {
    for (const [field, ...bits] of fields) {
      for (const bit of bits) {
        this.flush();
        this.put(field, bit);
      }
    }
  }
  // Adds bits, with a fixed stuff bit before each group of four bits.
  sendFixed(fields) {
    fields.flatMap(([field, ...bits]) => bits.map(bit => [field, bit])).forEach(([field, bit], place) => {
      if (place % 4 === 0) this.put(field, 1 - this.bits.at(-1).bit, true);
      this.put(field, bit);
    });
  }
}

// Returns the fields of a frame with their bits, up to the last data bit.
function fieldBits(text) {
  const [identifier, payload] = [text.slice(0, text.indexOf("#")), text.slice(text.indexOf("#") + 1)];
  const isFd = payload.startsWith("#"), isRemote = payload.startsWith("R"), isLong = identifier.length === 8;
  const bytes = ((isRemote ? "" : payload.slice(isFd ? 2 : 0)).match(/../g) || []).map(byte => parseInt(byte, 16));
  const number = parseInt(identifier, 16), remote = [isFd ? "RRS" : "RTR", Number(isRemote)];
  const flags = Number(isFd && payload[1]), length = isRemote ? Number(payload.slice(1)) : bytes.length;
  const first = isLong ? [["identifier", ...lowBits(11, Math.floor(number / 2 ** 18))], ["SRR", 1], ["IDE", 1],
    ["extension", ...lowBits(18, number)], remote] : [["identifier", ...lowBits(11, number)], remote, ["IDE", 0]];
  const control = isFd ? [["FDF", 1], ["res", 0], ["BRS", flags & 1], ["ESI", flags >> 1]] : [["reserved", ...isLong ? [0, 0] : [0]]];
  const fields = [["SOF", 0], ...first, ...control, ["DLC", ...lowBits(4, isFd ? FD_LENGTHS.indexOf(length) : length)],
    ["data", ...bytes.flatMap(byte => lowBits(8, byte))]];
  return { fields, isFd, length };
}
const valuesOf = fields => fields.flatMap(([, ...bits]) => bits);
function sendCheck(sender, fields) {
  sender.send([...fields, ["CRC", ...crcOf(valuesOf(fields), 15, false)]]);
  sender.flush();
}
function sendFdCheck(sender, fields, length) {
  sender.send(fields);
  const count = sender.stuffBits % 8, counted = [...lowBits(3, count ^ count >> 1), count % 2];
  const check = crcOf([...sender.bits.map(one => one.bit), ...counted], length > 16 ? 21 : 17, true);
  sender.sendFixed([["stuff count", ...counted], ["CRC", ...check]]);
}
const END = [["CRC delimiter", 1], ["ACK slot", 0], ["ACK delimiter", 1], ["EOF", 1, 1, 1, 1, 1, 1, 1], ["intermission", 1, 1, 1]];
function wireBits(text) {
  const { fields, isFd, length } = fieldBits(text), sender = new Sender();
  if (isFd) sendFdCheck(sender, fields, length); else sendCheck(sender, fields);
  for (const [field, ...bits] of END) for (const bit of bits) sender.put(field, bit);
  return sender.bits;
}

// Returns the index of the bit at which a sender with other bits stops sending, or -1. No sender stops after
// arbitration.
const COMPETES = new Set(["SOF", "identifier", "SRR", "IDE", "extension", "RTR", "RRS"]);
function silentAt(bits, others) {
  const place = bits.findIndex((one, k) => one.bit !== others[k]?.bit);
  return place >= 0 && COMPETES.has(bits[place].field) && others[place]?.bit ? place : -1;
}

// The table of the bits of the chosen attempt has a row for each field.

// Returns the index of the bit at which a fault is seen, or the field if the fault has no particular bit (GUIDE,
// Faults).
function faultPlace(bits, kind, fault) {
  const last = field => bits.findLastIndex(one => one.field === field);
  if (kind === "noack") return { place: last("ACK slot"), words: "not acknowledged" };
  if (fault.startsWith("last bit")) return { place: last("EOF"), words: fault };
  if (/^global bit|^local stuff/.test(fault)) return { field: last("data") < 0 ? "DLC" : "data", words: `${fault}: seen by the end of this field` };
  return /^global form|^local (crc|form)/.test(fault) ? { field: "ACK delimiter", words: `${fault}: seen by here` } : null;
}
// Maps the indices of bits to notes about the senders that stop sending there.
function silences(step, bits) {
  const found = new Map();
  for (const { iface, text } of takingPart(step)) {
    const place = iface === steps.iface[step] ? -1 : silentAt(bits, wireBits(text));
    if (place >= 0) found.set(place, [...found.get(place) || [], `${names[iface]} falls silent in bit ${place}`]);
  }
  return found;
}
function bitElement({ bit, isStuff }, isMarked) {
  const shown = isStuff ? element("u", String(bit), { className: "stuff", title: "stuff bit" }) : String(bit);
  return isMarked ? element("mark", [shown]) : shown;
}
function bitTable(step) {
  if (!isAttempt(step)) return [];
  const bits = wireBits(textOf(step)), silent = silences(step, bits);
  const fault = faultPlace(bits, KINDS[steps.kind[step]], faultOf(step)), rows = [];
  bits.forEach((one, place) => {
    if (one.field !== rows.at(-1)?.field) rows.push({ field: one.field, shown: [], notes: [] });
    const row = rows.at(-1), notes = [...silent.get(place) || [], ...fault?.place === place ? [fault.words] : []];
    row.shown.push(bitElement(one, notes.length > 0));
    row.notes.push(...notes);
  });
  for (const row of rows) if (fault?.field === row.field) row.notes.push(fault.words);
  const stuff = bits.filter(one => one.isStuff).length;
  const title = `Bits on the wire: ${bits.length}, of which ${times(stuff, "stuff bit is", "stuff bits are")} underlined`;
  const table = element("table", rowsOf(["field", "bits", ""], rows.map(({ field, shown, notes }) =>
    [field, element("td", [element("code", shown, { className: "bits" })]), notes.join("; ")])), { id: "bits", ariaLabel: title });
  table.setAttribute("role", "grid");
  listenToBits(table);
  return [element("h3", title), table];
}

// Keyboard input in the table. The focused row stays focused when another attempt is chosen.
const bitKeys = { row: 0, before: null };
function markBits(rows, place) {
  bitKeys.row = Math.min(Math.max(0, place), rows.length - 1);
  rows.forEach((row, k) => { row.tabIndex = k === bitKeys.row ? 0 : -1; });
  return rows[bitKeys.row];
}
function listenToBits(table) {
  const rows = [...table.rows].slice(1);
  markBits(rows, bitKeys.row);
  table.addEventListener("focusin", event => {
    markBits(rows, rows.indexOf(event.target));
    if (event.relatedTarget && !table.contains(event.relatedTarget)) bitKeys.before = event.relatedTarget;
  });
  table.addEventListener("keydown", event => {
    const to = { ArrowDown: bitKeys.row + 1, ArrowUp: bitKeys.row - 1, Home: 0, End: rows.length - 1 }[event.key];
    if (to === undefined && event.key !== "Escape") return;
    event.preventDefault();
    event.stopPropagation();
    if (to === undefined) leaveBits(); else markBits(rows, to).focus();
  });
}
// Gives the focus back to the element that had it before.
function leaveBits() {
  (bitKeys.before?.isConnected ? bitKeys.before : at("area")).focus();
}
function keepBits() {
  const row = at("bits")?.querySelector("[tabindex='0']");
  if (row) row.focus(); else leaveBits();
}
