// Lists of any length, tabs, and buttons that select kinds.

// The maximum height in pixels that browsers can scroll through. In longer lists, each pixel of scrolling stands for
// several rows.
const MOST_ROOM = 8e6;

// A list that creates only the rows in view. A column has a heading, a width, and letters for its options. A column
// with "n" contains numbers. The other letters apply to narrow pages: "h" repeats the heading in every cell, "w" allows
// line breaks, "f" cuts the text with an ellipsis so that the text after it has room, and "x" hides the column. The
// arrow keys move through a list, and Enter chooses a row.
class Rolling {
  constructor(id, columns, cellsOf, choose = null) {
    Object.assign(this, { columns, cellsOf, choose, list: [], active: 0, rows: new Map() });
    this.isChosen = () => false;
    this.box = at(id);
    this.box.tabIndex = choose ? -1 : 0;
    this.box.setAttribute("role", "grid");
    this.box.style.setProperty("--columns", columns.map(([, width]) => width).join(" "));
    this.head = element("div", columns.map(column => this.cell("columnheader", column, column[0])), { className: "row head" });
    this.head.setAttribute("role", "row");
    this.body = element("div", [], { className: "rows" });
    this.room = element("div", this.body, { className: "room" });
    this.note = element("p", [], { className: "note", hidden: true });
    this.box.append(this.head, this.room, this.note);
    this.box.addEventListener("scroll", () => this.show());
    this.box.addEventListener("keydown", event => this.onKey(event));
  }
  cell(role, [head, , kind = ""], content) {
    const made = element("span", content, { className: kind });
    made.setAttribute("role", role);
    if (kind.includes("h") && role === "gridcell") made.dataset.head = head;
    return made;
  }
  get line() { return window.innerWidth < 420 ? 64 : isNarrow() ? 44 : 22; }
  get inView() { return Math.max(Math.floor((this.box.clientHeight - this.head.offsetHeight) / this.line), 1); }
  get whole() { return Math.min(this.list.length * this.line, MOST_ROOM); }
  // How many pixels of the scroll range one row occupies.
  get step() { return this.list.length ? this.whole / this.list.length : 1; }
  get isVisible() { return this.box.offsetParent !== null; }
  set(list) {
    this.list = list;
    this.active = Math.min(this.active, Math.max(list.length - 1, 0));
    const hasFocus = this.body.contains(document.activeElement);
    this.clear();
    this.show();
    if (hasFocus) this.focus();
  }
  clear() {
    this.rows.clear();
    this.body.replaceChildren();
  }
  // Creates the missing rows in view.
  show() {
    if (!this.isVisible) return;
    const isPacked = this.step < this.line, { rows, body } = this, hasFocus = body.contains(document.activeElement);
    this.room.style.height = this.whole + "px";
    const first = Math.max(0, Math.floor(this.box.scrollTop / this.step) - (isPacked ? 0 : 3));
    const last = Math.min(this.list.length, first + this.inView + 8);
    body.style.top = (isPacked ? this.box.scrollTop : first * this.step) + "px";
    this.box.setAttribute("aria-rowcount", this.list.length + 1);
    for (const [place, row] of rows) {
      if (place >= first && place < last) continue;
      rows.delete(place);
      row.remove();
    }
    for (let place = last - 1, after = null; place >= first; place--) {
      if (!rows.has(place)) rows.set(place, body.insertBefore(this.row(place), after));
      after = rows.get(place);
      this.mark(after, place);
    }
    if (hasFocus && !body.contains(document.activeElement)) this.focus();
  }
  mark(row, place) {
    if (this.isChosen(this.list[place])) row.setAttribute("aria-selected", "true");
    else row.removeAttribute("aria-selected");
    if (this.choose) row.tabIndex = place === this.active ? 0 : -1;
  }
  focus() {
    (this.rows.get(this.active) || this.box).focus({ preventScroll: true });
  }
  row(place) {
    const one = this.list[place], cells = this.cellsOf(one, this.list[place - 1]);
    // The blanks between cells allow a long row to wrap.
    const made = cells.flatMap((content, k) => [this.cell("gridcell", this.columns[k], content), " "]);
    const row = element("div", made, { className: "row" });
    row.setAttribute("role", "row");
    row.setAttribute("aria-rowindex", place + 2);
    row.title = row.textContent;
    if (!this.choose) return row;
    row.dataset.place = place;
    row.onclick = () => { this.active = place; this.choose(one); };
    return row;
  }
  // Scrolls until this row is in view.
  follow(place) {
    if (!this.isVisible || !this.list.length) return;
    this.active = Math.min(Math.max(place, 0), this.list.length - 1);
    const top = this.box.scrollTop / this.step, rows = this.inView;
    if (this.active < top + 1 || this.active > top + rows - 2) {
      const isNear = this.active > top - 3 && this.active < top + rows + 2;
      const by = !isNear ? Math.floor(rows / 3) : this.active < top + 1 ? 1 : rows - 2;
      this.box.scrollTop = Math.max(0, (this.active - by) * this.step);
    }
    this.show();
  }
  onKey(event) {
    const by = { ArrowDown: 1, ArrowUp: -1, PageDown: this.inView, PageUp: -this.inView }[event.key];
    const place = event.target.dataset?.place;
    if (place === undefined || !this.choose) return;
    if (event.key === "Enter" || event.key === " ") this.choose(this.list[place]);
    else if (!by) return;
    event.preventDefault();
    event.stopPropagation();
    if (by) this.follow(Number(place) + by);
    this.focus();
  }
  // On paper the list shows its first rows, and a note that says how many rows there are in total.
  print(isOn) {
    const most = 60;
    this.note.hidden = !isOn || this.list.length <= most;
    this.note.textContent = `The first ${most} of ${grouped(this.list.length)}.`;
    this.clear();
    if (!isOn) { this.show(); return; }
    this.body.replaceChildren(...Array.from({ length: Math.min(this.list.length, most) }, (_, place) => this.row(place)));
  }
}

// Sets up tabs. Calls `shown` with the name of the tab that becomes visible.
function makeTabs(id, shown) {
  const tabs = [...at(id).querySelectorAll("[role=tab]")];
  const choose = tab => {
    for (const one of tabs) {
      const isOn = one === tab;
      one.setAttribute("aria-selected", isOn);
      one.tabIndex = isOn ? 0 : -1;
      at(one.getAttribute("aria-controls")).hidden = !isOn;
    }
    shown(tab.getAttribute("aria-controls"));
  };
  tabs.forEach(tab => {
    tab.onclick = () => choose(tab);
    tab.onkeydown = event => {
      const by = { ArrowRight: 1, ArrowLeft: -1 }[event.key], next = by && tabs.filter(one => !one.hidden);
      if (!by) return;
      const to = next[(next.indexOf(tab) + by + next.length) % next.length];
      event.preventDefault();
      choose(to);
      to.focus();
    };
  });
  return name => choose(tabs.find(tab => tab.getAttribute("aria-controls") === name));
}

// Buttons that select kinds. If no kind is selected, all kinds are shown. `numbers` maps each kind to its count.
class Chips {
  constructor(id, changed) {
    Object.assign(this, { box: at(id), changed, chosen: new Set(), made: new Map() });
  }
  has(kind) { return !this.chosen.size || this.chosen.has(kind); }
  set(numbers) {
    let all = 0;
    for (const number of numbers.values()) all += number;
    for (const [kind, number] of [["", all], ...numbers]) {
      if (!this.made.has(kind)) this.make(kind);
      this.made.get(kind).lastChild.data = `${kind || "all"} ${grouped(number)}`;
    }
    this.mark();
  }
  make(kind) {
    const button = element("button", [""], { type: "button", title: kind ? `show only ${kind}, and what else is chosen` : "show all kinds" });
    button.append("");
    button.onclick = () => {
      if (!kind) this.chosen.clear();
      else if (!this.chosen.delete(kind)) this.chosen.add(kind);
      this.mark();
      this.changed();
    };
    this.made.set(kind, button);
    this.box.append(button);
  }
  mark() {
    for (const [kind, button] of this.made) {
      button.setAttribute("aria-pressed", kind ? this.chosen.has(kind) : !this.chosen.size);
    }
  }
}

// Saves a list as a file for a spreadsheet: comma-separated values (RFC 4180). Numbers have no separators between
// groups of digits.

function csvOf(list, panel) {
  const rows = list ? [list.columns.map(([head]) => head), ...Array.from(list.list, (one, k) => list.cellsOf(one, list.list[k - 1]))]
    : [...panel.querySelectorAll("tr")].map(row => [...row.cells]);
  return rows.map(cells => `${cells.map(csvCell).join()}\r\n`).join("");
}
function csvCell(cell) {
  const text = [cell].flat().map(part => part instanceof Node ? part.textContent : String(part ?? "")).join("");
  const plain = /^\d{1,3}(,\d{3})+(\.\d+)?$/.test(text) ? text.replaceAll(",", "") : text;
  return /[",\r\n]/.test(plain) ? `"${plain.replaceAll('"', '""')}"` : plain;
}
function saveCsv(name, text) {
  const link = element("a", [], { href: URL.createObjectURL(new Blob([text], { type: "text/csv" })), download: name });
  link.click();
  setTimeout(() => URL.revokeObjectURL(link.href), 1000);
}
