// The user's actions: moving, zooming and choosing.

function look(from, to) {
  const span = Math.min(Math.max(to - from, axis.least), axis.length);
  view.from = Math.min(Math.max(0, from), axis.length - span);
  view.to = view.from + span;
  time.moved();
  redraw();
}
function zoom(by, middle = Math.min(Math.max(axis.start[view.step] ?? 0, view.from), view.to)) {
  const left = (middle - view.from) * by;
  look(middle - left, middle - left + (view.to - view.from) * by);
}
let isDue = false, drawing = () => {};
function redraw() {
  if (isDue) return;
  isDue = true;
  requestAnimationFrame(() => { isDue = false; drawing(); });
}
function listenToTime() {
  const canvas = at("lanes"), tip = at("tip");
  const placeAt = event => view.from + event.offsetX / plotted().width * (view.to - view.from);
  const rangeAt = event => {
    const each = (view.to - view.from) / plotted().width, near = time.isInstant ? 3 : 0;
    const first = near ? axis.from(placeAt(event) - near * each) : axis.stepAt(placeAt(event));
    return [first, Math.max(first + (near ? 0 : 1), axis.from(placeAt(event) + (near || 1) * each))];
  };
  let held = null;
  for (const one of [canvas, at("ruler")]) {
    one.addEventListener("wheel", event => turn(event, placeAt(event)), { passive: false });
    one.addEventListener("pointerdown", event => {
      held = { place: placeAt(event), x: event.offsetX, moved: false };
      one.setPointerCapture(event.pointerId);
    });
    one.addEventListener("pointermove", event => {
      if (held && (held.moved || Math.abs(event.offsetX - held.x) > 4)) {
        held.moved = true;
        const by = held.place - placeAt(event);
        look(view.from + by, view.to + by);
      }
      const isIn = axis.count && !held && event.offsetX <= plotted().width, [first, last] = isIn ? rangeAt(event) : [0, 0];
      showTip(tip, event, last > first ? time.words(first, last) : "");
    });
    one.addEventListener("pointerleave", event => showTip(tip, event, ""));
    one.addEventListener("pointercancel", () => held = null);
    one.addEventListener("pointerup", event => {
      const [first, last] = axis.count ? rangeAt(event) : [0, 0];
      if (held && !held.moved && last > first) time.choose(first, last, event.shiftKey);
      held = null;
    });
  }
  listenToOverview();
}
function turn(event, place) {
  const isAside = Math.abs(event.deltaX) > Math.abs(event.deltaY);
  if (!event.ctrlKey && !event.metaKey && !isAside) return;
  event.preventDefault();
  if (!isAside) { zoom(event.deltaY < 0 ? 0.8 : 1.25, place); return; }
  const by = event.deltaX / plotted().width * (view.to - view.from);
  look(view.from + by, view.to + by);
}
function listenToOverview() {
  const canvas = at("overview");
  const move = event => {
    const place = event.offsetX / canvas.clientWidth * axis.length, half = (view.to - view.from) / 2;
    look(place - half, place + half);
  };
  canvas.addEventListener("pointerdown", event => { canvas.setPointerCapture(event.pointerId); move(event); });
  canvas.addEventListener("pointermove", event => { if (event.buttons) move(event); });
}
function showTip(tip, event, text) {
  tip.hidden = !text;
  if (!text) return;
  tip.textContent = text;
  const x = Math.min(event.clientX + 14, window.innerWidth - tip.offsetWidth - 8);
  const below = event.clientY + 18, isLow = below + tip.offsetHeight > window.innerHeight;
  tip.style.left = Math.max(4, x) + "px";
  tip.style.top = Math.max(4, isLow ? event.clientY - tip.offsetHeight - 10 : below) + "px";
}

// Redraws when the colours or the width change. While the page is printed, uses the colours for paper.
function keepDrawn(draw, print) {
  drawing = draw;
  const again = () => { readTheme(); layer = ""; drawing(); };
  matchMedia("(prefers-color-scheme: dark)").addEventListener("change", again);
  window.addEventListener("resize", () => { layer = ""; redraw(); });
  window.addEventListener("beforeprint", () => { document.documentElement.dataset.paper = ""; print(true); again(); });
  window.addEventListener("afterprint", () => { delete document.documentElement.dataset.paper; print(false); again(); });
  again();
}
