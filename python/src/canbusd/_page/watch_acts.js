// The controls of a page with actions: they send frames, add fault rules, and take nodes down and up. `canbusd watch`
// performs each action. It returns a line of Python that does the same, or the reason why the action was refused.

const cycles = new Map(), actNode = () => at("act-name").value;
let page = "";

async function act(form, name, asked) {
  const said = at(form).querySelector(".said"), node = actNode();
  said.replaceChildren();
  const headers = { "Content-Type": "application/json", "X-Canbusd-Token": location.pathname.split("/")[1] };
  const answer = await fetch(name, { method: "POST", headers, body: JSON.stringify({ node, page, ...asked }) }).then(
    reply => reply.ok ? reply.json() : { fault: `${reply.status} ${reply.statusText}` },
    () => ({ fault: "`canbusd watch` has ended, or can't be reached" }));
  if (answer.fault !== undefined) said.replaceChildren(element("span", `Refused: ${answer.fault}`, { className: "bad" }));
  else said.replaceChildren(element("code", answer.python), " ", copyButton(answer.python));
}
function copyButton(text) {
  const button = element("button", "copy", { type: "button", title: "copy this line of Python" });
  button.onclick = () => navigator.clipboard.writeText(text).then(() => { button.textContent = "copied"; },
    () => { button.textContent = "not copied"; });
  return button;
}
// Returns the frame in the input fields: the frame as a string, or a message with the signals that have a value.
function askedFrame() {
  const message = at("act-message").value;
  if (!message) return { frame: at("act-id").value.trim() + at("act-kind").value + at("act-data").value.replace(/\s/g, "") };
  const given = [...at("by-signals").querySelectorAll("input")].filter(one => one.value.trim());
  return { message, signals: Object.fromEntries(given.map(one => [one.name, one.value.trim()])) };
}
const ASKED = {
  send: askedFrame,
  cycle: () => ({ ...askedFrame(), period: Number(at("act-period").value) / 1000 }),
  rule: () => ({ rule: at("act-text").value }),
};
// Shows an input field for each signal, with its start value and the names of its values.
function showSignals() {
  const [name, period, signalsOf] = messages.find(([one]) => one === at("act-message").value) || ["", 0, []];
  at("by-hand").hidden = name !== "";
  at("by-signals").hidden = name === "";
  at("by-signals").replaceChildren(...signalsOf.map(([signal, unit, start, words], k) => {
    const input = element("input", [], { name: signal, size: 9, placeholder: start, title: `as it starts: ${start}` });
    if (words.length) input.setAttribute("list", `words-${k}`);
    const list = element("datalist", words.map(value => element("option", [], { value })), { id: `words-${k}` });
    return element("label", [`${signal} `, input, ` ${unit}`, ...words.length ? [list] : []]);
  }));
  if (period) at("act-period").value = 1000 * period;
}
const READY = [["one of these", () => at("act-text").value],
  ["its next frame is destroyed", node => `next 1 from ${node} global bit`],
  ["its next frame fails in the last bit", node => `next 1 from ${node} lastbit`],
  ["it sees a CRC error in the next frame", node => `next 1 local crc ${node}`],
  ["it goes bus off", node => `next 32 from ${node} global bit`],
  ["none of its frames comes through", node => `always from ${node} global bit`]];
// Shows the cyclic frames that `canbusd watch` reports. A frame keeps its row and its button until it is no longer
// reported.
function showCycles(all) {
  for (const [number, row] of cycles) {
    if (all.some(([one]) => one === number)) continue;
    row.remove();
    cycles.delete(number);
  }
  for (const [number, node, text, period, fault] of all) {
    if (!cycles.has(number)) {
      const button = element("button", "stop", { type: "button" });
      button.onclick = () => act("act-frame", "stop", { cycle: number }).then(() => at("act-frame").elements.cycle.focus());
      cycles.set(number, element("li", [button, " ", element("span", `${text} by ${node}, every ${+(1000 * period).toFixed(3)} ms`),
        " ", element("span", [], { className: "bad" })]));
      at("cycles").append(cycles.get(number));
    }
    const said = cycles.get(number).lastChild;
    if (said.textContent !== fault) said.textContent = fault;
  }
}
on("begun", () => {
  at("act-name").append(...names.map(name => element("option", name)));
  at("act-ready").append(...READY.map(([words], k) => element("option", words, { value: k })));
  at("act-message").append(...messages.map(([name]) => element("option", name)));
  at("of-messages").hidden = !messages.length;
  const showReady = () => { at("act-text").value = READY[at("act-ready").value][1](actNode()); };
  const showNode = () => {
    for (const one of document.querySelectorAll(".node-name")) one.textContent = actNode();
    showReady();
  };
  at("act-name").onchange = showNode;
  showNode();
  at("act-ready").onchange = showReady;
  at("act-text").oninput = () => { at("act-ready").value = 0; };
  at("act-message").onchange = showSignals;
  at("act-kind").onchange = () => {
    const isRemote = at("act-kind").value === "#R";
    at("data-or-length").textContent = isRemote ? "length" : "data";
    at("act-data").placeholder = isRemote ? "0 to 8" : "11 22 AB";
  };
  for (const form of at("acts").querySelectorAll("form")) {
    form.onsubmit = event => {
      event.preventDefault();
      const { name } = event.submitter;
      act(form.id, name, ASKED[name]?.());
    };
  }
  KEYS.s = () => {
    at("acts").open = true;
    at(at("act-message").value ? "act-message" : "act-id").focus();
  };
});
on("news", said => {
  if (said.page !== undefined) ({ page } = said);
  showCycles(said.cycles || []);
});
