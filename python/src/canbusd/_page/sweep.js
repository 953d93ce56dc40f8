// The page of a sweep: the failures in groups, and a matrix of attempts and faults.
"use strict";

const sweep = JSON.parse(document.getElementById("run").textContent);
const get = (id) => document.getElementById(id);
const SIGNS = { failed: "\u2715", passed: "\u00b7", skipped: "s", none: "" };
let chosen = null;
let cells = [];

function made(name, text, attributes) {
    const one = document.createElement(name);
    if (text !== undefined) one.textContent = text;
    for (const [key, value] of Object.entries(attributes || {})) one.setAttribute(key, value);
    return one;
}

function outcomeOf(place) {
    return place && place.result ? place.result.outcome : "none";
}

// Returns a text with a button that copies it.
function copied(label, text) {
    const line = made("p", `${label} `);
    const button = made("button", "copy", { type: "button" });
    button.addEventListener("click", () => navigator.clipboard.writeText(text));
    line.append(made("code", text), " ", button);
    return line;
}

function linked(place) {
    const line = made("p");
    line.append(made("a", "page of the run", { href: place.page }));
    return line;
}

function placesOf(test) {
    const at = new Map();
    for (const place of test.placements) {
        if (place.attempts.length === 1) at.set(`${place.bus} ${place.attempts[0]} ${place.kind}`, place);
    }
    return at;
}

// ---- groups ----

function groupsOf(test) {
    const groups = new Map();
    for (const place of test.placements) {
        if (!groups.has(place.group)) groups.set(place.group, []);
        groups.get(place.group).push(place);
    }
    return [...groups].filter(([, places]) => places.some((place) => outcomeOf(place) === "failed"));
}

function failuresOf(places) {
    const counts = new Map();
    for (const place of places) {
        if (outcomeOf(place) !== "failed") continue;
        const shape = place.result.message.replace(/\w*[0-9]\w*/g, "N");
        const one = counts.get(shape) || [0, place.result.message];
        counts.set(shape, [one[0] + 1, one[1]]);
    }
    return [...counts.values()].sort((a, b) => b[0] - a[0]);
}

function drawGroup(test, group, places) {
    const run = places.filter((place) => place.result);
    const bad = places.filter((place) => outcomeOf(place) === "failed");
    const first = bad.find((place) => place.page) || bad[0];
    const is_known = test.known.includes(group);
    const box = made("details", undefined, is_known ? {} : { open: "" });
    const head = made("summary", `${group}: ${bad.length} of ${run.length} placements fail${is_known ? ", as is known" : ""}`);
    box.append(head);
    for (const [count, text] of failuresOf(places).slice(0, 3)) box.append(made("p", `${count} \u00d7 ${text}`));
    box.append(copied("repeat:", first.command));
    if (first.rule) box.append(copied(...first.kept_as.split(/: (.*)/).slice(0, 2)));
    if (first.page) box.append(linked(first));
    return box;
}

function drawGroups(tests) {
    const all = get("groups");
    all.replaceChildren();
    for (const test of tests) {
        if (test.base && test.base.outcome !== "passed") {
            all.append(made("h2", test.test), made("p", `${test.base.outcome} without a fault: ${test.base.message}`));
        }
        const groups = groupsOf(test);
        if (groups.length) all.append(made("h2", test.test));
        for (const [group, places] of groups) all.append(drawGroup(test, group, places));
    }
}

// ---- the matrix of attempts and faults ----

function filters() {
    return {
        sender: get("of-sender").value,
        identifier: get("of-identifier").value.trim().toUpperCase(),
        kind: get("of-kind").value,
        outcome: get("of-outcome").value,
    };
}

function drawCell(test, place) {
    const outcome = outcomeOf(place);
    const cell = made("td", SIGNS[outcome], { class: `cell ${place ? outcome : "empty"}` });
    if (place) {
        cell.title = place.result ? place.result.message || outcome : "not run";
        cell.addEventListener("click", () => choose(cells.find((one) => one.cell === cell)));
    }
    return cell;
}

function drawRow(test, attempt, kinds, at, wanted) {
    const places = kinds.map((kind) => at.get(`${attempt.bus} ${attempt.number} ${kind}`));
    const is_wanted = places.some((place) => place && (!wanted.outcome || outcomeOf(place) === wanted.outcome));
    if (!is_wanted) return null;
    const row = made("tr");
    const moment = (Number(attempt.moment) - Number(test.attempts[0].moment)).toFixed(6);
    for (const text of [attempt.number, moment, attempt.sender]) row.append(made("td", text));
    row.append(made("td", attempt.frame, { class: "frame" }));
    const found = places.map((place) => ({ test, attempt, place, cell: drawCell(test, place) }));
    for (const one of found) row.append(one.cell);
    cells.push(...found.map((one, column) => ({ ...one, column, row: cells.row })));
    cells.row += 1;
    return row;
}

function drawTest(test, wanted) {
    const kinds = [...new Set(test.placements.filter((one) => one.attempts.length === 1).map((one) => one.kind))]
        .filter((kind) => !wanted.kind || kind === wanted.kind);
    const table = made("table", undefined, { class: "matrix" });
    const head = made("tr");
    for (const text of ["attempt", "after, s", "from", "frame", ...kinds]) head.append(made("th", text));
    table.append(made("caption", test.test), head);
    const at = placesOf(test);
    for (const attempt of test.attempts) {
        if (wanted.sender && attempt.sender !== wanted.sender) continue;
        if (wanted.identifier && !attempt.identifier.startsWith(wanted.identifier)) continue;
        const row = drawRow(test, attempt, kinds, at, wanted);
        if (row) table.append(row);
    }
    return table;
}

function draw() {
    const wanted = filters();
    const name = get("of-test").value;
    const tests = sweep.tests.filter((test) => !name || test.test === name);
    cells = [];
    cells.row = 0;
    drawGroups(tests);
    get("matrix").replaceChildren(...tests.filter((test) => test.attempts.length).map((test) => drawTest(test, wanted)));
    get("found").textContent = `${cells.row} attempts shown`;
    choose(cells.find((one) => outcomeOf(one.place) === "failed") || cells.find((one) => one.place), true);
}

function choose(one, is_first) {
    if (!one) return;
    for (const other of cells) other.cell.classList.remove("here");
    chosen = one;
    one.cell.classList.add("here");
    if (!is_first) one.cell.scrollIntoView({ block: "nearest" });
    const box = get("chosen");
    box.replaceChildren(made("h2", one.place ? `${one.place.kind} ${one.attempt.frame}` : "no placement"));
    if (!one.place) return;
    const { attempt, place } = one;
    box.append(made("p", `attempt ${attempt.number}, frame ${attempt.nth} of ${attempt.identifier} from ${attempt.sender}`));
    box.append(made("p", `${outcomeOf(place) === "none" ? "not run" : outcomeOf(place)}: ${place.faults.join(", ")}`));
    if (place.page) box.append(linked(place));
    box.append(copied("repeat:", place.command));
    if (place.rule) box.append(copied(...place.kept_as.split(/: (.*)/).slice(0, 2)));
    if (place.result && place.result.message) box.append(made("pre", place.result.long || place.result.message));
}

// ---- keys ----

function stepTo(rows, columns) {
    const row = chosen.row + rows;
    const found = cells.filter((one) => one.row === row);
    choose(found.find((one) => one.column === chosen.column + columns) || found[found.length - 1]);
}

function nextFailure(by) {
    const bad = cells.filter((one) => outcomeOf(one.place) === "failed");
    if (!bad.length) return;
    const at = cells.indexOf(chosen);
    const later = by > 0 ? bad.find((one) => cells.indexOf(one) > at) : [...bad].reverse().find((one) => cells.indexOf(one) < at);
    choose(later || (by > 0 ? bad[0] : bad[bad.length - 1]));
}

const KEYS = {
    ArrowUp: () => stepTo(-1, 0),
    ArrowDown: () => stepTo(1, 0),
    ArrowLeft: () => stepTo(0, -1),
    ArrowRight: () => stepTo(0, 1),
    f: () => nextFailure(1),
    F: () => nextFailure(-1),
    Enter: () => chosen.place && chosen.place.page && window.location.assign(chosen.place.page),
};

function fill(id, values) {
    get(id).replaceChildren(made("option", "all", { value: "" }), ...values.map((value) => made("option", value)));
}

function begin() {
    const places = sweep.tests.flatMap((test) => test.placements);
    const run = places.filter((place) => place.result);
    const bad = run.filter((place) => outcomeOf(place) === "failed");
    get("title").textContent = bad.length ? `${bad.length} of ${run.length} placements fail` : `${run.length} placements, none fails`;
    document.title = `canbusd sweep: ${get("title").textContent}`;
    const tests = `${sweep.tests.length} test${sweep.tests.length === 1 ? "" : "s"}`;
    get("facts").textContent = `${tests}, ${places.length} placements, ${places.length - run.length} not run`;
    fill("of-test", sweep.tests.map((test) => test.test));
    fill("of-sender", [...new Set(sweep.tests.flatMap((test) => test.attempts.map((one) => one.sender)))]);
    fill("of-kind", [...new Set(places.map((place) => place.kind))]);
    for (const id of ["of-test", "of-sender", "of-identifier", "of-kind", "of-outcome"]) get(id).addEventListener("input", draw);
    for (const button of document.querySelectorAll("[data-key]")) {
        button.addEventListener("click", () => KEYS[button.dataset.key]());
    }
    document.addEventListener("keydown", (event) => {
        if (event.target.closest("input, select, button") || !KEYS[event.key] || !chosen) return;
        event.preventDefault();
        KEYS[event.key]();
    });
    document.body.dataset.drawn = "";
    draw();
}

begin();
