// The sheet in a browser: what is typed is tried at once, and kept, dropped or taken back.
"use strict";

const at = (id) => document.getElementById(id);
const rows = new Map(); // by name: the cells of each variable, in the tables and among the pinned
let sheet = null; // what the server last gave
let draft = {}; // the move on trial: names and what was typed
let pins = [];
let asked = 0; // the number of the last trial that was asked for: an older answer is passed over
let started = 0; // when the last change was typed

// ── asking the server ──
async function ask(what, body) {
  const answer = await fetch("api/" + what, body === undefined ? {} : { method: "POST", body: JSON.stringify(body) });
  const said = await answer.json();
  if (said.error) throw said.error;
  return said;
}

function tell(error) {
  const field = error.name !== null && rows.get(error.name)?.input;
  if (field) {
    const { input, wrong } = rows.get(error.name);
    input.setAttribute("aria-invalid", "true");
    wrong.textContent = error.sentence;
    wrong.hidden = false;
  }
  at("wrong").textContent = field ? error.name + ": see the field" : error.sentence ?? "the server cannot be reached: is it still running?";
}

function untell() {
  at("wrong").textContent = "";
  for (const { input, wrong } of rows.values()) {
    if (!input || wrong.hidden) continue;
    input.removeAttribute("aria-invalid");
    wrong.hidden = true;
  }
}

// ── drawing the sheet ──
function make(tag, attributes = {}, ...children) {
  const made = document.createElement(tag);
  for (const [name, value] of Object.entries(attributes)) {
    if (name.startsWith("on")) made.addEventListener(name.slice(2), value);
    else if (value !== false) made.setAttribute(name, value === true ? "" : value);
  }
  made.append(...children);
  return made;
}

const groupOf = (name) => name.includes(".") ? name.slice(0, name.lastIndexOf(".")) : "";

function grouped(variables, columns, row) {
  const groups = new Map();
  for (const variable of variables) {
    const group = groupOf(variable.name);
    if (!groups.has(group)) groups.set(group, make("tbody"));
    groups.get(group).append(row(variable));
  }
  return [...groups].map(([group, body]) =>
    make("details", { open: true }, make("summary", {}, group || "without a group"),
      make("table", {}, make("colgroup", {}, ...columns.map((column) => make("col", { class: column }))), body)));
}

const nameButton = (name) => make("button", { class: "name", title: "what it is made from, and what reads it", onclick: () => about(name) }, name);

function setRow(variable) {
  const id = "v" + rows.size;
  const wrong = make("div", { class: "wrong", id: id + "-wrong", hidden: true });
  const input = make("input", { class: "value", id, value: variable.shown, autocomplete: "off", spellcheck: "false", inputmode: "text",
    "aria-label": variable.name, "aria-describedby": id + "-wrong", oninput: typed });
  input.name = variable.name;
  const bounds = variable.low || variable.high ? `${variable.low}..${variable.high}` : "";
  const now = make("span", { class: "tried", hidden: true });
  const row = make("tr", {}, make("td", {}, nameButton(variable.name)), make("td", { class: "number" }, input),
    make("td", { class: "about" }, now, bounds, wrong));
  rows.set(variable.name, { variable, row, input, wrong, now });
  return row;
}

function followsRow(variable) {
  const now = make("td", { class: "number" }), tried = make("td", { class: "number tried" }), why = make("td", { class: "about" });
  const pin = make("button", { class: "pin", "aria-label": "pin " + variable.name, onclick: () => turnPin(variable.name) });
  const row = make("tr", {}, make("td", {}, pin, " ", nameButton(variable.name)), now, tried, why);
  rows.set(variable.name, { variable, row, now, tried, why, pin });
  return row;
}

function drawSheet() {
  rows.clear();
  document.title = sheet.source + " – Lukhandro";
  at("source").textContent = sheet.source;
  at("set").replaceChildren(...grouped(sheet.variables.filter((v) => v.formula === undefined), ["name", "field", ""], setRow));
  at("follows").replaceChildren(...grouped(sheet.variables.filter((v) => v.formula !== undefined), ["name", "number", "number", ""], followsRow));
  for (const name of rows.keys()) drawNow(name);
  drawPins();
  drawStanding();
  filter();
}

// the value as it is stored, and why it is blank
function drawNow(name) {
  const { variable, now, why, input } = rows.get(name);
  if (input) {
    if (!(name in draft)) input.value = variable.shown;
    return;
  }
  now.textContent = variable.shown;
  drawWhy(why, variable);
}

// the formula; of a blank its reason, and if it is stored the way down to its cause on a click
function drawWhy(cell, value) {
  const { variable } = rows.get(value.name);
  if (value.blank && value === variable) cell.replaceChildren(make("button", { class: "name", onclick: () => about(value.name) }, value.blank));
  else cell.textContent = value.blank ?? variable.formula;
}

function drawPins() {
  at("pinned").replaceChildren(...pins.map((name) => {
    const entry = rows.get(name), { variable } = entry;
    const tried = make("td", { class: "number tried" }), why = make("td", { class: "about" });
    drawWhy(why, variable);
    entry.pinned = { tried, why, row: make("tr", {}, make("td", {}, nameButton(name)), make("td", { class: "number" }, variable.shown), tried, why) };
    return entry.pinned.row;
  }));
  for (const [name, { pin }] of rows) {
    if (!pin) continue;
    pin.textContent = pins.includes(name) ? "★" : "☆";
    pin.setAttribute("aria-pressed", pins.includes(name));
  }
}

function drawStanding() {
  const kept = sheet.log.length;
  at("standing").textContent = `${sheet.variables.length} values, ${sheet.blanks || "none"} of them blank; ` +
    `${kept} kept ${kept === 1 ? "move" : "moves"} to take back${sheet.unsaved ? "; not saved" : ""}`;
  at("back").disabled = kept === 0;
  at("save").disabled = !sheet.unsaved;
  at("log").replaceChildren(...sheet.log.map((move) => make("li", {}, move.join("; "))));
  at("log-said").textContent = kept === 0 ? "None yet." : kept === sheet.most_log ? "The oldest goes when another is kept." : "";
  at("keep").disabled = at("drop").disabled = Object.keys(draft).length === 0;
}

function filter() {
  const holds = at("holds").value;
  for (const [name, { row }] of rows) row.hidden = !name.includes(holds);
  for (const group of document.querySelectorAll("details")) group.hidden = !group.querySelector("tr:not([hidden])");
}

// ── a move on trial ──
function typed(event) {
  const { name, value } = event.target;
  if (value.trim() === rows.get(name).variable.shown) delete draft[name];
  else draft[name] = value;
  remember();
  tryDraft();
}

async function tryDraft() {
  const mine = ++asked;
  started = performance.now();
  at("keep").disabled = at("drop").disabled = Object.keys(draft).length === 0;
  try {
    const tried = await ask("try", { move: draft, pins, route: Number(at("route").value), holds: at("holds").value });
    if (mine !== asked) return;
    untell();
    if (tried.state !== sheet.state) return await load();
    drawTried(tried);
  } catch (error) {
    if (mine !== asked) return;
    untell();
    drawTried({ changes: [], pinned: [] });
    tell(error);
    at("keep").disabled = true;
  }
}

function drawTried(tried) {
  for (const entry of rows.values()) {
    if (!entry.changed) continue;
    entry.changed = false;
    entry.row.classList.remove("changed");
    if (entry.tried) entry.tried.textContent = "";
    else entry.now.hidden = true;
    if (entry.why) drawWhy(entry.why, entry.variable);
    if (entry.pinned) {
      entry.pinned.row.classList.remove("changed");
      entry.pinned.tried.textContent = "";
      drawWhy(entry.pinned.why, entry.variable);
    }
  }
  for (const change of tried.changes) {
    const entry = rows.get(change.name);
    entry.changed = true;
    entry.row.classList.add("changed");
    if (entry.input) {
      entry.now.textContent = `was ${entry.variable.shown} `;
      entry.now.hidden = false;
    } else {
      entry.tried.textContent = change.shown;
      drawWhy(entry.why, change);
    }
  }
  for (const result of tried.pinned) {
    const { pinned, variable } = rows.get(result.name);
    if (!pinned || result.shown === variable.shown) continue;
    rows.get(result.name).changed = true;
    pinned.row.classList.add("changed");
    pinned.tried.textContent = result.shown;
    drawWhy(pinned.why, result);
  }
  if (tried.day) drawDay(tried.day);
  if (tried.route) cost(tried, `route ${tried.route}: `);
}

function cost(said, before) {
  at("said").textContent = `${before}${said.evaluations} ${said.evaluations === 1 ? "evaluation" : "evaluations"}, ${said.microseconds} µs`;
  const typedAt = started;
  requestAnimationFrame(() => setTimeout(() => { document.body.dataset.shownAfter = (performance.now() - typedAt).toFixed(1); }));
}

async function store(what, body, before) {
  try {
    const said = await ask(what, { state: sheet.state, ...body });
    if (what !== "save") draft = {};
    remember();
    Object.assign(sheet, { state: said.state, blanks: said.blanks, log: said.log, unsaved: said.unsaved });
    for (const variable of said.changed ?? []) {
      Object.assign(rows.get(variable.name).variable, { blank: undefined }, variable);
      drawNow(variable.name);
    }
    for (const [name, { input, variable }] of rows) if (input && !(name in draft)) input.value = variable.shown;
    drawPins();
    drawStanding();
    await tryDraft();
    if (said.changed) cost(said, before);
    else at("said").textContent = before;
  } catch (error) {
    untell();
    tell(error);
    if (error.stale) await load(false);
  }
}

function dropDraft() {
  draft = {};
  remember();
  for (const { input, variable } of rows.values()) if (input) input.value = variable.shown;
  tryDraft();
}

// ── what is pinned, and what a page remembers of itself ──
function turnPin(name) {
  if (pins.includes(name)) pins = pins.filter((pin) => pin !== name);
  else if (pins.length < sheet.most_pins) pins = [...pins, name];
  else return tell({ sentence: `at most ${sheet.most_pins} names can be pinned`, name: null });
  remember();
  drawPins();
  tryDraft();
}

const remember = () => sessionStorage.setItem(sheet.source, JSON.stringify({ draft, pins, route: at("route").value }));

function recall() {
  const known = (name) => sheet.variables.some((v) => v.name === name);
  const kept = JSON.parse(sessionStorage.getItem(sheet.source) ?? "null");
  pins = (kept?.pins ?? sheet.pins).filter(known);
  draft = Object.fromEntries(Object.entries(kept?.draft ?? {}).filter(([name]) => known(name)));
  if (kept) at("route").value = kept.route;
}

// ── why, and what is around a variable ──
async function about(name) {
  try {
    const query = "?name=" + encodeURIComponent(name);
    const [why, around] = await Promise.all([ask("why" + query), ask("around" + query)]);
    at("about-head").textContent = name;
    at("about-lines").replaceChildren(...why.lines.map((line) => make("li", {}, line.trim())));
    at("graph").replaceChildren(drawGraph(around));
    at("about").showModal();
  } catch (error) {
    tell(error);
  }
}

// ── pictures ──
function draw(tag, attributes = {}, ...children) {
  const made = document.createElementNS("http://www.w3.org/2000/svg", tag);
  for (const [name, value] of Object.entries(attributes)) made.setAttribute(name, value);
  made.append(...children);
  return made;
}

const clock = (s) => `${Math.floor(s / 3600)}:${String(Math.floor(s / 60) % 60).padStart(2, "0")}`;

function drawDay(day) {
  const lanes = day.lanes, all = lanes.flatMap((lane) => [lane.now, lane.tried ?? lane.now]).flatMap((part) => part.windows);
  at("day-said").textContent = all.length === 0 ? "No window of departures fits." :
    (lanes.some((lane) => lane.tried) ? "Above as it is, below in the other colour as it is tried. " : "") +
    (day.trips > lanes.length ? `${lanes.length} of ${day.trips} trips: say what their names hold to see others.` : "");
  if (all.length === 0) return at("day").replaceChildren();
  const hour = 3600, from = Math.floor(Math.min(...all.map((w) => w[0])) / hour) * hour;
  const to = Math.max(from + hour, Math.ceil(Math.max(...all.map((w) => w[1])) / hour) * hour);
  const left = 180, width = 820, high = 26, x = (s) => left + (Math.min(Math.max(s, from), to) - from) / (to - from) * width;
  const step = hour * Math.max(1, Math.ceil((to - from) / hour / 12));
  const picture = draw("svg", { viewBox: `0 0 ${left + width + 30} ${lanes.length * high + 24}`, width: left + width + 30, role: "img",
    "aria-label": "departures of " + lanes.map((lane) => lane.name).join(", ") });
  for (let s = from; s <= to; s += step) {
    picture.append(draw("line", { class: "grid", x1: x(s), x2: x(s), y1: 16, y2: lanes.length * high + 20 }),
      draw("text", { class: "soft", x: x(s), y: 12, "text-anchor": "middle" }, clock(s)));
  }
  lanes.forEach((lane, k) => {
    const top = 20 + k * high;
    picture.append(draw("text", { x: 0, y: top + 14 }, lane.name.length > 24 ? "…" + lane.name.slice(-23) : lane.name));
    drawLane(picture, lane.now, x, top, "");
    if (lane.tried) drawLane(picture, lane.tried, x, top, "moved ");
  });
  at("day").replaceChildren(picture);
}

function drawLane(picture, part, x, top, moved) {
  for (const [start, end] of part.windows) {
    if (end > start) picture.append(draw("rect", { class: moved + "bar", x: x(start), y: top + 4, width: x(end) - x(start), height: 14 }));
  }
  for (const time of part.departures) {
    const [y1, y2] = moved ? [top + 12, top + 21] : [top + 2, top + 11];
    picture.append(draw("line", { class: moved + "tick", x1: x(time), x2: x(time), y1, y2 }, draw("title", {}, clock(time))));
  }
  if (part.refused) picture.append(draw("text", { class: "soft", x: x(0) + 4, y: top + 14 }, part.refused));
}

function drawGraph(around) {
  const wide = 180, high = 40, columns = [-2, -1, 0, 1, 2].map((step) => around.nodes.filter((node) => node.step === step));
  const tall = Math.max(...columns.map((column) => column.length)) * (high + 8) + 24, places = new Map();
  const picture = draw("svg", { viewBox: `0 0 ${5 * (wide + 30)} ${tall}`, width: 5 * (wide + 30), role: "img",
    "aria-label": `what ${around.name} is made from, and what reads it` });
  columns.forEach((column, k) => column.forEach((node, j) => {
    places.set(node.name, { x: k * (wide + 30), y: 4 + j * (high + 8) });
  }));
  for (const [from, to] of around.links) {
    const a = places.get(from), b = places.get(to);
    picture.append(draw("path", { class: "link", d: `M${a.x + wide},${a.y + high / 2} C${a.x + wide + 15},${a.y + high / 2} ${b.x - 15},${b.y + high / 2} ${b.x},${b.y + high / 2}` }));
  }
  for (const node of around.nodes) {
    const { x, y } = places.get(node.name);
    picture.append(draw("g", { class: node.step === 0 ? "here" : "" }, draw("title", {}, `${node.name} ${node.formula}`),
      draw("rect", { class: "box", x, y, width: wide, height: high, rx: 4 }),
      draw("text", { x: x + 6, y: y + 16 }, node.name.length > 24 ? "…" + node.name.slice(-23) : node.name),
      draw("text", { class: "soft", x: x + 6, y: y + 33 }, node.shown)));
  }
  for (const [step, number] of Object.entries(around.more)) {
    picture.append(draw("text", { class: "soft", x: (Number(step) + 2) * (wide + 30), y: tall - 6 }, `and ${number} more`));
  }
  return picture;
}

// ── the page ──
async function load(recalls = true) {
  sheet = await ask("sheet");
  if (recalls) recall();
  drawSheet();
  for (const [name, text] of Object.entries(draft)) {
    const input = rows.get(name)?.input;
    if (input) input.value = text;
  }
  await tryDraft();
}

async function watch() {
  try {
    if (!document.hidden && sheet && (await ask("state")).state !== sheet.state) await load();
    if (at("wrong").textContent.startsWith("the server cannot")) at("wrong").textContent = "";
  } catch (error) {
    tell(error);
  }
  setTimeout(watch, 1000);
}

at("keep").addEventListener("click", () => store("keep", { move: draft }, "kept: "));
at("drop").addEventListener("click", dropDraft);
at("back").addEventListener("click", () => store("back", {}, "taken back: "));
at("save").addEventListener("click", () => store("save", {}, "saved"));
at("route").addEventListener("change", () => { remember(); tryDraft(); });
at("holds").addEventListener("input", () => { filter(); tryDraft(); });
document.addEventListener("keydown", (event) => {
  if (event.key === "Escape" && !at("about").open && Object.keys(draft).length) dropDraft();
  else if (event.ctrlKey && event.key === "Enter" && !at("keep").disabled) at("keep").click();
  else if (event.ctrlKey && event.key === "s") {
    event.preventDefault();
    if (!at("save").disabled) at("save").click();
  }
});
window.addEventListener("beforeunload", () => { if (sheet) remember(); });
load().then(watch, (error) => tell(error));
