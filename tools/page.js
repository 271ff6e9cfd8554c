"use strict";
// The page sends requests to the server, each with an id, and the server pushes changes. Text of a database or a log is only ever
// text: nothing is put into the page as HTML, and names are keys of Maps only.
const by = id => document.getElementById(id);
const LINE = 18, MAX_HEIGHT = 8e6, HISTORY = 120;
const page = {
  state: null, index: 0, message: null, branch: new Map(), counts: new Map(), remedies: new Map(),
  // the window of the log, and the last values of a message
  total: 0, first: 0, history: new Map(), historyOf: "",
  // requests that wait for their answers, and when an edit began
  lastId: 0, waiting: new Map(), editedAt: 0,
  // the contents of the lists
  items: [], listed: null, offered: -1, found: null,
};

function made(tag, text, properties = {}) {
  const element = document.createElement(tag);
  if (text !== undefined && text !== null) element.textContent = text;
  for (const [name, value] of Object.entries(properties)) {
    if (name.includes("-") || name === "role") element.setAttribute(name, value); else element[name] = value;
  }
  return element;
}
const colour = index => `hsl(${(index * 137.5) % 360} 65% var(--light))`;
const hex = message => (message.number >= 2 ** 31 ? (message.number % 2 ** 31).toString(16).toUpperCase().padStart(8, "0")
  : message.number.toString(16).toUpperCase().padStart(3, "0"));
const showStatus = text => { by("status").textContent = text; };

// ---- requests

const socket = new WebSocket(`ws://${location.host}/talk`);
function request(want, words = {}) {
  return new Promise((done, refused) => {
    const id = ++page.lastId;
    page.waiting.set(id, { done, refused });
    socket.send(JSON.stringify({ id, want, ...words }));
  });
}
async function edit(want, words) {
  page.editedAt = performance.now();
  try {
    // (the answer has all that this page shows)
    const look = { index: page.index, first: Math.max(0, Math.round(page.first)), count: visible() };
    await showState(await request(want, { ...words, look }));
    showStatus(want === "save" ? "saved" : "ok");
  } catch (error) {
    showStatus(error.message);
  }
}
socket.onmessage = event => {
  const reply = JSON.parse(event.data);
  if (reply.id !== undefined) {
    const { done, refused } = page.waiting.get(reply.id);
    page.waiting.delete(reply.id);
    if (reply.refused !== undefined) refused(new Error(reply.refused)); else done(reply.answer);
  }
  if (reply.state) showState(reply);
  if (reply.counts) showCounts(reply.counts);
  if (reply.log) showTotal(reply.log.total);
};
socket.onclose = () => { showStatus("the server has ended"); document.body.inert = true; };
document.addEventListener("visibilitychange", () => request("hidden", { hidden: document.hidden }));

// ---- messages

async function showState({ state, message, lines }) {
  const old = page.state;
  if (old && state.version < old.version) return;
  // (the messages are left out if they are the same)
  page.state = { ...state, messages: state.messages || old.messages };
  document.title = `${state.isSaved ? "" : "• "}${state.file} – candesk`;
  by("title").textContent = `${state.file}${state.isSaved ? "" : " (edited)"}`;
  by("undo").disabled = !state.undo; by("redo").disabled = !state.redo;
  by("undo").textContent = `Undo ${state.undo || ""}`; by("redo").textContent = `Redo ${state.redo || ""}`;
  page.index = Math.min(page.index, page.state.messages.length - 1);
  if (message && lines) {
    putMessage(JSON.parse(message));
    putLines(lines);
    showMessages(); showFound();
  } else {
    showMessages(); showFound(); showChoices();
    await showMessage();
    await showLines(page.first);
  }
  if (page.editedAt) {
    // how long the edit took until the next frame of the page shows all of it, in milliseconds
    const began = page.editedAt;
    page.editedAt = 0;
    requestAnimationFrame(() => { document.body.getBoundingClientRect(); by("status").dataset.took = performance.now() - began; });
  }
  showChoices();
  for (const [words, remedy] of Object.entries(await request("remedies"))) page.remedies.set(words, remedy);
  showFound();
}
// the list of messages is rebuilt only if it differs; the counts of frames are put into it
function showMessages() {
  const sought = by("search").value.toLowerCase(), key = `${page.state.edition} ${sought}`;
  if (page.listed !== key) {
    page.listed = key;
    const isSought = it => it.name.toLowerCase().includes(sought) || hex(it).toLowerCase().includes(sought);
    const list = page.state.messages.filter(isSought);
    page.items = list.map(it => {
      const button = made("button", null, { onclick: () => openMessage(it.index) });
      const frames = made("small"), cycle = made("small");
      button.append(made("span", it.name), made("code", hex(it)), frames, cycle);
      return { message: it, isCurrent: false, button, frames, cycle };
    });
    by("messages").replaceChildren(...page.items.map(it => { const item = made("li"); item.append(it.button); return item; }));
    showFrames();
  }
  for (const item of page.items) {
    const isCurrent = item.message.index === page.index;
    if (item.isCurrent === isCurrent) continue;
    item.isCurrent = isCurrent;
    item.button.ariaCurrent = isCurrent ? "true" : null;
  }
}
function showFrames() {
  for (const { message, frames, cycle } of page.items) {
    const found = page.counts.get(String(message.number));
    put(frames, found ? `${found.count} frames` : "no frames");
    put(cycle, found && found.cycle !== null ? `${(found.cycle * 1000).toFixed(1)} ms` : "");
  }
}
// puts a text into an element, if it isn't there already
const texts = new WeakMap();
function put(element, text) {
  if (texts.get(element) === text) return;
  texts.set(element, text);
  element.textContent = text;
}
function openMessage(index) {
  page.index = index; page.branch.clear();
  showMessages(); showMessage();
}
function showCounts(counts) {
  page.counts = new Map(Object.entries(counts));
  showFrames();
  showValues();
}
// the diagnostics, new ones first; of very many the first ones
function showFound() {
  const { amount, found } = page.state;
  const key = JSON.stringify(found.map(([words, isNew]) => [words, isNew, page.remedies.get(words)]));
  put(by("amount"), String(amount));
  if (page.found === key) return;
  page.found = key;
  by("found").replaceChildren(...found.map(([words, isNew]) => {
    const item = made("li", words, { className: isNew ? "new" : "" });
    if (page.remedies.has(words)) item.append(made("br"), made("small", page.remedies.get(words)));
    return item;
  }));
  if (found.some(([, isNew]) => isNew)) by("found").closest("aside").scrollTop = 0;
  if (amount > found.length) by("found").append(made("li", `and ${(amount - found.length).toLocaleString()} more`));
}

// ---- layout

async function showMessage() {
  if (page.index < 0) { by("name").textContent = "no messages"; return; }
  putMessage(JSON.parse(await request("message", { index: page.index })));
}
function putMessage(message) {
  page.message = message;
  const size = `${message.size} ${message.size === 1 ? "byte" : "bytes"}`;
  by("name").textContent = `${message.name}  ${hex(message)}  ${size}  ${message.sender}`;
  showBranches(); showGrid(); showSignals(); showValues();
}
const signals = () => Object.entries(page.message.signals);
function isPresent(signal) {
  if (signal.chain === null) return false;
  return signal.chain.every(level => !page.branch.has(level.switch) ||
    level.ranges.some(([low, high]) => low <= page.branch.get(level.switch) && page.branch.get(level.switch) <= high));
}
function showBranches() {
  const values = new Map();
  for (const [, signal] of signals()) {
    for (const level of signal.chain || []) {
      if (!values.has(level.switch)) values.set(level.switch, new Set());
      for (const [low] of level.ranges) values.get(level.switch).add(low);
    }
  }
  by("branches").replaceChildren(...[...values].map(([name, found]) => {
    const choice = made("select", null, { onchange: () => {
      if (choice.value === "") page.branch.delete(name); else page.branch.set(name, Number(choice.value));
      showGrid();
    } });
    const sorted = [...found].sort((a, b) => a - b);
    choice.append(made("option", "any", { value: "" }), ...sorted.map(it => made("option", it, { value: it })));
    choice.value = page.branch.has(name) ? page.branch.get(name) : "";
    const label = made("label", `${name} `); label.append(choice); return label;
  }));
}
function showGrid() {
  const owners = new Map();
  signals().forEach(([name, signal], index) => {
    if (isPresent(signal)) for (const at of signal.positions) owners.set(at, [...(owners.get(at) || []), { name, signal, index }]);
  });
  const bytes = Math.max(page.message.size, ...[...owners.keys()].map(at => Math.floor(at / 8) + 1));
  const rows = [];
  for (let byte = 0; byte < Math.min(bytes, 256); byte++) {
    const row = made("tr"); row.append(made("th", byte));
    for (let bit = 7; bit >= 0; bit--) {
      const at = byte * 8 + bit, found = owners.get(at) || [];
      const mark = found.length > 1 ? "*" : found.length ? found[0].index : "";
      const cell = made("td", mark, { title: found.map(it => it.name).join(", ") });
      cell.dataset.at = at;
      if (found.length) { cell.style.background = found.length > 1 ? "" : colour(found[0].index); cell.draggable = true; }
      if (found.length > 1) cell.className = "two";
      if (found.length && byte >= page.message.size) cell.className += " outside";
      row.append(cell);
    }
    rows.push(row);
  }
  by("grid").replaceChildren(...rows);
}
const along = (signal, at) => signal.order === "intel" ? at : Math.floor(at / 8) * 8 + 7 - at % 8;
let dragged = null;
by("grid").ondragstart = event => {
  const at = Number(event.target.dataset.at);
  const found = signals().find(([, it]) => isPresent(it) && it.positions.includes(at));
  dragged = found ? { name: found[0], signal: found[1], at } : null;
};
by("grid").ondragover = event => event.preventDefault();
by("grid").ondrop = event => {
  event.preventDefault();
  if (!dragged || event.target.dataset.at === undefined) return;
  const { name, signal, at } = dragged, by8 = along(signal, Number(event.target.dataset.at)) - along(signal, at);
  const start = along(signal, Math.max(0, along(signal, signal.start) + by8));
  edit("move", { index: page.index, signal: name, start, length: signal.length });
};
function showSignals() {
  const head = made("tr");
  head.append(...["", "Signal", "Start", "Length", "Order", "Scale", "Value", ""].map(it => made("th", it)));
  by("signals").replaceChildren(head, ...signals().map(([name, signal], index) => {
    const row = made("tr"), swatch = made("span", "", { className: "swatch" });
    swatch.style.background = colour(index);
    const number = (value, label) => made("input", null, { type: "number", value, min: 0, "aria-label": `${label} of ${name}` });
    const start = number(signal.start, "start"), length = number(signal.length, "length");
    const move = () => edit("move", { index: page.index, signal: name, start: Number(start.value), length: Number(length.value) });
    start.onchange = move; length.onchange = move;
    const cells = [swatch, made("span", `${index} ${name}${signal.refused ? ` ?${signal.refused}` : ""}`), start, length,
      made("span", `${signal.order}${signal.signed ? " signed" : ""}`),
      made("span", `× ${signal.factor}${signal.offset ? ` + ${signal.offset}` : ""} ${signal.unit}`),
      made("output", ""), made("canvas", null, { width: 120, height: 28 })];
    cells[6].dataset.value = index; cells[7].dataset.plot = index;
    cells[1].title = signal.values.map(it => `${it.value} ${it.name}`).join("\n");
    row.append(...cells.map(it => { const cell = made("td"); cell.append(it); return cell; }));
    return row;
  }));
}
// the last values of the message that is shown; all that the server keeps if it is new or was edited
async function showValues() {
  if (!page.message || document.hidden) return;
  const number = page.message.number, key = `${number} ${page.state.version}`, all = page.historyOf !== key;
  const frames = (await request("values", { number, all })).map(it => JSON.parse(it));
  if (!frames.length || number !== page.message.number) return;
  if (all) { page.history.clear(); page.historyOf = key; }
  const last = new Map(Object.entries(frames[frames.length - 1].signals || {}));
  signals().forEach(([name], index) => {
    const it = last.get(name), output = document.querySelector(`[data-value="${index}"]`);
    if (!output) return;
    output.textContent = it === undefined ? "" : it.refused ? `?${it.refused}` : it.name ?? `${it.value} ${it.unit || ""}`;
    const past = page.history.get(name) || [];
    for (const frame of frames) {
      const shown = new Map(Object.entries(frame.signals || {})).get(name);
      const isNew = all || !past.length || past[past.length - 1][0] !== frame.time;
      if (shown && shown.value !== undefined && isNew) past.push([frame.time, shown.value]);
    }
    page.history.set(name, past.slice(-HISTORY));
    plot(document.querySelector(`canvas[data-plot="${index}"]`), page.history.get(name));
  });
}
function plot(canvas, past) {
  const pen = canvas.getContext("2d"), { width, height } = canvas;
  pen.clearRect(0, 0, width, height);
  if (past.length < 2) return;
  const values = past.map(it => it[1]), low = Math.min(...values), high = Math.max(...values);
  pen.strokeStyle = getComputedStyle(document.body).color;
  pen.beginPath();
  past.forEach(([, value], at) => {
    const part = high > low ? (value - low) / (high - low) : .5;
    pen.lineTo(at * width / (past.length - 1), height - 2 - part * (height - 4));
  });
  pen.stroke();
}

// ---- the log

function showTotal(total) {
  page.total = total;
  by("total").textContent = `${total.toLocaleString()} lines`;
  by("space").style.height = `${Math.min(total * LINE, MAX_HEIGHT)}px`;
  showLines(by("follow").checked ? total : page.first);
}
// how many lines are visible (needed at every update, so it isn't measured there)
const countRows = () => Math.ceil(by("log").clientHeight / LINE) + 1;
let rows = countRows();
new ResizeObserver(() => {
  rows = countRows();
  if (page.state) showLines(page.first);
}).observe(by("log"));
const visible = () => rows;
let isAsking = false, wanted = null;
async function showLines(first) {
  if (document.hidden) return;
  wanted = { first };
  if (isAsking) return;
  isAsking = true;
  while (wanted) {
    const { first: from } = wanted; wanted = null;
    putLines(await request("lines", { first: Math.max(0, Math.round(from)), count: visible() }));
  }
  isAsking = false;
}
function putLines(got) {
  page.first = got.first; page.total = got.total;
  by("lines").replaceChildren(...got.items.map(([number, text]) => {
    const line = made("div"); line.append(made("span", number), text);
    if (page.message && text.includes(` :: ${page.message.name}(`)) line.className = "shown";
    return line;
  }));
}
const scale = () => Math.max(1, page.total - visible() + 1) / Math.max(1, by("log").scrollHeight - by("log").clientHeight);
by("log").onscroll = () => { if (!by("follow").checked) showLines(by("log").scrollTop * scale()); };
by("log").onkeydown = event => {
  const steps = { ArrowDown: 1, ArrowUp: -1, PageDown: visible() - 2, PageUp: 2 - visible(), Home: -Infinity, End: Infinity };
  if (!(event.key in steps)) return;
  event.preventDefault(); by("follow").checked = false;
  const first = Math.min(Math.max(0, page.first + steps[event.key]), Math.max(0, page.total - visible() + 1));
  by("log").scrollTop = first / scale(); showLines(first);
};
by("follow").onchange = () => showTotal(page.total);
by("jump").onchange = () => {
  const first = by("jump").value - 1;
  by("follow").checked = false; by("log").scrollTop = first / scale();
  showLines(first);
};
function showChoices() {
  if (page.offered === page.state.edition) return;
  page.offered = page.state.edition;
  const chosen = by("only").value;
  const names = page.state.messages.map(it => made("option", it.name, { value: it.name }));
  by("only").replaceChildren(made("option", "all", { value: "" }), ...names);
  by("only").value = chosen;
}
async function filter() {
  showStatus("filtering"); await edit("filter", { message: by("only").value, signal: by("onlySignal").value });
}
by("only").onchange = async () => {
  by("onlySignal").replaceChildren(made("option", "all", { value: "" }));
  const found = page.state.messages.find(it => it.name === by("only").value);
  await filter();
  if (found) {
    const message = JSON.parse(await request("message", { index: found.index }));
    by("onlySignal").append(...Object.keys(message.signals).map(it => made("option", it, { value: it })));
  }
};
by("onlySignal").onchange = filter;

// ---- commands

by("form").onsubmit = event => { event.preventDefault(); edit("edit", { command: by("command").value }); };
by("undo").onclick = () => edit("undo"); by("redo").onclick = () => edit("redo"); by("save").onclick = () => edit("save");
by("changes").onclick = async () => {
  by("differences").textContent = (await request("differences")).join("\n") || "none";
  by("dialog").showModal();
};
by("search").oninput = showMessages;
document.addEventListener("keydown", event => {
  const key = event.key.toLowerCase(), isTyping = /INPUT|SELECT/.test(document.activeElement.tagName);
  const commands = { z: "undo", y: "redo", s: "save" };
  if (event.ctrlKey && key in commands && !(isTyping && key !== "s")) { event.preventDefault(); edit(commands[key]); }
  if (key === "/" && !isTyping) { event.preventDefault(); by("search").focus(); }
});
