"use strict";
// Shows one step at a time. What it shows is in the page: texts, drawings, and the data, in which entries and views are the program's.
const data = JSON.parse(document.getElementById("data").textContent);
const find = (selector) => document.querySelector(selector);
const all = (selector) => [...document.querySelectorAll(selector)];
const steps = all("#steps > li");
const last = steps.length - 1;
let shown = -1;

// of each step what each process knows; events are counted from 1
const known = [data.start];
for (const event of data.events ?? []) {
  known.push(known.at(-1).map((before, p) => (event.loc.includes(p) ? event : before)));
}

function make(tag, parent, text, attributes = {}) {
  const made = document.createElement(tag);
  made.textContent = text;
  for (const [name, value] of Object.entries(attributes)) made.setAttribute(name, value);
  parent.append(made);
  return made;
}

function fill(cell, state, q) {
  const name = state.entries[q];
  cell.textContent = name === "-" ? "nothing" : name;
  if (name !== "-") {
    cell.append(" ");
    make("small", cell, `event ${state.heard[q]}`);
  }
}

// one participant's news of each process before and after an event
function change(event, before, p) {
  const table = make("table", find("#participants"), "", { role: "table" });
  make("caption", table, `What ${data.names[p]} knows, before and after`);
  const heads = ["latest of", "before", "after", "from"];
  const top = make("tr", make("thead", table, "", { role: "rowgroup" }), "", { role: "row" });
  for (const head of heads) make("th", top, head, { scope: "col", role: "columnheader" });
  const body = make("tbody", table, "", { role: "rowgroup" });
  const row = (name, from, put) => {
    const line = make("tr", body, "", { role: "row" });
    make("th", line, name, { scope: "row", role: "rowheader" });
    const cells = heads.slice(1).map((head) => make("td", line, "", { role: "cell", "data-head": head }));
    put(cells[0], before[p]);
    put(cells[1], event);
    cells[2].textContent = from;
    if (from) cells[1].className = "new";
  };
  data.names.forEach((name, q) => {
    const tellers = event.loc.filter((x) => before[x].heard[q] === event.heard[q]);
    const isNew = before[p].heard[q] !== event.heard[q];
    const from = event.loc.includes(q) ? "this event" : tellers.map((x) => data.names[x]).join(" or ");
    row(name, isNew ? from : "", (cell, state) => fill(cell, state, q));
  });
  row("its view", "", (cell, state) => (cell.textContent = `state ${state.view}`));
}

function showKnowledge(k) {
  const event = data.events[k - 1];
  all("#everyone tbody tr").forEach((row, p) => {
    const cells = [...row.querySelectorAll("td")];
    data.names.forEach((_, q) => fill(cells[q], known[k][p], q));
    cells.at(-1).textContent = `state ${known[k][p].view}`;
    for (const cell of cells) cell.classList.toggle("new", Boolean(event?.loc.includes(p)));
  });
  find("#when").textContent = k === 0 ? "before the first event" : k === last ? `after event ${k}, the last one here` : `after event ${k}`;
  find("#change").hidden = k === 0;
  find("#participants").replaceChildren();
  for (const p of event?.loc ?? []) change(event, known[k - 1], p);
  find("#who").innerHTML = steps[k].querySelector(".who").innerHTML;
}

// whether those who are chosen have heard of an event by step k
function isHeard(number, k) {
  const whose = find("#whose")?.value;
  if (!whose || k === 0) return false;
  const news = whose === "take part" ? data.events[k - 1].heard : known[k][whose].heard;
  return news[data.events[number - 1].loc[0]] >= number;
}

function showChart(k) {
  for (const group of all(".event")) {
    const number = Number(group.dataset.step);
    group.classList.toggle("later", number > k);
    group.classList.toggle("heard", number <= k && isHeard(number, k));
    const left = data.events?.[number - 1].left;
    group.classList.toggle("gone", Boolean(left) && left <= k);
  }
  for (const row of all(".lanes .row")) {
    row.classList.toggle("shown", k > 0);
    row.setAttribute("y", 30 * (k - 1));
  }
  for (const end of all(".lanes .end")) end.classList.toggle("hidden", k < last);
  const box = find("#chart");
  const across = all(`.event[data-step="${k}"] circle`).map((circle) => Number(circle.getAttribute("cx")));
  see(box, "Top", "Height", 30 * (k - 2), k === last ? box.scrollHeight : 30 * (k + 2));
  if (across.length) see(box, "Left", "Width", Math.min(...across) - 60, Math.max(...across) + 100);
}

// the names of the views beside the states that they are in
function showRule(k) {
  const views = data.views?.[k] ?? [...known[k].map((state) => state.view), k ? data.events[k - 1].whole : data.whole];
  const rings = all("#rule .ring");
  const there = {};
  views.forEach((q, i) => (there[q] ??= []).push(i));
  all("#rule .view").forEach((name, i) => {
    const place = there[views[i]].indexOf(i);
    const { x, width } = name.dataset;
    name.setAttribute("x", Number(x) - Number(width) * Math.floor(place / 4));
    name.setAttribute("y", Number(rings[views[i]].dataset.y) - 13 + 11 * (place % 4));
    name.style.display = "inline";
    name.classList.toggle("moved", Boolean(data.events?.[k - 1]?.loc.includes(i)));
  });
  rings.forEach((ring, q) => ring.classList.toggle("here", q in there));
  const told = Object.entries(there).map(([q, those]) => `State ${q}: ${those.map((i) => data.names[i] ?? "(whole run)").join(", ")}.`);
  find("#places").textContent = told.join(" ");
  if (!rings.length) return;
  const box = find("#rule");
  const heights = Object.keys(there).map((q) => Number(rings[q].dataset.y));
  see(box, "Top", "Height", Math.min(...heights) - 30, Math.max(...heights) + 30);
  const middle = Number(rings[0].dataset.x);
  const lefts = all("#rule .view").map((name) => name.getBBox().x);
  box.scrollLeft = Math.min(...lefts, middle) - 12;
  if (middle + 40 > box.scrollLeft + box.clientWidth) box.scrollLeft = middle - box.clientWidth / 2;
}

// scrolls a box, and not the page, to show what is from one place to another; if not all fits, the first of it
function see(box, side, size, first, end) {
  const room = box[`client${size}`];
  if (end > box[`scroll${side}`] + room) box[`scroll${side}`] = end - room;
  if (first < box[`scroll${side}`]) box[`scroll${side}`] = first;
}

function show(step) {
  const k = Math.max(0, Math.min(last, step));
  if (k === shown) return;
  shown = k;
  find("#step").value = k;
  find("#step").setAttribute("aria-valuetext", `step ${k} of ${last}`);
  find("#where").textContent = `step ${k} of ${last}`;
  for (const name of ["#first", "#back"]) find(name).setAttribute("aria-disabled", k === 0);
  for (const name of ["#on", "#end"]) find(name).setAttribute("aria-disabled", k === last);
  find("#said").innerHTML = steps[k].querySelector(".said").innerHTML;
  if (data.events) showKnowledge(k);
  showChart(k);
  showRule(k);
  try {
    history.replaceState(null, "", `#${k}`);
  } catch {
    // some browsers keep addresses of files as they are
  }
}

const KEYS = { ArrowLeft: () => shown - 1, ArrowRight: () => shown + 1, Home: () => 0, End: () => last };
document.addEventListener("keydown", (event) => {
  const isMine = event.target.matches("select, #step") || event.ctrlKey || event.altKey || event.metaKey || event.shiftKey;
  if (isMine || !(event.key in KEYS)) return;
  event.preventDefault();
  show(KEYS[event.key]());
});
find("#first").addEventListener("click", () => show(0));
find("#back").addEventListener("click", () => show(shown - 1));
find("#on").addEventListener("click", () => show(shown + 1));
find("#end").addEventListener("click", () => show(last));
find("#step").addEventListener("input", () => show(Number(find("#step").value)));
find("#whose")?.addEventListener("change", () => showChart(shown));
for (const group of all(".event")) group.addEventListener("click", () => show(Number(group.dataset.step)));
window.addEventListener("hashchange", () => show(Number(location.hash.slice(1)) || 0));
for (const hidden of all("#controls, #now, #choose")) hidden.hidden = false;
show(Number(location.hash.slice(1)) || 0);
