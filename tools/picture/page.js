"use strict";

const facts = JSON.parse(document.getElementById("facts").textContent);
const parts = facts.parts.map(([first, end, top, height]) => ({ first, end, top, height }));
const arrows = facts.arrows.map(([from, fromLine, to, toLine, end]) => ({ from, fromLine, to, toLine, end }));
const byId = (id) => document.getElementById(id);
const run = byId("run");
const gutter = byId("gutter");
const diagram = byId("diagram");
const first = facts.first;
const last = first + facts.records.length - 1;

/** What is shown: one part of the run, perhaps a chosen record, a host and a scattering that stand out. */
const view = { part: 0, record: null, host: "", scattering: "", beacons: true };
const drawn = [{ gutter: gutter.innerHTML, diagram: diagram.innerHTML }];
const touching = arrowsByRecord();

function arrowsByRecord() {
  const found = new Map();
  const add = (record, place) => {
    if (record === null) return;
    if (!found.has(record)) found.set(record, []);
    found.get(record).push(place);
  };
  arrows.forEach((arrow, place) => {
    add(arrow.from, place);
    if (arrow.to !== arrow.from) add(arrow.to, place);
  });
  return found;
}

function arrowsOf(record) {
  return touching.get(record) ?? [];
}

/** The drawing of a part, read from its text when it is first shown. */
function drawingOf(place) {
  if (!drawn[place]) {
    const holder = document.createElementNS("http://www.w3.org/2000/svg", "svg");
    holder.innerHTML = byId(`part-${place}`).textContent;
    drawn[place] = { gutter: holder.children[0].innerHTML, diagram: holder.children[1].innerHTML };
  }
  return drawn[place];
}

function showPart(place) {
  if (place === view.part) return;
  const { top, height } = parts[place];
  view.part = place;
  for (const svg of [gutter, diagram]) {
    svg.innerHTML = drawingOf(place)[svg.id];
    svg.setAttribute("height", height);
    svg.setAttribute("viewBox", `0 ${top} ${svg.getAttribute("width")} ${height}`);
  }
  run.scrollTop = 0;
  markFiltered();
  markChosen();
}

function tellPart() {
  const { first: begin, end } = parts[view.part];
  byId("parts").hidden = parts.length === 1;
  byId("shown").textContent = `records ${begin} to ${end - 1}`;
  byId("earlier").disabled = view.part === 0;
  byId("later").disabled = view.part === parts.length - 1;
}

function clear(...names) {
  for (const name of names) {
    document.querySelectorAll(`#run .${name}`).forEach((item) => item.classList.remove(name));
  }
}

function mark(selector, name) {
  document.querySelectorAll(selector).forEach((item) => item.classList.add(name));
}

/** The bands of a record's row, and its marks. */
function ofRecord(record) {
  return `[data-record="${record}"], #record-${record}`;
}

/** The record is on the page: others have no row, and no lines. */
function isHere(record) {
  return Number.isInteger(record) && record >= first && record <= last;
}

/** The number that a text spells, or none. */
function numberOf(text) {
  return /^[0-9]+$/.test(text) ? Number(text) : NaN;
}

/** Marks the chosen record, what it took and put, and the records at the other ends. */
function markChosen() {
  clear("chosen", "related", "came", "went");
  if (view.record === null) return;
  mark(ofRecord(view.record), "chosen");
  for (const place of arrowsOf(view.record)) {
    const arrow = arrows[place];
    const came = arrow.to === view.record;
    for (const drawn of ["arrow", "stub"]) byId(`${drawn}-${place}`)?.classList.add(came ? "came" : "went");
    mark(ofRecord(came ? arrow.from : arrow.to), "related");
  }
}

/** Marks all that belongs to the host and the scattering that are to stand out. */
function markFiltered() {
  clear("belongs");
  const has = (name, value) => (value ? `[data-${name}~="${CSS.escape(value)}"]` : "");
  const wanted = has("hosts", view.host) + has("scatterings", view.scattering);
  run.classList.toggle("filtered", wanted !== "");
  if (wanted) mark(`#diagram ${wanted}`, "belongs");
}

function button(shown, act) {
  const made = document.createElement("button");
  made.type = "button";
  made.textContent = shown;
  made.addEventListener("click", act);
  return made;
}

function step(record, shown) {
  return isHere(record) ? button(shown, () => choose(record)) : told(shown, "elsewhere");
}

function told(words, name) {
  const span = document.createElement("span");
  span.className = name;
  span.textContent = words;
  return span;
}

/** What became of what a line put, or where it came from. */
function endsOf(record, line) {
  const ends = [];
  for (const place of arrowsOf(record)) {
    const { from, fromLine, to, toLine, end } = arrows[place];
    if (to === record && toLine === line) ends.push(step(from, `put by ${from}`));
    if (from !== record || fromLine !== line) continue;
    if (to !== null) ends.push(step(to, `${end} by ${to}`));
    else ends.push(told(end === "waiting" ? "never taken" : "lost, its link is cut", "end"));
  }
  return ends;
}

function lineItem(record, text, line) {
  const item = document.createElement("li");
  item.textContent = text;
  if (line === 0) item.className = "first";
  item.append(...endsOf(record, line));
  return item;
}

/** For each scattering of the record a button that makes it stand out. */
function followers(record) {
  const tokens = byId(`record-${record}`)?.dataset.scatterings?.split(" ") ?? [];
  return tokens.map((token) => button(`follow ${token.replace(".", " ")}`, () => filter(view.host, token)));
}

function tellRecord() {
  if (view.record === null) return;
  const lines = document.createElement("ul");
  lines.className = "lines";
  lines.append(...facts.records[view.record - first].split("\n").map((text, line) => lineItem(view.record, text, line)));
  byId("record").replaceChildren(lines, ...followers(view.record));
  byId("number").value = view.record;
}

/** Scrolls just so far that the chosen record's row and dot can be seen. */
function bringIntoSight() {
  const row = diagram.querySelector(`.row[data-record="${view.record}"]`);
  if (!row) return;
  const top = Number(row.getAttribute("y")) - parts[view.part].top;
  const head = run.querySelector(".names").getBoundingClientRect().height;
  const seen = run.clientHeight - head;
  if (top < run.scrollTop || top + 60 > run.scrollTop + seen) run.scrollTop = top - seen / 2;
  const dot = byId(`record-${view.record}`)?.dataset.x;
  if (dot === undefined) return;
  const width = run.clientWidth - gutter.getBoundingClientRect().width;
  if (dot < run.scrollLeft + 40 || dot > run.scrollLeft + width - 40) run.scrollLeft = dot - width / 2;
}

function choose(record) {
  if (!isHere(record)) return;
  view.record = record;
  showPart(parts.findIndex(({ end }) => record < end));
  markChosen();
  tellRecord();
  tellPart();
  bringIntoSight();
  writeAddress();
}

/** The record before that put what the chosen one took, or the first one that took what it put. */
function otherEnd(back) {
  const ends = arrowsOf(view.record)
    .map((place) => arrows[place])
    .filter(({ from, to }) => (back ? to : from) === view.record)
    .map(({ from, to }) => (back ? from : to))
    .filter(isHere);
  return ends.length ? Math.min(...ends) : view.record;
}

function filter(host, scattering) {
  view.host = host;
  view.scattering = scattering;
  byId("host").value = host;
  byId("scattering").value = scattering;
  markFiltered();
  writeAddress();
}

function light(beacons) {
  view.beacons = beacons;
  byId("beacons").checked = beacons;
  run.classList.toggle("unlit", !beacons);
  writeAddress();
}

/** The address names what is shown, so that it can be kept and handed on. */
function writeAddress() {
  const words = new URLSearchParams();
  if (view.record !== null) words.set("record", view.record);
  if (view.host) words.set("host", view.host);
  if (view.scattering) words.set("scattering", view.scattering);
  if (!view.beacons) words.set("beacons", "off");
  const address = `#${words}`;
  if (address !== location.hash) history.replaceState(null, "", address);
}

function readAddress() {
  const words = new URLSearchParams(location.hash.slice(1));
  const has = (id, value) => [...byId(id).options].some((option) => option.value === value);
  const known = (id) => (has(id, words.get(id)) ? words.get(id) : "");
  const record = words.get("record");
  const [host, scattering, beacons] = [known("host"), known("scattering"), words.get("beacons") !== "off"];
  choose(numberOf(record));
  filter(host, scattering);
  light(beacons);
}

const KEYS = {
  ArrowDown: () => choose(view.record === null ? parts[view.part].first : view.record + 1),
  ArrowUp: () => choose(view.record === null ? parts[view.part].first : view.record - 1),
  ArrowLeft: () => choose(otherEnd(true)),
  ArrowRight: () => choose(otherEnd(false)),
  Home: () => choose(first),
  End: () => choose(last),
  b: () => light(!view.beacons),
  Escape: () => filter("", ""),
};

document.addEventListener("keydown", (event) => {
  const typing = event.target.closest("input[type=number], select");
  const act = KEYS[event.key];
  if (!act || event.ctrlKey || event.altKey || event.metaKey || (typing && event.key !== "Escape")) return;
  event.preventDefault();
  act();
});
run.addEventListener("click", (event) => {
  const row = event.target.closest(".row");
  if (row) choose(Number(row.dataset.record));
});
byId("controls").addEventListener("submit", (event) => event.preventDefault());
byId("number").addEventListener("change", (event) => {
  choose(numberOf(event.target.value));
  event.target.value = view.record ?? "";
});
byId("host").addEventListener("change", (event) => filter(event.target.value, view.scattering));
byId("scattering").addEventListener("change", (event) => filter(view.host, event.target.value));
byId("beacons").addEventListener("change", (event) => light(event.target.checked));
byId("earlier").addEventListener("click", () => choose(parts[view.part - 1].first));
byId("later").addEventListener("click", () => choose(parts[view.part + 1].first));
window.addEventListener("hashchange", readAddress);

byId("legend").open = window.innerWidth > 900;
tellPart();
readAddress();
