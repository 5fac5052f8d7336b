"use strict";
// Draws the film. The lines of #film have it: what is so at the start, and what each step changed.
const $ = id => document.getElementById(id);
const SIGN = {"~": " ", a: "&", b: "\\", g: ">", l: "<", q: "\""};
const GLYPHS = " 1234567890#@:>\"^/STUVWXYZ|,%=\\+-JKLMNOPQR!$*];_&ABCDEFGHI?.)[<}";
const KINDS = ["", "halted", "check ADDRESS", "check INSTRUCTION", "check DATA", "check OVERLAP", "check READER EMPTY", "check PUNCH FULL", "check PRINTER FULL"];
const plain = text => text.replace(/[~abglq]/g, sign => SIGN[sign]);
const five = number => String(number).padStart(5, "0");
const put = (tag, name, text) => { const e = document.createElement(tag); if (name) e.className = name; if (text !== undefined) e.textContent = text; return e; };

// ---- the data
let size = 0, before = 0;
const source = [], deck = new Map(), steps = [];
function cell(item) {
  const colon = item.indexOf(":"), sign = item[item.length - 1];
  return [+item.slice(0, colon), SIGN[sign] || sign, item[colon + 1] === "'" && item.length > colon + 2];
}
// A word of a step is: d, the statement that has its instruction's characters; I, A and B, positions at which it works;
// and what is so behind it: p, a line; u, a card; a digit, the contents of a position; another letter, a number.
function step(items) {
  const s = {cells: [], values: [], spans: [], paper: [], cards: [], said: ""};
  for (const item of items) {
    const tag = item[0], rest = item.slice(1), colon = rest.indexOf(":");
    if (tag >= "0" && tag <= "9") s.cells.push(cell(item));
    else if (tag === "d") s.said = plain(rest);
    else if (tag === "p") { const [form, line] = rest.slice(0, colon).split("."); s.paper.push({form: +form, line: +line, text: plain(rest.slice(colon + 1))}); }
    else if (tag === "u") s.cards.push({pocket: +rest.slice(0, colon), text: plain(rest.slice(colon + 1))});
    else if (tag <= "Z") { const [first, last] = rest.split("."); s.spans.push({tag, first: +first, last: +last}); }
    else s.values.push([tag, +rest]);
  }
  return s;
}
for (const line of $("film").textContent.split("\n")) {
  const words = line.split(" ");
  if (words[0] === "Z") size = +words[1];
  else if (words[0] === "N") before = +words[1];
  else if (words[0] === "S") source.push({place: words[1] === "-" ? -1 : +words[1], text: plain(words[2])});
  else if (words[0] === "R") deck.set(+words[1], plain(words[2]));
  else if (words[0] === "C") steps.push(step(words.slice(1)));
}

// ---- the machine that is shown: changes are played forward, and what they replaced is put back
const glyph = new Array(size).fill(" "), mark = new Array(size).fill(false), paper = [], cards = [], undone = [];
const now = {i: 0, a: 0, b: 0, c: 0, o: 0, t: 0, w: 0, f: 0, n: 0, r: 0, k: 0, x: 0, l: 0, q: 0};
const used = new Set([0]);
let at = -1;
function forward() {
  const s = steps[++at], old = {cells: [], values: [], paper: paper.length, cards: cards.length};
  for (const [p, g, m] of s.cells) {
    old.cells.push([p, glyph[p], mark[p]]);
    glyph[p] = g; mark[p] = m;
    used.add(Math.floor(p / 50));
    stale.add(p);
  }
  for (const [tag, value] of s.values) { old.values.push([tag, now[tag]]); now[tag] = value; }
  paper.push(...s.paper); cards.push(...s.cards);
  undone[at] = old;
}
function back() {
  const old = undone[at--];
  for (const [p, g, m] of old.cells) { glyph[p] = g; mark[p] = m; stale.add(p); }
  for (const [tag, value] of old.values) now[tag] = value;
  paper.length = old.paper; cards.length = old.cards;
}
const stale = new Set();
const last = steps.length - 1;
const words = steps.map(s => s.spans.find(one => one.tag === "I"));
const addresses = words.map(word => word ? word.first : -1);
const raws = steps.map((s, n) => {                   // the characters of each instruction, as they are before it
  const word = words[n], text = word ? glyph.slice(word.first, word.last + 1).join("") : "";
  forward();
  return text;
});
const final = {...now}, longest = Math.max(40, ...paper.map(one => one.text.length));

// ---- the program at the left: the cards of the source, or the instructions that the film does
const rows = new Map(), list = $("source").querySelector("ol"), texts = new Map();
const entry = addresses.findIndex(place => place > 80);
function program() {
  const placed = new Set(source.map(card => card.place));
  const others = [...new Set(addresses.filter(place => place >= 0 && !placed.has(place)))].sort((one, other) => one - other);
  $("which").textContent = source.length ? "Source" : "Instructions done, by address";
  const add = (place, text, name) => {
    const row = put("li", name);
    if (place >= 0 || source.length) row.append(put("i", "", place >= 0 ? five(place) + " " : "      "));
    const body = put("span", "", text);
    row.append(body); list.append(row);
    if (place >= 0 && !rows.has(place)) { rows.set(place, row); texts.set(place, body); }
    if (place >= 0 && addresses.includes(place)) {
      row.classList.add("todo");
      row.onclick = () => { let n = addresses.indexOf(place, at + 1); if (n < 0) n = addresses.indexOf(place); show(n); };
    }
  };
  for (const card of source) add(card.place, card.text.slice(5, 72).trimEnd(), card.place < 0 ? "note" : "");
  if (source.length && others.length) list.append(put("li", "note", "\nNot placed by the source: the loading cards, and others"));
  for (const place of others) add(place, both(addresses.indexOf(place)));
}
const both = n => raws[n].padEnd(9) + steps[n].said;

// ---- drawing
const wide = () => $("slots").clientWidth >= 620 ? 50 : 25;
// The rows of some positions that are shown: of more than three those that have something, the first two and the last.
function shownRows(first, end, width, olds) {
  const all = [], has = start => {
    for (let p = Math.max(first, start); p <= end && p < start + width; p++) if (olds.has(p) || glyph[p] !== " ") return true;
    return false;
  };
  for (let start = first - first % width; start <= end; start += width) all.push(start);
  if (all.length <= 3) return all;
  const some = all.filter(has);
  if (!some.length) return all.slice(0, 1);
  return some.length <= 3 ? some : [some[0], some[1], some[some.length - 1]];
}
function slot(name, spans, width, olds) {
  const box = put("div", "slot " + name.toLowerCase());
  box.append(put("b", "", name));
  if (!spans.length) { box.append(put("div", "empty", name === "I" ? "no instruction" : "none")); return box; }
  let used = 0;
  for (const {first, last: end} of spans) {
    for (const start of shownRows(first, end, width, olds)) {
      if (used++ >= 5) break;
      const row = put("div", "row"), cells = put("div", "cells");
      cells.style.setProperty("--w", width);
      row.append(put("small", "", five(start)), cells);
      for (let p = start; p < start + width && p < size; p++) {
        const inside = p >= first && p <= end, old = olds.get(p);
        const cell = put("div", "c" + (mark[p] ? " w" : "") + (inside ? " f" : "") + (old ? " new" : "")
          + (p === now[name.toLowerCase()] ? " here" : ""), glyph[p]);
        if (old && old[1] !== glyph[p] && inside) cell.append(put("s", "", old[1] === " " ? "\u00b7" : old[1]));
        cells.append(cell);
      }
      box.append(row);
    }
  }
  return box;
}
function lamp(label, text, name) {
  const box = put("div", name || "");
  box.append(put("small", "", label), put("b", "", text));
  return box;
}
function lamps() {
  const ended = now.x === 1 ? "halted" : now.x ? KINDS[now.x] : "running";
  $("lamps").replaceChildren(lamp("next, register I", five(now.i), "i"), lamp("register A", five(now.a), "a"), lamp("register B", five(now.b), "b"),
    lamp("compare", ["B = A", "B < A", "B > A"][now.c]),
    lamp("overflow", now.o ? "on" : "off", now.o ? "lit" : ""), lamp("channel 12", now.t ? "on" : "off", now.t ? "lit" : ""),
    lamp("machine", ended, now.x > 1 ? "bad" : now.x ? "lit" : ""));
}
function drawn(text) {                               // a card, on the stock that stands in the page
  const NS = "http://www.w3.org/2000/svg", svg = document.createElementNS(NS, "svg");
  svg.setAttribute("viewBox", "0 0 7375 3250");
  svg.setAttribute("role", "img");
  svg.setAttribute("aria-label", text || "a blank card");
  const add = (tag, attributes) => { const e = document.createElementNS(NS, tag); for (const key in attributes) e.setAttribute(key, attributes[key]); svg.append(e); return e; };
  add("use", {href: "#stock"});
  let holes = "";
  [...text].forEach((g, column) => { for (const row of punches(GLYPHS.indexOf(g))) holes += `M${251 + 87 * column - 27} ${188 + 250 * row}h55v125h-55z`; });
  add("path", {class: "hole", d: holes});
  add("text", {class: "print", y: 150, x: Array.from(text, (g, column) => 251 + 87 * column).join(" ")}).textContent = text;
  return svg;
}
function punches(code) {                             // rows from above: 0 is row 12, 1 row 11, 2 row 0, 3 row 1
  const zone = code >> 4, part = code & 15, rows = zone === 0 ? [] : [3 - zone];
  if (code === 16) return [4, 10];
  if (part === 10) return [[2], [2, 4, 10], [1, 2], [0, 2]][zone];
  if (part >= 11) return [...rows, part - 6, 10];
  return part ? [...rows, part + 2] : rows;
}
const shownCard = {reader: null, punch: null};
function card(place, text, none) {
  if (shownCard[place] === text) return;
  shownCard[place] = text;
  $(place).replaceChildren(text === undefined ? put("div", "none", none) : drawn(text));
}
function forms() {
  const here = 66 * now.f + now.n, lines = new Map(paper.map(one => [66 * one.form + one.line, one.text]));
  const fresh = steps[at].paper.map(one => 66 * one.form + one.line);
  const out = [];
  for (let k = Math.max(67, here - 15); k <= Math.max(here, 82); k++) {
    const line = (k - 1) % 66 + 1;
    const row = put("div", ((line - 1) / 3 & 1 ? "" : "g") + (line === 1 && k > 67 ? " fold" : "") + (fresh.includes(k) ? " last" : "") + (k === here ? " here" : ""), lines.get(k) || "");
    out.push(row);
  }
  $("paper").replaceChildren(...out);
  $("form").textContent = `Printer: form ${now.f}, line ${now.n}; ${now.l} printed`;
}
let cells = [];
function core() {                                    // the rows of 50 in which the film has something
  const box = $("core");
  for (const {spans} of steps) for (const {first, last: end} of spans) {
    for (let row = Math.floor(first / 50); row <= Math.floor(end / 50); row++) used.add(row);
  }
  for (const start of [...used].sort((one, other) => one - other).map(row => 50 * row)) {
    const row = put("div", start && !used.has(start / 50 - 1) ? "gap" : "");
    row.append(put("small", "", five(start) + " "));
    for (let p = start; p < start + 50 && p < size; p++) { cells[p] = put("span", "", " "); row.append(cells[p]); }
    box.append(row);
  }
}
let lit = [];
function storage(olds) {
  for (const p of lit) stale.add(p);
  lit = [];
  const names = new Map();
  for (const {tag, first, last: end} of steps[at].spans) for (let p = first; p <= end; p++) names.set(p, tag.toLowerCase());
  for (const p of names.keys()) { lit.push(p); stale.add(p); }
  for (const p of olds.keys()) { lit.push(p); stale.add(p); }
  for (const p of stale) if (cells[p]) {
    cells[p].textContent = glyph[p];
    cells[p].className = (mark[p] ? "w " : "") + (names.get(p) || "") + (olds.has(p) ? " new" : "");
  }
  stale.clear();
}
let marked = [];
function where() {
  for (const row of marked) row.classList.remove("at", "next");
  const here = rows.get(addresses[at]), next = now.x ? null : rows.get(addresses[at + 1]);
  marked = [here, next].filter(Boolean);
  if (here) {
    here.classList.add("at");
    const body = texts.get(addresses[at]);
    if (!source.some(one => one.place === addresses[at])) body.textContent = both(at);
    const box = $("source"), top = here.offsetTop - box.offsetTop;
    if (top < box.scrollTop + 30 || top > box.scrollTop + box.clientHeight - 60) box.scrollTop = top - box.clientHeight / 2;
  }
  if (next) next.classList.add("next");
  [...list.children].forEach((row, k, all) => row.classList.toggle("near", !!here && Math.abs(k - all.indexOf(here)) < 12));
}
function happened() {
  const s = steps[at], out = [];
  for (const [tag, value] of s.values) if (tag === "r") out.push(`Card ${value} is read.`);
  for (const one of s.paper) out.push(`Form ${one.form} line ${one.line} is printed: ${one.text.trim()}`);
  if (s.cards.length) out.push(`Card ${now.q} is punched.`);
  return out;
}
let playing = 0;
function show(n) {
  n = Math.min(last, Math.max(0, n));
  while (at < n) forward();
  while (at > n) back();
  const s = steps[at], olds = new Map(at ? undone[at].cells.map(one => [one[0], one]) : []), width = wide();
  $("slide").value = at;
  const number = at ? before + at : before;
  $("slide").setAttribute("aria-valuetext", `step ${number}`);
  $("count").textContent = `${number} of ${before + last}`;
  $("number").textContent = at ? `Instruction ${number}` : "Start";
  const text = at ? addresses[at] < 0 ? `${five(now.i)}  ` : `${five(addresses[at])}  ${raws[at]}` : "";
  $("done").replaceChildren(put("span", "", at ? text + "   " : before ? `after ${before} instructions` : "card 1 is loaded; next 00001"), put("b", "", at ? s.said || (words[at] ? "" : "no instruction") : ""));
  const events = at ? happened() : [];
  $("said").replaceChildren(put("span", "", events.join(" ")));
  if (now.x) $("said").append(put("b", now.x > 1 ? "bad" : "", ` ${at === last ? ENDED : KINDS[now.x]}`));
  lamps();
  const of = tag => at ? s.spans.filter(one => one.tag === tag) : [];
  $("slots").replaceChildren(slot("I", of("I"), width, olds), slot("A", of("A"), width, olds), slot("B", of("B"), width, olds));
  const loaded = deck.get(now.r);
  $("read").textContent = `Reader: card ${now.r}` + (deck.has(now.r + 1) ? "" : ", the last of the deck");
  card("reader", loaded, "no card is read");
  $("punched").textContent = now.q ? `Punch: card ${now.q}` + (cards.length && cards[cards.length - 1].pocket ? `, pocket ${cards[cards.length - 1].pocket}` : "") : final.q ? "Punch" : "Punch: no card";
  if (final.q) card("punch", cards.length ? cards[cards.length - 1].text : undefined, "no card is punched");
  forms(); storage(olds); where();
  for (const id of ["home", "left"]) $(id).disabled = at === 0;
  for (const id of ["right", "end"]) $(id).disabled = at === last;
}
function stop() {
  clearInterval(playing); playing = 0;
  $("play").setAttribute("aria-label", "Play");
  $("play").firstChild.firstChild.setAttribute("d", "M3 1v14l11-7z");
  $("now").setAttribute("aria-live", "polite");
}
function play() {
  if (playing) return stop();
  if (at === last) show(0);
  $("now").setAttribute("aria-live", "off");
  $("play").setAttribute("aria-label", "Stop");
  $("play").firstChild.firstChild.setAttribute("d", "M3 1h4v14H3zM9 1h4v14H9z");
  playing = setInterval(() => { show(at + 1); if (at === last) stop(); }, +$("speed").value);
}
const isEvent = s => s.paper.length || s.cards.length || s.values.some(([tag]) => tag === "r");
function nextUnit() { let n = at + 1; while (n < last && !isEvent(steps[n])) n++; show(n); }
function ticks() {                                   // what the units did, along the slider
  const box = $("marks"), width = box.clientWidth, pen = box.getContext("2d"), ratio = devicePixelRatio || 1;
  box.width = width * ratio; box.height = 8 * ratio;
  pen.scale(ratio, ratio);
  const tick = (n, color) => { pen.fillStyle = color; pen.fillRect(8 + (width - 16) * n / Math.max(1, last) - .75, 0, 1.5, 8); };
  steps.forEach((s, n) => {
    if (!n) return;
    if (s.values.some(([tag]) => tag === "r")) tick(n, "#b09a50");
    if (s.paper.length) tick(n, "#2c6e2c");
    if (s.cards.length) tick(n, "#1d2f6f");
  });
  if (final.x > 1) tick(last, "#a00");
}

// ---- the start
const ended = $("ended").textContent, ENDED = ended[0].toUpperCase() + ended.slice(1);
program(); core();
$("paper").style.setProperty("--columns", longest);
$("slide").max = last;
$("slide").oninput = () => { stop(); show(+$("slide").value); };
$("home").onclick = () => { stop(); show(0); };
$("end").onclick = () => { stop(); show(last); };
$("left").onclick = () => { stop(); show(at - 1); };
$("right").onclick = () => { stop(); show(at + 1); };
$("play").onclick = play;
$("speed").onchange = () => { if (playing) { stop(); play(); } };
$("program").onclick = () => { stop(); show(entry); };
$("program").hidden = entry < 1;
$("unit").onclick = () => { stop(); nextUnit(); };
$("halt").onclick = $("end").onclick;
$("halt").title = final.x ? ENDED : "The film ends here";
$("halt").textContent = final.x > 1 ? "Check" : final.x ? "Halt" : "End";
onkeydown = event => {
  if (event.ctrlKey || event.altKey || event.metaKey || /^(select|textarea)$/i.test(event.target.tagName)) return;
  const key = event.key, onButton = event.target.tagName === "BUTTON";
  const deed = {ArrowLeft: () => { stop(); show(at - (event.shiftKey ? 10 : 1)); }, ArrowRight: () => { stop(); show(at + (event.shiftKey ? 10 : 1)); },
    Home: $("home").onclick, End: $("end").onclick, p: () => { if (entry > 0) $("program").onclick(); }, u: $("unit").onclick}[key];
  if (deed) { event.preventDefault(); deed(); }
  else if (key === " " && !onButton) { event.preventDefault(); play(); }
};
onresize = () => { ticks(); show(at); };
for (const row of used) for (let p = 50 * row; p < 50 * row + 50; p++) stale.add(p);
const wanted = /^#([0-9]+)$/.exec(location.hash);
show(wanted ? +wanted[1] - before : 0);
ticks();
