"use strict";

const $ = id => document.getElementById(id);
const PARTS = ["module", "set"];
const MARKS = { proved: "\u2713", refuted: "\u2717", spent: "?" };

// The blocks by name, each with its report (null: none; undefined: not at the desk), and what is shown of them.
const blocks = new Map();
let shown = null;
let trace = null;
let checking = null;

// ---- elements

function put_in(node, attributes, children) {
  for (const [key, value] of Object.entries(attributes)) {
    if (key.startsWith("on")) node.addEventListener(key.slice(2), value);
    else if (value !== false && value !== null) node.setAttribute(key, value);
  }
  node.append(...children);
  return node;
}

function el(tag, attributes = {}, ...children) {
  return put_in(document.createElement(tag), attributes, children);
}

function draw(tag, attributes = {}, ...children) {
  return put_in(document.createElementNS("http://www.w3.org/2000/svg", tag), attributes, children);
}

function news(text) {
  $("news").textContent = text;
}

function counted(number, word) {
  return `${number} ${word}${number === 1 ? "" : "s"}`;
}

// ---- the desk, which serves one connection after another: so one request at a time

class Refusal extends Error {
  constructor(status, line) {
    super(line);
    this.status = status;
  }
}

let latest = Promise.resolve();

/** The reply's text; throws a Refusal where the desk refuses, and another error where it doesn't answer. */
function ask(method, path, body) {
  const reply = latest.then(() => send(method, path, body));
  latest = reply.catch(() => {});
  return reply;
}

async function send(method, path, body) {
  let reply, text;
  try {
    reply = await fetch(path, { method, body, cache: "no-store" });
    text = await reply.text();
  } catch (error) {
    $("gone").hidden = false;
    throw error;
  }
  $("gone").hidden = true;
  if (reply.ok) return text;
  const told = /^\{"error":"([^]*)"\}$/.exec(text);
  throw new Refusal(reply.status, told ? told[1] : `status ${reply.status}`);
}

// ---- what this browser keeps: texts as typed, texts as the desk took them, and what was signed

function kept(key, otherwise) {
  try {
    return JSON.parse(localStorage.getItem(key)) ?? otherwise;
  } catch {
    return otherwise;
  }
}

function keep(key, value) {
  try {
    localStorage.setItem(key, JSON.stringify(value));
  } catch {
    news("This browser can't keep texts: copy them before you leave.");
  }
}

function texts_of(name) {
  return kept(`texts ${name}`, { module: "", set: "", put: {} });
}

// ---- reports

/** The lines of a report, each with its number from 1. */
function lines_of(report) {
  const lines = [];
  report.split("\n").forEach((line, at) => {
    const told = /^(proved|refuted|spent) (.+)$/.exec(line);
    if (told) lines.push({ number: at + 1, verdict: told[1], name: told[2] });
  });
  return lines;
}

function count(lines, verdict) {
  return lines.filter(line => line.verdict === verdict).length;
}

/** A block's state in a word or two, and the verdict that gives its colour. */
function state_of(report) {
  if (report === undefined) return ["", "no texts"];
  if (report === null) return ["", "not checked"];
  const lines = lines_of(report);
  const refuted = count(lines, "refuted"), spent = count(lines, "spent");
  if (refuted) return ["refuted", `${refuted} refuted`];
  if (spent) return ["spent", `${spent} spent`];
  return ["proved", "signed off"];
}

function mark(line) {
  if (!line) return "";
  if (line.verdict === "refuted") {
    return el("button", {
      type: "button", class: "mark refuted", "data-line": line.number, "aria-pressed": "false",
      "aria-label": `${line.name}: refuted, show the waveform`, title: line.name, onclick: () => show_trace(line),
    }, MARKS.refuted);
  }
  return el("span", { class: `mark ${line.verdict}`, title: `${line.name}: ${line.verdict}` },
    MARKS[line.verdict], el("span", { class: "said" }, ` ${line.verdict}`));
}

/** A table with a row for each name; a cell has the marks of the lines that `cell` finds. */
function table([title, note], rows, columns, cell) {
  const head = columns.map(it => el("th", { scope: "col" }, it));
  const body = rows.map(row => el("tr", {}, el("th", { scope: "row" }, row),
    ...columns.map(column => el("td", {}, ...cell(row, column).map(mark)))));
  return el("div", { class: "group" }, el("h4", {}, title), el("p", { class: "quiet" }, note),
    el("div", { class: "wide" }, el("table", { "aria-label": title },
      el("thead", {}, el("tr", {}, el("td"), ...head)), el("tbody", {}, ...body))));
}

function open_lines(lines) {
  const open = lines.filter(line => line.verdict !== "proved");
  return el("ul", { class: "open", "aria-label": "Lines that aren't proved" }, ...open.map(line => el("li", {},
    line.verdict === "spent" ? el("span", { class: "spent", title: "The solver's steps ran out" }, `spent ${line.name}`)
      : el("button", { type: "button", class: "refuted", "data-line": line.number, "aria-pressed": "false",
        title: "Show the waveform", onclick: () => show_trace(line) }, line.name))));
}

function report_tables(lines) {
  const named = new Map(lines.map(line => [line.name, line]));
  const after = word => lines.filter(line => line.name.startsWith(`${word} `)).map(line => line.name.slice(word.length + 1));
  const invariants = after("base"), operations = after("op"), properties = ["reset", ...operations];
  const tables = [];
  if (invariants.length) {
    tables.push(table(["Invariants", "after reset; from cycle to cycle"], invariants, ["base", "step"],
      (row, column) => [named.get(`${column} ${row}`)]));
  }
  const kinds = ["end", "split", "same-end", "determine"].filter(it => after(it).length);
  tables.push(table(["Operations", "the block; then what the set says"], properties, ["block", ...kinds],
    (row, column) => [named.get(column !== "block" ? `${column} ${row}` : row === "reset" ? row : `op ${row}`)]));
  if (after("choose").length + after("hand").length) {
    tables.push(table(["Edges", "choose, hand: from row to column"], properties, operations,
      (row, column) => [named.get(`choose ${row} ${column}`), named.get(`hand ${row} ${column}`)]));
  }
  return tables;
}

function show_report(report) {
  $("report").hidden = !report;
  if (!report) return;
  const lines = lines_of(report);
  const counts = ["proved", "refuted", "spent"].map(it => [it, count(lines, it)]).filter(([, number]) => number);
  const words = `${counted(lines.length, "line")}: ${counts.map(([it, number]) => `${number} ${it}`).join(", ")}`;
  $("report-title").textContent = `Report \u2013 ${words}`;
  $("meter").setAttribute("aria-label", words);
  $("meter").replaceChildren(...counts.map(([it, number]) => {
    const part = el("span", { class: it });
    part.style.flexGrow = number;
    return part;
  }));
  $("report-body").replaceChildren(open_lines(lines), el("div", { class: "groups" }, ...report_tables(lines)));
  $("report-text").textContent = report;
}

// ---- waveforms

/** A trace's text as the registers' first values and its one or two windows. */
function trace_of(text) {
  const starts = [], windows = [];
  let title = "";
  for (const line of text.trimEnd().split("\n").slice(1)) {
    const words = line.split(" ");
    if (words[0] === "start") starts.push(words.slice(1));
    else if (words[0] === "first" || words[0] === "second") title = words[0];
    else if (words[0] === "cycle") windows.push({ title, names: words.slice(1), cycles: [], rows: [] });
    else {
      windows.at(-1).cycles.push(Number(words[0]));
      windows.at(-1).rows.push(words.slice(1));
    }
  }
  return { starts, windows };
}

/** The widths that a set declares, by name. */
function widths_of(set) {
  const widths = new Map();
  const form = /\b(?:input|output|state)\s+(?:signed\s+)?(?:\[\s*(\d+)\s*:\s*(\d+)\s*\]\s*)?([A-Za-z_][\w$]*(?:\s*\.\s*[\w$]+)*)/g;
  for (const [, high, low, name] of without_comments(set).matchAll(form)) {
    widths.set(name.replace(/\s/g, ""), high === undefined ? 1 : high - low + 1);
  }
  return widths;
}

function without_comments(text) {
  return text.replace(/\/\*[^]*?\*\/|\/\/[^\n]*/g, " ");
}

const ROW = 28, TOP = 24;

/** One signal's values in a window: a line for a bit, boxes with values for a word. */
function wave(values, differs, is_bit, y, cell, told) {
  const parts = [], high = y + 6, low = y + ROW - 7, mid = (high + low) / 2;
  for (let from = 0, to; from < values.length; from = to) {
    to = from + 1;
    while (to < values.length && values[to] === values[from] && differs[to] === differs[from]) to += 1;
    const left = from * cell, right = to * cell, kind = differs[from] ? " differing" : "";
    if (is_bit) {
      const at = values[from] === "0" ? low : high;
      const rise = from && values[from - 1] !== values[from] ? `M${left} ${low + high - at}V${at}` : `M${left} ${at}`;
      parts.push(draw("path", { class: `wave${kind}`, d: `${rise}H${right}` }));
    } else {
      const box = `M${left} ${mid}L${left + 4} ${high}H${right - 4}L${right} ${mid}L${right - 4} ${low}H${left + 4}Z`;
      parts.push(draw("path", { class: `bus${kind}`, d: box }),
        draw("text", { x: (left + right) / 2, y: mid + 4, "text-anchor": "middle" }, told(values[from])));
    }
  }
  return parts;
}

/**
 * A window as a picture: `differs` says of each signal and cycle whether the other window has another value,
 * `told` how to write one.
 */
function window_picture(window, differs, widths, told, cell) {
  const height = TOP + window.names.length * ROW, width = window.cycles.length * cell;
  const side = Math.max(6, ...window.names.map(name => name.length)) * 7.3 + 14;
  const names = draw("svg", { width: side, height, "aria-hidden": "true" }, draw("text", { class: "dim", x: 0, y: 15 }, "cycle"));
  const which = window.title && ` of the ${window.title} window`;
  const waves = draw("svg", { width: width + 1, height, role: "img",
    "aria-label": `Waveform${which}: ${counted(window.cycles.length, "cycle")} of ${window.names.join(", ")}` });
  window.cycles.forEach((cycle, at) => {
    if (cycle < 0) waves.append(draw("rect", { class: "reset", x: at * cell, y: 0, width: cell, height }));
    waves.append(draw("path", { class: "grid", d: `M${at * cell + .5} ${TOP - 4}V${height}` }),
      draw("text", { class: "dim", x: at * cell + cell / 2, y: 15, "text-anchor": "middle" }, String(cycle)));
  });
  window.names.forEach((name, at) => {
    const y = TOP + at * ROW, values = window.rows.map(row => row[at]);
    const is_bit = (widths.get(name) ?? 1) === 1 && values.every(value => value === "0" || value === "1");
    names.append(draw("text", { class: differs[at].includes(true) ? "name-differs" : "", x: 0, y: y + 19 }, name));
    differs[at].forEach((differing, cycle) => {
      if (differing) waves.append(draw("rect", { class: "differs", x: cycle * cell, y: y + 1, width: cell, height: ROW - 2 }));
    });
    waves.append(...wave(values, differs[at], is_bit, y, cell, told));
  });
  return el("div", { class: "window" }, window.title ? el("h4", {}, `${window.title} window`) : "",
    el("div", { class: "waves" }, names,
      el("div", { class: "scroll", tabindex: "0", role: "region", "aria-label": "Waveform, scrolls sideways" }, waves)));
}

/** Where the two windows of a trace differ, by signal and cycle. */
function differences(windows) {
  const [one, two] = windows;
  return one.names.map((_, at) => one.rows.map((row, cycle) => Boolean(two) && row[at] !== two.rows[cycle]?.[at]));
}

/** In which signals and cycles two windows differ, in words. */
function told_differences(windows, differs) {
  if (windows.length < 2) return "";
  const apart = windows[0].names.map((name, at) => [name, windows[0].cycles.filter((_, cycle) => differs[at][cycle])]);
  const told = apart.filter(([, cycles]) => cycles.length).map(([name, cycles]) => `${name} (cycle ${cycles.join(", ")})`);
  return told.length ? `The windows differ in ${told.join("; ")}.` : "The windows don't differ in a declared name.";
}

function draw_trace() {
  const { starts, windows } = trace_of(trace.text);
  const differs = differences(windows), hex = $("base").value === "16";
  const told = value => hex ? `0x${BigInt(value).toString(16)}` : value;
  const widest = Math.max(...windows.flatMap(it => it.rows.flat()).map(it => told(it).length));
  const cell = Math.max(46, widest * 7.4 + 16);
  const widths = widths_of(texts_of(shown).set);
  const registers = starts.map(([name, value]) => el("div", {}, el("dt", {}, name), el("dd", {}, told(value))));
  $("trace-note").textContent = told_differences(windows, differs);
  $("trace-body").replaceChildren(...windows.map(it => window_picture(it, differs, widths, told, cell)));
  if (registers.length) {
    $("trace-body").append(el("h4", {}, "Registers in the first cycle"), el("dl", { class: "starts" }, ...registers));
  }
  $("trace-text").textContent = trace.text;
}

async function show_trace(line) {
  const name = shown;
  try {
    const text = await ask("GET", `/blocks/${name}/trace/${line.number}`);
    if (shown !== name) return;
    trace = { line, text, report: blocks.get(name) };
    $("trace").hidden = false;
    $("trace-title").textContent = `Counterexample to ${line.name}`;
    draw_trace();
    press(line.number);
    $("trace-title").focus();
    $("trace").scrollIntoView({ block: "nearest" });
  } catch (error) {
    tell_error(error);
  }
}

function press(number) {
  for (const button of document.querySelectorAll("[data-line]")) {
    button.setAttribute("aria-pressed", String(Number(button.dataset.line) === number));
  }
}

function close_trace() {
  $("trace").hidden = true;
  trace = null;
  press(0);
}

// ---- the graph of operations

/** The properties of a set, each with those that may follow it. */
function properties_of(set) {
  const text = without_comments(set), found = new Map(), head = /\b(?:property|operation)\s+([A-Za-z_][\w$]*)\s*\{/g;
  for (let at; (at = head.exec(text)) !== null;) {
    let end = head.lastIndex, depth = 1;
    while (end < text.length && depth) {
      depth += text[end] === "{" ? 1 : text[end] === "}" ? -1 : 0;
      end += 1;
    }
    const next = /\bnext\s+([\w$\s,]+);\s*$/.exec(text.slice(head.lastIndex, end - 1));
    found.set(at[1], next ? next[1].split(",").map(it => it.trim()) : []);
    head.lastIndex = end;
  }
  return found;
}

const NODE = 30;

/** The places of the properties on an ellipse, reset at the left. */
function places_of(names) {
  const across = Math.max(170, names.length * 34), down = Math.max(105, names.length * 22);
  return new Map(names.map((name, at) => {
    const turn = Math.PI + at * 2 * Math.PI / names.length;
    return [name, { x: across * Math.cos(turn), y: down * Math.sin(turn), half: name.length * 3.7 + 13 }];
  }));
}

/** Where a line from a point to a node's middle meets the node's edge. */
function rim(node, from) {
  const x = from.x - node.x, y = from.y - node.y;
  const part = Math.min(node.half / Math.max(Math.abs(x), .01), NODE / 2 / Math.max(Math.abs(y), .01));
  return { x: node.x + x * part, y: node.y + y * part };
}

function arrow(path, tip, from, attributes) {
  const turn = Math.atan2(tip.y - from.y, tip.x - from.x);
  const corner = side => `${tip.x - 9 * Math.cos(turn + side)},${tip.y - 9 * Math.sin(turn + side)}`;
  const head = `${tip.x},${tip.y} ${corner(.4)} ${corner(-.4)}`;
  return draw("g", attributes, draw("path", { d: path }), draw("polygon", { points: head }));
}

function edge(one, two, attributes) {
  if (one === two) {
    const way = one.y > 1 ? 1 : -1, y = one.y + way * NODE / 2;
    const far = { x: one.x + 28, y: y + way * 36 }, tip = { x: one.x + 11, y };
    return arrow(`M${one.x - 11} ${y}C${one.x - 28} ${far.y} ${far.x} ${far.y} ${tip.x} ${tip.y}`, tip, far, attributes);
  }
  const x = two.x - one.x, y = two.y - one.y;
  const bend = { x: (one.x + two.x) / 2 - y * .14, y: (one.y + two.y) / 2 + x * .14 };
  const from = rim(one, bend), tip = rim(two, bend);
  return arrow(`M${from.x} ${from.y}Q${bend.x} ${bend.y} ${tip.x} ${tip.y}`, tip, bend, attributes);
}

function show_graph(set, report) {
  const follows = properties_of(set), names = [...follows.keys()];
  $("graph").hidden = !names.length;
  if (!names.length) return;
  const verdicts = new Map(lines_of(report ?? "").map(line => [line.name, line.verdict]));
  const places = places_of(names), edges = [], nodes = [];
  const picture = draw("svg", { role: "group", "aria-label": "Graph of operations" });
  const look = name => {
    picture.classList.toggle("looking", name !== null);
    for (const it of edges) it.node.classList.toggle("on", it.from === name);
  };
  for (const [name, next] of follows) {
    for (const to of next.filter(it => places.has(it))) {
      const refuted = ["choose", "hand"].some(it => verdicts.get(`${it} ${name} ${to}`) === "refuted");
      edges.push({ from: name, node: edge(places.get(name), places.get(to), { class: `edge${refuted ? " refuted" : ""}` }) });
    }
    const place = places.get(name), verdict = verdicts.get(name === "reset" ? name : `op ${name}`) ?? "";
    nodes.push(draw("g", { class: `node ${verdict}`, tabindex: "0", role: "img",
      "aria-label": `${name}${verdict && `, ${verdict}`}; next: ${next.join(", ")}`,
      onfocus: () => look(name), onblur: () => look(null), onpointerenter: () => look(name), onpointerleave: () => look(null) },
      draw("rect", { x: place.x - place.half, y: place.y - NODE / 2, width: place.half * 2, height: NODE,
        rx: name === "reset" ? 4 : NODE / 2 }),
      draw("text", { x: place.x, y: place.y + 4, "text-anchor": "middle" }, name)));
  }
  const all = [...places.values()], half = Math.max(34, ...all.map(it => it.half)) + 8;
  const left = Math.min(...all.map(it => it.x)) - half, right = Math.max(...all.map(it => it.x)) + half;
  const top = Math.min(...all.map(it => it.y)) - 62, bottom = Math.max(...all.map(it => it.y)) + 62;
  picture.setAttribute("viewBox", `${left} ${top} ${right - left} ${bottom - top}`);
  picture.setAttribute("width", right - left);
  picture.append(...edges.map(it => it.node), ...nodes);
  $("graph-body").replaceChildren(picture);
}

// ---- texts and their faults

function typed(part) {
  const texts = texts_of(shown);
  texts[part] = $(part).value;
  keep(`texts ${shown}`, texts);
  tell_texts();
}

function tell_texts() {
  const texts = texts_of(shown);
  for (const part of PARTS) {
    const put = texts.put[part];
    const note = put === undefined ? "" : put === texts[part] ? "at the desk" : "changed";
    document.querySelector(`[data-part=${part}] .note`).textContent = note;
  }
}

/** The place in a text of the byte that a fault names, as an index of JavaScript's. */
function index_of_byte(text, byte) {
  return new TextDecoder().decode(new TextEncoder().encode(text).slice(0, byte)).length;
}

/** Shows the line of a fault beside the text that it is about, with the place that it names. */
function tell_fault(line) {
  const part = PARTS.find(it => line.startsWith(`${it}: `));
  const told = part ? $(`${part}-fault`) : $("fault");
  told.replaceChildren(line);
  if (!part) return;
  const area = $(part), byte = / at (\d+)$/.exec(line);
  area.setAttribute("aria-invalid", "true");
  $("texts").open = true;
  if (!byte) return;
  const index = index_of_byte(area.value, Number(byte[1])), before = area.value.slice(0, index).split("\n");
  told.append(` (line ${before.length}, column ${before.at(-1).length + 1})`, el("button", { type: "button", onclick: () => {
    area.focus();
    area.setSelectionRange(index, index + Math.max(1, /^[\w$]*/.exec(area.value.slice(index))[0].length));
    area.scrollTop = (before.length - 4) * area.scrollHeight / area.value.split("\n").length;
  } }, "Show"));
}

/** Tells an error of a request: the desk's own line, where it refused. */
function tell_error(error) {
  if (error instanceof Refusal) tell_fault(error.message);
  else if ($("gone").hidden) throw error;
}

function no_faults(parts) {
  $("fault").replaceChildren();
  for (const part of parts) {
    $(`${part}-fault`).replaceChildren();
    $(part).removeAttribute("aria-invalid");
  }
}

async function put_text(name, part) {
  const texts = texts_of(name), text = texts[part];
  no_faults([part]);
  await ask("PUT", `/blocks/${name}/${part}`, text);
  texts.put[part] = text;
  keep(`texts ${name}`, { ...texts_of(name), put: texts.put });
  blocks.set(name, null);
  if (shown === name) show_block(name);
  list_blocks();
  news(`${name}: the ${part} is at the desk.`);
}

// ---- blocks

function list_blocks() {
  const names = [...blocks.keys()].sort();
  $("no-blocks").hidden = names.length > 0;
  $("blocks").replaceChildren(...names.map(name => {
    const [verdict, words] = state_of(blocks.get(name));
    const now = name === shown ? "true" : null;
    return el("li", {}, el("button", { type: "button", "aria-current": now, onclick: () => go_to(name) },
      el("span", {}, name), el("span", { class: `state ${verdict}` }, words)));
  }));
}

/** Shows what there is of a block, its texts but for those that are being typed. */
function show_block(name) {
  const report = blocks.get(name), texts = texts_of(name);
  $("hello").hidden = true;
  $("block").hidden = false;
  $("block-title").textContent = name;
  const [verdict, words] = state_of(report);
  $("block-state").className = `state ${verdict}`;
  $("block-state").textContent = words;
  $("check").disabled = checking !== null;
  $("sign").disabled = checking !== null || words !== "signed off";
  $("working").hidden = checking !== name;
  $("forget").hidden = report !== undefined;
  for (const part of PARTS) if ($(part).value !== texts[part]) $(part).value = texts[part];
  tell_texts();
  if (!report || (trace && trace.report !== report)) close_trace();
  show_report(report);
  show_graph(texts.put.set ?? texts.set, report);
}

function go_to(name) {
  shown = name;
  if (location.hash !== `#${name}`) history.pushState(null, "", `#${name}`);
  no_faults(PARTS);
  close_trace();
  $("texts").open = !blocks.get(name);
  show_block(name);
  list_blocks();
  $("block-title").focus();
}

async function check_block() {
  const name = shown, began = Date.now();
  checking = name;
  no_faults(PARTS);
  show_block(name);
  const tick = () => { $("elapsed").textContent = `${Math.floor((Date.now() - began) / 1000)} s`; };
  const clock = setInterval(tick, 1000);
  tick();
  news(`${name}: the check is running.`);
  try {
    const texts = texts_of(name);
    for (const part of PARTS) if (texts[part] && texts[part] !== texts.put[part]) await put_text(name, part);
    blocks.set(name, await ask("POST", `/blocks/${name}/check`));
    news(`${name}: ${state_of(blocks.get(name))[1]}, after ${Math.ceil((Date.now() - began) / 1000)} s.`);
  } catch (error) {
    news(error instanceof Refusal ? `${name}: ${error.message}` : "");
    if (shown === name) tell_error(error);
  } finally {
    clearInterval(clock);
    checking = null;
    list_blocks();
    if (shown !== null) show_block(shown);
    if (shown === name && blocks.get(name)) {
      $("texts").open = false;
      $("report-title").focus();
    }
  }
}

// ---- sign-offs

async function list_signs() {
  const signs = JSON.parse(await ask("GET", "/signoffs"));
  $("no-signs").hidden = signs.length > 0;
  $("signs").replaceChildren(...signs.map(({ block, number }) => {
    const signed = kept(`sign ${number}`, null), title = [el("b", {}, `No. ${number}`), el("span", {}, block)];
    if (!signed || signed.block !== block) return el("li", {}, el("p", { class: "plain" }, ...title));
    const texts = PARTS.concat("report").map(it => [el("h4", {}, it), el("pre", { tabindex: "0" }, signed[it])]);
    return el("li", {}, el("details", {}, el("summary", {}, ...title), ...texts.flat()));
  }));
}

async function sign_block() {
  const name = shown, { put } = texts_of(name), report = blocks.get(name);
  no_faults([]);
  try {
    const { number } = JSON.parse(await ask("POST", `/blocks/${name}/sign`));
    if (put.module !== undefined && put.set !== undefined) keep(`sign ${number}`, { block: name, ...put, report });
    news(`${name}: sign-off No. ${number}.`);
    await list_signs();
  } catch (error) {
    tell_error(error);
  }
}

function forget_draft() {
  localStorage.removeItem(`texts ${shown}`);
  blocks.delete(shown);
  shown = null;
  history.pushState(null, "", "#");
  $("block").hidden = true;
  $("hello").hidden = false;
  list_blocks();
  $("main").focus();
}

// ---- the page

async function report_of(name) {
  try {
    return await ask("GET", `/blocks/${name}/report`);
  } catch (error) {
    if (error instanceof Refusal) return null;
    throw error;
  }
}

async function load() {
  try {
    const names = JSON.parse(await ask("GET", "/blocks"));
    blocks.clear();
    for (const key of Object.keys(localStorage).filter(it => it.startsWith("texts "))) blocks.set(key.slice(6), undefined);
    for (const name of names) blocks.set(name, null);
    for (const name of blocks.keys()) if (!names.includes(name)) keep(`texts ${name}`, { ...texts_of(name), put: {} });
    list_blocks();
    await list_signs();
    for (const name of names) {
      blocks.set(name, await report_of(name));
      list_blocks();
    }
    follow_address();
    news("");
  } catch (error) {
    tell_error(error);
  }
}

function follow_address() {
  const name = decodeURIComponent(location.hash.slice(1));
  if (blocks.has(name)) go_to(name);
}

function begin() {
  for (const part of PARTS) {
    const side = document.querySelector(`[data-part=${part}]`);
    $(part).addEventListener("input", () => typed(part));
    side.querySelector(".put").addEventListener("click", () => put_text(shown, part).catch(tell_error));
    side.querySelector("input").addEventListener("change", async event => {
      const [file] = event.target.files;
      if (!file) return;
      $(part).value = await file.text();
      event.target.value = "";
      typed(part);
      await put_text(shown, part).catch(tell_error);
    });
  }
  $("add").addEventListener("submit", event => {
    event.preventDefault();
    const name = $("add-name").value;
    $("add-name").value = "";
    if (!blocks.has(name)) blocks.set(name, undefined);
    go_to(name);
  });
  $("check").addEventListener("click", check_block);
  $("sign").addEventListener("click", sign_block);
  $("forget").addEventListener("click", forget_draft);
  $("trace-close").addEventListener("click", () => {
    const button = document.querySelector(`.open [data-line="${trace.line.number}"]`);
    close_trace();
    button.focus();
  });
  $("base").addEventListener("change", draw_trace);
  $("again").addEventListener("click", load);
  window.addEventListener("popstate", follow_address);
  load();
}

begin();
