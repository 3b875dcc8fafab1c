// Elements, and what a row, a phrase, a place and a time say. A text of the run is always the text of a node.
const NS = "http://www.w3.org/2000/svg";
const MOST_PLACE = 60, DEEPEST = 12;
const SIGNS = ["✓", "✕", "…", "‖", "○"], CLASSES = ["ok", "fail", "wait", "paused", "unfired"];
const body = document.body, chart = document.getElementById("chart");
// whether links are made for the chart, which the Tab key reaches as a whole
let inChart = false;

function all(selector, root) { return Array.from((root || document).querySelectorAll(selector)); }
function made(name, kind, text) {
  const element = document.createElement(name);
  if (kind) element.className = kind;
  if (text !== undefined) element.textContent = text;
  return element;
}
function button(text, kind, act) {
  const one = made("button", kind, text);
  one.type = "button";
  one.addEventListener("click", act);
  return one;
}
function drawn(name, attributes, text) {
  const element = document.createElementNS(NS, name);
  Object.keys(attributes).forEach(key => element.setAttribute(key, attributes[key]));
  if (text !== undefined) element.textContent = text;
  return element;
}
function several(count, one, many) { return count + " " + (count === 1 ? one : many); }
function clipped(text, most) { return text.length <= most ? text : text.slice(0, most - 1) + "…"; }
function isolated(text) { return made("bdi", "", text); }

function inTicks(count) {
  const seconds = count * data.tick;
  if (!data.tick) return several(count, "tick", "ticks");
  return inSeconds(seconds);
}
function inSeconds(seconds) {
  if (seconds >= 1000) return seconds.toFixed(0) + " s";
  if (seconds && seconds < 0.001) return Number((seconds * 1000).toPrecision(3)) + " ms";
  return Number(seconds.toPrecision(4)) + " s";
}
// a time in at most six characters
function shortTime(time) {
  const text = data.tick ? String(Number((time * data.tick).toFixed(9))) : String(time);
  if (text.length <= 6) return text;
  if (data.tick && time * data.tick < 1000) return String(Number((time * data.tick).toPrecision(4)));
  const power = Math.floor(Math.log10(Number(text)) / 3), size = Number(text) / 1000 ** power;
  return Number(size.toPrecision(3)) + ["", "k", "M", "G", "T", "P"][power];
}

function labelOf(number, named) {
  const name = named === false ? "" : nameOf(number);
  return "#" + number + (name ? " " + name : "");
}
// a click chooses the Deferred
function deferredLink(number, named) {
  if (!deferreds.has(number)) return made("span", "", labelOf(number, named));
  const link = made("a", "", labelOf(number, named));
  link.dataset.f = number;
  link.href = "#d=" + number;
  if (inChart) link.tabIndex = -1;
  return link;
}
function lineLink(row) {
  const link = made(isHere(row) ? "a" : "span", "", "line\u00a0" + (row + 1));
  if (isHere(row)) link.href = "#row=" + (row + 1);
  if (inChart) link.tabIndex = -1;
  return link;
}
function placeText(number) { return data.files[data.places[number][0]][1] + ":" + data.places[number][1]; }
function wholePlace(number) { return data.files[data.places[number][0]][0] + ":" + data.places[number][1]; }
function placeLink(number) {
  const address = data.files[data.places[number][0]][2], link = made(address ? "a" : "span", "at");
  link.append(isolated(clipped(placeText(number), MOST_PLACE)));
  link.title = wholePlace(number);
  if (address) {
    link.href = address;
    link.target = "_top";
    if (inChart) link.tabIndex = -1;
  }
  return link;
}

// a phrase as nodes
function said(phrase) {
  const nodes = document.createDocumentFragment();
  phrase.forEach(part => {
    if (typeof part === "string") nodes.append(part);
    else if (Array.isArray(part)) nodes.append(isolated(part[0]));
    else if (typeof part === "object") nodes.append(placeLink(part.place));
    else nodes.append(part < 0 ? lineLink(-1 - part) : deferredLink(part));
  });
  return nodes;
}
function saidPlainly(phrase) {
  return phrase.map(part => {
    if (typeof part === "string") return part;
    if (Array.isArray(part)) return part[0];
    if (typeof part === "object") return placeText(part.place);
    return part < 0 ? "line " + -part : labelOf(part);
  }).join("");
}

// the words of a line before what is a script's own, and that
function partsOf(row) {
  const line = lines[row - first], head = data.heads[row - first];
  return { words: (head ? line.slice(0, head) : line).split(" ").filter(Boolean), own: head ? line.slice(head) : "" };
}
function shownWords(word, words) { return word === "new" ? words.slice(1, 2) : words.slice(1); }
function lineWords(row) {
  const word = wordOf(row), nodes = document.createDocumentFragment();
  if (!word) {
    nodes.append(isolated(lines[row - first]));
    return nodes;
  }
  const parts = partsOf(row);
  nodes.append(made("b", "k-" + word, word));
  shownWords(word, parts.words).forEach(one => nodes.append(" ", /^#\d+$/.test(one) ? deferredLink(Number(one.slice(1)), word !== "name") : one));
  if (parts.own) nodes.append(" ", isolated(parts.own));
  return nodes;
}
function lineText(row) {
  const word = wordOf(row);
  if (!word) return lines[row - first];
  const parts = partsOf(row);
  const texts = shownWords(word, parts.words).map(one => /^#\d+$/.test(one) ? labelOf(Number(one.slice(1)), word !== "name") : one);
  return [word, ...texts, ...(parts.own ? [parts.own] : [])].join(" ");
}

// why a row happened, its event, and its place: nodes, or null
function behind(row) {
  const nodes = [], cause = causes.get(row), tail = tails.get(row);
  if (cause) nodes.push("← ", said(cause));
  if (tail) nodes.push(nodes.length ? "   " : "", isolated(tail));
  if (tail && eventPlaces.has(row)) nodes.push("  ", placeLink(eventPlaces.get(row)));
  if (rowPlaces.has(row)) nodes.push(nodes.length ? "   " : "", placeLink(rowPlaces.get(row)));
  return nodes.length ? nodes : null;
}
function behindText(row) {
  const texts = [];
  if (causes.has(row)) texts.push("← " + saidPlainly(causes.get(row)));
  if (tails.has(row)) texts.push(tails.get(row) + (eventPlaces.has(row) ? "  " + placeText(eventPlaces.get(row)) : ""));
  if (rowPlaces.has(row)) texts.push(placeText(rowPlaces.get(row)));
  return texts.join("   ");
}
