// The rows: which are shown, and which of these are drawn, so many at a time as are seen.
const AROUND = 1;
const rowsBox = made("div", "rows"), parts = new Map();
// what decides which rows are shown: all of these functions have to agree
const sieves = {};
// the slots that are shown, and of each slot how many are shown before it
let shownSlots = new Int32Array(0), above = new Int32Array(total + 1);
// the row that was chosen last, the Deferred that is followed, and the rows that have a text that is looked for
let current = null, chosen = null, hits = null;
// the Deferreds that the one which is followed awaits, and those that await it
let related = new Set();
// of a print, the first and the last of the places that are drawn
let printed = null;

function isShown(slot) { return above[slot + 1] > above[slot]; }
// where a slot stands now: its middle if it is shown
function heightOf(slot) { return above[slot] * SLOT + (slot < total && isShown(slot) ? SLOT / 2 : 0); }
function isRowShown(row) { return isHere(row) && isLine(slotAt(row)) && isShown(slotAt(row)); }

function passing() {
  const tests = Object.values(sieves), shown = new Uint8Array(total);
  for (let slot = 0; slot < total; slot += 1) shown[slot] = slots.kinds[slot] === PAD || (isLine(slot) && tests.every(test => test(slots.rows[slot]))) ? 1 : 0;
  // the head of an event stands where one of its lines does, and how often a line comes again where the line does
  let next = total;
  for (let at = total - 1; at >= 0; at -= 1) {
    if (slots.kinds[at] === HEAD) shown[at] = next <= at + slots.more[at] ? 1 : 0;
    else if (slots.kinds[at] === SAME) shown[at] = shown[at - 1];
    else if (shown[at]) next = at;
  }
  return shown;
}
// works out anew which rows are shown; a row or an element that is kept stays where it is seen
function lay(kept) {
  const before = kept === undefined ? null : topOf(kept), shown = passing(), found = new Int32Array(total);
  let count = 0;
  for (let slot = 0; slot < total; slot += 1) {
    above[slot] = count;
    if (shown[slot]) found[count++] = slot;
  }
  above[total] = count;
  shownSlots = found.subarray(0, count);
  rowsBox.style.height = count * SLOT + "px";
  parts.forEach(part => part.remove());
  parts.clear();
  drawSeen();
  if (before !== null) scrollBy(0, topOf(kept) - before);
}
function topOf(kept) { return typeof kept === "number" ? rowTop(kept) : kept.getBoundingClientRect().top; }
// where a row is seen, from the top of the screen
function rowTop(row) { return rowsBox.getBoundingClientRect().top + above[slotAt(row)] * SLOT; }

// draws the parts that are near what is seen, and drops the others
function drawSeen() {
  const top = -rowsBox.getBoundingClientRect().top, last = Math.ceil(shownSlots.length / CHUNK) - 1;
  const from = printed ? Math.floor(printed.from / CHUNK) : Math.max(0, Math.min(last, Math.floor(top / SLOT / CHUNK) - AROUND));
  const to = printed ? Math.floor(printed.to / CHUNK) : Math.min(last, Math.max(from, Math.floor((top + innerHeight) / SLOT / CHUNK) + AROUND));
  parts.forEach((part, number) => {
    if (number >= from && number <= to) return;
    part.remove();
    parts.delete(number);
  });
  for (let number = from; number <= to; number += 1) if (!parts.has(number)) addPart(number);
  chart.dataset.drawn = from + " " + to;
}
function addPart(number) {
  const part = partOf(number);
  parts.set(number, part);
  let next = number + 1;
  while (next <= number + 200 && !parts.has(next)) next += 1;
  rowsBox.insertBefore(part, parts.get(next) || null);
  if (chosen !== null || hits !== null || current !== null) mark(part);
}
function partOf(number) {
  const from = number * CHUNK, at = { from: from, slots: Array.from(shownSlots.subarray(from, from + CHUNK)) };
  const part = made("div", "chunk"), side = made("div", "side");
  part.setAttribute("role", "presentation");
  side.setAttribute("role", "presentation");
  part.style.top = (from - (printed ? Math.floor(printed.from / CHUNK) * CHUNK : 0)) * SLOT + "px";
  part.style.height = at.slots.length * SLOT + "px";
  inChart = true;
  at.slots.forEach(slot => side.append(slotElement(slot)));
  inChart = false;
  side.append(rulerPicture(at));
  part.append(side, lanesPicture(at));
  return part;
}
// the parts as they have to look now
function redraw() {
  parts.forEach(part => part.remove());
  parts.clear();
  drawSeen();
}

// the rows themselves
function cell(name, kind, ...held) {
  const one = made(name, kind);
  one.setAttribute("role", "gridcell");
  one.append(...held);
  return one;
}
function slotElement(slot) {
  const row = made("div", "row");
  row.setAttribute("role", "row");
  const kind = slots.kinds[slot], at = slots.rows[slot], more = slots.more[slot];
  if (kind === LINE) return lineElement(row, at);
  if (kind === HEAD) return headElement(row, at);
  if (kind === SAME) {
    row.classList.add("same");
    row.append(cell("span", "n", "⋮"), cell("span", "t", "the same line " + more + " times more, up to line " + (at + more + 1)));
  } else row.removeAttribute("role");
  return row;
}
function headElement(row, at) {
  const head = heads.get(at), cut = head.indexOf("  "), shown = made("span");
  if (cut >= 0) {
    shown.append(made("b"));
    shown.firstChild.append(isolated(head.slice(cut + 2)));
  }
  row.classList.add("ev");
  row.dataset.e = at + 1;
  if (wholes.has(at)) row.title = wholes.get(at);
  row.append(cell("span", "n"), cell("span", "t", cut >= 0 ? head.slice(0, cut + 2) : head, shown.firstChild || ""));
  if (eventPlaces.has(at)) row.lastChild.append("  ", placeLink(eventPlaces.get(at)));
  return row;
}
function lineElement(row, at) {
  const number = cell("a", "n", String(at + 1)), after = behind(at);
  number.href = "#row=" + (at + 1);
  number.tabIndex = -1;
  row.id = "r" + (at + 1);
  row.setAttribute("aria-rowindex", at + 1);
  row.dataset.d = namesOf(at).join(" ");
  if (failsAt(at)) row.classList.add("f");
  row.append(number, ...indents(at), cell("span", "t", lineWords(at)));
  foldsAt(at).forEach(fold => row.append(cell("span", "", foldButton(fold))));
  if (after) row.append(cell("span", "c", ...after));
  if (after && tails.has(at) && wholes.has(at)) row.lastChild.title = wholes.get(at);
  return row;
}
// how deep the row lies: first in sections, then in callbacks
function indents(row) {
  const inner = Math.min(data.sides[row - first], DEEPEST), outer = Math.min(depthOf(row) - data.sides[row - first], DEEPEST - inner), found = [];
  if (outer > 0) found.push(made("i", "d" + outer));
  if (inner) found.push(made("i", "in d" + inner));
  if (depthOf(row) > DEEPEST) found.push(made("span", "x", String(depthOf(row))));
  return found;
}

// what is chosen, followed and found looks so in this part
function mark(part) {
  all(".row[id]", part).forEach(one => {
    const row = Number(one.id.slice(1)) - 1;
    one.classList.toggle("on", chosen !== null && names(row, chosen));
    one.classList.toggle("by", chosen !== null && namesOf(row).some(number => related.has(number)));
    one.classList.toggle("hit", hits !== null && hits.has(row));
    one.classList.toggle("here", row === current);
  });
  all(".lane, .arrow", part).forEach(one => {
    const named = one.dataset.d.split(" ").map(Number);
    one.classList.toggle("on", chosen !== null && named.includes(chosen));
    one.classList.toggle("by", named.some(number => related.has(number)));
  });
}
function markAll() { parts.forEach(mark); }

// chooses a row, which the keys go on from; it is brought to the middle of the screen if that is asked for
function makeCurrent(row) {
  const before = current === null ? null : document.getElementById("r" + (current + 1));
  current = row;
  if (before) before.removeAttribute("aria-selected");
  markAll();
  if (row !== null && document.getElementById("r" + (row + 1))) document.getElementById("r" + (row + 1)).setAttribute("aria-selected", "true");
  if (row === null) chart.removeAttribute("aria-activedescendant");
  else chart.setAttribute("aria-activedescendant", "r" + (row + 1));
}
function bringToSight(row, always) {
  const top = rowTop(row);
  if (always || top < 40 || top > innerHeight - 60) scrollTo(scrollX, scrollY + top - Math.floor(innerHeight / 2));
  drawSeen();
}
// the row that is seen at a height of the screen, or null
function rowAt(height) {
  const place = Math.floor((height - rowsBox.getBoundingClientRect().top) / SLOT);
  for (let at = Math.max(0, place); place < shownSlots.length && at < shownSlots.length; at += 1) if (isLine(shownSlots[at])) return slots.rows[shownSlots[at]];
  return null;
}

// the head, which stays in sight, and what the page needs to be as wide as its chart
function laneHead() {
  const picture = drawn("svg", { width: fullWidth, height: 22 }), room = Math.floor((laneWidth - 8) / 7), there = lanes.size, every = shownDeferreds.length;
  if (ownColumns) lanes.forEach(lane => picture.append(drawn("text", { class: "dim", x: lane.x - 6, y: 15 }, clipped(labelOf(lane.number), room))));
  else {
    const which = there < every ? there + " of " + every + " Deferreds: no more stand beside each other; " : there + " Deferreds; ";
    picture.append(drawn("text", { class: "dim", x: 14, y: 15 }, "lanes of " + which + "a column is used again when one is done"));
  }
  return picture;
}
(function begin() {
  const head = made("div", "head"), style = document.styleSheets[0], width = sideWidth + fullWidth, paper = Math.max(1123, width + 48);
  head.append(made("div", "what", "  line  " + (data.tick ? "seconds" : "time   ") + "   what happened"), laneHead());
  head.setAttribute("aria-hidden", "true");
  [
    "#chart{width:" + width + "px;--side:min(" + sideWidth + "px,62vw)}",
    "@media screen and (max-width:600px){body:not(.lanes) #chart{width:100%;--side:100vw}}",
    "@page{size:" + paper + "px " + Math.floor(paper / 1.414) + "px;margin:24px}"
  ].forEach(rule => style.insertRule(rule, style.cssRules.length));
  chart.setAttribute("role", "grid");
  chart.setAttribute("aria-label", "What happened, in order");
  chart.setAttribute("aria-rowcount", data.total);
  chart.tabIndex = 0;
  rowsBox.setAttribute("role", "presentation");
  chart.append(head, rowsBox);
  chart.hidden = document.getElementById("above").hidden = false;
  if (dropped) chart.after(made("p", "facts dropped", dropped + " of the ruler's brackets aren't drawn: they are longer than 150 rows, or more than five beside each other. The row of a call says at which line it was scheduled."));
  addEventListener("scroll", drawSeen, { passive: true });
  addEventListener("resize", drawSeen);
})();

// a print has the rows that are seen, and some more
const MOST_PRINTED = 320;
addEventListener("beforeprint", () => {
  const from = Math.max(0, Math.floor(-rowsBox.getBoundingClientRect().top / SLOT / CHUNK)) * CHUNK, to = Math.min(shownSlots.length, from + MOST_PRINTED);
  printed = { from: Math.min(from, Math.floor((shownSlots.length - 1) / CHUNK) * CHUNK), to: to - 1 };
  rowsBox.style.height = (to - printed.from) * SLOT + "px";
  redraw();
});
addEventListener("afterprint", () => {
  printed = null;
  rowsBox.style.height = shownSlots.length * SLOT + "px";
  redraw();
});
