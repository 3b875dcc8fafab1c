// The pictures beside some rows: lanes, arrows and signs on the right, times and brackets on the left.
const SAYS = { unfired: "unfired", run: "a callback runs", ok: "fired, a value", fail: "fired, a failure", wait: "waits for another" };
const BARS = { unfired: "u", ok: "ok", fail: "fail", wait: "wait" };
const ARROWS = ["fire", "hand", "wait", "cancel", "refuse", "swallow", "pause"];
const OVER = 4;

function path(kind, d) { return drawn("path", { class: kind, d: d }); }

// the bar of a lane, between these heights
function barOf(x, top, bottom, state, paused) {
  if (state === "run") return [drawn("rect", { class: "run", x: x - 5.5, y: top, width: 11, height: Math.max(1, bottom - top) })];
  const line = "M" + x + " " + top + "V" + bottom, found = [];
  if (paused) found.push(path("rails", "M" + (x - 4) + " " + top + "V" + bottom + "M" + (x + 4) + " " + top + "V" + bottom));
  found.push(path(BARS[state] + (paused ? " thin" : ""), line));
  if (state === "fail") found.push(path("notch", line));
  return found;
}
// an arrow from one lane to another, whose head and stroke show what it does; one of a failure has a stroke across
function arrowOf(kind, fails, start, end, y, gap) {
  const way = end > start ? 1 : -1, name = fails && (kind === "fire" || kind === "hand") ? "fail" : kind;
  const tail = start + way * (gap + 1), head = end - way * 6;
  const found = [path("a a-" + name, "M" + tail + " " + y + "H" + (head - (kind === "refuse" ? 0 : way * 3)))];
  if (kind === "refuse") found.push(path("a a-refuse", "M" + (head - 3) + " " + (y - 3) + "l6 6m0 -6l-6 6"));
  else if (kind === "swallow") found.push(drawn("circle", { class: "a a-swallow", cx: head, cy: y, r: 3.5 }));
  else if (kind === "pause") found.push(path("a a-pause", "M" + (head - way * 3) + " " + (y - 4) + "v8m" + way * 3 + " -8v8"));
  else {
    if (name === "fail") found.push(path("a a-fail", "M" + (head - way * 9) + " " + (y - 4) + "v8"));
    found.push(path("h-" + name, "M" + (head + way * 2) + " " + y + "l" + -way * 7 + " -4v8z"));
  }
  return found;
}
// an arrow from a lane to itself
function hookOf(kind, fails, x, y) {
  const name = fails && (kind === "fire" || kind === "hand") ? "fail" : kind, open = ["refuse", "swallow", "pause"].includes(kind);
  return [path("a a-" + name, "M" + (x + 5) + " " + (y - 3) + "h10v6h-5"), path(open ? "a a-" + name : "h-" + name, "M" + (x + 7) + " " + (y + 3) + "l5 -3v6z")];
}
function capOf(x, y, end) {
  const ring = drawn("circle", { class: "cap c-" + CLASSES[end], cx: x, cy: y, r: 6.5 });
  return end === ENDS.indexOf("unfired") ? [ring] : [ring, drawn("text", { class: "g g-" + CLASSES[end], x: x, y: y + 4 }, SIGNS[end])];
}
function grouped(attributes, shapes) {
  const group = drawn("g", attributes);
  group.append(...shapes);
  return group;
}

// the lanes beside the rows that are shown at these places; `at` says which slots these are, and where each slot stands
function laneBars(lane, at, top, bottom) {
  const spans = deferredOf(lane.number).spans, starts = spans.filter((_, place) => place % 2 === 0).map(slotAt), found = [], last = at.slots[at.slots.length - 1];
  const quiet = lane.quiet < total ? heightOf(lane.quiet) : Infinity, end = lane.bottom < total ? heightOf(lane.bottom) : heightOf(total) - 2;
  for (let place = Math.max(0, atMost(starts, at.slots[0]) - 1); place < starts.length && starts[place] <= last; place += 1) {
    const from = Math.max(top - OVER, spans[2 * place] >= first ? heightOf(starts[place]) : 0);
    const to = Math.min(bottom + OVER, end, place + 1 < starts.length ? heightOf(starts[place + 1]) : Infinity);
    [[from, Math.min(to, quiet), false], [Math.max(from, quiet), to, true]].forEach(part => {
      if (part[0] < part[1]) found.push(laneBar(lane, part[0] - top, part[1] - top, spans[2 * place + 1], part[2]));
    });
  }
  return found;
}
function laneBar(lane, from, to, look, isQuiet) {
  const state = STATES[look >> 1], paused = look % 2 === 1;
  const group = grouped({ class: isQuiet ? "lane quiet" : "lane", "data-d": lane.number }, barOf(lane.x, from, to, state, paused));
  group.append(drawn("title", {}, labelOf(lane.number) + ": " + (paused ? "paused, " : "") + SAYS[state]));
  return group;
}
function rowArrows(row, y) {
  const told = arrowsOf.get(row) || [], found = [];
  for (let at = 0; at < told.length; at += 3) {
    const kind = ARROWS[told[at]], start = xOf(told[at + 1]), end = xOf(told[at + 2]);
    if (end === null) continue;
    const shapes = start === end ? hookOf(kind, failsAt(row), end, y) : arrowOf(kind, failsAt(row), start || 0, end, y, start === null ? 0 : 5);
    found.push(grouped({ class: "arrow", "data-d": (told[at + 1] < 0 ? "" : told[at + 1] + " ") + told[at + 2], "data-to": told[at + 2] }, shapes));
  }
  return found;
}
// the beginning of a lane, with its number and name, and where pairs were added
function rowMarks(row, y) {
  const word = wordOf(row), lane = word === "new" || word === "add" ? lanes.get(Number(partsOf(row).words[1].slice(1))) : null;
  if (!lane) return [];
  const number = lane.number;
  if (word === "add") return [drawn("path", { class: "tick lane", "data-d": number, d: "M" + (lane.x - 4) + " " + y + "h8" })];
  const room = roomOf(lane), label = room >= String(number).length + 5 ? clipped(labelOf(number), room) : "#" + number;
  return [grouped({ class: "lane", "data-d": number, "data-x": lane.x }, [
    drawn("circle", { class: "cap c-unfired", cx: lane.x, cy: y, r: 3.5 }), drawn("text", { x: lane.x + 8, y: y + 4 }, label)
  ])];
}
function lanesPicture(at) {
  const height = at.slots.length * SLOT, top = at.from * SLOT, ground = [], shapes = [], bars = [], marks = [], free = at.slots.map(() => true);
  at.slots.forEach((slot, place) => {
    const row = slots.rows[slot], y = place * SLOT;
    if (slots.kinds[slot] === HEAD) ground.push(path("rule", "M0 " + (y + 0.5) + "H" + fullWidth));
    if (!isLine(slot)) return;
    const word = wordOf(row);
    if (word === "advance") ground.push(drawn("rect", { class: "band", x: 0, y: y, width: fullWidth, height: SLOT }));
    free[place] = !arrowsOf.has(row) && word !== "new" && word !== "add";
    shapes.push(...rowArrows(row, y + SLOT / 2));
    marks.push(...rowMarks(row, y + SLOT / 2));
  });
  const there = near(laneBuckets, at.slots[0], at.slots[at.slots.length - 1]);
  there.forEach(lane => {
    if (chosen === lane.number) ground.push(columnOf(lane, top, height));
    bars.push(...laneBars(lane, at, top, top + height));
    const y = lane.bottom < total ? heightOf(lane.bottom) - top : heightOf(total) - 9 - top;
    if (y < 0 || y > height || (lane.bottom < total && !isShown(lane.bottom))) return;
    marks.push(grouped({ class: "lane", "data-d": lane.number }, capOf(lane.x, y, lane.end)));
    free[Math.min(free.length - 1, Math.floor(y / SLOT))] = false;
  });
  const picture = drawn("svg", { "aria-hidden": "true", width: fullWidth, height: height });
  picture.append(...ground, ...shapes, ...bars, ...laneNumbers(at, there, free), ...marks);
  return picture;
}
function columnOf(lane, top, height) {
  const from = Math.max(0, heightOf(lane.top) - top), to = Math.min(height, heightOf(lane.bottom) - top);
  return drawn("rect", { class: "column", x: lane.x - 13, y: from, width: 26, height: Math.max(0, to - from) });
}
// the numbers of the lanes that come from above, in a row where nothing else stands
function laneNumbers(at, there, free) {
  const place = at.from && at.from % (2 * CHUNK) === 0 ? free.indexOf(true) : -1, found = [];
  if (place < 0) return found;
  there.forEach(lane => {
    if (lane.top >= at.slots[0] || lane.bottom <= at.slots[place]) return;
    found.push(drawn("text", { class: "dim lane", "data-d": lane.number, x: lane.x + 8, y: place * SLOT + 14 }, "#" + lane.number));
  });
  return found;
}

// times and brackets
function rulerPicture(at) {
  const height = at.slots.length * SLOT, top = at.from * SLOT, picture = drawn("svg", { width: RULER, height: height });
  let isFirst = true;
  at.slots.forEach((slot, place) => {
    if (!isLine(slot)) return;
    const advances = wordOf(slots.rows[slot]) === "advance";
    if (advances) picture.append(drawn("rect", { class: "band", x: 0, y: place * SLOT, width: RULER, height: SLOT }));
    if (advances || isFirst) picture.append(timeText(timeOf(slots.rows[slot]), place * SLOT + 14));
    isFirst = false;
  });
  near(bracketBuckets, at.slots[0], at.slots[at.slots.length - 1]).forEach(one => picture.append(...bracketOf(one, top, height)));
  return picture;
}
function timeText(time, y) {
  const text = drawn("text", { class: "time", x: 2, y: y }, shortTime(time));
  text.append(drawn("title", {}, data.tick ? time * data.tick + " s" : String(time)));
  return text;
}
function bracketOf(one, top, height) {
  const x = RULER - 6 - one.place * 7, from = heightOf(one.top) - top, to = (one.bottom < total ? heightOf(one.bottom) : heightOf(total)) - top;
  if (from >= to || to < 0 || from > height) return [];
  const begins = one.begins && isShown(one.top) && from >= 0, ends = one.ends && isShown(one.bottom) && to <= height;
  const start = begins ? "M" + RULER + " " + from + "H" + x : "M" + x + " " + Math.max(0, from);
  const found = [path("br br-" + one.kind, start + "V" + Math.min(height, to) + (ends ? "H" + RULER : ""))];
  if (ends && one.kind === "came") found.push(path("br-head", "M" + RULER + " " + to + "l-5 -3v6z"));
  if (ends && one.kind === "cancelled") found.push(path("br br-cancelled", "M" + (RULER - 6) + " " + (to - 3) + "l6 6m0 -6l-6 6"));
  return found;
}

// what the bars, signs and arrows mean
(function makeLegend() {
  const legend = document.querySelector(".legend"), signs = { unfired: "○ ", run: "", ok: "✓ ", fail: "✕ ", wait: "… " };
  function entry(width, height, shapes, text) {
    const one = made("span"), picture = drawn("svg", { width: width, height: height });
    picture.append(...shapes);
    one.append(picture, text);
    legend.append(one);
  }
  Object.keys(signs).forEach(state => entry(16, 18, barOf(8, 0, 18, state, false), signs[state] + SAYS[state]));
  entry(16, 18, barOf(8, 0, 18, "ok", true), "‖ paused");
  [["fire", false, "fires, hands over"], ["fire", true, "the same with a failure"], ["wait", false, "waits for"], ["cancel", false, "cancels"],
    ["refuse", false, "is refused"], ["swallow", false, "is swallowed"], ["pause", false, "pauses, unpauses"]
  ].forEach(one => entry(44, 16, arrowOf(one[0], one[1], 2, 40, 8, 0), one[2]));
})();
