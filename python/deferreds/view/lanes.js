// Where things stand in the chart, whatever of it is shown: slots from top to bottom, lanes and brackets from left to right.
const SLOT = 20, CHUNK = 16, BUCKET = 128;
const LINE = 0, HEAD = 1, SAME = 2, PAD = 3;
const OWN = 10, STAY = 24, MOST_COLUMNS = 100, LEFT = 30, LEAST_WIDTH = 440;
const NUMBER = 46, RULER = 58, MOST_BESIDE = 5, LONGEST = 150;

// a slot is a line, the head of an event, how often a line comes again, or the end; with its row, and how many slots or lines more
const slots = { kinds: new Uint8Array(2 * (stop - first) + 1), rows: new Int32Array(2 * (stop - first) + 1), more: new Int32Array(2 * (stop - first) + 1) };
const slotOf = new Int32Array(stop - first);
const total = (function makeSlots() {
  let count = 0, top = -1;
  function add(kind, row, more) {
    slots.kinds[count] = kind;
    slots.rows[count] = row;
    slots.more[count] = more;
    count += 1;
  }
  for (let row = first; row < stop;) {
    if (heads.has(row) || tails.has(row)) top = -1;
    if (heads.has(row)) {
      top = count;
      add(HEAD, row, 0);
    }
    const times = same.get(row) || 1, before = count;
    slotOf.fill(count + 1, row - first, row - first + times);
    slotOf[row - first] = count;
    add(LINE, row, 0);
    if (times > 1) add(SAME, row, times - 1);
    if (top >= 0) slots.more[top] += count - before;
    row += times;
  }
  add(PAD, stop, 0);
  return count;
})();
function isLine(slot) { return slots.kinds[slot] === LINE; }
function slotAt(row) { return row < first ? 0 : row >= stop ? total : slotOf[row - first]; }

// the lanes: of the Deferreds that these lines mention, and if there are few also of those that were left before
const lanes = new Map(), beside = [];
const shownDeferreds = (function () {
  const { ends, made, last } = columns, mentioned = Array.from(deferreds.values()).filter(at => made[at] < stop && (last[at] >= first || ends[at] !== 0));
  return mentioned.length <= STAY ? mentioned : mentioned.filter(at => last[at] >= first);
})();
const ownColumns = shownDeferreds.length <= OWN;
(function makeLanes() {
  const stay = shownDeferreds.length <= STAY, free = [];
  shownDeferreds.forEach(at => {
    const end = columns.ends[at], last = columns.last[at], top = slotAt(Math.max(columns.made[at], first));
    const bottom = stay && end !== 0 ? total : Math.min(total, slotAt(Math.min(last, stop - 1)) + 2);
    let column = ownColumns ? -1 : free.findIndex(until => until <= top);
    if (column < 0) column = free.length;
    if (column === MOST_COLUMNS) return;
    if (column === free.length) beside.push({ tops: [], bottoms: [] });
    free[column] = bottom + 1;
    beside[column].tops.push(top);
    beside[column].bottoms.push(bottom);
    const number = columns.numbers[at], quiet = Math.min(total, last >= first ? slotAt(last) + 1 : 0);
    lanes.set(number, { number, end, column, top, bottom, quiet, x: 0 });
  });
})();
const laneWidth = widthOf(Math.max(1, beside.length), String(Array.from(lanes.keys()).reduce((most, number) => Math.max(most, number), 0)).length);
const fullWidth = Math.max(LEAST_WIDTH, 40 + Math.max(1, beside.length) * laneWidth + 80);
lanes.forEach(lane => { lane.x = LEFT + lane.column * laneWidth; });
function widthOf(count, digits) {
  if (count <= 5) return 120;
  if (count <= 10) return 92;
  return Math.max(count <= 14 ? 64 : 34, 17 + 7 * (digits + 1));
}
function xOf(number) {
  const lane = lanes.get(number);
  return lane ? lane.x : null;
}
// how many characters have room beside the beginning of a lane
function roomOf(lane) {
  let after = lane.column + 1;
  while (after < beside.length && !isTaken(beside[after], lane.top)) after += 1;
  return Math.floor(((after - lane.column) * laneWidth - 18) / 7);
}
function isTaken(column, slot) {
  const place = atMost(column.tops, slot) - 1;
  return place >= 0 && column.bottoms[place] >= slot;
}

// the brackets: none longer than 150 rows, and five beside each other
const brackets = [];
let dropped = 0;
(function makeBrackets() {
  const taken = new Uint8Array(total + 1);
  data.brackets.forEach(one => {
    const top = slotAt(one[1]), bottom = one[2] < 0 ? total : slotAt(one[2]);
    let used = bottom - top > LONGEST ? 255 : 0;
    for (let slot = top; used < 31 && slot <= bottom; slot += 1) used |= taken[slot];
    let place = 0;
    while (place < MOST_BESIDE && used & (1 << place)) place += 1;
    if (place === MOST_BESIDE) return void (dropped += 1);
    for (let slot = top; slot <= bottom; slot += 1) taken[slot] |= 1 << place;
    brackets.push({ kind: ["came", "cancelled", "left"][one[0]], top: top, bottom: bottom, place: place, begins: one[1] >= first, ends: one[2] >= 0 && one[2] < stop });
  });
})();

// lanes and brackets by the parts of the chart in which they lie
function inBuckets(every) {
  const found = Array.from({ length: Math.floor(total / BUCKET) + 1 }, () => []);
  every.forEach(one => {
    for (let part = Math.floor(one.top / BUCKET); part <= Math.floor(Math.min(one.bottom, total) / BUCKET); part += 1) found[part].push(one);
  });
  return found;
}
const laneBuckets = inBuckets(Array.from(lanes.values())), bracketBuckets = inBuckets(brackets);
// those that lie in these slots
function near(buckets, from, to) {
  const found = new Set();
  for (let part = Math.floor(from / BUCKET); part <= Math.floor(to / BUCKET); part += 1) {
    buckets[part].forEach(one => { if (one.top <= to && one.bottom >= from) found.add(one); });
  }
  return found;
}

// how wide the texts of the rows are drawn: by the longest, within bounds
const sideWidth = NUMBER + RULER + (function widest() {
  let width = 430;
  for (let slot = 0; slot < total && width < 660; slot += 1) width = Math.max(width, 24 + 7.6 * charactersOf(slots.kinds[slot], slots.rows[slot]));
  return Math.floor(Math.min(660, width));
})();
function charactersOf(kind, row) {
  const place = eventPlaces.has(row) ? placeText(eventPlaces.get(row)).length + 2 : 0;
  if (kind === HEAD) return 0.95 * (heads.get(row).length + place);
  if (kind !== LINE) return 0;
  const named = namesOf(row).reduce((sum, number) => sum + nameOf(number).length + 1, 0);
  const after = tails.has(row) ? Math.min(tails.get(row).length, 40) + place : 0;
  return lines[row - first].length + named + 2.3 * Math.min(depthOf(row), DEEPEST) + (causes.has(row) ? 30 : 0) + 0.95 * after;
}
