// What the page has to draw, and how it is read. `data.py` says what each part of it is.
const data = JSON.parse(document.getElementById("data").textContent);
const ENDS = ["ok", "fail", "waiting", "paused", "unfired"], STATES = ["unfired", "ok", "fail", "wait", "run"];
const first = data.first, stop = first + data.kinds.length;
const lines = data.lines.split("\n");

// the values of some rows of the page, by row
class Sparse {
  constructor(column) {
    this.values = column[1];
    // (of each row the place of its value, from 1)
    this.places = new Int32Array(stop - first);
    rowsOfColumn(column).forEach((row, place) => { this.places[row - first] = place + 1; });
  }
  has(row) { return this.places[row - first] > 0; }
  get(row) { return this.values[this.places[row - first] - 1]; }
}
function rowsOfColumn(column) {
  const rows = Int32Array.from(column[0]);
  for (let place = 1; place < rows.length; place += 1) rows[place] += rows[place - 1];
  return rows;
}
const causes = new Sparse(data.why), arrowsOf = new Sparse(data.arrows), heads = new Sparse(data.events), tails = new Sparse(data.tails);
const wholes = new Sparse(data.wholes), eventPlaces = new Sparse(data.at), rowPlaces = new Sparse(data.near), same = new Sparse(data.same);
const timeRows = rowsOfColumn(data.times), times = data.times[1];

// how many of the numbers, which come in order, are at most this one
function atMost(numbers, most) {
  let low = 0, high = numbers.length;
  while (low < high) {
    const middle = (low + high) >> 1;
    if (numbers[middle] <= most) low = middle + 1;
    else high = middle;
  }
  return low;
}
function timeOf(row) { return timeRows.length ? times[Math.max(0, atMost(timeRows, row) - 1)] : 0; }

function isHere(row) { return row >= first && row < stop; }
function wordOf(row) { return data.words[data.kinds[row - first] >> 1]; }
function failsAt(row) { return data.kinds[row - first] % 2 === 1; }
function depthOf(row) { return data.depths[row - first]; }
function namesOf(row) {
  const named = data.named[row - first];
  return Array.isArray(named) ? named : named < 0 ? [] : [named];
}
function names(row, number) {
  const named = data.named[row - first];
  return named === number || (Array.isArray(named) && named.includes(number));
}

// the Deferreds: where each stands in the columns, by number. What most of them are never asked for is a text, which is read if it is
const deferreds = new Map(), columns = data.deferreds, allNames = columns.names.split("\n"), written = columns.written.split("\n"), read = new Map();
columns.numbers.forEach((number, place) => { deferreds.set(number, place); });
function endOf(number) { return deferreds.has(number) ? columns.ends[deferreds.get(number)] : -1; }
function nameOf(number) {
  const names = deferreds.has(number) ? allNames[deferreds.get(number)] : "", end = names.indexOf(", ");
  return end < 0 ? names : names.slice(0, end);
}
function deferredOf(number) {
  let one = read.get(number);
  if (one === undefined) read.set(number, one = readDeferred(number, deferreds.get(number)));
  return one;
}
function readDeferred(number, place) {
  const [value, waits, fired, by, spent, spans, steps] = JSON.parse(written[place]), [unfired, waited, paused, sides, pairs] = spent;
  return {
    number, names: allNames[place], end: columns.ends[place], made: columns.made[place], last: columns.last[place],
    value, waits, fired, by, unfired, waited, paused, sides, pairs, spans, steps: readSteps(steps ? steps.split(" ") : [])
  };
}
function readSteps(words) {
  const open = [[]];
  words.forEach(word => {
    const list = open[open.length - 1];
    if (word === "(") return open.push(list[list.length - 1].inside);
    if (word === ")") return open.pop();
    const parts = /^([a-z])(\d*)(?:-(\d+)(?:,(\d+))?)?(?:#(\d+))?(.*)$/.exec(word);
    list.push({
      does: parts[1], row: parts[2] ? Number(parts[2]) : null, end: parts[3] ? Number(parts[3]) : null, ticks: Number(parts[4]),
      other: parts[5] === undefined ? null : Number(parts[5]), hang: parts[6].split("/"), inside: []
    });
  });
  return open[0];
}
