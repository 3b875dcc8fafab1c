// The filter: lines of some kinds alone, or those that name a Deferred of some outcomes; it hides all else, and says how much.
const sieve = document.getElementById("sieve"), off = { kind: new Set(), outcome: new Set() };
let boxes = [], members = null;

function outcomeOf(number) { return ENDS[endOf(number)] || ""; }
function passes(row) {
  if (off.kind.has(wordOf(row))) return false;
  return !off.outcome.size || namesOf(row).some(number => !off.outcome.has(outcomeOf(number)));
}
// how many there are of each
function counted(values) {
  const counts = new Map();
  values.forEach(value => counts.set(value, (counts.get(value) || 0) + 1));
  return counts;
}
function lineRows() { return Array.from(slots.rows.subarray(0, total).filter((_, slot) => isLine(slot))); }
function group(name, title, counts, says) {
  const part = made("div", "group");
  part.append(made("b", "", title), " ", button("all", "act", () => checkAll(name, true)), " ", button("none", "act", () => checkAll(name, false)));
  Array.from(counts.keys()).sort().forEach(value => {
    const label = made("label"), box = made("input");
    box.type = "checkbox";
    box.name = name;
    box.value = value;
    box.addEventListener("change", readBoxes);
    boxes.push(box);
    label.append(box, " " + says(value) + " ", made("span", "facts", String(counts.get(value))));
    part.append(label);
  });
  sieve.append(part);
}
function checkAll(name, checked) {
  boxes.forEach(box => { if (box.name === name) box.checked = checked; });
  readBoxes();
}
function readBoxes() {
  strain({ kind: boxes.filter(box => box.name === "kind" && !box.checked).map(box => box.value), outcome: boxes.filter(box => box.name === "outcome" && !box.checked).map(box => box.value) });
  keep();
}
// hides these kinds and outcomes
function strain(hidden) {
  off.kind = new Set(hidden.kind);
  off.outcome = new Set(hidden.outcome);
  boxes.forEach(box => { box.checked = !off[box.name].has(box.value); });
  if (off.kind.size || off.outcome.size) sieves.kind = passes;
  else delete sieves.kind;
  lay(sieve);
  showDeferreds();
  tellSieve();
}
function tellSieve() {
  const every = lineRows(), hidden = sieves.kind ? every.filter(row => !passes(row)).length : 0;
  const gone = Array.from(deferreds.keys()).filter(number => off.outcome.has(outcomeOf(number))).length;
  const says = ": it hides " + hidden + " of " + several(every.length, "line", "lines") + ", " + gone + " of " + several(deferreds.size, "outcome", "outcomes");
  sieve.firstElementChild.textContent = "Filter by kind of line and by outcome" + (hidden || gone ? says : "");
}
// the Deferreds of a tree, and those that the filter leaves
function showDeferreds() {
  all(".ends tr[data-d], #time tr[data-d]").forEach(row => {
    const number = Number(row.dataset.d), apart = members && !members.has(number) && row.closest("#time");
    row.hidden = Boolean(apart) || off.outcome.has(outcomeOf(number));
  });
}
function unstrain() { if (sieves.kind) strain({ kind: [], outcome: [] }); }
// the boxes are made when the filter is opened first
sieve.addEventListener("toggle", () => {
  if (boxes.length || !sieve.open) return;
  group("kind", "Kinds of lines", counted(lineRows().map(wordOf)), word => word || "not known");
  group("outcome", "Outcomes of the Deferreds that a line names", counted(Array.from(deferreds.keys(), outcomeOf)), end => SIGNS[ENDS.indexOf(end)] + " " + end);
  boxes.forEach(box => { box.checked = !off[box.name].has(box.value); });
});
