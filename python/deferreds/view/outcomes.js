// The outcomes of Deferreds as tables, and the Deferreds in proportion to time: each drawn when it is opened.
function spentOf(one) {
  const parts = [["unfired", one.unfired], ["waited", one.waited], ["paused", one.paused]].filter(part => part[1]).map(part => part[0] + " " + inTicks(part[1]));
  if (one.sides) parts.push(several(one.sides, "callback", "callbacks"));
  return parts.concat(inVain(one)).join(", ");
}
// how many firings had no effect
function inVain(one) {
  return [["x", "refused"], ["s", "swallowed"]].map(kind => [one.steps.filter(step => step.does === kind[0]).length, kind[1]])
    .filter(kind => kind[0]).map(kind => several(kind[0], "firing", "firings") + " " + kind[1]);
}
function field(kind, ...held) {
  const one = made("td", kind);
  one.append(...held);
  return one;
}
function firedBy(one) {
  const nodes = document.createDocumentFragment();
  nodes.append(one.fired < 0 ? made("span", "facts", "never") : lineLink(one.fired));
  if (one.fired >= 0 && one.by.length) nodes.append(": ", said(one.by));
  return nodes;
}
function outcomeRow(number) {
  const one = deferredOf(number), row = made("tr"), waits = one.end === 2 && one.waits >= 0;
  row.dataset.d = number;
  const value = field("mono value", waits ? "for " : one.value ? isolated(one.value) : "");
  if (waits) value.append(deferredLink(one.waits));
  row.append(
    field("mono", deferredLink(number, false)), field("mono name", one.names), field("state t-" + CLASSES[one.end], SIGNS[one.end] + " " + ENDS[one.end]),
    value, field("", firedBy(one)), field("why", spentOf(one))
  );
  return row;
}
function tableOf(numbers) {
  const table = made("table", "ends"), head = made("tr");
  ["No.", "Name", "At the end", "Value", "Fired by", "How long"].forEach(title => head.append(made("th", "", title)));
  table.append(head, ...numbers.filter(number => deferreds.has(number)).map(outcomeRow));
  return table;
}
Object.keys(data.tables).forEach(id => {
  const holder = document.getElementById(id), numbers = data.tables[id];
  function fill() {
    if (holder.querySelector(".ends")) return;
    holder.append(tableOf(numbers));
    showDeferreds();
    if (hits !== null) markOutcomes();
  }
  if (holder.tagName !== "DETAILS") return fill();
  holder.addEventListener("toggle", () => { if (holder.open) fill(); });
});

const axis = data.axis, time = document.getElementById("time");
// where a time stands
function percent(at) { return Number((100 * at / axis.end).toFixed(2)) + "%"; }
function strokeOf(kind, from, to, y) { return drawn("line", { class: kind, x1: percent(from), x2: percent(to), y1: y, y2: y }); }
function axisRow(number) {
  const one = deferredOf(number), row = made("tr"), name = field("mono", deferredLink(number), " ", made("span", "t-" + CLASSES[one.end], SIGNS[one.end]));
  const picture = drawn("svg", { width: "100%", height: 14 }), stuck = one.spans[one.spans.length - 1];
  const until = one.end === 0 || one.end === 1 ? stuck === 2 * STATES.indexOf("run") ? data.total : one.last : data.total;
  for (let at = 0; at < one.spans.length; at += 2) {
    const state = STATES[one.spans[at + 1] >> 1], paused = one.spans[at + 1] % 2, from = timeOf(one.spans[at]), to = timeOf(at + 2 < one.spans.length ? one.spans[at + 2] : until);
    if (!BARS[state] || from >= to) continue;
    picture.append(strokeOf(BARS[state] + (paused ? " thin" : ""), from, to, 7));
    if (paused) picture.append(strokeOf("rails", from, to, 3), strokeOf("rails", from, to, 11));
  }
  const begun = timeOf(one.made);
  picture.append(drawn("line", { class: "tick", x1: percent(begun), x2: percent(begun), y1: 2, y2: 12 }));
  row.dataset.d = number;
  row.append(name, field("", picture));
  return row;
}
function axisTable() {
  const table = made("table", "axis"), head = made("tr"), marks = drawn("svg", { width: "100%", height: 16 }), holder = made("th");
  axis.marks.forEach(one => marks.append(drawn("text", { class: one[0] * 100 > 92 * axis.end ? "last" : "", x: percent(one[0]), y: 12 }, one[1])));
  holder.append(marks);
  head.append(made("th", "", "Deferred"), holder);
  table.append(head, ...axis.numbers.map(axisRow));
  return table;
}
if (axis) {
  time.hidden = false;
  time.addEventListener("toggle", () => {
    if (!time.open || time.querySelector("table")) return;
    time.append(axisTable());
    showDeferreds();
  });
}
