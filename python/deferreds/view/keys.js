// The keys, and the beginning: the page becomes what its address says.
function endAll() {
  endSearch();
  choose(null);
  hideWhole();
  fell();
  makeCurrent(null);
  keep(true);
}
// goes on from the row that was chosen last, by so many rows that are shown
function step(by) {
  const isThere = current !== null && isRowShown(current), seen = rowAt(AT_TOP), way = by < 0 ? -1 : 1;
  const from = above[slotAt(isThere ? current : seen === null ? first : seen)];
  let at = Math.max(0, Math.min(shownSlots.length - 1, isThere || Math.abs(by) > 1 ? from + by : from));
  // (the first and the last slot may be no lines)
  const on = at === shownSlots.length - 1 ? -1 : at === 0 ? 1 : way;
  while (at >= 0 && at < shownSlots.length && !isLine(shownSlots[at])) at += on;
  if (at < 0 || at >= shownSlots.length) return;
  makeCurrent(slots.rows[shownSlots[at]]);
  bringToSight(current, false);
  if (told !== null && told.key !== "r" + current) showRow(current);
  keep();
}
// follows the next of the Deferreds that the row names
function chooseNext(row) {
  const named = namesOf(row), place = named.indexOf(chosen);
  if (named.length) choose(named[place + 1] === undefined ? place < 0 ? named[0] : null : named[place + 1], row);
  keep(true);
}
const page = () => Math.max(1, Math.floor(innerHeight / SLOT) - 4);
const IN_CHART = {
  ArrowDown: () => step(1), ArrowUp: () => step(-1), PageDown: () => step(page()), PageUp: () => step(-page()),
  Home: () => step(-total), End: () => step(total),
  Enter: () => { if (current !== null) chooseNext(current); },
  " ": () => { if (current !== null) showRow(current); }
};
document.addEventListener("keydown", event => {
  if (event.ctrlKey || event.metaKey || event.altKey) return;
  if (event.key === "Escape") return endAll();
  if (event.target === find) {
    if (event.key === "Enter" && sought) nextHit(event.shiftKey ? -1 : 1);
    return;
  }
  if (event.target === chart && IN_CHART[event.key]) {
    event.preventDefault();
    return IN_CHART[event.key]();
  }
  if (event.target.closest && event.target.closest("input, select, textarea")) return;
  if (event.key === "/") {
    event.preventDefault();
    return askWhat();
  }
  if (chosen !== null && event.key === "t") followLink("#d=" + chosen);
  const way = event.key === "n" ? 1 : event.key === "p" ? -1 : 0;
  if (way && chosen !== null) go(way);
  else if (way && sought) nextHit(way);
});
document.getElementById("skip").addEventListener("click", event => {
  event.preventDefault();
  chart.scrollIntoView();
  chart.focus();
});

let arrived = false;
history.scrollRestoration = "manual";
lay();
tellFolds();
addEventListener("popstate", follow);
follow();
arrived = true;
body.dataset.drawn = "";
