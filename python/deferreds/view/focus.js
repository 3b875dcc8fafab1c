// One Deferred is followed: all but its rows, lane and arrows fade.
const note = document.getElementById("focus");

function awaitedBy(number) { return new Set(stepsFor(number).filter(step => "wck".includes(step.does)).map(step => step.other)); }
// those that the Deferred awaits, and those that await it
function relatedTo(number) {
  const found = awaitedBy(number);
  deferreds.forEach((place, one) => { if (/[wck][\d,-]*#/.test(written[place]) && awaitedBy(one).has(number)) found.add(one); });
  found.delete(number);
  return found;
}
function choose(number, kept) {
  chosen = number;
  related = number === null ? new Set() : relatedTo(number);
  body.classList.toggle("focus", number !== null);
  all("a[data-f]", document.querySelector("main")).forEach(link => link.classList.toggle("on", link.dataset.f === String(number)));
  note.hidden = number === null;
  if (number !== null) {
    const link = made("a", "", "its tree");
    link.href = "#d=" + number;
    note.replaceChildren("#" + number + ": n next line, p the one before, t ", link, ", Esc ends");
    unfold(rowsOf(number), kept);
  }
  redraw();
}
// the rows that name a Deferred
function rowsOf(number) { return lineRows().filter(row => names(row, number)); }
// goes to the next row of the Deferred that is followed, or to the one before: from the row that was chosen last, if it is in sight
function go(step) {
  const rows = rowsOf(chosen).filter(isRowShown), middle = innerHeight / 2, from = current !== null && isInSight(current) ? current : null;
  const next = (step > 0 ? rows : rows.reverse()).find(row => from !== null ? (row - from) * step > 0 : (rowTop(row) - middle) * step > 12);
  if (next === undefined) return;
  makeCurrent(next);
  bringToSight(next, true);
  keep();
}
document.addEventListener("click", event => {
  if (event.target.closest("[href='#find']")) {
    event.preventDefault();
    return askWhat();
  }
  const link = event.target.closest("a[data-f]");
  if (!link) return;
  // (the rows are drawn anew, and the link with them)
  const number = Number(link.dataset.f), line = link.closest(".row[id]"), leads = !link.closest("#chart, #tree");
  event.preventDefault();
  choose(chosen === number ? null : number, line ? Number(line.id.slice(1)) - 1 : leads ? link : undefined);
  if (leads && chosen !== null) followLink(link.getAttribute("href"));
  else keep(true);
});

// on a narrow screen lanes are folded away
const lanesButton = button("show the lanes", "act lanes", () => {
  lanesButton.textContent = body.classList.toggle("lanes") ? "fold the lanes away" : "show the lanes";
});
document.getElementById("what").append(" ", lanesButton);
