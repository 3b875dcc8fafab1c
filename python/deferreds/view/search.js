// A text is looked for in all rows, and in the outcomes that are drawn: all else fades.
const search = document.getElementById("search"), find = made("input"), found = made("span", "facts"), MANY = 5000;
let sought = "", hitRows = [], hitAt = -1, texts = null, waiting = 0;

find.id = "find";
find.type = "search";
find.placeholder = "find";
find.setAttribute("aria-label", "find");
found.id = "found";
found.setAttribute("role", "status");
search.append(find, found, button("previous", "act", () => nextHit(-1)), button("next", "act", () => nextHit(1)), button("close", "act", () => endSearch()));

// what each row says, in small letters
function textOf(row) { return (lineText(row) + "   " + (tails.has(row) && wholes.get(row) || "") + "   " + behindText(row)).toLowerCase(); }
function allTexts() {
  if (texts === null) texts = lineRows().map(row => [row, textOf(row)]);
  return texts;
}
function seek(text) {
  const had = hits !== null;
  sought = text.trim().toLowerCase();
  if (find.value.trim().toLowerCase() !== sought) find.value = text;
  hitRows = sought ? allTexts().filter(one => one[1].includes(sought)).map(one => one[0]) : [];
  hits = sought ? new Set(hitRows) : null;
  hitAt = -1;
  body.classList.toggle("finding", hits !== null);
  if (had !== (hits !== null)) lay(current === null ? undefined : current);
  else markAll();
  markOutcomes();
  tellSearch();
}
function markOutcomes() { all("tr[data-d]").forEach(row => row.classList.toggle("hit", hits !== null && row.textContent.toLowerCase().includes(sought))); }
function tellSearch() {
  const count = hitRows.length;
  found.textContent = !sought ? "" : hitAt >= 0 ? hitAt + 1 + " of " + count : several(count, "line", "lines");
}
// says which of the rows that have the text this one is
function foundAt(row) {
  hitAt = hitRows.indexOf(row);
  tellSearch();
}
// goes to the next row that has the text, or to the one before; after the last one comes the first
function nextHit(step) {
  if (!hitRows.length) return;
  const from = hitAt >= 0 ? hitRows[hitAt] : rowAt(AT_TOP), count = hitRows.length;
  if (hitAt >= 0) hitAt = (hitAt + step + count) % count;
  else {
    const before = from === null ? 0 : atMost(hitRows, from - 1);
    hitAt = step > 0 ? before % count : (before - 1 + count) % count;
  }
  if (isHere(hitRows[hitAt]) && !isRowShown(hitRows[hitAt])) reveal(hitRows[hitAt]);
  makeCurrent(hitRows[hitAt]);
  bringToSight(hitRows[hitAt], true);
  tellSearch();
  keep();
}
function askWhat() {
  search.hidden = false;
  find.focus();
  find.select();
}
function endSearch() {
  search.hidden = true;
  find.value = "";
  if (sought) seek("");
  keep();
}
find.addEventListener("input", () => {
  clearTimeout(waiting);
  if (total < MANY) return sift();
  waiting = setTimeout(sift, 150);
});
function sift() {
  seek(find.value);
  keep();
}
