// The address has what is chosen: the tree (d), the Deferred that is followed (f), the row, the first row that is seen (top), the text that
// is looked for (find), and what the filter hides (not, ends). So an address leads to the same again, and so do back and forward.
const AT_TOP = 24, PAUSE = 300, KNOWN = ["d", "f", "row", "top", "find", "not", "ends"], UNKNOWN = "?";
let scrolled = 0;

function asked() {
  const hash = location.hash.slice(1), line = /^r(\d+)$/.exec(hash);
  return new URLSearchParams(line ? "row=" + line[1] : hash);
}
function addressNow() {
  const told = new URLSearchParams(), top = current !== null && isInSight(current) ? null : rowAt(AT_TOP);
  if (planted !== null) told.set("d", planted);
  if (chosen !== null) told.set("f", chosen);
  if (current !== null) told.set("row", current + 1);
  if (top !== null && rowsBox.getBoundingClientRect().top < 0) told.set("top", top + 1);
  if (sought) told.set("find", find.value.trim());
  if (off.kind.size) told.set("not", Array.from(off.kind, word => word || UNKNOWN).join(" "));
  if (off.outcome.size) told.set("ends", Array.from(off.outcome).join(" "));
  return told.toString();
}
// notes what is chosen, as a new step of the browser's history if that is asked for
function keep(isStep) {
  const hash = addressNow(), address = location.href.split("#")[0] + (hash ? "#" + hash : "");
  clearTimeout(scrolled);
  if (address === location.href) return;
  try {
    if (isStep) history.pushState(null, "", address);
    else history.replaceState(null, "", address);
  } catch (error) {
    // (a browser allows only so many in a time)
  }
}
function isInSight(row) { return isRowShown(row) && rowTop(row) >= 0 && rowTop(row) < innerHeight; }
function numberOf(text) { return text !== null && /^\d+$/.test(text) ? Number(text) : null; }
function listOf(text, known) { return (text || "").split(" ").map(word => word === UNKNOWN ? "" : word).filter(word => known.includes(word) && (text || "").length); }

// makes the page what the address says
function follow() {
  const told = asked();
  if (location.hash.length > 1 && !KNOWN.some(name => told.has(name))) return;
  const number = numberOf(told.get("d")), followed = numberOf(told.get("f")), row = numberOf(told.get("row")), top = numberOf(told.get("top"));
  const kinds = listOf(told.get("not"), data.words), ends = listOf(told.get("ends"), ENDS);
  if (kinds.join() !== Array.from(off.kind).join() || ends.join() !== Array.from(off.outcome).join()) strain({ kind: kinds, outcome: ends });
  if ((told.get("find") || "").trim().toLowerCase() !== sought) seek(told.get("find") || "");
  search.hidden = !sought;
  if (!deferreds.has(number)) fell();
  else if (planted !== number) plant(number);
  const next = deferreds.has(followed) ? followed : null;
  if (next !== chosen) choose(next);
  arrive(row === null ? null : row - 1, top === null ? null : top - 1);
}
function arrive(row, top) {
  const line = row !== null && isHere(row) ? row : null;
  if (line !== null && !isRowShown(line) && isLine(slotAt(line))) reveal(line);
  makeCurrent(line);
  foundAt(line);
  if (top !== null && isHere(top)) return goToTop(top);
  if (line !== null) return bringToSight(line, true);
  if (planted !== null) return tree.scrollIntoView();
  if (location.hash.length < 2 && arrived) scrollTo(0, 0);
}
function goToTop(row) {
  scrollTo(scrollX, scrollY + rowTop(row) - AT_TOP);
  drawSeen();
}
// where a link of the page leads, with all else as it is
function followLink(address) {
  const told = new URLSearchParams(address.slice(1)), number = numberOf(told.get("d")), row = numberOf(told.get("row"));
  if (number !== null && deferreds.has(number)) {
    plant(number);
    makeCurrent(null);
    tree.scrollIntoView();
  }
  if (row !== null && isHere(row - 1)) arrive(row - 1, null);
  keep(true);
}
document.addEventListener("click", event => {
  const link = event.target.closest("a[href^='#row='], a[href^='#d=']");
  if (!link || event.defaultPrevented || event.ctrlKey || event.metaKey || event.shiftKey) return;
  event.preventDefault();
  followLink(link.getAttribute("href"));
});
addEventListener("scroll", () => {
  clearTimeout(scrolled);
  scrolled = setTimeout(() => keep(), PAUSE);
}, { passive: true });
