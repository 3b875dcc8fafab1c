// Folds: rows that are hidden as long as the row which stays is shut; and rows of Twisted's own, which are hidden at first.
const FOLDS = { p: "its pairs", w: "callbacks without effect", k: "releases a token", l: "schedules the next turn" };
const foreign = new Set(data.foreign);
let onlyMine = foreign.size > 0;
const folds = [], foldsOfRow = new Map(), foldNote = document.getElementById("folds");
let closed = new Uint8Array(stop - first);

(function makeFolds() {
  data.folds.forEach(one => {
    const fold = { kind: one[0], row: one[1], first: one[2], last: one[3], times: one[4], shut: data.shut, lines: 0 };
    for (let slot = slotAt(fold.first); slot <= slotAt(fold.last); slot += 1) if (isLine(slot)) fold.lines += 1;
    folds.push(fold);
    foldsOfRow.set(fold.row, [...(foldsOfRow.get(fold.row) || []), fold]);
  });
  closeRows();
})();
sieves.fold = row => !closed[row - first] || hits !== null || Boolean(sieves.tree || sieves.kind);

sieves.mine = row => !onlyMine || !foreign.has(row) || hits !== null || Boolean(sieves.tree || sieves.kind);

function foldsAt(row) { return foldsOfRow.get(row) || []; }
function foldButton(fold) {
  const what = fold.kind === "s" ? lineText(fold.row) + ", " + fold.times + " times" : FOLDS[fold.kind];
  const one = button((fold.shut ? "▸ " : "▾ ") + what + ": " + several(fold.lines, "line", "lines"), "fold", event => {
    event.stopPropagation();
    fold.shut = !fold.shut;
    layFolds(fold.row);
  });
  one.setAttribute("aria-expanded", String(!fold.shut));
  one.tabIndex = -1;
  return one;
}
function closeRows() {
  closed = new Uint8Array(stop - first);
  folds.forEach(fold => { if (fold.shut) closed.fill(1, fold.first - first, fold.last + 1 - first); });
}
function layFolds(kept) {
  closeRows();
  lay(kept);
  tellFolds();
}
function tellFolds() {
  if (!folds.length && !foreign.size) return;
  const hidden = lineRows().filter(row => closed[row - first]).length, shut = folds.filter(fold => fold.shut).length;
  foldNote.hidden = false;
  foldNote.replaceChildren(hidden ? several(hidden, "line is", "lines are") + " folded away, in " + several(shut, "fold", "folds") + ". " : "");
  if (hidden) foldNote.append(button("open all", "act", () => shutAll(false)), " ");
  if (shut < folds.length) foldNote.append(button("fold built-in pairs, callbacks without effect and equal turns", "act", () => shutAll(true)));
  if (!foreign.size) return;
  foldNote.append(onlyMine ? several(foreign.size, "line is", "lines are") + " of no file of the program. " : "");
  foldNote.append(button(onlyMine ? "show them" : "only my files", "act", () => showForeign(onlyMine)));
}
function showForeign(shown) {
  onlyMine = !shown;
  lay(foldNote);
  tellFolds();
}
function shutAll(shut) {
  folds.forEach(fold => { fold.shut = shut; });
  layFolds(foldNote);
}
// opens what hides one of these rows
function unfold(rows, kept) {
  if (onlyMine && rows.some(row => foreign.has(row))) showForeign(true);
  const hidden = rows.filter(row => isHere(row) && closed[row - first]);
  if (!hidden.length) return;
  folds.forEach(fold => { if (fold.shut && hidden.some(row => fold.first <= row && row <= fold.last)) fold.shut = false; });
  layFolds(kept);
}
