// The tree of a Deferred: its steps, and below each those of whom it names, as far as they hang on this one. `stories.py` makes the same.
const MOST_BRANCHES = 2000, MOST_INDENT = 24, MOST_NAMED = 3, UP = "wck";
const HANGS = {
  lock: "waits for a token of ", queue: "waits for a value of ", job: "gets the result of job ", timeout: "is cancelled at time ",
  loop: "is fired when this loop ends: ", task: "is fired when this task ends: "
};
const tree = document.getElementById("tree");
let planted = null;

function stepsFor(number) { return deferreds.has(number) ? deferredOf(number).steps : []; }
function pairsOf(one) { return one.pairs ? [several(one.pairs, "pair waits", "pairs wait")] : []; }
// what the inline body of a Deferred was called with, if that is known
function calledAs(number) { return data.calls[number] ? [", called as ", isolated(data.calls[number])] : []; }
function spent(one) {
  const paused = one.paused ? ["paused " + inTicks(one.paused)] : [];
  return ["unfired " + inTicks(one.unfired), "waited " + inTicks(one.waited), ...paused, several(one.sides, "callback", "callbacks") + " ran", ...pairsOf(one), ...inVain(one)].join(", ");
}
// the branches, each with how deep it lies, and whether the steps of the Deferred that it names stand below it
function branchesOf(number) {
  const branches = [], shown = new Set([number]), claimed = new Set(), todo = [];
  function enter(one, mode, depth) {
    const steps = mode === "why" ? stepsFor(one).filter(step => step.does === "f") : stepsFor(one);
    if (mode !== "why") steps.forEach(step => { if (UP.includes(step.does)) claimed.add(step.other); });
    steps.slice().reverse().forEach(step => todo.push([step, mode, depth]));
  }
  enter(number, "all", 1);
  while (todo.length && branches.length < MOST_BRANCHES) {
    const [step, mode, depth] = todo.pop(), below = modeBelow(step, mode);
    if (step.does === "b" && mode !== "all") continue;
    const opens = below !== null && step.other !== null && !shown.has(step.other) && (UP.includes(step.does) || !claimed.has(step.other));
    branches.push({ step: step, depth: depth, opens: opens });
    if (mode !== "why") step.inside.slice().reverse().forEach(one => todo.push([one, mode === "up" ? "up" : "down", depth + 1]));
    if (!opens) continue;
    shown.add(step.other);
    enter(step.other, below, depth + 1);
  }
  return { found: branches, more: todo.length > 0 };
}
// how much of the Deferred that a step names is shown below it
function modeBelow(step, mode) {
  if (UP.includes(step.does)) return mode === "why" ? null : "up";
  if (step.does === "f") return "why";
  return (step.does === "n" || step.does === "g") && (mode === "all" || mode === "down") ? "down" : null;
}

function rowText(row) {
  const text = made("span", isHere(row) && failsAt(row) ? "mono f" : "mono");
  if (isHere(row)) text.append(lineWords(row));
  return text;
}
function causeText(row) {
  const after = isHere(row) ? behind(row) : null, text = made("span", "why");
  if (after) text.append(" ", ...after);
  return text;
}
function whom(number, opens) {
  const text = made("span"), link = made("a", "mono", labelOf(number));
  link.href = "#d=" + number;
  text.append(link);
  if (opens && deferreds.has(number)) text.append(made("span", "why", " [" + spent(deferredOf(number)) + "]"));
  return text;
}
function until(step) { return step.end === null ? [", and still does"] : [", until ", lineLink(step.end), ": " + inTicks(step.ticks)]; }
function hangsOn(step) { return HANGS[step.hang[0]] + (step.hang[0] === "timeout" && data.tick ? inTicks(Number(step.hang[1])) : step.hang.slice(1).join("/")); }
// what a step says, by what it does
const TELLS = {
  m: (step, other) => ["is made", ...(other ? [" in a callback of ", other] : [])],
  f: (step, other) => ["is fired: ", rowText(step.row), ...(other ? [" by a callback of ", other] : [causeText(step.row)])],
  w: (step, other) => ["waits for ", other, ...until(step)],
  b: (step, other) => ["is awaited by ", other, ...calledAs(step.other)],
  r: step => ["a callback runs", ...(step.end === null ? [", and hasn't ended"] : [" → ", rowText(step.end)])],
  n: (step, other) => ["makes ", other],
  g: (step, other) => ["fires ", other, ": ", rowText(step.row)],
  l: step => [rowText(step.row), ...(step.end === null ? [] : [", which came in ", lineLink(step.end)])],
  c: (step, other) => ["waits for its child ", other],
  k: (step, other) => ["is fired by a pair of ", other],
  x: step => [rowText(step.row), causeText(step.row)],
  s: step => [rowText(step.row), causeText(step.row)],
  h: step => [hangsOn(step)]
};
function branch(one) {
  const step = one.step, line = made("div", "branch"), other = step.other === null ? "" : whom(step.other, one.opens);
  line.style.paddingLeft = 18 * Math.min(one.depth - 1, MOST_INDENT) + "px";
  line.dataset.s = [one.depth, step.does, step.row === null ? "" : step.row, step.other === null ? "" : step.other, one.opens ? 1 : 0].join(" ");
  line.append(...(TELLS[step.does] ? TELLS[step.does](step, other) : [rowText(step.row)]));
  if (step.row !== null) line.append(" ", made("span", "why", "("), lineLink(step.row), made("span", "why", ")"));
  return line;
}
// these rows, all in which they lie, and the advance before each
function withAround(rows) {
  const kept = new Set(), open = [];
  let advance = null;
  lineRows().forEach(row => {
    if (wordOf(row) === "advance") advance = row;
    open.length = Math.min(open.length, depthOf(row));
    if (rows.has(row)) [row, ...open, advance].forEach(one => { if (one !== null && one !== undefined) kept.add(one); });
    open[depthOf(row)] = row;
  });
  return kept;
}
function treeHead(one, rows) {
  const head = made("h2", "", labelOf(one.number)), about = made("p", "facts");
  head.append(...calledAs(one.number), ", with all that hangs on it");
  about.append(ENDS[one.end] + " ", made("span", "mono", one.value), ": " + spent(one));
  const vain = one.steps.filter(step => "xs".includes(step.does));
  vain.slice(0, MOST_NAMED).forEach((step, place) => about.append(place ? ", " : " in ", lineLink(step.row)));
  const back = made("a", "", "all lines"), hidden = lineRows().filter(row => !rows.has(row)).length;
  back.href = "#what";
  back.addEventListener("click", event => {
    event.preventDefault();
    fell();
    document.getElementById("what").scrollIntoView();
    keep(true);
  });
  about.append(vain.length > MOST_NAMED ? " …. " : ". ", "The chart shows the lines of this alone, and hides " + several(hidden, "line", "lines") + ": ", back);
  return [head, about];
}
function plant(number) {
  const one = deferredOf(number), branches = branchesOf(number), rows = new Set();
  branches.found.forEach(each => [each.step.row, each.step.end].forEach(row => { if (row !== null) rows.add(row); }));
  const kept = withAround(rows);
  planted = number;
  members = new Set([number, ...branches.found.filter(each => each.opens).map(each => each.step.other)]);
  sieves.tree = row => kept.has(row);
  showDeferreds();
  tree.replaceChildren(...treeHead(one, kept), ...branches.found.map(branch));
  if (branches.more) tree.append(made("p", "facts", "and more: a tree has " + MOST_BRANCHES + " lines at most"));
  tree.hidden = false;
  lay();
}
function fell() {
  if (planted === null) return;
  planted = members = null;
  delete sieves.tree;
  tree.hidden = true;
  tree.replaceChildren();
  showDeferreds();
  lay();
}
// ends what hides a row
function reveal(row) {
  unfold([row]);
  if (!isRowShown(row)) fell();
  if (!isRowShown(row)) unstrain();
  unfold([row]);
}
