// The pane has all of the row that is chosen, its line of the program, and the lines of the file around that.
const whole = document.getElementById("whole"), EDITOR = "deferreds.editor", EXAMPLE = "vscode://file/{path}:{line}";
const HARMFUL = /^(?:javascript|data|vbscript|blob):/i, ADDRESS = /^[a-z][a-z0-9+.-]*:/i;
let told = null;

function wholeText(row) {
  const after = behindText(row), event = wholes.get(row);
  return lines[row - first] + (event && tails.has(row) ? "   " + event : after ? "   " + after : "");
}
// the place of what a row tells of, or null
function placeOf(row) {
  const own = rowPlaces.get(row), event = eventPlaces.get(row);
  return own !== undefined ? own : event !== undefined ? event : null;
}

// the address that opens a line in one's editor: a template, which this browser keeps
function template() {
  try {
    return localStorage.getItem(EDITOR) || "";
  } catch (error) {
    return "";
  }
}
function keepTemplate(text) {
  try {
    localStorage.setItem(EDITOR, text);
  } catch (error) {
    // (a browser may keep nothing)
  }
}
function inEditor(place) {
  const text = template(), path = data.files[data.places[place][0]][0].split("/").map(encodeURIComponent).join("/");
  if (!ADDRESS.test(text) || HARMFUL.test(text)) return null;
  return text.replace("{path}", path).replace("{line}", data.places[place][1]);
}
function copy(text, told) {
  const area = made("textarea", "", text);
  body.append(area);
  area.select();
  const copied = document.execCommand("copy");
  area.remove();
  told.textContent = copied ? "copied" : "can't be copied";
}
// each row of the report can be copied as text, as for a ticket
all(".report [data-copy]").forEach(place => {
  const note = made("span");
  place.append("· ", button("copy as text", "act", () => copy(data.copied[Number(place.dataset.copy)], note)), note);
});
function editorField(place, row) {
  const label = made("label", "", "address of your editor "), field = made("input");
  field.value = template();
  field.placeholder = EXAMPLE;
  field.id = "editor";
  field.addEventListener("change", () => {
    keepTemplate(field.value.trim());
    whole.replaceChildren(...paneOf(place, row));
  });
  label.append(field);
  return label;
}
function sourceLines(place) {
  const source = data.sources[place], shown = made("pre", "source");
  if (!source) return [];
  source[1].forEach((text, at) => {
    const number = source[0] + at, line = made("span", number === data.places[place][1] ? "at-line" : "", String(number).padStart(5) + "  " + text + "\n");
    shown.append(line);
  });
  return [shown];
}
// the functions in which a row's Deferred was made; the line of the row itself isn't said again
function stackOf(row, place) {
  const parts = wordOf(row) === "new" ? data.stacks[namesOf(row)[0]] || [] : [], told = made("div", "facts");
  parts.forEach((part, number) => part.forEach((frame, at) => {
    if (number === 0 && at === 0 && frame === place) return;
    told.append(told.childNodes.length ? at === 0 ? "; begun in " : ", called by " : at === 0 && number ? "begun in " : "called by ", data.functions[frame] + " ", placeLink(frame));
  }));
  return told.childNodes.length ? [told] : [];
}
function paneOf(place, row) {
  const head = made("div", "place"), note = made("span", "facts"), address = inEditor(place), name = data.functions[place];
  head.append(made("b", "", wholePlace(place)), name ? " in " + name : "", " ", button("copy path:line", "act", () => copy(wholePlace(place), note)), " ");
  if (address) {
    const link = made("a", "", "open in the editor");
    link.href = address;
    head.append(link, " ");
  }
  head.append(note, editorField(place, row));
  return [paneText(), head, ...sourceLines(place), ...stackOf(row, place)];
}
function paneText() { return made("div", "mono text", told.text); }

function showWhole(text, key, row) {
  const place = row === undefined ? null : placeOf(row);
  told = told !== null && key === told.key ? null : { key: key, text: text };
  whole.hidden = told === null;
  if (told === null) return whole.replaceChildren();
  whole.replaceChildren(...(place === null ? [paneText()] : paneOf(place, row)));
}
function hideWhole() {
  if (told !== null) showWhole("", told.key);
}
function showRow(row) { showWhole(wholeText(row), "r" + row, row); }
chart.addEventListener("click", event => {
  const row = event.target.closest(".row");
  if (!row || event.target.closest("a, button") || String(getSelection())) return;
  if (row.dataset.e) return showWhole(row.title || row.textContent, "e" + row.dataset.e, Number(row.dataset.e) - 1);
  if (!row.id) return;
  const at = Number(row.id.slice(1)) - 1;
  showRow(at);
  makeCurrent(told === null ? null : at);
  keep();
});
whole.addEventListener("click", event => { if (event.target.closest(".text") && !String(getSelection())) hideWhole(); });
