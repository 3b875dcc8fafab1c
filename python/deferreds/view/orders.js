// The chart of one order at a time, and two orders beside each other.
function all(selector) { return Array.prototype.slice.call(document.querySelectorAll(selector)); }
function made(name, text) {
  var element = document.createElement(name);
  if (text !== undefined) element.textContent = text;
  return element;
}
var charts = all("section.order"), both = document.getElementById("both"), pair = document.getElementById("pair"), picks = [];
function letters() { return charts.map(function (chart) { return chart.dataset.o; }); }
function show(letter) {
  charts.forEach(function (chart) { chart.hidden = chart.dataset.o !== letter; });
  all("tr[data-o]").forEach(function (row) { row.classList.toggle("on", row.dataset.o === letter); });
}
function inflate(text) {
  var bytes = Uint8Array.from(atob(text), function (sign) { return sign.charCodeAt(0); });
  return new Response(new Blob([bytes]).stream().pipeThrough(new DecompressionStream("deflate"))).text();
}
// the block of two orders, whichever is named first
function compare(one, other, then) {
  var names = [one, other].sort(), block = document.querySelector('.block[data-o="' + names.join(" ") + '"]');
  picks[0].value = one;
  picks[1].value = other;
  if (!block) return pair.replaceChildren(made("p", "Choose two orders that differ."));
  inflate(block.textContent).then(function (text) {
    if ([picks[0].value, picks[1].value].sort().join() !== names.join()) return;
    // (what the page itself has written: each text in it went through its one escaping function)
    pair.replaceChildren();
    pair.insertAdjacentHTML("beforeend", text);
    pair.dataset.o = names.join(" ");
    if (then) then();
  });
}
function makePick(word) {
  var label = made("label", word), pick = made("select");
  letters().forEach(function (letter) {
    var option = made("option", "order " + letter);
    option.value = letter;
    pick.append(option);
  });
  pick.addEventListener("change", function () { lead("both-" + picks[0].value + "-" + picks[1].value); });
  label.append(pick);
  picks.push(pick);
  return label;
}
function lead(place) {
  if (location.hash === "#" + place) follow();
  else location.hash = place;
}
function follow() {
  var one = /^#order-([A-Z])$/.exec(location.hash), two = /^#both-([A-Z])-([A-Z])$/.exec(location.hash);
  if (one && letters().indexOf(one[1]) >= 0) {
    show(one[1]);
    document.getElementById("order-" + one[1]).scrollIntoView();
  }
  if (two && picks.length && letters().indexOf(two[1]) >= 0 && letters().indexOf(two[2]) >= 0) {
    compare(two[1], two[2], function () { both.scrollIntoView(); });
  }
}
document.addEventListener("click", function (event) {
  var row = event.target.closest("tr[data-o]");
  if (row && !event.target.closest("a") && !String(getSelection())) lead("order-" + row.dataset.o);
});
if (charts.length) show(charts[0].dataset.o);
if (both && typeof DecompressionStream === "undefined") both.hidden = true;
else if (both) {
  document.getElementById("pick").append(makePick("One "), makePick("beside "));
  compare(charts[0].dataset.o, charts[1].dataset.o);
}
addEventListener("hashchange", follow);
follow();
