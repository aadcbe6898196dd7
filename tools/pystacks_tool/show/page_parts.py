"""The style and the script of a page. Both stand in the page itself, which asks for nothing from elsewhere."""

STYLE = """\
:root { color-scheme: light dark; --ink: #1d2228; --back: #fff; --dim: #5a6470; --line: #d4d9df; --bad: #b3261e; --link: #0b57a4; --soft: #f3f5f7; }
body { margin: 0 auto; max-width: 76rem; padding: 1rem 1.25rem 4rem; background: var(--back); color: var(--ink); font: 15px/1.45 system-ui, sans-serif; }
h1 { font-size: 1.4rem; margin: .5rem 0; overflow-wrap: anywhere; }
h2 { font-size: 1.15rem; margin: 2rem 0 .5rem; border-bottom: 1px solid var(--line); }
h3 { font-size: 1rem; margin: 1.2rem 0 .3rem; overflow-wrap: anywhere; }
a { color: var(--link); }
code, ol, td, pre, dd { font-family: ui-monospace, monospace; font-size: .92em; unicode-bidi: isolate; overflow-wrap: anywhere; }
dl.head { display: grid; grid-template-columns: max-content 1fr; gap: .1rem 1rem; margin: 0; }
dl.head dt, caption { color: var(--dim); }
dl.head dd { margin: 0; }
b.bad, .end { color: var(--bad); }
b.bad { white-space: nowrap; }
.box { max-height: 26rem; overflow: auto; border: 1px solid var(--line); padding: 0 .6rem; }
table { border-collapse: collapse; width: 100%; }
caption { text-align: left; padding: .3rem 0; }
thead th { position: sticky; top: 0; background: var(--back); }
th, td { text-align: left; padding: .2rem .6rem .2rem 0; border-bottom: 1px solid var(--line); vertical-align: top; }
th button { font: inherit; font-weight: bold; background: none; border: 0; padding: 0; color: inherit; cursor: pointer; }
th[aria-sort=ascending] button::after { content: " \\25B2"; }
th[aria-sort=descending] button::after { content: " \\25BC"; }
ol { margin: .2rem 0; padding-left: 1.4rem; list-style: none; border-left: 2px solid var(--line); }
li i { font-style: normal; color: var(--dim); }
li pre { margin: 0 0 0 1rem; color: var(--dim); white-space: pre-wrap; }
#overview td:first-child, #picked a, #picked span { white-space: nowrap; }
li.fold { color: var(--dim); }
li.fold > details { margin-left: 0; }
li.fold li { color: var(--ink); }
details { margin: .1rem 0 .1rem 1rem; }
summary { cursor: pointer; }
section > details { margin: .4rem 0; }
section > details > summary { overflow-wrap: anywhere; }
details dl { display: grid; grid-template-columns: max-content 1fr; gap: 0 1rem; margin: .1rem 0 .4rem; }
details dd { margin: 0; }
svg { width: 100%; height: auto; background: var(--soft); }
svg text { font: 11px ui-monospace, monospace; fill: #1d2228; pointer-events: none; }
svg g { cursor: pointer; outline: none; }
svg.tree g { cursor: default; }
svg g:hover rect, svg g:focus rect, svg g.on rect { stroke: var(--ink); stroke-width: 1.5; }
.c0 { fill: #f4b183; } .c1 { fill: #f7c873; } .c2 { fill: #f2a1a1; } .c3 { fill: #e8c1a0; }
.c4 { fill: #f6d58a; } .c5 { fill: #eeb3c0; } .c6 { fill: #e9b96e; } .c7 { fill: #f5c1b0; }
#picked { min-height: 3rem; }
[hidden] { display: none; }
@media (prefers-color-scheme: dark) {
  :root { --ink: #e4e7ea; --back: #16191d; --dim: #9aa5b1; --line: #363c44; --bad: #ff8a80; --link: #8ab8ff; --soft: #1e2329; }
  rect { opacity: .88; }
}
@media print { #find, nav { display: none; } }
"""

SCRIPT = """\
"use strict";
(function () {
  var table = document.querySelector("#overview table");
  var rows = table ? Array.prototype.slice.call(table.tBodies[0].rows) : [];
  function value(row, column) { var cell = row.cells[column]; return cell.dataset.v || cell.textContent; }
  function compare(a, b) {
    var x = Number(a), y = Number(b);
    return a !== "" && b !== "" && !isNaN(x) && !isNaN(y) ? x - y : a.localeCompare(b);
  }
  function sort(head, column) {
    var down = head.getAttribute("aria-sort") === "ascending";
    table.querySelectorAll("th").forEach(function (it) { it.setAttribute("aria-sort", "none"); });
    head.setAttribute("aria-sort", down ? "descending" : "ascending");
    rows.sort(function (a, b) { var by = compare(value(a, column), value(b, column)); return down ? -by : by; });
    rows.forEach(function (row) { table.tBodies[0].appendChild(row); });
  }
  if (table) {
    table.querySelectorAll("th").forEach(function (head, column) {
      var button = document.createElement("button");
      button.type = "button";
      button.textContent = head.textContent;
      head.textContent = "";
      head.appendChild(button);
      button.addEventListener("click", function () { sort(head, column); });
    });
    var find = document.getElementById("find"), word = document.getElementById("word"), count = document.getElementById("count");
    find.hidden = false;
    var parts = Array.prototype.slice.call(document.querySelectorAll("#stacks section, #tasks section, #native section, main > section[id^=g], #refused"));
    function lower(it) { return it.textContent.toLowerCase(); }
    function part(row) { return document.getElementById(row.querySelector("a").getAttribute("href").slice(1)); }
    var texts = null;
    function read() {
      // (the names of a stack's other threads are none of this one's)
      var counts = new Map(), found = new Map(), own = new Map();
      rows.forEach(function (row) { counts.set(part(row), (counts.get(part(row)) || 0) + 1); });
      parts.forEach(function (it) {
        found.set(it, lower(it));
        own.set(it, counts.get(it) > 1 ? Array.prototype.map.call(it.querySelectorAll("ol"), lower).join(" ") : lower(it));
      });
      rows.forEach(function (row) { found.set(row, lower(row) + " " + (own.get(part(row)) || "")); });
      return found;
    }
    function hide(its, text) {
      var left = 0;
      its.forEach(function (it) {
        it.hidden = texts.get(it).indexOf(text) < 0;
        left += it.hidden ? 0 : 1;
      });
      return left;
    }
    word.addEventListener("input", function () {
      var text = word.value.toLowerCase();
      texts = texts || read();
      var left = hide(rows, text), shown = hide(parts, text);
      count.textContent = left + " of " + rows.length + " above, " + shown + " of " + parts.length + " below";
      if (text) {
        document.querySelectorAll("main details").forEach(function (it) { it.open = it.open || lower(it).indexOf(text) >= 0; });
      }
    });
  }
  var graph = document.getElementById("graph"), picked = document.getElementById("picked");
  if (!graph) { return; }
  var bars = Array.prototype.slice.call(graph.querySelectorAll("g"));
  function span(bar) { var a = Number(bar.dataset.a); return [a, a + Number(bar.dataset.n), Number(bar.querySelector("rect").getAttribute("y"))]; }
  function has(bar, row) { var it = span(bar), at = Number(row.dataset.f); return row.dataset.f !== undefined && it[0] <= at && at < it[1]; }
  function pick(bar) {
    bars.forEach(function (it) { it.classList.toggle("on", it === bar); });
    picked.textContent = bar.querySelector("title").textContent + " ";
    rows.filter(function (row) { return has(bar, row); }).forEach(function (row) {
      picked.appendChild(row.querySelector("a").cloneNode(true));
      picked.appendChild(document.createTextNode(" " + row.cells[1].textContent + "  "));
    });
  }
  function go(to) {
    bars.forEach(function (it) { it.setAttribute("tabindex", it === to ? "0" : "-1"); });
    to.focus();
  }
  function next(bar, key) {
    var own = span(bar);
    var fits = {
      ArrowUp: function (it) { return it[2] < own[2] && own[0] <= it[0] && it[0] < own[1]; },
      ArrowDown: function (it) { return it[2] > own[2] && it[0] <= own[0] && own[0] < it[1]; },
      ArrowLeft: function (it) { return it[2] === own[2] && it[0] < own[0]; },
      ArrowRight: function (it) { return it[2] === own[2] && it[0] > own[0]; }
    }[key];
    var found = fits ? bars.filter(function (it) { return fits(span(it)); }) : [];
    return key === "ArrowUp" || key === "ArrowRight" ? found[0] : found[found.length - 1];
  }
  bars.forEach(function (bar, at) {
    bar.setAttribute("tabindex", at ? "-1" : "0");
    bar.setAttribute("role", "button");
    bar.setAttribute("aria-label", bar.querySelector("title").textContent);
    bar.addEventListener("click", function () { go(bar); pick(bar); });
    bar.addEventListener("keydown", function (event) {
      if (event.key === "Enter" || event.key === " ") { event.preventDefault(); pick(bar); return; }
      var to = next(bar, event.key);
      if (to) { event.preventDefault(); go(to); }
    });
  });
}());
"""
