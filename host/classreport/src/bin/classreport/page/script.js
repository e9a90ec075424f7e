"use strict";
const rows = [...document.querySelectorAll("#rows > tbody > tr")];
const words = document.getElementById("words");
const unknown = document.getElementById("unknown");
const count = document.getElementById("count");

function filter() {
  const wanted = words.value.toLowerCase();
  let shown = 0;
  document.querySelectorAll("tr.drawn").forEach((row) => row.remove());
  for (const row of rows) {
    row.hidden = (unknown.checked && !row.classList.contains("unknown")) || !row.textContent.toLowerCase().includes(wanted);
    if (!row.hidden) shown += 1;
  }
  count.textContent = shown + " of " + rows.length + " rows";
}

// A row's chain opens below it; without scripts the link leads to it further down.
function draw(event) {
  const link = event.target.closest("a.draw");
  if (!link) return;
  event.preventDefault();
  const row = link.closest("tr");
  const next = row.nextElementSibling;
  if (next && next.classList.contains("drawn")) { next.remove(); return; }
  const drawn = document.createElement("tr");
  drawn.className = "drawn";
  const cell = drawn.insertCell();
  cell.colSpan = row.cells.length;
  cell.append(document.querySelector(link.getAttribute("href") + " > .chain").cloneNode(true));
  row.after(drawn);
}

words.addEventListener("input", filter);
unknown.addEventListener("change", filter);
document.getElementById("rows").addEventListener("click", draw);
filter();
