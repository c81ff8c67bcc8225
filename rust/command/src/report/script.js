"use strict";
// Search: rows without all of the words are hidden.
const search = document.getElementById("search");
const found = document.getElementById("found");
search.addEventListener("input", () => {
  const words = search.value.toLowerCase().split(/\s+/).filter(Boolean);
  let shown = 0;
  for (const row of document.querySelectorAll("tbody tr")) {
    const text = row.textContent.toLowerCase();
    const fits = words.every((word) => text.includes(word));
    row.hidden = !fits;
    shown += fits ? 1 : 0;
  }
  found.textContent = words.length ? shown + " rows" : "";
});
// A click on a column's name sorts by it, another one the other way.
for (const head of document.querySelectorAll("th")) {
  head.addEventListener("click", () => {
    const body = head.closest("table").tBodies[0];
    const at = head.cellIndex;
    const way = head.dataset.way === "up" ? -1 : 1;
    head.dataset.way = way === 1 ? "up" : "down";
    const value = (row) => row.cells[at].textContent;
    const rows = [...body.rows].sort((a, b) => {
      const x = value(a), y = value(b);
      const numbers = x !== "" && y !== "" && !isNaN(x) && !isNaN(y);
      return way * (numbers ? x - y : x.localeCompare(y));
    });
    body.append(...rows);
  });
}
// What a mark of a picture is about, at once.
const tip = document.createElement("div");
tip.id = "tip";
document.body.append(tip);
for (const mark of document.querySelectorAll("svg .dot, svg .odd, svg .rejected, svg .band")) {
  const title = mark.querySelector("title");
  if (!title || !title.textContent) continue;
  const text = title.textContent;
  title.remove();
  mark.addEventListener("mousemove", (event) => {
    tip.textContent = text;
    tip.style.display = "block";
    const left = Math.min(event.pageX + 12, document.documentElement.clientWidth - tip.offsetWidth - 8);
    tip.style.left = left + "px";
    tip.style.top = event.pageY + 14 + "px";
  });
  mark.addEventListener("mouseleave", () => { tip.style.display = "none"; });
}
