"use strict";
(() => {
  const all = (what, where) => Array.from((where || document).querySelectorAll(what));
  const box = document.getElementById("filter"), only = document.getElementById("only");
  const told = document.getElementById("told");
  const sections = all("section.device").map((part) => ({
    part, head: part.dataset.head.toLowerCase(),
    rows: all("tbody tr", part).map((row) => ({ row, text: row.textContent.toLowerCase() })),
  }));

  function filter() {
    const words = box.value.toLowerCase().split(/\s+/).filter(Boolean);
    let shown = 0;
    for (const { part, head, rows } of sections) {
      const left = words.filter((word) => !head.includes(word));
      let here = 0;
      for (const { row, text } of rows) {
        const fits = left.every((word) => text.includes(word)) && (!only.checked || row.dataset.odd);
        row.classList.toggle("away", !fits);
        here += fits;
      }
      const empty = !left.length && (only.checked ? part.dataset.odd : !rows.length || !words.length);
      part.classList.toggle("away", !here && !empty);
      shown += here;
    }
    told.textContent = shown + " of " + told.dataset.all + " objects shown";
  }

  function key(row, at) {
    const cell = row.cells[at];
    return cell.dataset.n === undefined ? cell.textContent : Number(cell.dataset.n);
  }

  const order = new Intl.Collator(undefined, { numeric: true });
  function compare(a, b) {
    if (typeof a === "number" && typeof b === "number") return a - b;
    if (typeof a !== typeof b) return typeof a === "number" ? -1 : 1;
    return a === "" || b === "" ? (a === "") - (b === "") : order.compare(a, b);
  }

  function sort(button) {
    const head = button.closest("th"), body = head.closest("table").tBodies[0];
    const down = head.getAttribute("aria-sort") === "ascending";
    all("th", head.parentNode).forEach((other) => other.removeAttribute("aria-sort"));
    head.setAttribute("aria-sort", down ? "descending" : "ascending");
    const rows = Array.from(body.rows).map((row) => [key(row, head.cellIndex), row]);
    rows.sort((a, b) => (down ? compare(b[0], a[0]) : compare(a[0], b[0])));
    body.append(...rows.map((it) => it[1]));
  }

  for (const head of all("th")) {
    const button = document.createElement("button");
    button.type = "button";
    button.title = "sort by this";
    button.append(...head.childNodes);
    button.addEventListener("click", () => sort(button));
    head.append(button);
  }
  box.addEventListener("input", filter);
  only.addEventListener("change", filter);
  document.querySelector(".bar").hidden = false;
  filter();
})();
