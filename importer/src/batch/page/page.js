"use strict";
(function () {
  const table = document.getElementById("jobs");
  const body = table.tBodies[0];
  const heads = Array.from(table.tHead.rows[0].cells);
  const text = (row, column) => row.cells[column].textContent;
  // Empty fields come last, whichever way the others are sorted.
  const order = (column, way, numbers) => (one, other) => {
    const left = text(one, column);
    const right = text(other, column);
    if (left === "" || right === "") { return (left === "") - (right === ""); }
    return way * (numbers ? left - right : left.localeCompare(right));
  };
  const sort = (head, column) => {
    const rising = head.getAttribute("aria-sort") !== "ascending";
    const numbers = head.className === "number";
    const rows = Array.from(body.rows);
    rows.sort(order(column, rising ? 1 : -1, numbers));
    body.append(...rows);
    heads.forEach((other) => other.removeAttribute("aria-sort"));
    head.setAttribute("aria-sort", rising ? "ascending" : "descending");
  };
  heads.forEach((head, column) => {
    const button = document.createElement("button");
    button.type = "button";
    button.textContent = head.textContent;
    button.addEventListener("click", () => sort(head, column));
    head.replaceChildren(button);
  });
})();
