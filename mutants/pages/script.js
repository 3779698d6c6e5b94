for (const head of document.querySelectorAll("table.sorts thead th")) {
  const button = document.createElement("button"), at = head.cellIndex, body = head.closest("table").tBodies[0];
  button.append(...head.childNodes);
  if (!button.textContent) continue;
  head.append(button);
  button.onclick = () => {
    const up = head.ariaSort == "descending" || !head.ariaSort && !head.classList.contains("n");
    for (const other of head.parentNode.cells) other.ariaSort = null;
    head.ariaSort = up ? "ascending" : "descending";
    const key = row => row.cells[at].textContent;
    const order = (one, other) => key(one).localeCompare(key(other), "en", { numeric: true });
    body.append(...[...body.rows].sort((one, other) => up ? order(one, other) : order(other, one)));
  };
}
for (const filter of document.querySelectorAll(".filter")) {
  filter.hidden = false;
  filter.querySelector("select").onchange = event => {
    for (const name of document.querySelectorAll(".mutants li > b")) {
      const op = event.target.value;
      name.parentNode.hidden = !name.textContent.includes(op);
      if (op && !name.parentNode.hidden && name.closest("details")) name.closest("details").open = true;
    }
  };
}
