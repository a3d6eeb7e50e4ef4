// Elements of the page. Texts become text nodes, so nothing that the service answers is read as HTML.

const SVG = "http://www.w3.org/2000/svg";

const MOST_OF_PHONE = 10; // characters of a figure that three columns of a phone have room for
const MOST_OF_DESKTOP = 12; // the same of the narrower column of a wide screen, in letters of usual size

function filled(made, attributes, children) {
  for (const [name, value] of Object.entries(attributes)) {
    if (typeof value === "function") made.addEventListener(name, value);
    else if (value !== false && value !== null && value !== undefined) made.setAttribute(name, value === true ? "" : value);
  }
  made.append(...children.flat().filter((child) => child !== null && child !== undefined && child !== false));
  return made;
}

/** An element of HTML. An attribute that is a function listens to the event of its name. */
export function element(name, attributes = {}, ...children) {
  return filled(document.createElement(name), attributes, children);
}

/** An element of SVG. */
export function drawn(name, attributes = {}, ...children) {
  return filled(document.createElementNS(SVG, name), attributes, children);
}

/**
 * A table of a kind, which the style knows. A column is {title, number, head, wide}; a row is a list of cells, or {cells} with
 * attributes. On a narrow screen each row becomes a block, so the roles are written out: the style takes them from the elements.
 */
export function table(kind, caption, columns, rows, foot = null) {
  const cellOf = (cell, place, isHead) => {
    const column = columns[place];
    const classes = [column.number && "number", column.wide && "widest"].filter(Boolean).join(" ");
    const head = column.head || isHead;
    return element(
      head ? "th" : "td",
      { role: head ? "rowheader" : "cell", scope: head && "row", class: classes || false, "data-title": column.title },
      cell,
    );
  };
  const rowOf = (row) => {
    const { cells, ...attributes } = Array.isArray(row) ? { cells: row } : row;
    return element("tr", { role: "row", ...attributes }, ...cells.map((cell, place) => cellOf(cell, place, false)));
  };
  const titles = columns.map((column) =>
    element("th", { role: "columnheader", scope: "col", class: column.number && "number" }, column.title),
  );
  const made = element(
    "table",
    { role: "table", class: kind },
    element("caption", {}, caption),
    element("thead", { role: "rowgroup" }, element("tr", { role: "row" }, ...titles)),
    element("tbody", { role: "rowgroup" }, ...rows.map(rowOf)),
    foot && element("tfoot", { role: "rowgroup" }, rowOf(foot)),
  );
  const longest = Math.max(0, ...[...made.querySelectorAll("td .amount")].map((cell) => cell.textContent.length));
  if (longest > MOST_OF_PHONE) made.classList.add("long");
  if (longest > MOST_OF_DESKTOP) made.classList.add("longest");
  return made;
}

/** The options of a select, each {value, text}. The chosen value stays if it is among them; else it becomes `otherwise`. */
export function offer(select, options, otherwise) {
  const chosen = select.value;
  select.replaceChildren(...options.map(({ value, text }) => element("option", { value }, text)));
  const values = options.map(({ value }) => value);
  select.value = values.includes(chosen) ? chosen : values.includes(otherwise) ? otherwise : (values[0] ?? "");
}
