// Parts of the page. All that comes from a service goes in as text.

export const find = (where, what) => where.querySelector(what);

function filled(made, fields, inside) {
  for (const [field, value] of Object.entries(fields)) {
    if (field.startsWith("on")) made.addEventListener(field.slice(2), value);
    else made.setAttribute(field, value);
  }
  made.append(...inside);
  return made;
}

// An element, of HTML or of a drawing, with its attributes, what it does, and what is inside.
export const make = (name, fields = {}, ...inside) => filled(document.createElement(name), fields, inside);
export const draw = (name, fields = {}, ...inside) => filled(document.createElementNS("http://www.w3.org/2000/svg", name), fields, inside);

// Notes on a view when it was drawn, by the page's clock, for who measures that.
export const note = (view) => requestAnimationFrame(() => setTimeout(() => { view.dataset.drawn = String(performance.now()); }));

// Order of two values, of which those that are absent come last.
const isAbsent = (value) => value === null || value === "";
const order = (a, b, down) => isAbsent(a) - isAbsent(b) || (a === b ? 0 : (a < b) === down ? 1 : -1);

// A row of headings; those of columns that have an order are buttons that sort.
function headOf(columns, sorted, onSort) {
  return make("tr", { role: "row" }, ...columns.map((column) => {
    const cell = make("th", { role: "columnheader", scope: "col", class: column.isNumber ? "number" : "" });
    if (!column.order) {
      cell.append(column.title);
      return cell;
    }
    const is = column.key === sorted.by;
    if (is) cell.setAttribute("aria-sort", sorted.down ? "descending" : "ascending");
    cell.append(make("button", { type: "button", "data-key": column.key, onclick: () => onSort(column.key, is && !sorted.down) }, column.title));
    return cell;
  }));
}

// How many rows a browser lays out together, or passes over together where they aren't seen.
const ROWS = 40;

// Fills a table. `columns` have a title, what a row shows there, and by what it is sorted, if it is.
export function table(where, caption, columns, rows, sorted = {}, onSort = null) {
  const by = columns.find((column) => column.key && column.key === sorted.by);
  const shown = by ? [...rows].sort((a, b) => order(by.order(a), by.order(b), Boolean(sorted.down))) : rows;
  const bare = make("tr", { role: "row" }, ...columns.map((column, place) => {
    const more = { class: column.isNumber ? "number" : "" };
    return place === 0 ? make("th", { ...more, role: "rowheader", scope: "row" }) : make("td", { ...more, role: "cell" });
  }));
  const bodies = [];
  shown.forEach((row, at) => {
    if (at % ROWS === 0) bodies.push(make("tbody", { role: "rowgroup" }));
    const line = bare.cloneNode(true);
    columns.forEach((column, place) => line.children[place].append(column.show(row) ?? ""));
    bodies[bodies.length - 1].append(line);
  });
  // A heading by which the table was just sorted keeps the focus.
  const key = where.contains(document.activeElement) ? document.activeElement.dataset.key : null;
  where.replaceChildren(make("caption", {}, caption), make("thead", { role: "rowgroup" }, headOf(columns, sorted, onSort)), ...bodies);
  if (key) find(where, `[data-key=${key}]`)?.focus();
}

// The page's address has its state: a view, and words.
export function state() {
  const [view, words = ""] = location.hash.slice(1).split("?");
  return { view: view || "stations", words: Object.fromEntries(new URLSearchParams(words)) };
}

export function addressFor(view, words) {
  const given = Object.entries(words).filter(([, value]) => value !== "" && value !== undefined && value !== null);
  const text = new URLSearchParams(given).toString();
  return `#${view}${text ? `?${text}` : ""}`;
}

// Goes to another state; in place, the browser's way back doesn't have the one before.
export function go(view, words, inPlace = false) {
  const to = addressFor(view, words);
  if (to === location.hash) return;
  if (inPlace) history.replaceState(null, "", to);
  else location.hash = to;
}
