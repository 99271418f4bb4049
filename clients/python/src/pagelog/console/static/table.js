// The one table: a row for each database, changed where it stands.

import { day, gauge, marks } from "./drawing.js";
import { ago, compact, duration, element, number, quiet, rate, urgency } from "./words.js";

// A cell is drawn anew where its key is another.

const text = (value) => ({ key: String(value), draw: () => [String(value)] });
const missing = (value) => value ?? -1;
const living = (database) => database.standbys.filter((each) => each.lives).map((each) => each.keeper);

const stateCell = (database) => ({ key: `${database.state} ${database.paused} ${database.read_only}`, draw: () => marks(database) });

function nameCell({ name }) {
  return { key: name, draw: () => [element("a", { href: `#/${encodeURIComponent(name)}`, tabindex: -1 }, name)] };
}

function standbysCell(database) {
  const names = living(database).join(", ");
  return names ? text(names) : { key: "none", draw: () => [quiet("none")] };
}

function generationCell({ generation, began }, now) {
  const since = began ? ago(began, now) : "–";
  return { key: `${generation} ${since}`, draw: () => [number(generation), quiet(`, ${since}`)] };
}

const dayCell = ({ begins }, now) => ({ key: `${begins.join()} ${now.slice(0, 15)}`, draw: () => [day(begins, now)] });

function leftCell(database) {
  const { entries_left: left, entries } = database;
  if (left === null) return text("–");
  const percent = `${Math.round((100 * left) / entries)} %`;
  const words = `${percent} of the list are left: ${number(left)} of ${number(entries)} entries`;
  return { key: `${percent} ${compact(left)}`, draw: () => [gauge(database, words), element("span", { title: words }, percent)] };
}

function nextCell(database) {
  const words = database.next_in === null ? "–" : `in ${duration(database.next_in)}`;
  return { key: `${words}${database.next}`, draw: () => [element("span", { title: database.next }, words)] };
}

const numbers = (name, title, words, hint) => ({
  name, title, hint, isNumber: true, cell: (each) => text(words(each[name])), by: (each) => missing(each[name]),
});

const COLUMNS = [
  { name: "state", title: "State", cell: stateCell, by: urgency },
  { name: "name", title: "Name", cell: nameCell, by: (each) => each.name, isHead: true },
  { name: "holder", title: "Holder", cell: (each) => text(each.holder ?? "–"), by: (each) => each.holder ?? "" },
  { name: "standbys", title: "Standbys", cell: standbysCell, by: (each) => living(each).length },
  { name: "generation", title: "Generation", cell: generationCell, by: (each) => each.generation,
    hint: "Its number, and for how long it has been" },
  { name: "day", title: "Last day", cell: dayCell, by: (each) => each.begins.length,
    hint: "When generations began in the last 24 hours" },
  numbers("position", "Position", number, "The last durable position"),
  numbers("commits", "Commits/s", rate, "Positions a second"),
  numbers("reads", "Reads/s", rate, "Gets and pulls a second, where there is a trail"),
  numbers("lag", "Lag", number, "Blocks that are hardened and not durable yet"),
  numbers("denials", "Denied", compact, "Requests denied in the last hour, where there is a trail"),
  { name: "left", title: "Entries left", cell: leftCell, by: (each) => missing(each.entries_left),
    hint: "Entries left of the audit list; at the mark its keeper makes the next service" },
  { name: "next", title: "Succession", cell: nextCell, by: (each) => each.next_in ?? Infinity, isNumber: true,
    hint: "When the next service is due" },
];

const classes = (column) => `c-${column.name}${column.isNumber ? " number" : ""}`;
const compared = (a, b) => (a < b ? -1 : a > b ? 1 : 0);

export class Table {
  constructor(head, body) {
    this.body = body;
    this.rows = new Map();
    this.sorted = { column: COLUMNS[0], sign: 1 };
    for (const column of COLUMNS) head.append(this.#title(column));
    this.#showSort();
    body.addEventListener("keydown", (event) => this.#move(event));
    body.addEventListener("focusin", (event) => this.#choose(event.target.closest("tr")));
    body.addEventListener("click", (event) => {
      if (!event.target.closest("a")) event.target.closest("tr")?.querySelector("a").click();
    });
  }

  #title(column) {
    const button = element("button", { type: "button", title: column.hint }, column.title);
    column.th = element("th", { scope: "col", class: classes(column) }, button);
    button.addEventListener("click", () => {
      const isSame = this.sorted.column === column;
      this.sorted = { column, sign: isSame ? -this.sorted.sign : column.isNumber ? -1 : 1 };
      this.#showSort();
      this.#order(true);
    });
    return column.th;
  }

  #showSort() {
    for (const column of COLUMNS) column.th.removeAttribute("aria-sort");
    this.sorted.column.th.setAttribute("aria-sort", this.sorted.sign > 0 ? "ascending" : "descending");
  }

  /** Shows these databases, of which those that `takes` says are visible. Returns how many are. */
  show(databases, now, takes) {
    for (const name of [...this.rows.keys()].filter((each) => !databases.has(each))) this.#drop(name);
    let visible = 0;
    for (const database of databases.values()) {
      const row = this.rows.get(database.name) ?? this.#row(database.name);
      row.database = database;
      COLUMNS.forEach((column, at) => fill(row.node.children[at], column.cell(database, now)));
      row.node.hidden = !takes(database);
      visible += !row.node.hidden;
    }
    this.#order(false);
    if (!this.chosen?.isConnected || this.chosen.hidden) this.#choose([...this.body.children].find((each) => !each.hidden));
    return visible;
  }

  #row(name) {
    const cells = COLUMNS.map((column) => {
      const scope = column.isHead ? { scope: "row" } : {};
      return element(column.isHead ? "th" : "td", { ...scope, class: classes(column) });
    });
    const row = { node: element("tr", {}, ...cells) };
    this.rows.set(name, row);
    this.body.append(row.node);
    return row;
  }

  #drop(name) {
    this.rows.get(name).node.remove();
    this.rows.delete(name);
  }

  /** Sorts anew; but not below the pointer or the focus, unless it was asked for or a row is new. */
  #order(isAsked) {
    const isHeld = this.body.matches(":hover") || this.body.contains(document.activeElement);
    if (!isAsked && isHeld && this.ordered === this.rows.size) return;
    const { column, sign } = this.sorted;
    const order = (a, b) => sign * compared(column.by(a), column.by(b)) || compared(a.name, b.name);
    const rows = [...this.rows.values()].sort((a, b) => order(a.database, b.database));
    if (rows.some((row, at) => this.body.children[at] !== row.node)) this.body.append(...rows.map((row) => row.node));
    this.ordered = this.rows.size;
  }

  /** One row takes part in the order of the Tab key; the arrow keys choose which. */
  #choose(node) {
    this.chosen?.querySelector("a")?.setAttribute("tabindex", -1);
    this.chosen = node;
    node?.querySelector("a")?.setAttribute("tabindex", 0);
  }

  #move(event) {
    const visible = [...this.body.children].filter((each) => !each.hidden);
    const at = visible.indexOf(event.target.closest("tr")), last = visible.length - 1;
    const keys = { ArrowDown: at + 1, ArrowUp: at - 1, PageDown: at + 10, PageUp: at - 10, Home: 0, End: last };
    const to = keys[event.key];
    if (to === undefined) return;
    event.preventDefault();
    visible[Math.max(0, Math.min(last, to))].querySelector("a").focus();
  }

  /** Marks the row of the database that is open. */
  open(name) {
    for (const [each, row] of this.rows) row.node.classList.toggle("open", each === name);
  }

  focus(name) {
    (this.rows.get(name)?.node ?? this.chosen)?.querySelector("a").focus();
  }
}

function fill(node, cell) {
  if (node.said === cell.key) return;
  node.said = cell.key;
  node.replaceChildren(...cell.draw());
}
