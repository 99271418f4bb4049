// The page: what the looks have brought, the filter, the keys, and which database is open.

import { Detail, eventLine } from "./detail.js";
import { marked, shape } from "./drawing.js";
import { follow } from "./live.js";
import { Table } from "./table.js";
import { PAUSED, STATES, element, number, quiet, time } from "./words.js";

const at = (id) => document.getElementById(id);
const [KEPT, LATEST] = [500, 40];
const page = { databases: new Map(), events: [], head: null, state: null, isLost: false };
const table = new Table(at("columns"), at("rows"));
const detail = new Detail(at("detail"));

// Looks.

function look(found, isFirst) {
  if (isFirst) [page.databases, page.events] = [new Map(), []];
  for (const name of found.gone) page.databases.delete(name);
  for (const database of found.databases) page.databases.set(database.name, database);
  page.events = [...page.events, ...found.events].slice(-KEPT);
  [page.head, page.isLost] = [found, false];
  drawHead();
  drawStates();
  drawTable();
  detail.show(page.databases.get(detail.name), found.at);
  if (isFirst || found.events.length) drawEvents();
  if (!isFirst) say(found.events);
}

follow(look, () => {
  page.isLost = true;
  drawHead();
});

function drawEvents() {
  const latest = page.events.slice(-LATEST).reverse();
  at("events").replaceChildren(...latest.map((event) => eventLine(event, page.head.at, true)));
}

/** Tells who does not see the page what has happened: one sentence, and how many more. */
function say(events) {
  const [first, ...more] = events.filter((event) => event.level !== "plain");
  if (!first) return;
  const rest = more.length ? `, and ${more.length} more` : "";
  at("said").textContent = `${first.name === null ? "" : `${first.name}: `}${first.text}${rest}`;
}

function drawTable() {
  if (!page.head) return;
  const words = at("words").value.trim().toLowerCase();
  const has = (text) => (text ?? "").toLowerCase().includes(words);
  const takes = (each) => isOfState(each, page.state) && (has(each.name) || has(each.holder));
  const visible = table.show(page.databases, page.head.at, takes);
  table.open(detail.name);
  at("none").hidden = visible > 0;
  at("none").textContent = page.databases.size
    ? "No database is like that." : "There is no named database yet: pagelogctl create makes one.";
}

// The head.

function drawHead() {
  const head = page.head;
  trouble(troubleOf(head));
  at("live").replaceChildren(...(head && !page.isLost ? ["live, ", time(head.at)] : [page.isLost ? "not connected" : "connecting"]));
  if (!head) return;
  const facts = [...head.keepers.map(keeperFact), postgresqlFact(head.postgresql)];
  const key = facts.map((fact) => fact.textContent).join();
  if (at("facts").said !== key) at("facts").replaceChildren(...facts);
  at("facts").said = key;
}

function troubleOf(head) {
  if (page.isLost) return "The console does not answer; this page tries again.";
  if (!head?.postgresql.away_since) return "";
  const shown = head.look > 1 ? ` What is shown is of ${new Date(head.at).toLocaleTimeString()}.` : "";
  return `PostgreSQL is away.${shown} This continues by itself. ${head.postgresql.why}`;
}

function trouble(words) {
  if (at("trouble").said === words) return;
  at("trouble").said = words;
  at("trouble").replaceChildren(...(words ? [shape("bad"), words] : []));
  at("trouble").hidden = !words;
}

function keeperFact({ name, lines, lives }) {
  return element("li", { title: `lines at ${lines}` }, marked(lives ? "serving" : "silent", name), lives ? null : quiet(" no heartbeat"));
}

function postgresqlFact({ away_since: away, durable, is_one_disk: isOneDisk, synchronous_standbys: count }) {
  const standbys = count === null ? "standbys not visible" : `${count} synchronous standby${count === 1 ? "" : "s"}`;
  const kind = away || (count === 0 && !isOneDisk) ? "bad" : isOneDisk ? "warning" : "good";
  const words = away ? "PostgreSQL is away" : `PostgreSQL, ${isOneDisk ? "durable means one disk" : standbys}`;
  return element("li", { title: durable }, marked(kind, words));
}

// The filter.

const isOfState = (database, state) => state === null || (state === PAUSED ? database.paused : database.state === state);

function stateButton([state, word]) {
  const count = element("b", {}, "0");
  const button = element("button", { type: "button" }, state ? shape(state) : null, `${word} `, count);
  button.addEventListener("click", () => {
    page.state = page.state === state ? null : state;
    drawStates();
    drawTable();
  });
  at("states").append(button);
  return { state, button, count };
}

const buttons = [[null, "all"], ...Object.entries(STATES), [PAUSED, PAUSED]].map(stateButton);

function drawStates() {
  const all = [...page.databases.values()];
  for (const { state, button, count } of buttons) {
    const found = all.filter((database) => isOfState(database, state)).length;
    if (count.textContent !== number(found)) count.textContent = number(found);
    button.setAttribute("aria-pressed", String(state === page.state));
    button.classList.toggle("empty", found === 0 && state !== page.state);
  }
}

at("words").addEventListener("input", drawTable);
at("filter").addEventListener("submit", (event) => {
  event.preventDefault();
  table.focus();
});

// Which database is open, by the hash, and the keys.

function nameOf(hash) {
  try {
    return hash.startsWith("#/") ? decodeURIComponent(hash.slice(2)) : "";
  } catch {
    return ""; // it was cut amid a letter
  }
}

function route() {
  const name = nameOf(location.hash);
  const before = detail.name;
  if (name && name !== before) detail.open(name);
  if (!name && before !== undefined) detail.close();
  document.body.classList.toggle("has-detail", Boolean(name));
  document.title = name ? `${name} – pagelog console` : "pagelog console";
  table.open(detail.name);
  if (page.head) detail.show(page.databases.get(detail.name), page.head.at);
  if (!name && before !== undefined) table.focus(before);
}

addEventListener("hashchange", route);
addEventListener("keydown", (event) => {
  if (event.key === "/" && event.target !== at("words")) {
    event.preventDefault();
    at("words").focus();
  } else if (event.key === "Escape" && event.target === at("words") && at("words").value) {
    at("words").value = "";
    drawTable();
  } else if (event.key === "Escape" && detail.name !== undefined) {
    location.hash = "#/";
  }
});
drawStates();
route();
