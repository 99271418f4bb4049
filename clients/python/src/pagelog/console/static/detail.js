// One database: what it is, what will happen next, its plots, generations, denials and events.

import { bar, gauge, marks, shape, spark, strip } from "./drawing.js";
import { ago, compact, duration, element, number, quiet, rate, time } from "./words.js";

const SHOWN = 10;
const FRESH = 4500;

export class Detail {
  constructor(section) {
    this.section = section;
    this.parts = {};
  }

  /** Opens it with what the table knows; the rest is asked for. */
  open(name) {
    this.name = name;
    const part = (key, tag = "div") => (this.parts[key] = element(tag, { class: `part-${key}` }));
    const title = (words) => element("h3", {}, words);
    this.section.replaceChildren(
      element("a", { class: "back", href: "#/", "aria-keyshortcuts": "Escape" }, "All databases"),
      element("h2", { id: "detail-title", tabindex: -1 }, name),
      part("marks", "p"), part("next", "p"), part("facts", "dl"),
      title("Last quarter of an hour"), part("plots"), title("Generations"), part("generations"),
      title("Denied in the last hour"), part("denials"), title("Latest"), part("events", "ol"),
    );
    this.parts.events.classList.add("events");
    this.section.hidden = false;
    document.getElementById("detail-title").focus();
    this.asked = -FRESH;
  }

  close() {
    this.name = undefined;
    this.section.hidden = true;
  }

  /** A look: the facts at once, and the rest every five seconds or where it is another generation. */
  show(database, now) {
    if (this.name === undefined) return;
    if (!database) {
      this.parts.next.replaceChildren("There is no database of this name.");
      return;
    }
    this.parts.marks.replaceChildren(...marks(database));
    this.parts.next.replaceChildren(database.next);
    const lines = facts(database, now).map(([word, ...what]) => [element("dt", {}, word), element("dd", {}, ...what)]);
    this.parts.facts.replaceChildren(...lines.flat());
    const mark = `${this.name} ${database.generation} ${database.state}`;
    if (mark !== this.mark || performance.now() - this.asked > FRESH) this.#ask(this.name, mark);
  }

  async #ask(name, mark) {
    [this.mark, this.asked] = [mark, performance.now()];
    const reply = await fetch(`/api/databases/${encodeURIComponent(name)}`, { cache: "no-store" }).catch(() => null);
    if (!reply?.ok || name !== this.name) return;
    const found = await reply.json();
    this.parts.plots.replaceChildren(...plots(found));
    this.parts.generations.replaceChildren(...generations(found, this.parts.generations.clientWidth || 460));
    this.parts.denials.replaceChildren(...denials(found));
    this.parts.events.replaceChildren(...found.events.map((event) => eventLine(event, found.at, false)));
  }
}

// Facts.

function facts(database, now) {
  const { began, entries_left: left, entries, memory, memory_limit: limit } = database;
  const since = began ? [", since ", time(began, now), ` (${ago(began, now)})`] : [];
  return [
    ["Holder", database.holder ?? "nobody"],
    ["Decision", database.why ?? "–"],
    ["Service", database.address ?? "–"],
    ["Generation", number(database.generation), ...since],
    ["Position", number(database.position)],
    ["Durable lag", lagOf(database)],
    ...(database.stored === null ? [] : [["In the store up to", number(database.stored)]]),
    ["Standbys", standbysOf(database)],
    ...(database.pages.length ? [["Page servers", pagesOf(database)]] : []),
    ["Commits", `${rate(database.commits)} a second`],
    ["Reads", database.denials === null ? "not known: no trail is kept" : `${rate(database.reads)} a second`],
    ["Entries left", ...(left === null ? ["–"] : [gauge(database), `${number(left)} of ${number(entries)} entries`])],
    ["Memory", memory === null ? "–" : `${number(memory)} MiB${limit ? ` of ${number(limit)}` : ""}`],
  ];
}

function lagOf({ lag, lag_seconds: seconds }) {
  if (lag === null) return "–";
  return lag === 0 ? "none" : `${number(lag)} blocks${seconds ? `, for ${duration(seconds)}` : ""}`;
}

function standbysOf({ standbys, position }) {
  const behind = (each) => `${number(Math.max(0, position - each.reached))} blocks behind`;
  const words = standbys.map((each) => `${each.keeper}, ${each.lives ? behind(each) : "no heartbeat"}`);
  return words.join("; ") || "none: a takeover fills a fresh service first";
}

function pagesOf({ pages, position }) {
  const behind = (each) => `${number(Math.max(0, position - each.position))} blocks behind`;
  return pages.map((each) => `${each.machine}, ${each.gone ? "not heard of" : behind(each)}`).join("; ");
}

// What is asked for.

function plots(found) {
  const kinds = [["Durable lag", "blocks", 1, number, 0], ["Commits", "a second", 2, rate, 0], ["Entries left", "entries", 3, compact]];
  return kinds.map(([title, unit, at, words, least]) => {
    const points = found.points.map((point) => [Date.parse(point[0]), point[at]]);
    const values = points.map(([, value]) => value).filter((value) => value !== null);
    const head = element("b", {}, title);
    if (values.length < 2) return element("figure", {}, element("figcaption", {}, head, " has been watched for too short a time."));
    const last = `${words(values[values.length - 1])} ${unit}`;
    const range = `${words(Math.min(...values))} to ${words(Math.max(...values))}`;
    return element("figure", {}, element("figcaption", {}, head, last, quiet(range)),
      spark(points, `${title}: ${last} now, ${range} lately`, least));
  });
}

const cell = (isNumber, ...what) => element("td", { class: isNumber ? "number" : null }, ...what);

function generations(found, width) {
  const all = found.generations;
  if (!all.length) return [quiet("It has had none yet.")];
  const rows = [...all].reverse().slice(0, SHOWN).map((each) => element("tr", {},
    cell(true, number(each.generation)), cell(false, each.holder), cell(true, time(each.began, found.at)),
    cell(false, ago(each.began, each.ended ?? found.at)),
    cell(true, `${number(each.base)} to ${each.end === null ? "now" : number(each.end)}`)));
  const titles = ["No.", "Holder", "Began", "Lasted", "Positions"].map((title, at) =>
    element("th", { scope: "col", class: at % 2 ? null : "number" }, title));
  return [
    strip(all, found.at, width),
    element("p", { class: "ends" }, element("span", {}, "from ", time(all[0].began, found.at)), element("span", {}, "now")),
    element("table", {}, element("thead", {}, element("tr", {}, ...titles)), element("tbody", {}, ...rows)),
    ...(all.length > SHOWN ? [quiet(`and ${number(all.length - SHOWN)} before them`)] : []),
  ];
}

function denials(found) {
  if (!found.has_trail) return [quiet("No trail is kept of it; ", element("code", {}, "trail"), " in [keeper] keeps one.")];
  const rules = Object.entries(found.rules), most = Math.max(1, ...rules.map(([, count]) => count));
  const lines = rules.map(([rule, count]) =>
    element("li", {}, element("span", {}, rule), bar(count / most), element("b", {}, number(count))));
  const latest = found.denied.slice(0, 5).map((each) => line("bad", time(each.at, found.at),
    `principal ${each.principal}, ${each.operation}: ${each.rule}`));
  return [
    found.trail_is_damaged ? element("p", { class: "wrong" }, "The trail is damaged: pagelogctl replay says where.") : null,
    rules.length ? element("ul", { class: "rules" }, ...lines) : quiet("Nothing was."),
    latest.length ? element("ol", { class: "events" }, ...latest) : null,
  ].filter((part) => part !== null);
}

const line = (level, when, ...what) =>
  element("li", { class: `is-${level}` }, shape(level), when, element("span", {}, ...what));

export function eventLine(event, now, isNamed) {
  const link = () => element("a", { href: `#/${encodeURIComponent(event.name)}` }, event.name);
  const what = isNamed && event.name !== null ? [link(), `: ${event.text}`] : [event.text];
  return line(event.level, time(event.at, now), ...what);
}
