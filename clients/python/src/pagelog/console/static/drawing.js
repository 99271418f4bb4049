// Plots and shapes as plain SVG.

import { PAUSED, STATES, element, number } from "./words.js";

const SPACE = "http://www.w3.org/2000/svg";

export function svg(name, attributes = {}, ...children) {
  const made = document.createElementNS(SPACE, name);
  for (const [key, value] of Object.entries(attributes)) made.setAttribute(key, value);
  made.append(...children);
  return made;
}

const HIDDEN = { "aria-hidden": "true" };
const told = (words) => ({ role: "img", "aria-label": words });

// Shapes.

const line = (d) => ["path", { d, class: "line" }];
const thick = (d) => ["path", { d, class: "line thick" }];
const RING = ["circle", { cx: 8, cy: 8, r: 5.5, class: "line" }];
const BOX = ["rect", { x: 3, y: 3, width: 10, height: 10, rx: 1.5, class: "line" }];
const SHAPES = {
  serving: [["circle", { cx: 8, cy: 8, r: 5.5 }]],
  taking: [RING, ["path", { d: "M8 2.5a5.5 5.5 0 0 1 0 11z" }]],
  closing: [BOX, ["rect", { x: 3, y: 8.5, width: 10, height: 4.5 }]],
  silent: [line("M8 2.2 14.2 13.2H1.8z"), line("M8 6v3.6M8 11v.6")],
  nobody: [thick("M3.2 3.2l9.6 9.6M12.8 3.2l-9.6 9.6")],
  paused: [thick("M5.4 3v10M10.6 3v10")],
  locked: [["rect", { x: 3.5, y: 7.5, width: 9, height: 6, rx: 1 }], line("M5.5 7V5a2.5 2.5 0 0 1 5 0v2")],
  good: [["circle", { cx: 8, cy: 8, r: 4 }]],
  plain: [["circle", { cx: 8, cy: 8, r: 2.2 }]],
  warning: [line("M8 3.2 13 8l-5 4.8L3 8z")],
  bad: [thick("M4 4l8 8M12 4l-8 8")],
};

/** A shape that says the same as the word beside it. */
export function shape(kind) {
  const parts = SHAPES[kind].map(([name, attributes]) => svg(name, attributes));
  return svg("svg", { class: `shape is-${kind}`, viewBox: "0 0 16 16", width: 14, height: 14, ...HIDDEN }, ...parts);
}

/** A word with its shape. */
export const marked = (kind, word) => element("span", { class: `mark is-${kind}` }, shape(kind), word);

/** The state of a database, and whether it is paused or may only be read. */
export function marks(database) {
  const found = [marked(database.state, STATES[database.state])];
  if (database.paused) found.push(" ", marked("paused", PAUSED));
  if (database.read_only) found.push(" ", marked("locked", "read-only"));
  return found;
}

// Plots.

/** A line of values by time, with its words for who does not see it. Values may be missing; `least` is at the bottom. */
export function spark(points, words, least) {
  const [width, height] = [240, 44];
  const known = points.filter(([, value]) => value !== null);
  const [first, last] = [known[0][0], known[known.length - 1][0]];
  const values = known.map(([, value]) => value);
  const [low, high] = [Math.min(least ?? Infinity, ...values), Math.max(...values)];
  const x = (at) => (((at - first) / Math.max(1, last - first)) * (width - 4) + 2).toFixed(1);
  const y = (value) => (height - 3 - ((value - low) / Math.max(1e-9, high - low)) * (height - 6)).toFixed(1);
  const trace = `M${known.map(([at, value]) => `${x(at)} ${y(value)}`).join("L")}`;
  return svg("svg", { class: "spark", viewBox: `0 0 ${width} ${height}`, preserveAspectRatio: "none", ...told(words) },
    svg("path", { class: "area", d: `${trace}L${x(last)} ${height}L${x(first)} ${height}z` }),
    svg("path", { class: "trace", d: trace }));
}

/** How much of a list is left, and the mark at which the next service is made. Without words they stand beside it. */
export function gauge({ entries_left: left, entries, due }, words) {
  const share = Math.max(0, Math.min(1, left / entries));
  const size = { width: 60, height: 8, viewBox: "0 0 60 8" };
  return svg("svg", { class: `gauge${left <= due ? " is-low" : ""}`, ...size, ...(words ? told(words) : HIDDEN) },
    svg("rect", { class: "track", width: 60, height: 8, rx: 2 }),
    svg("rect", { class: "left", width: 60 * share, height: 8, rx: 2 }),
    svg("path", { class: "mark", d: `M${((60 * due) / entries).toFixed(1)} 0v8` }));
}

/** A part of a whole; the number stands beside it. */
export function bar(share) {
  return svg("svg", { class: "bar", viewBox: "0 0 100 8", preserveAspectRatio: "none", ...HIDDEN },
    svg("rect", { class: "track", width: 100, height: 8 }),
    svg("rect", { class: "part", width: Math.max(1, 100 * share), height: 8 }));
}

/** Beginnings of generations in the last day, as marks on a line. */
export function day(begins, now) {
  const begin = Date.parse(now) - 86400000;
  const x = (each) => (((Date.parse(each) - begin) / 86400000) * 94).toFixed(1);
  return svg("svg", { class: "day", viewBox: "0 0 96 12", width: 96, height: 12, ...told(`${begins.length} began in the last day`) },
    svg("path", { class: "axis", d: "M0 6h96" }),
    ...begins.map((each) => svg("rect", { x: x(each), width: 2, height: 12, rx: 1 })));
}

/** Generations as a strip in time: one piece each, named by its holder where there is room. */
export function strip(generations, now, width) {
  const first = Date.parse(generations[0].began), last = Math.max(Date.parse(now), first + 1000);
  const x = (iso) => ((Date.parse(iso) - first) / (last - first)) * width;
  const holders = [...new Set(generations.map((each) => each.holder))];
  const pieces = generations.map((each) => {
    const from = x(each.began), room = x(each.ended ?? now) - from - 1;
    const tone = `tone${holders.indexOf(each.holder) % 4}`;
    const title = svg("title", {}, `generation ${number(each.generation)}: ${each.holder}, from ${each.began}`);
    const piece = svg("g", {}, title, svg("rect", { class: tone, x: from, width: Math.max(1.5, room), height: 30 }));
    if (room > 14 + 8 * each.holder.length) piece.append(svg("text", { x: from + 7, y: 20 }, each.holder));
    return piece;
  });
  const words = `${generations.length} generations in time; the table below has them`;
  return svg("svg", { class: "strip", viewBox: `0 0 ${width} 30`, ...told(words) }, ...pieces);
}
