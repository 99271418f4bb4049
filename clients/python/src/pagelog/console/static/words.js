// Numbers, durations and times as people read them, and elements.

const whole = new Intl.NumberFormat("en", { maximumFractionDigits: 0 });
const short = new Intl.NumberFormat("en", { notation: "compact", maximumFractionDigits: 1 });
const ofDay = { hour: "2-digit", minute: "2-digit", hour12: false };
const clock = new Intl.DateTimeFormat(undefined, { ...ofDay, second: "2-digit" });
const dated = new Intl.DateTimeFormat(undefined, { ...ofDay, day: "numeric", month: "short" });
const OLD = 20 * 3600 * 1000;

export const isKnown = (value) => value !== null && value !== undefined;
export const number = (value) => (isKnown(value) ? whole.format(value) : "–");
export const compact = (value) => (isKnown(value) ? short.format(value) : "–");

/** A rate: whole from ten on, else with a digit behind the point. */
export function rate(value) {
  return !isKnown(value) ? "–" : value >= 10 || value === 0 ? whole.format(value) : value.toFixed(1);
}

/** `45 s`, `12 min`, `3.2 h`, `9.1 d`. */
export function duration(seconds) {
  if (!isKnown(seconds)) return "–";
  if (seconds >= 172800) return `${(seconds / 86400).toFixed(1)} d`;
  if (seconds >= 7200) return `${(seconds / 3600).toFixed(1)} h`;
  return seconds >= 120 ? `${Math.round(seconds / 60)} min` : `${Math.round(seconds)} s`;
}

/** How long ago, by the console's clock. */
export const ago = (iso, now) => duration(Math.max(0, (Date.parse(now) - Date.parse(iso)) / 1000));

/** A time in the zone of who looks, with the day where it is not of today or last night. */
export function time(iso, now) {
  const when = new Date(iso);
  return element("time", { datetime: iso, title: iso }, (Date.parse(now) - when > OLD ? dated : clock).format(when));
}

/** An element with attributes and children, of which null is left out. A text is never read as HTML. */
export function element(name, attributes = {}, ...children) {
  const made = document.createElement(name);
  for (const [key, value] of Object.entries(attributes)) if (isKnown(value)) made.setAttribute(key, value);
  made.append(...children.filter(isKnown));
  return made;
}

export const quiet = (...children) => element("span", { class: "quiet" }, ...children);

/** The states, the most urgent first. */
export const STATES = { nobody: "nobody has it", silent: "no heartbeat", taking: "taking", closing: "closing", serving: "serving" };
export const PAUSED = "paused";

export function urgency(database) {
  const isJustPaused = database.paused && database.state === "serving";
  return Object.keys(STATES).indexOf(database.state) - (isJustPaused ? 0.5 : 0);
}
