// The events of the console: each look brings what is other than before. The browser connects again by itself.

/** Calls `look` with each look and `lost` when the console does not answer. The first look after a connection has all. */
export function follow(look, lost) {
  const source = new EventSource("/api/events");
  let isFirst = true;
  source.addEventListener("open", () => { isFirst = true; });
  source.addEventListener("look", (event) => {
    look(JSON.parse(event.data), isFirst);
    isFirst = false;
  });
  source.addEventListener("error", () => {
    lost();
    if (source.readyState === EventSource.CLOSED) again(look, lost);
  });
}

/** It was refused: the token is wanted again, or the console has too many browsers. */
async function again(look, lost) {
  const reply = await fetch("/api/state", { cache: "no-store" }).catch(() => null);
  if (reply?.status === 401) location.assign("/login");
  else setTimeout(() => follow(look, lost), 2000);
}
