/** Starts the page: which event it plays stands in its address, as ?event=live or ?url=https://HOST/live.isml. */

import { Player } from "./player.js";
import { View } from "./view.js";
import { wordsOf } from "./words.js";

/** The address of the event that the page is asked for, or null where it asks for none that can be played. */
function eventAddress() {
  const words = new URLSearchParams(location.search);
  const url = new URL(words.get("url") ?? `/${encodeURIComponent(words.get("event") ?? "live")}.isml`, location.href);
  return /^https?:$/.test(url.protocol) ? url.href.replace(/(\/Manifest)?\/?$/i, "") : null;
}

const address = eventAddress();
document.querySelector("[name=url]").value = address ?? "";
const root = document.querySelector("main");
if ("MediaSource" in window && address) {
  const player = new Player(root.querySelector("video"), address);
  new View(root, player);
  player.start();
} else {
  const [title, more] = wordsOf({ name: address ? "browser" : "unreadable" });
  root.querySelector("[data-part=title]").textContent = title;
  root.querySelector("[data-part=more]").textContent = more;
}
