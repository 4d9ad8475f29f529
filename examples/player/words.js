/** What a viewer reads. */

const KINDS = { video: "picture", audio: "sound" };

/** For each state of the player what it is, and what may be done about it. */
const STATES = {
  loading: () => ["Loading the event"],
  absent: () => [
    "There is no event here yet",
    "The server has nothing at this address. The page asks again every few seconds, and starts by itself.",
  ],
  unreachable: () => ["The server can't be reached", "It may be down, or your network may be. The page goes on trying."],
  server: ({ status }) => ["The server has a problem", `It answers with ${status}. The page goes on trying.`],
  slow: () => [
    "Nothing arrives in time",
    "Your network is too slow for the lowest quality, or the server doesn't answer. The page goes on trying.",
  ],
  unreadable: () => ["This is no event that can be played", "What the server sends is no Smooth Streaming. Look at the address."],
  waiting: ({ kind }) => [
    `Waiting for the ${kind ? KINDS[kind] : "event"} to go on`,
    "Nothing new has come. It goes on by itself.",
  ],
  rebuffering: () => ["Loading"],
  paused: () => ["Paused"],
  playing: () => [""],
  ended: () => ["The event has ended", "You can watch it again from any point."],
  browser: () => ["This browser can't play the event", "It has no Media Source Extensions. A current Firefox, Chrome or Edge has them."],
  codec: ({ codecs }) => ["This browser can't play the event", `${listOf(codecs)}.`],
  broken: ({ message }) => ["The event can't be played on", message || "The browser could not decode it. Press Play to try again."],
};

/** A sentence's part for each stream that isn't played: its kind, and its codec where the manifest names it. */
function listOf(codecs) {
  const named = (codec) => codec || "a codec that the server doesn't name";
  return codecs.map(({ kind, codec }) => `The ${KINDS[kind]} is in ${named(codec)}, which isn't played here`).join(". ");
}

/**
 * The words of a state: a title, and a sentence or two where there is something to say.
 * @param {{name: string}} state @returns {[string, string]}
 */
export function wordsOf(state) {
  const [title, more = ""] = STATES[state.name](state);
  return [title, more];
}

/** What is left out of an event that is played otherwise. */
export function leftOut(codecs) {
  return codecs.length ? `${listOf(codecs)}.` : "";
}

/** A moment, as 1:02:03 or 2:03. */
export function clock(seconds) {
  const whole = Math.max(0, Math.floor(seconds));
  const two = (number) => String(number % 60).padStart(2, "0");
  const hours = Math.floor(whole / 3600);
  const minutes = Math.floor(whole / 60);
  return hours ? `${hours}:${two(minutes)}:${two(whole)}` : `${minutes}:${two(whole)}`;
}

/** A number of bits a second. */
export function bits(rate) {
  if (rate === null || rate === undefined) return "–";
  return rate >= 1e6 ? `${(rate / 1e6).toFixed(1)} Mbit/s` : `${Math.round(rate / 1000)} kbit/s`;
}

/** A quality, by its size and bitrate. */
export function qualityName({ width, height, bitrate }) {
  return width ? `${width} × ${height}, ${bits(bitrate)}` : bits(bitrate);
}

/** A sound, by its language: the one that the manifest says, or the one that an encoder wrote behind the name, as in audio_eng. */
export function soundName({ name, language }) {
  const tag = language || /_([a-z]{2,3})$/.exec(name)?.[1];
  try {
    return (tag && tag !== "und" && new Intl.DisplayNames(["en"], { type: "language", fallback: "none" }).of(tag)) || name;
  } catch {
    return name;
  }
}
