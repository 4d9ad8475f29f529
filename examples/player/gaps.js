/** Gaps in what a browser has. */

/** What is shown is at an end where less than this is left, in seconds; and less than that where nothing moves any more. */
const REST = 0.1;
const REST_AT_A_STAND = 0.5;

/**
 * The gap that a moment lies in or in front of, and where what is behind it ends; null where there is something to show, or nothing behind.
 * @param {[number, number][]} ranges what is there, in the order of time
 * @param {number} position @param {boolean} stands whether what is shown doesn't move
 * @returns {{from: number, until: number, end: number} | null}
 */
export function gapAt(ranges, position, stands) {
  const rest = stands ? REST_AT_A_STAND : REST;
  if (ranges.some(([from, to]) => from <= position && position < to - rest)) return null;
  const at = ranges.findIndex(([from]) => from > position);
  if (at < 0) return null;
  return { from: Math.max(position, ranges[at - 1]?.[1] ?? 0), until: ranges[at][0], end: ranges[at][1] };
}

/**
 * Whether nothing will fill a gap: a stream that isn't there lists nothing in it that is still to be fetched.
 * @param {{buffer: import("./buffer.js").Buffer, hasMore: (from: number, to: number) => boolean}[]} tracks
 */
export function isHole({ from, until }, tracks) {
  // Frames of sound and of pictures don't end together: a little at both ends doesn't count.
  const edge = Math.min(0.05, (until - from) / 4);
  return tracks.some((it) => !it.buffer.covers(from + edge, until - edge) && !it.hasMore(from + edge, until - edge));
}
