/**
 * Makes media segments for Media Source Extensions of fragments of Smooth Streaming ([MS-SSTR] 2.2.4). Such a fragment says its time
 * in a `tfxd`, where browsers look for a `tfdt`; its `tfrf` tells times ahead, which the manifest has as well; and its track_ID is
 * the origin's, where the browser's is the one of the `moov` that it was given.
 */

import { BoxError, boxes, box, fullBox, join, only, u32, u64, viewOf } from "./boxes.js";

const TFXD = "6d1d9b0542d544e680e2141daff757b2";
const DEFAULT_BASE_IS_MOOF = 0x020000;
export const TRACK_ID = 1;

const hex = (bytes) => Array.from(bytes, (byte) => byte.toString(16).padStart(2, "0")).join("");
const versionOf = (body) => body[0];
const flagsOf = (body) => viewOf(body).getUint32(0) & 0xffffff;

/**
 * The time and the duration that a fragment says, in ticks of its stream's timescale.
 * @param {Uint8Array} traf the body of its `traf`
 */
function readTfxd(traf) {
  const tfxd = [...boxes(traf)].find((it) => it.kind === "uuid" && hex(it.body.subarray(0, 16)) === TFXD);
  if (!tfxd) throw new BoxError("the fragment says no time");
  const body = tfxd.body.subarray(16);
  const view = viewOf(body);
  if (versionOf(body) === 1) return { time: view.getBigUint64(4), duration: view.getBigUint64(12) };
  return { time: BigInt(view.getUint32(4)), duration: BigInt(view.getUint32(8)) };
}

/** A `tfhd` of our track, from whose `moof` offsets count. What stands behind the track_ID, the defaults of samples, stays. */
function tfhdOf(body) {
  const flags = flagsOf(body);
  if (flags & 1) throw new BoxError("the fragment's offsets count from elsewhere than its moof");
  return fullBox("tfhd", versionOf(body), flags | DEFAULT_BASE_IS_MOOF, u32(TRACK_ID), body.subarray(8));
}

/** A `trun` whose samples begin at this offset. What stands behind it, the rows of samples, stays. */
function trunOf(body, offset) {
  const flags = flagsOf(body);
  const rows = body.subarray(flags & 1 ? 12 : 8);
  return fullBox("trun", versionOf(body), flags | 1, body.subarray(4, 8), u32(offset), rows);
}

/** Where the samples of a `trun` begin, counted from `moof`: behind the head of `mdat` where it doesn't say. */
function offsetOf(body, moof) {
  return flagsOf(body) & 1 ? viewOf(body).getInt32(8) : moof.whole.length + 8;
}

function trafOf(traf, time, grown, moof) {
  const parts = [];
  for (const { kind, whole, body } of boxes(traf)) {
    if (kind === "tfhd") parts.push(tfhdOf(body), fullBox("tfdt", 1, 0, u64(time)));
    else if (kind === "trun") parts.push(trunOf(body, offsetOf(body, moof) + grown));
    else if (kind !== "uuid") parts.push(whole);
  }
  return box("traf", ...parts);
}

/**
 * The media segment of a fragment, and the time and duration that it says.
 * @param {Uint8Array} bytes the fragment as the origin serves it
 * @param {bigint} zero the time that is to be 0 for the browser, in ticks
 */
export function toSegment(bytes, zero = 0n) {
  const moof = only("moof", bytes);
  const mdat = only("mdat", bytes);
  const { time, duration } = readTfxd(only("traf", moof.body).body);
  const made = (grown) =>
    box("moof", ...Array.from(boxes(moof.body), (it) => (it.kind === "traf" ? trafOf(it.body, time - zero, grown, moof) : it.whole)));
  // How much longer the new moof is doesn't depend on the offset in it.
  const grown = made(0).length - moof.whole.length;
  return { time, duration, bytes: join(made(grown), mdat.whole) };
}
