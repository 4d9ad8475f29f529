import assert from "node:assert/strict";
import { test } from "node:test";
import { BoxError, box, boxes, fullBox, join, only, u32, viewOf, zeros } from "../boxes.js";
import { toSegment } from "../fragment.js";
import { initOf } from "../init.js";
import { readManifest } from "../manifest.js";
import { bytesOf, encode, hasFfmpeg, probe, readFragments, readPush, samplesOf, textOf, trackOf } from "./pushes.js";

const trafOf = (segment) => only("traf", only("moof", segment).body).body;
const SECOND = 10_000_000;

/** Where the samples of a fragment or a segment begin, and all bytes of them. */
function samples(bytes) {
  const moof = only("moof", bytes);
  const trun = viewOf(only("trun", only("traf", moof.body).body).body);
  return bytes.subarray(trun.getInt32(8));
}

test("a fragment as an origin serves it becomes a segment of track 1 with a tfdt, without tfxd and tfrf, with the same samples", () => {
  for (const name of ["video", "audio"]) {
    const served = bytesOf(`data/${name}.frag`);
    assert.equal([...boxes(trafOf(served))].filter((it) => it.kind === "uuid").length, 2);
    const { time, duration, bytes } = toSegment(served);
    assert.deepEqual([time, duration], [19_200_000n, 19_200_000n]);
    assert.deepEqual(Array.from(boxes(trafOf(bytes)), (it) => it.kind), ["tfhd", "tfdt", "trun"]);
    assert.equal(trackOf(only("moof", bytes).body), 1);
    assert.equal(viewOf(only("tfdt", trafOf(bytes)).body).getBigUint64(4), time);
    assert.equal(viewOf(only("tfhd", trafOf(bytes)).body).getUint32(0) & 0x020000, 0x020000);
    assert.deepEqual(samples(bytes), samples(served));
    assert.deepEqual(samples(bytes), only("mdat", bytes).body);
  }
});

test("what a browser counts from is taken off the time", () => {
  const { bytes } = toSegment(bytesOf("data/video.frag"), 10_000_000n);
  assert.equal(viewOf(only("tfdt", trafOf(bytes)).body).getBigUint64(4), 9_200_000n);
});

test("the sample fragments of this project: sequence numbers and samples stay", () => {
  const all = readFragments(bytesOf("../../fragments.frag"));
  assert.ok(all.length > 0);
  for (const fragment of all) {
    const { bytes } = toSegment(fragment);
    assert.deepEqual(only("mfhd", only("moof", bytes).body).whole, only("mfhd", only("moof", fragment).body).whole);
    assert.deepEqual(samples(bytes), samples(fragment));
  }
});

const uuid = (hex, ...parts) => box("uuid", Uint8Array.from(hex.match(/../g), (it) => parseInt(it, 16)), ...parts);
const tfxd = uuid("6d1d9b0542d544e680e2141daff757b2", u32(0), u32(30), u32(10));
const tfhd = fullBox("tfhd", 0, 0, u32(7));
const trun = fullBox("trun", 0, 0x200, u32(1), u32(4));
const made = (...parts) => join(box("moof", fullBox("mfhd", 0, 0, u32(1)), box("traf", ...parts)), box("mdat", zeros(4)));

test("a tfxd of 32 bits, and a run that doesn't say where its samples are", () => {
  const { time, duration, bytes } = toSegment(made(tfhd, trun, tfxd));
  assert.deepEqual([time, duration], [30n, 10n]);
  assert.equal(viewOf(only("trun", trafOf(bytes)).body).getInt32(8), only("moof", bytes).whole.length + 8);
});

test("what is no fragment is refused", () => {
  const whole = made(tfhd, trun, tfxd);
  const based = fullBox("tfhd", 0, 1, u32(7), zeros(8));
  const bad = [new Uint8Array(0), whole.subarray(0, 40), box("mdat"), made(tfhd, trun), made(based, trun, tfxd)];
  for (const bytes of bad) assert.throws(() => toSegment(bytes), BoxError);
});

/** Holds segments of a track against what ffmpeg reads in them. */
function decode({ stream, quality, fragments }) {
  const { bytes } = initOf(stream, quality);
  const segments = fragments.map((it) => toSegment(it));
  const read = probe([bytes, ...segments.map((it) => it.bytes)]);
  const count = fragments.reduce((all, it) => all + samplesOf(it), 0);
  assert.equal(read.codec, stream.kind === "video" ? "h264" : "aac");
  assert.equal(read.complaints, "");
  assert.deepEqual([read.packets, read.frames], [count, count]);
  if (stream.kind === "video") assert.equal(read.width, quality.width);
  else assert.equal(read.channels, quality.channels);
  return { read, first: Number(segments[0].time) / SECOND };
}

test("ffmpeg decodes each picture and frame of the sample push", { skip: !hasFfmpeg && "ffmpeg is missing" }, () => {
  const tracks = readPush(bytesOf("../../push.isml"));
  assert.equal(tracks.length, 3);
  for (const track of tracks) {
    const { read, first } = decode(track);
    assert.ok(Math.abs(read.start - first) < 0.001, `begins at ${read.start}, and not at ${first}`);
  }
});

test("ffmpeg decodes a push with B frames that it has just made, and one behind a hole", { skip: !hasFfmpeg && "ffmpeg is missing" }, () => {
  const tracks = readPush(encode({ seconds: 6, bFrames: 2 }));
  assert.deepEqual(tracks.map((it) => it.stream.kind), ["video", "audio"]);
  for (const track of tracks) {
    decode(track);
    const behind = { ...track, fragments: track.fragments.slice(2) };
    const { read, first } = decode(behind);
    assert.ok(first > 3 && Math.abs(read.start - first) < 0.2, `begins at ${read.start}, and not at ${first}`);
  }
});

test("ffmpeg decodes fragments as an origin serves them, by its manifest", { skip: !hasFfmpeg && "ffmpeg is missing" }, () => {
  for (const stream of readManifest(textOf("data/manifest.xml")).streams) {
    decode({ stream, quality: stream.qualities[0], fragments: [bytesOf(`data/${stream.name}.frag`)] });
  }
});
