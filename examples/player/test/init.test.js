import assert from "node:assert/strict";
import { test } from "node:test";
import { boxes, only, viewOf } from "../boxes.js";
import { CodecError, initOf } from "../init.js";
import { readManifest } from "../manifest.js";
import { textOf } from "./pushes.js";

const [video, audio] = readManifest(textOf("data/manifest.xml")).streams;
const within = (bytes, ...path) => path.reduce((body, kind) => only(kind, body).body, bytes);

test("the type of pictures is that of their parameter set, and the sizes are the manifest's", () => {
  const { type, bytes } = initOf(video, video.qualities[1]);
  assert.equal(type, 'video/mp4; codecs="avc1.64000c"');
  assert.deepEqual(Array.from(boxes(bytes), (it) => it.kind), ["ftyp", "moov"]);
  const tkhd = viewOf(within(bytes, "moov", "trak", "tkhd"));
  assert.deepEqual([tkhd.byteLength, tkhd.getUint32(76), tkhd.getUint32(80)], [84, 320 << 16, 180 << 16]);
  assert.equal(viewOf(within(bytes, "moov", "trak", "mdia", "mdhd")).getUint32(12), 10_000_000);
  const avc1 = within(bytes, "moov", "trak", "mdia", "minf", "stbl", "stsd").subarray(8 + 8);
  const avcC = only("avcC", avc1.subarray(78)).body;
  const sets = Buffer.from(video.qualities[1].privateData).toString("hex").split("00000001").filter(Boolean);
  assert.equal(Buffer.from(avcC).toString("hex"), `0164000cffe1${size(sets[0])}${sets[0]}01${size(sets[1])}${sets[1]}`);
});

const size = (hex) => (hex.length / 2).toString(16).padStart(4, "0");

test("the type of a sound is that of its configuration", () => {
  const { type, bytes } = initOf(audio, audio.qualities[0]);
  assert.equal(type, 'audio/mp4; codecs="mp4a.40.2"');
  const mp4a = within(bytes, "moov", "trak", "mdia", "minf", "stbl", "stsd").subarray(8 + 8);
  assert.equal(viewOf(mp4a).getUint32(24), 48000 << 16 >>> 0);
  assert.ok(Buffer.from(only("esds", mp4a.subarray(28)).body).toString("hex").includes("0505118856e500"));
});

test("a sound without a FourCC is AAC by its tag, and start codes may be short", () => {
  assert.equal(initOf(audio, { ...audio.qualities[0], fourCC: "" }).type, 'audio/mp4; codecs="mp4a.40.2"');
  const [quality] = video.qualities;
  const short = Buffer.from(Buffer.from(quality.privateData).toString("hex").replaceAll("00000001", "000001"), "hex");
  assert.deepEqual(initOf(video, { ...quality, privateData: new Uint8Array(short) }), initOf(video, quality));
});

test("codecs that aren't played are named as the manifest names them", () => {
  const [pictures] = video.qualities;
  const [sound] = audio.qualities;
  const isOf = (codec) => (error) => error instanceof CodecError && error.codec === codec;
  const refused = (stream, quality, codec) => assert.throws(() => initOf(stream, quality), isOf(codec));
  refused(video, { ...pictures, fourCC: "HVC1" }, "HVC1");
  refused(video, { ...pictures, fourCC: "" }, "");
  refused(audio, { ...sound, fourCC: "EC-3" }, "EC-3");
  refused(audio, { ...sound, fourCC: "", tag: 353 }, "");
  refused(video, { ...pictures, privateData: new Uint8Array(0) }, "H.264 without its parameter sets");
  refused(audio, { ...sound, privateData: new Uint8Array(0) }, "AAC without its configuration");
});
