import assert from "node:assert/strict";
import { test } from "node:test";
import { ManifestError, addressOf, readManifest, zeroOf } from "../manifest.js";
import { textOf } from "./pushes.js";

const timesOfRun = ({ time, duration, count }) =>
  Array.from({ length: Number(count) }, (_, at) => [String(time + BigInt(at) * duration), String(duration)]);
const timesOf = ({ runs }) => runs.flatMap(timesOfRun);

test("manifests are read as another reader reads them, or refused as it refuses them", async (t) => {
  for (const { name, text, streams } of JSON.parse(textOf("data/manifests.json"))) {
    await t.test(name, () => {
      if (streams === null) return assert.throws(() => readManifest(text), ManifestError);
      const read = readManifest(text).streams.map((it) => ({ kind: it.kind, name: it.name, scale: it.scale, times: timesOf(it) }));
      assert.deepEqual(read, streams);
    });
  }
});

test("the manifest of an origin", () => {
  const { isLive, streams } = readManifest(textOf("data/manifest.xml"));
  assert.equal(isLive, true);
  assert.deepEqual(streams.map((it) => it.name), ["video", "audio"]);
  const [video, audio] = streams;
  assert.deepEqual(video.qualities.map((it) => [it.bitrate, it.width, it.height, it.fourCC]), [[60000, 160, 90, "H264"], [120000, 320, 180, "H264"]]);
  assert.deepEqual(video.runs, [{ time: 0n, duration: 19_200_000n, count: 10n }]);
  assert.deepEqual(Array.from(audio.qualities[0].privateData), [0x11, 0x88, 0x56, 0xe5, 0]);
  assert.deepEqual([audio.qualities[0].channels, audio.qualities[0].rate, audio.qualities[0].tag], [1, 48000, 255]);
  assert.equal(addressOf(video, 60000, 19_200_000n), "QualityLevels(60000)/Fragments(video=19200000)");
});

test("a manifest that a proxy tells as over", () => {
  assert.equal(readManifest(textOf("data/manifest.xml").replace('IsLive="TRUE"', 'IsLive="FALSE"')).isLive, false);
});

test("names with references, comments and other quotes", () => {
  const text = `<?xml version="1.0"?><!-- <c t="1"/> -->
    <SmoothStreamingMedia MajorVersion='2'><StreamIndex Type='audio' Name='a&amp;&#98;' Language="de" Url='{Bitrate}/{start_time}'>
    <QualityLevel Bitrate = "5" AudioTag="255"/><c t="7" d="3"/></StreamIndex></SmoothStreamingMedia>`;
  const [stream] = readManifest(text).streams;
  assert.deepEqual([stream.name, stream.language, stream.scale], ["a&b", "de", 10_000_000]);
  assert.equal(addressOf(stream, 5, 7n), "5/7");
});

test("what is no manifest is refused", () => {
  for (const text of ["", "48 NoChannel\n", "<html><body>Not found</body></html>"]) assert.throws(() => readManifest(text), ManifestError);
});

test("the player counts from the whole second in front of the first time, also where times are more than a number holds", () => {
  const stream = (time) => ({ scale: 10_000_000, runs: [{ time, duration: 1n, count: 1n }] });
  assert.equal(zeroOf({ streams: [stream(17_961_936_930_000_001n), stream(17_961_936_945_000_000n)] }), 1_796_193_693);
  assert.equal(zeroOf({ streams: [{ scale: 1, runs: [] }] }), 0);
});
