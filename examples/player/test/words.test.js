import assert from "node:assert/strict";
import { test } from "node:test";
import { bits, clock, leftOut, qualityName, soundName, wordsOf } from "../words.js";

test("each state has words, and what keeps an event from being seen says what may be done", () => {
  for (const name of ["loading", "playing", "paused", "rebuffering", "waiting", "ended"]) assert.equal(wordsOf({ name }).length, 2);
  for (const name of ["absent", "unreachable", "server", "slow", "unreadable", "browser", "broken"]) {
    const [title, more] = wordsOf({ name, status: 502 });
    assert.ok(title.length > 10 && /\.$/.test(more), name);
  }
  assert.match(wordsOf({ name: "server", status: 502 })[1], /502/);
  assert.equal(wordsOf({ name: "waiting", kind: "audio" })[0], "Waiting for the sound to go on");
});

test("a codec that isn't played is named, or said to have no name", () => {
  const codecs = [{ kind: "video", codec: "HVC1" }, { kind: "audio", codec: "" }];
  const words = "The picture is in HVC1, which isn't played here. The sound is in a codec that the server doesn't name, which isn't played here.";
  assert.equal(leftOut(codecs), words);
  assert.equal(wordsOf({ name: "codec", codecs })[1], words);
  assert.equal(leftOut([]), "");
});

test("moments, rates and names", () => {
  assert.deepEqual([0, 59.9, 61, 3599, 3723].map(clock), ["0:00", "0:59", "1:01", "59:59", "1:02:03"]);
  assert.deepEqual([null, 64_000, 1_500_000].map(bits), ["–", "64 kbit/s", "1.5 Mbit/s"]);
  assert.equal(qualityName({ width: 640, height: 360, bitrate: 400_000 }), "640 × 360, 400 kbit/s");
  assert.equal(qualityName({ width: 0, height: 0, bitrate: 64_000 }), "64 kbit/s");
  const sounds = [["audio_eng", ""], ["audio_deu", ""], ["a", "fr"], ["audio", ""]].map(([name, language]) => ({ name, language }));
  assert.deepEqual(sounds.map(soundName), ["English", "German", "French", "audio"]);
  assert.equal(soundName({ name: "audio_und", language: "" }), "audio_und");
});
