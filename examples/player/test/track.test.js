import assert from "node:assert/strict";
import { test } from "node:test";
import { BoxError, box, fullBox, join, u32, u64, zeros } from "../boxes.js";
import { NetError } from "../net.js";
import { Track } from "../track.js";

const SECOND = 10_000_000n;
const TFXD = Uint8Array.from("6d1d9b0542d544e680e2141daff757b2".match(/../g), (it) => parseInt(it, 16));

/** A fragment of two seconds. */
function fragment(time) {
  const tfxd = box("uuid", TFXD, u32(0x01000000), u64(time), u64(2n * SECOND));
  const traf = box("traf", fullBox("tfhd", 0, 0, u32(9)), fullBox("trun", 0, 1, u32(0), u32(0)), tfxd);
  return join(box("moof", fullBox("mfhd", 0, 0, u32(1)), traf), box("mdat", zeros(10)));
}

/** A buffer that keeps which pieces it was given: initialization segments by their letter, and media by their seconds. */
class FakeBuffer {
  pieces = [];
  ranges = [];
  dropped = [];
  isFull = false;

  async append(bytes) {
    if (this.isFull) throw Object.assign(new Error(), { name: "QuotaExceededError" });
    if (bytes.length === 1) return this.pieces.push(String.fromCharCode(bytes[0]));
    const view = new DataView(bytes.buffer);
    const time = Number(view.getBigUint64(bytes.length - 18 - 20 - 8)) / Number(SECOND);
    this.pieces.push(time);
    this.ranges.push([time, time + 2]);
  }

  async remove(from, to) {
    this.dropped.push([from, to]);
    this.ranges = this.ranges.filter(([begin]) => begin >= to);
    this.isFull = false;
  }

  covers(from, to) {
    return this.ranges.some(([begin, end]) => begin <= from && to <= end);
  }

  ahead(position) {
    return Math.max(0, ...this.ranges.map(([, end]) => end - position));
  }
}

const run = (first, count) => ({ time: BigInt(first) * SECOND, duration: 2n * SECOND, count: BigInt(count) });
const streamOf = (runs, name = "video") => ({ kind: "video", name, scale: Number(SECOND), url: "Q({bitrate})/F({start time})", qualities: [], runs });
const QUALITIES = [{ bitrate: 100, init: Uint8Array.of(97) }, { bitrate: 200, init: Uint8Array.of(98) }];

/** A track, its buffer, and what it asked for. `answer` may refuse an address. */
function made({ runs = [run(0, 5)], answer = () => {}, zero = 0 } = {}) {
  const buffer = new FakeBuffer();
  const asked = [];
  const get = async (path, { signal }) => {
    asked.push(path);
    await answer(path, signal);
    signal.throwIfAborted();
    return { bytes: fragment(BigInt(/F\((\d+)\)/.exec(path)[1])), seconds: 0.001 };
  };
  return { track: new Track(streamOf(runs), QUALITIES, buffer, zero, get), buffer, asked };
}

async function all(track, position) {
  while (await track.step(position));
}

test("fragments are fetched one behind another, with their quality in front where it is another one", async () => {
  const { track, buffer, asked } = made();
  await all(track, 3);
  assert.deepEqual(buffer.pieces, ["a", 2, "b", 4, 6, 8]);
  assert.equal(asked[0], "Q(100)/F(20000000)");
  assert.deepEqual([track.fetched, track.missed, track.quality.bitrate], [4, 0, 200]);
});

test("what a viewer wants is fetched, whatever arrives", async () => {
  const { track, buffer } = made();
  track.wanted = 100;
  await all(track, 0);
  assert.deepEqual(buffer.pieces, ["a", 0, 2, 4, 6, 8]);
});

test("no more than twenty seconds are fetched in front of what is shown", async () => {
  const { track, buffer } = made({ runs: [run(0, 100)] });
  await all(track, 0);
  assert.equal(buffer.pieces.at(-1), 18);
  await all(track, 2);
  assert.equal(buffer.pieces.at(-1), 20);
});

test("a hole is stepped over, and what is listed later is fetched", async () => {
  const { track, buffer } = made({ runs: [run(0, 2), run(10, 1)] });
  await all(track, 0);
  assert.deepEqual(buffer.pieces.filter(Number.isFinite), [0, 2, 10]);
  assert.deepEqual([track.hasMore(4, 10), track.hasMore(0, 20)], [false, false]);
  track.update(streamOf([run(0, 2), run(10, 2)]));
  assert.equal(track.hasMore(4, 20), true);
  await all(track, 0);
  assert.deepEqual(buffer.pieces.filter(Number.isFinite), [0, 2, 10, 12]);
});

test("a hole of hours is stepped over", async () => {
  const { track, buffer } = made({ runs: [run(0, 2), run(10_000, 20)] });
  await all(track, 0);
  assert.deepEqual(buffer.pieces.filter(Number.isFinite), [0, 2, ...Array.from({ length: 8 }, (_, at) => 10_000 + 2 * at)]);
});

test("times are counted from the whole second that the browser takes for 0", async () => {
  const { track, buffer, asked } = made({ runs: [run(1_780_000_001, 1)], zero: 1_780_000_000 });
  await all(track, 0);
  assert.deepEqual(buffer.pieces, ["a", 1]);
  assert.deepEqual(asked, ["Q(100)/F(17800000010000000)"]);
});

test("a server that is away is asked until it is back, and nothing is missed", async () => {
  let away = 20;
  const { track, buffer } = made({
    runs: [run(0, 2)],
    answer: (path) => {
      if (away-- > 0) throw new NetError(away % 2 ? "server" : "unreachable", path, 502);
    },
  });
  for (let turn = 0; turn < 20; turn++) {
    assert.equal(await track.step(0), false);
    assert.ok(track.failure instanceof NetError);
  }
  await all(track, 0);
  assert.deepEqual(buffer.pieces.filter(Number.isFinite), [0, 2]);
  assert.deepEqual([track.missed, track.failure], [0, null]);
});

test("a fragment that is listed and not there is left out in the end, and counted", async () => {
  const { track, buffer } = made({
    runs: [run(0, 3)],
    answer: (path) => {
      if (path.includes("F(20000000)")) throw new NetError("absent", path, 404);
    },
  });
  for (let turn = 0; turn < 20; turn++) await track.step(0);
  assert.deepEqual(buffer.pieces.filter(Number.isFinite), [0, 4]);
  assert.equal(track.missed, 1);
  assert.equal(track.hasMore(2, 4), false);
});

test("what comes too slowly leads to the lowest quality", async () => {
  let isSlow = false;
  const { track, asked } = made({
    runs: [run(0, 6)],
    answer: (path) => {
      if (isSlow) throw new NetError("slow", path);
    },
  });
  await track.step(0);
  await track.step(0);
  assert.match(asked.at(-1), /^Q\(200\)/);
  isSlow = true;
  await track.step(0);
  isSlow = false;
  await track.step(0);
  assert.match(asked.at(-1), /^Q\(100\)/);
});

test("where a viewer goes elsewhere what is asked for is broken off", async () => {
  let asked = 0;
  const { track, buffer } = made({
    runs: [run(0, 100)],
    answer: (_, signal) => asked++ || new Promise((_, reject) => signal.addEventListener("abort", () => reject(signal.reason))),
  });
  const step = track.step(0);
  track.moveTo(1);
  track.moveTo(100);
  assert.equal(await step, true);
  await track.step(100);
  assert.deepEqual(buffer.pieces, ["a", 100]);
});

test("what the browser has dropped by itself is fetched again", async () => {
  const { track, buffer } = made({ runs: [run(0, 3)] });
  await all(track, 0);
  buffer.ranges.shift();
  track.moveTo(0);
  await all(track, 0);
  assert.deepEqual(buffer.pieces.filter(Number.isFinite), [0, 2, 4, 0]);
});

test("what lies far behind is taken away, and fetched again where a viewer goes back", async () => {
  const { track, buffer } = made({ runs: [run(0, 100)] });
  await all(track, 0);
  await track.trim(31);
  assert.deepEqual(buffer.dropped, []);
  await track.trim(35);
  assert.deepEqual(buffer.dropped, [[0, 4]]);
  const before = buffer.pieces.length;
  await all(track, 0);
  assert.deepEqual(buffer.pieces.slice(before), [0, 2]);
});

test("where the browser has no room what is behind goes first", async () => {
  const { track, buffer } = made({ runs: [run(0, 100)] });
  await all(track, 0);
  buffer.isFull = true;
  assert.equal(await track.step(8), false);
  assert.deepEqual(buffer.dropped, [[0, 6]]);
  await all(track, 8);
  assert.equal(buffer.pieces.at(-1), 26);
});

test("another sound takes the place of the first one", async () => {
  const { track, buffer, asked } = made({ runs: [run(0, 2)] });
  await all(track, 0);
  await track.switchTo({ ...streamOf([run(0, 2)], "other"), url: "O({bitrate})/F({start time})" }, QUALITIES);
  assert.deepEqual(buffer.ranges, []);
  await all(track, 0);
  assert.equal(track.name, "other");
  assert.deepEqual(buffer.pieces.slice(-4), ["a", 0, "b", 2]);
  assert.match(asked.at(-1), /^O\(/);
});

test("a fragment of another time than was asked for is left out in the end", async () => {
  const buffer = new FakeBuffer();
  const track = new Track(streamOf([run(0, 1)]), QUALITIES, buffer, 0, async () => ({ bytes: fragment(5n), seconds: 0.1 }));
  for (let turn = 0; turn < 8; turn++) assert.equal(await track.step(0), false);
  assert.ok(track.failure instanceof BoxError);
  assert.deepEqual([track.missed, track.hasMore(0, 2), buffer.pieces], [1, false, []]);
});
