import assert from "node:assert/strict";
import { test } from "node:test";
import { Timeline } from "../timeline.js";

const RUNS = [
  { time: 20n, duration: 20n, count: 3n },
  { time: 100n, duration: 10n, count: 1n },
  { time: 110n, duration: 20n, count: 2n },
];
const timeline = new Timeline(RUNS, 10);

test("where it begins and ends", () => {
  assert.deepEqual([timeline.start, timeline.end, timeline.lasts], [2, 15, 2]);
});

test("the fragment of a moment, or the first one behind it", () => {
  const at = (seconds) => timeline.at(seconds)?.time ?? null;
  const inFront = [[-5, 20n], [0, 20n], [2, 20n], [3.9, 20n], [4, 40n], [7.9, 60n]];
  const due = [...inFront, [8, 100n], [9.5, 100n], [10.5, 100n], [11, 110n], [14.9, 130n], [15, null]];
  for (const [seconds, time] of due) assert.equal(at(seconds), time, `at ${seconds}`);
  assert.deepEqual(timeline.at(4), { time: 40n, start: 4, end: 6 });
});

test("one fragment behind another, over holes and to the end", () => {
  const found = [];
  for (let it = timeline.at(0); it; it = timeline.after(it)) found.push(it.time);
  assert.deepEqual(found, [20n, 40n, 60n, 100n, 110n, 130n]);
});

test("the fragments that reach into some seconds", () => {
  assert.deepEqual(Array.from(timeline.between(5, 11), (it) => it.time), [40n, 60n, 100n]);
  assert.deepEqual([...timeline.between(8.2, 9.8)], []);
});

test("times that no number holds stay exact", () => {
  const time = 17_961_936_930_000_001n;
  const late = new Timeline([{ time, duration: 19_200_000n, count: 2n }], 10_000_000, 1_796_193_693);
  assert.equal(late.at(0).time, time);
  assert.equal(late.after(late.at(0)).time, time + 19_200_000n);
  assert.ok(Math.abs(late.start - 1e-7) < 1e-9);
});

test("a stream without times", () => {
  const none = new Timeline([], 10);
  assert.deepEqual([none.isEmpty, none.start, none.end, none.lasts, none.at(0)], [true, 0, 0, 0, null]);
});
