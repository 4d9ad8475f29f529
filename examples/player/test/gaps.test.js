import assert from "node:assert/strict";
import { test } from "node:test";
import { gapAt, isHole } from "../gaps.js";

const RANGES = [[2, 8], [12, 20]];

test("the gap that lies in front of what is shown, or around it", () => {
  assert.equal(gapAt(RANGES, 5, false), null);
  assert.equal(gapAt(RANGES, 15, false), null);
  assert.deepEqual(gapAt(RANGES, 7.95, false), { from: 8, until: 12, end: 20 });
  assert.deepEqual(gapAt(RANGES, 9, false), { from: 9, until: 12, end: 20 });
  assert.deepEqual(gapAt(RANGES, 1, false), { from: 1, until: 2, end: 8 });
});

test("where nothing lies behind there is none yet", () => {
  assert.equal(gapAt(RANGES, 19.99, false), null);
  assert.equal(gapAt(RANGES, 25, false), null);
  assert.equal(gapAt([], 0, false), null);
});

test("what stands still is at an end a little earlier", () => {
  assert.equal(gapAt(RANGES, 7.6, false), null);
  assert.deepEqual(gapAt(RANGES, 7.6, true), { from: 8, until: 12, end: 20 });
});

const track = (there, ...due) => ({
  buffer: { covers: (from, to) => there.some(([begin, end]) => begin <= from && to <= end) },
  hasMore: (from, to) => due.some(([begin, end]) => begin < to && end > from),
});
const GAP = { from: 8, until: 12, end: 20 };

test("a gap is a hole where a stream lists nothing more in it", () => {
  assert.ok(isHole(GAP, [track(RANGES), track(RANGES)]));
  assert.ok(isHole(GAP, [track([[2, 20]]), track(RANGES)]));
  assert.ok(isHole(GAP, [track(RANGES, [8, 10]), track(RANGES)]));
});

test("and none where all that is missing is still to be fetched", () => {
  assert.ok(!isHole(GAP, [track(RANGES, [8, 10]), track(RANGES, [10, 12])]));
  assert.ok(!isHole(GAP, [track([[2, 20]]), track(RANGES, [8, 12])]));
});

test("a fragment that only touches the gap doesn't fill it", () => {
  assert.ok(isHole(GAP, [track(RANGES, [6, 8.03], [11.98, 14])]));
});
