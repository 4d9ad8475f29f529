import assert from "node:assert/strict";
import { test } from "node:test";
import { Edge, paceOf } from "../edge.js";
import { Timeline } from "../timeline.js";

const stream = (count, first = 0n) => new Timeline([{ time: first, duration: 20n, count: BigInt(count) }], 10);

test("a viewer joins three fragments in front of what all streams have, at the beginning of one", () => {
  const edge = new Edge();
  assert.ok(edge.update([stream(10), stream(9)], 100));
  assert.deepEqual([edge.start, edge.end, edge.lasts, edge.join], [0, 18, 2, 12]);
});

test("and at the start of an event that has only begun", () => {
  const edge = new Edge();
  edge.update([stream(2, 10n), stream(3)], 100);
  assert.deepEqual([edge.start, edge.end, edge.join], [0, 5, 1]);
});

test("what is behind a hole is joined as soon as it is there", () => {
  const edge = new Edge();
  edge.update([new Timeline([{ time: 0n, duration: 20n, count: 5n }, { time: 300n, duration: 20n, count: 1n }], 10)], 0);
  assert.deepEqual([edge.end, edge.join], [32, 30]);
});

test("how far behind one is grows while nothing new comes", () => {
  const edge = new Edge();
  edge.update([stream(10)], 100);
  assert.equal(edge.behind(15, 101), 6);
  assert.equal(edge.update([stream(10)], 104), false);
  assert.equal(edge.behind(15, 104), 9);
  assert.ok(edge.update([stream(11)], 105));
  assert.equal(edge.behind(15, 105), 7);
});

test("an event without times", () => {
  const edge = new Edge();
  assert.equal(edge.update([stream(0).isEmpty ? stream(0) : new Timeline([], 10)], 0), false);
  assert.deepEqual([edge.isEmpty, edge.start, edge.end, edge.lasts, edge.join], [true, 0, 0, 0, 0]);
});

test("who is too far behind catches up, who is too near falls back, and each goes on for a while", () => {
  const rates = (rate, ...behind) => behind.map((it) => (rate = paceOf(rate, it, 2)));
  assert.deepEqual(rates(1, 6, 7, 9.9, 10.1, 9, 8.1, 7.9, 9), [1, 1, 1, 1.1, 1.1, 1.1, 1, 1]);
  assert.deepEqual(rates(1, 5, 4.3, 5, 5.5, 5.7, 5), [1, 0.95, 0.95, 0.95, 1, 1]);
});
