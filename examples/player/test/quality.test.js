import assert from "node:assert/strict";
import { test } from "node:test";
import { Meter, choose } from "../quality.js";

const BITRATES = [200_000, 400_000, 800_000];
const MUCH = { ahead: 6, lasts: 2 };

test("it begins with the lowest, and so where nothing was measured", () => {
  assert.equal(choose(BITRATES, null, 1e9, MUCH), 200_000);
  assert.equal(choose(BITRATES, 400_000, null, MUCH), 200_000);
});

test("it goes up by one, and only where that arrives in half the time in hand", () => {
  assert.equal(choose(BITRATES, 200_000, 1e7, MUCH), 400_000);
  assert.equal(choose(BITRATES, 400_000, 1e7, MUCH), 800_000);
  assert.equal(choose(BITRATES, 800_000, 1e7, MUCH), 800_000);
  // 800,000 bits for 2 seconds arrive in 1.45 s
  assert.equal(choose(BITRATES, 400_000, 1_100_000 + 50_000, { ahead: 2.7, lasts: 2 }), 400_000);
  assert.equal(choose(BITRATES, 400_000, 1_100_000 + 50_000, { ahead: 2.9, lasts: 2 }), 800_000);
});

test("it goes down at once, as far as it has to, and to the lowest where nothing suffices", () => {
  assert.equal(choose(BITRATES, 800_000, 700_000, MUCH), 400_000);
  assert.equal(choose(BITRATES, 800_000, 300_000, MUCH), 200_000);
  assert.equal(choose(BITRATES, 800_000, 1000, MUCH), 200_000);
});

test("a drop of what arrives is seen at once, a rise once it lasts", () => {
  const meter = new Meter();
  assert.equal(meter.rate, null);
  meter.add(125_000, 1);
  assert.equal(meter.rate, 1e6);
  meter.add(25_000, 1);
  assert.ok(meter.rate < 700_000);
  const low = meter.rate;
  meter.add(1_250_000, 1);
  assert.ok(meter.rate < low + 0.2 * 1e7);
  for (let turn = 0; turn < 20; turn++) meter.add(1_250_000, 1);
  assert.ok(meter.rate > 9e6);
  meter.fail();
  assert.equal(meter.rate, 0);
});
