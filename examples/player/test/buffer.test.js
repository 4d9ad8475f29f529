import assert from "node:assert/strict";
import { test } from "node:test";
import { Buffer, rangesOf } from "../buffer.js";

const timeRanges = (pairs) => ({ length: pairs.length, start: (at) => pairs[at][0], end: (at) => pairs[at][1] });

/** Takes one thing at a time, as a browser's does, and remembers what it took. */
class FakeSource extends EventTarget {
  updating = false;
  done = [];
  buffered = timeRanges([[0, 4], [6, 10]]);

  appendBuffer(bytes) {
    this.#take(["append", ...bytes], bytes[0] === 255);
  }

  remove(from, to) {
    this.#take(["remove", from, to], false);
  }

  #take(what, isBad) {
    if (this.updating) throw new Error("InvalidStateError");
    if (what[1] === 254) throw Object.assign(new Error(), { name: "QuotaExceededError" });
    this.updating = true;
    setTimeout(() => {
      this.updating = false;
      this.done.push(what);
      if (isBad) this.dispatchEvent(new Event("error"));
      this.dispatchEvent(new Event("updateend"));
    });
  }
}

test("one thing is done after another", async () => {
  const source = new FakeSource();
  const buffer = new Buffer(source);
  await Promise.all([buffer.append([1]), buffer.append([2]), buffer.remove(0, 5), buffer.append([3])]);
  assert.deepEqual(source.done, [["append", 1], ["append", 2], ["remove", 0, 5], ["append", 3]]);
  assert.equal(buffer.isBusy, false);
});

test("what fails is told to whom it concerns, and holds up nothing behind it", async () => {
  const source = new FakeSource();
  const buffer = new Buffer(source);
  const told = await Promise.allSettled([buffer.append([255]), buffer.append([254]), buffer.append([3])]);
  assert.deepEqual(told.map((it) => it.status), ["rejected", "rejected", "fulfilled"]);
  assert.equal(told[1].reason.name, "QuotaExceededError");
});

test("what is there", () => {
  const buffer = new Buffer(new FakeSource());
  assert.deepEqual(buffer.ranges, [[0, 4], [6, 10]]);
  assert.deepEqual(rangesOf(timeRanges([])), []);
  assert.deepEqual([buffer.covers(1, 4), buffer.covers(3, 7), buffer.covers(7, 7)], [true, false, true]);
  assert.deepEqual([buffer.ahead(1), buffer.ahead(4), buffer.ahead(5), buffer.ahead(9)], [3, 0, 0, 1]);
});
