/**
 * The times that a manifest lists for a stream. The manifest counts in ticks, which may be more than a number holds exactly, as where
 * they count from 1970; the player counts in seconds from a moment `zero` on.
 */

/**
 * @typedef {{time: bigint, duration: bigint, count: bigint}} Run so many fragments of one duration, one behind another
 * @typedef {{time: bigint, start: number, end: number}} Fragment its time in ticks, and where it begins and ends in seconds
 */

export class Timeline {
  #runs;
  #scale;
  #zero;

  /** @param {Run[]} runs in the order of time @param {number} scale ticks a second @param {number} zero whole seconds */
  constructor(runs, scale, zero = 0) {
    this.#runs = runs;
    this.#scale = scale;
    this.#zero = BigInt(zero) * BigInt(scale);
  }

  get isEmpty() {
    return this.#runs.length === 0;
  }

  /** Where the first fragment begins. */
  get start() {
    return this.isEmpty ? 0 : this.#seconds(this.#runs[0].time);
  }

  /** Where the last fragment ends. */
  get end() {
    return this.isEmpty ? 0 : this.#seconds(endOf(this.#runs.at(-1)));
  }

  /** How long the last fragment lasts. */
  get lasts() {
    return this.isEmpty ? 0 : Number(this.#runs.at(-1).duration) / this.#scale;
  }

  /** The fragment that has this moment, or else the first one behind it. @returns {Fragment | null} */
  at(seconds) {
    return this.#from(BigInt(Math.round(seconds * this.#scale)) + this.#zero);
  }

  /** The fragment behind another one. @param {Fragment} fragment @returns {Fragment | null} */
  after(fragment) {
    return this.#from(fragment.time + 1n, false);
  }

  /** All fragments that reach into these seconds. @returns {Generator<Fragment>} */
  *between(from, to) {
    for (let it = this.at(from); it && it.start < to; it = this.after(it)) yield it;
  }

  /** The first fragment that ends behind a moment, or begins there or behind it. */
  #from(ticks, mayContain = true) {
    let low = 0;
    for (let high = this.#runs.length; low < high; ) {
      const middle = (low + high) >> 1;
      if (endOf(this.#runs[middle]) > ticks) high = middle;
      else low = middle + 1;
    }
    for (const { time, duration, count } of this.#runs.slice(low, low + 2)) {
      const passed = ticks > time ? ticks - time : 0n;
      const place = mayContain ? passed / duration : (passed + duration - 1n) / duration;
      if (place < count) return this.#fragment(time + place * duration, duration);
    }
    return null;
  }

  #fragment(time, duration) {
    return { time, start: this.#seconds(time), end: this.#seconds(time + duration) };
  }

  #seconds(ticks) {
    return Number(ticks - this.#zero) / this.#scale;
  }
}

function endOf({ time, duration, count }) {
  return time + duration * count;
}
