/** Chooses a quality by what arrives. */

/** How much a new measurement counts, in two averages of which the lower one holds: a drop is seen at once, a rise once it lasts. */
const WEIGHTS = [0.5, 0.15];
/** How much of what arrives a quality may take. */
const SHARE = 0.7;

/** How many bits a second arrive. */
export class Meter {
  #averages = null;

  /** What a whole reply took. */
  add(bytes, seconds) {
    const rate = (8 * bytes) / Math.max(seconds, 0.001);
    this.#averages = this.#averages ? WEIGHTS.map((weight, at) => weight * rate + (1 - weight) * this.#averages[at]) : WEIGHTS.map(() => rate);
  }

  /** Nothing arrived in time. */
  fail() {
    this.#averages = WEIGHTS.map(() => 0);
  }

  /** Bits a second, or null where nothing was measured yet. */
  get rate() {
    return this.#averages && Math.min(...this.#averages);
  }
}

/**
 * The bitrate to ask for next. It goes down at once, as far as it has to, and up by one, where that arrives in half the time that is in hand.
 * @param {number[]} bitrates from the lowest on
 * @param {number | null} current the last one that was asked for
 * @param {number | null} rate how many bits a second arrive
 * @param {{ahead: number, lasts: number}} seconds that are in front of what is shown, and that a fragment lasts
 */
export function choose(bitrates, current, rate, { ahead, lasts }) {
  if (rate === null || current === null) return bitrates[0];
  const affordable = bitrates.findLast((it) => it <= SHARE * rate) ?? bitrates[0];
  if (affordable <= current) return affordable;
  const next = bitrates.find((it) => it > current);
  return (lasts * next) / rate <= ahead / 2 ? next : current;
}
