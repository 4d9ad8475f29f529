/** Where an event stands: the end of what is listed in all its streams, where a viewer joins, and how far behind one is. */

/** So many fragments lie between the end and where a viewer joins. */
const JOIN = 3;

/**
 * How fast what is shown goes, by how many fragments it lies behind the event: who has fallen behind catches up, and who joined an event that
 * had only begun falls back, until what is in front outlasts a delay. Each goes on until the second number.
 */
const PACES = { faster: { rate: 1.1, from: 5, until: 4 }, slower: { rate: 0.95, from: 2.2, until: 2.8 } };

/**
 * The rate at which a viewer who follows the event is shown it.
 * @param {number} rate the one at which it is shown now @param {number} behind in seconds @param {number} lasts a fragment
 */
export function paceOf(rate, behind, lasts) {
  const { faster, slower } = PACES;
  if (behind > lasts * (rate > 1 ? faster.until : faster.from)) return faster.rate;
  if (behind < lasts * (rate < 1 ? slower.until : slower.from)) return slower.rate;
  return 1;
}

export class Edge {
  #timelines = [];
  /** When the end was first seen, in seconds of a clock that goes on. */
  #seen = 0;

  /**
   * Takes the times of all streams, and says whether there is anything new.
   * @param {import("./timeline.js").Timeline[]} timelines the first one is that by which a viewer joins @param {number} now
   */
  update(timelines, now) {
    const before = this.end;
    this.#timelines = timelines.filter((it) => !it.isEmpty);
    if (this.end <= before) return false;
    this.#seen = now;
    return true;
  }

  get isEmpty() {
    return this.#timelines.length === 0;
  }

  get start() {
    return this.isEmpty ? 0 : Math.max(0, Math.min(...this.#timelines.map((it) => it.start)));
  }

  get end() {
    return this.isEmpty ? 0 : Math.min(...this.#timelines.map((it) => it.end));
  }

  /** How long a fragment lasts. */
  get lasts() {
    return this.isEmpty ? 0 : Math.max(...this.#timelines.map((it) => it.lasts));
  }

  /** Where a viewer joins: some fragments in front of the end, at the beginning of one. */
  get join() {
    if (this.isEmpty) return 0;
    return this.#timelines[0].at(Math.max(this.start, this.end - JOIN * this.lasts))?.start ?? this.start;
  }

  /** How far a moment lies behind the event: behind what is listed, and how long ago that was new. */
  behind(position, now) {
    return this.end - position + (now - this.#seen);
  }
}
