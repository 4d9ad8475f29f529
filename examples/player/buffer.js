/** A SourceBuffer that is told one thing after another. */

/** The ranges of a `TimeRanges`, each as where it begins and ends. @param {TimeRanges} ranges @returns {[number, number][]} */
export function rangesOf(ranges) {
  return Array.from({ length: ranges.length }, (_, at) => [ranges.start(at), ranges.end(at)]);
}

export class Buffer {
  #source;
  #last = Promise.resolve();

  /** @param {SourceBuffer} source */
  constructor(source) {
    this.#source = source;
  }

  /** @param {Uint8Array} bytes */
  append(bytes) {
    return this.#next(() => this.#source.appendBuffer(bytes));
  }

  /** Takes away what lies between two moments. */
  remove(from, to) {
    return this.#next(() => this.#source.remove(from, to));
  }

  /** What is there. */
  get ranges() {
    return rangesOf(this.#source.buffered);
  }

  get isBusy() {
    return this.#source.updating;
  }

  /** Whether all that lies between two moments is there. */
  covers(from, to) {
    return this.ranges.some(([begin, end]) => begin <= from && to <= end);
  }

  /** How many seconds are there behind a moment without a gap. */
  ahead(position) {
    const here = this.ranges.find(([begin, end]) => begin <= position && position < end);
    return here ? here[1] - position : 0;
  }

  /** Does something once all before it is done; what fails holds up nothing behind it. */
  #next(work) {
    const done = this.#last.then(() => this.#update(work));
    this.#last = done.catch(() => {});
    return done;
  }

  #update(work) {
    return new Promise((resolve, reject) => {
      const over = new AbortController();
      const end = (settle, value) => {
        over.abort();
        settle(value);
      };
      this.#source.addEventListener("updateend", () => end(resolve), { signal: over.signal });
      this.#source.addEventListener("error", () => end(reject, new Error("the browser does not take these bytes")), { signal: over.signal });
      try {
        work();
      } catch (error) {
        end(reject, error);
      }
    });
  }
}
