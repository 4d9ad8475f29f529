/** Lets many wait for some time, or until something has happened. */
export class Bell {
  #rings = new AbortController();

  /** Ends all waits. */
  ring() {
    this.#rings.abort();
    this.#rings = new AbortController();
  }

  /** Waits for so many seconds, or until the bell rings. */
  wait(seconds) {
    const { signal } = this.#rings;
    return new Promise((resolve) => {
      const timer = setTimeout(resolve, 1000 * seconds);
      signal.addEventListener("abort", () => (clearTimeout(timer), resolve()), { once: true });
    });
  }
}
