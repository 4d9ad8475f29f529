/** One stream of an event, as pictures or a sound: what of it is fetched next, in which quality, and what is left out. */

import { BoxError } from "./boxes.js";
import { toSegment } from "./fragment.js";
import { addressOf } from "./manifest.js";
import { NetError } from "./net.js";
import { Meter, choose } from "./quality.js";
import { Timeline } from "./timeline.js";

/** So many seconds are fetched in front of what is shown, holes not counted, and kept behind it. */
const AHEAD = 20;
const BEHIND = 30;
/** So often a fragment that is listed is asked for before it is left out. */
const TRIES = 8;
/** So long a fragment may take, in seconds. */
const PATIENCE = 10;

/**
 * @typedef {import("./timeline.js").Fragment} Fragment
 * @typedef {import("./manifest.js").Quality & {init: Uint8Array}} Playable a quality that the browser plays
 */

export class Track {
  timeline;
  /** The bitrate that the viewer wants, or null for what arrives. */
  wanted = null;
  /** What the last try came to, where that was nothing. @type {Error | null} */
  failure = null;
  fetched = 0;
  missed = 0;
  meter = new Meter();

  #stream;
  #qualities;
  #buffer;
  #zero;
  #get;
  /** The fragments that were put into the buffer, and how often the others were asked for in vain, by their times. */
  #kept = new Map();
  #tries = new Map();
  /** The quality of the last fragment. @type {Playable | null} */
  #last = null;
  /** What is asked for: the fragment, and what breaks it off. */
  #asking = null;

  /**
   * @param {import("./manifest.js").Stream} stream @param {Playable[]} qualities from the lowest on
   * @param {import("./buffer.js").Buffer} buffer
   * @param {number} zero the whole seconds of the event's times that are 0 for the browser
   * @param {(path: string, limits: object) => Promise<{bytes: Uint8Array, seconds: number}>} get asks for an address below the event's
   */
  constructor(stream, qualities, buffer, zero, get) {
    this.#buffer = buffer;
    this.#zero = zero;
    this.#get = get;
    this.#play(stream, qualities);
  }

  get kind() {
    return this.#stream.kind;
  }

  get name() {
    return this.#stream.name;
  }

  get stream() {
    return this.#stream;
  }

  get qualities() {
    return this.#qualities;
  }

  get quality() {
    return this.#last;
  }

  get buffer() {
    return this.#buffer;
  }

  /** Takes the times of a newer manifest. */
  update(stream) {
    this.#stream = stream;
    this.timeline = new Timeline(stream.runs, stream.scale, this.#zero);
  }

  /** Plays another stream in the place of this one, as another language. */
  async switchTo(stream, qualities) {
    this.#play(stream, qualities);
    this.#asking?.stop.abort();
    await this.#buffer.remove(0, Infinity);
    this.#kept.clear();
  }

  /** The first fragment from a moment on that is to be fetched, unless enough of them are there. @returns {Fragment | null} */
  next(position) {
    let ahead = 0;
    for (let it = this.timeline.at(position); it && ahead < AHEAD; it = this.timeline.after(it)) {
      if (this.#isDue(it)) return it;
      if (this.#kept.has(it.time)) ahead += it.end - Math.max(it.start, position);
    }
    return null;
  }

  /** Whether something between two moments is still to be fetched. */
  hasMore(from, to) {
    for (const it of this.timeline.between(from, to)) if (this.#isDue(it)) return true;
    return false;
  }

  /** Fetches what is next, if anything is, and says whether that brought something. @param {number} position what is shown */
  async step(position) {
    const fragment = this.next(position);
    if (!fragment) return false;
    const quality = this.#choose(position);
    this.#asking = { fragment, stop: new AbortController() };
    const { signal } = this.#asking.stop;
    try {
      const { bytes, seconds } = await this.#get(addressOf(this.#stream, quality.bitrate, fragment.time), { signal, seconds: PATIENCE });
      this.meter.add(bytes.length, seconds);
      await this.#append(bytes, fragment, quality, signal);
      this.failure = null;
      return true;
    } catch (error) {
      if (signal.aborted) return true;
      return this.#fail(error, fragment, position);
    }
  }

  /** Breaks off what is asked for, where another fragment is wanted now, and looks which of those that were there still are. */
  moveTo(position) {
    this.#forget();
    if (this.#asking && this.next(position)?.time !== this.#asking.fragment.time) this.#asking.stop.abort();
  }

  /** Takes away what lies far behind what is shown. */
  async trim(position) {
    const until = this.timeline.at(position - BEHIND)?.start;
    const begin = this.#buffer.ranges[0]?.[0];
    // A fragment's length is let grow, so that this isn't done for each one.
    if (!(begin < Math.min(until, position) - this.timeline.lasts)) return;
    await this.#drop(until);
  }

  #play(stream, qualities) {
    this.#qualities = qualities;
    this.#last = null;
    this.#tries.clear();
    this.update(stream);
  }

  #isDue({ time }) {
    return !this.#kept.has(time) && (this.#tries.get(time) ?? 0) < TRIES;
  }

  #choose(position) {
    const bitrates = this.#qualities.map((it) => it.bitrate);
    const inHand = { ahead: this.#buffer.ahead(position), lasts: this.timeline.lasts };
    const bitrate = this.wanted ?? choose(bitrates, this.#last?.bitrate ?? null, this.meter.rate, inHand);
    return this.#qualities.find((it) => it.bitrate === bitrate) ?? this.#qualities[0];
  }

  async #append(bytes, fragment, quality, signal) {
    const segment = toSegment(bytes, BigInt(this.#zero) * BigInt(this.#stream.scale));
    if (segment.time !== fragment.time) throw new BoxError(`the fragment of ${fragment.time} is one of ${segment.time}`);
    signal.throwIfAborted();
    if (quality !== this.#last) await this.#buffer.append(quality.init);
    this.#last = quality;
    signal.throwIfAborted();
    await this.#buffer.append(segment.bytes);
    this.#kept.set(fragment.time, fragment);
    this.fetched++;
  }

  /** What a try that came to nothing changes. Only a fragment that isn't there, or can't be read, is left out in the end. */
  async #fail(error, { time }, position) {
    if (error.name === "QuotaExceededError") {
      await this.#drop(position - this.timeline.lasts);
      return false;
    }
    if (!(error instanceof NetError || error instanceof BoxError)) throw error;
    this.failure = error;
    if (error.why === "slow") this.meter.fail();
    if (error instanceof BoxError || error.why === "absent") {
      const tries = (this.#tries.get(time) ?? 0) + 1;
      this.#tries.set(time, tries);
      if (tries === TRIES) this.missed++;
    }
    return false;
  }

  /** Forgets the fragments that the browser has dropped. */
  #forget() {
    for (const { time, start, end } of [...this.#kept.values()]) {
      const middle = (start + end) / 2;
      if (!this.#buffer.covers(middle, middle)) this.#kept.delete(time);
    }
  }

  async #drop(until) {
    if (!(until > 0)) return;
    await this.#buffer.remove(0, until);
    for (const { time, start } of [...this.#kept.values()]) if (start < until) this.#kept.delete(time);
  }
}
