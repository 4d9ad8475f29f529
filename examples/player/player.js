/** Plays a live event of Smooth Streaming in a video element, by Media Source Extensions. */

import { Bell } from "./bell.js";
import { BoxError } from "./boxes.js";
import { Buffer, rangesOf } from "./buffer.js";
import { Edge, paceOf } from "./edge.js";
import { gapAt, isHole } from "./gaps.js";
import { CodecError, initOf } from "./init.js";
import { ManifestError, readManifest, zeroOf } from "./manifest.js";
import { NetError, get } from "./net.js";
import { Track } from "./track.js";
import { qualityName, soundName } from "./words.js";

/** So many fragments have to lie behind a gap that is stepped over, so that what is shown doesn't stand again at once. */
const RESERVE = 1.5;
/** A gap below this is none that a viewer would see, in seconds. */
const SMALL = 0.25;
/** Waits in seconds: between two looks at what is shown, and between two tries that came to nothing. */
const LOOK = 0.25;
const RETRY = 1;
/** Waits for a manifest: between two where there is no event yet, and where it has ended, and for how long one may take. */
const ASK_AGAIN = 2;
const ASK_SELDOM = 10;
const PATIENCE = 8;

const now = () => performance.now() / 1000;

/** Its `state` is one of those that `words.js` has, and it dispatches a `change` as often as it looks at what is shown. */
export class Player extends EventTarget {
  state = { name: "loading" };
  /** The streams that the browser can't play, each with its codec. @type {{kind: string, codec: string}[]} */
  unplayable = [];
  /** Whether the viewer is at the live edge, and not somewhere behind it by choice. */
  isFollowing = true;
  isLive = true;
  /** How many gaps of the event were stepped over. */
  holes = 0;

  #video;
  #address;
  #over = new AbortController();
  #bell = new Bell();
  #source = new MediaSource();
  #edge = new Edge();
  #zero = 0;
  /** The sounds that can be played, each as its stream and qualities. */
  #sounds = [];
  /** The pictures, where there are any, and a sound. @type {Track[]} */
  #tracks = [];
  /** What the last manifest came to, where that was nothing. */
  #failure = null;
  /** Where what is shown stands, and since when. */
  #stand = { position: 0, since: now() };

  /** @param {HTMLVideoElement} video @param {string} address of the event, as https://HOST/live.isml */
  constructor(video, address) {
    super();
    this.#video = video;
    this.#address = address;
  }

  /** Plays until nothing more can be played. */
  async start() {
    const { signal } = this.#over;
    this.#video.addEventListener("seeking", () => this.#moved(), { signal });
    this.#video.addEventListener("error", () => this.#break({ name: "broken" }), { signal });
    try {
      await this.#attach(await this.#firstManifest());
      await Promise.all([this.#read(), this.#look(), ...this.#tracks.map((track) => this.#feed(track))]);
    } catch (error) {
      if (!signal.aborted) this.#break(stateOf(error));
    }
  }

  // ---- what a viewer may do

  get sounds() {
    return this.#sounds.map(({ stream }) => ({ name: stream.name, label: soundName(stream) }));
  }

  get sound() {
    return this.#track("audio")?.name ?? null;
  }

  async selectSound(name) {
    const { stream, qualities } = this.#sounds.find((it) => it.stream.name === name);
    await this.#track("audio").switchTo(stream, qualities);
    this.#bell.ring();
  }

  get qualities() {
    return (this.#track("video")?.qualities ?? []).map((it) => ({ bitrate: it.bitrate, label: qualityName(it) })).reverse();
  }

  /** Shows one quality, or with null what arrives in time. */
  selectQuality(bitrate) {
    this.#track("video").wanted = bitrate;
  }

  /** Where the event begins and ends. @returns {[number, number]} */
  get extent() {
    return [this.#edge.start, this.#edge.end];
  }

  /** Shows another moment of all that the event has. One at its end leads to the live edge, where a viewer joins. */
  seek(position) {
    const last = this.isLive ? this.#edge.join : this.#edge.end;
    this.isFollowing = this.isLive && position >= last;
    // Who is there already stays.
    if (this.isFollowing && this.#video.currentTime >= last) return;
    this.#video.currentTime = Math.min(Math.max(position, this.#edge.start), last);
  }

  goLive() {
    this.seek(Infinity);
    this.play();
  }

  pause() {
    this.#video.pause();
    this.isFollowing = false;
  }

  /** Plays on, from the start where it has ended, and without a sound where the browser wants that until the page is touched. */
  async play() {
    if (this.#video.ended) this.seek(this.#edge.start);
    try {
      await this.#video.play();
    } catch (error) {
      if (error.name !== "NotAllowedError" || this.#video.muted) return;
      this.#video.muted = true;
      this.play();
    }
  }

  /** What a viewer may want to know. */
  get stats() {
    const shown = this.#video.getVideoPlaybackQuality();
    const sum = (name) => this.#tracks.reduce((all, track) => all + track[name], 0);
    return {
      latency: this.isLive && !this.#edge.isEmpty ? this.#edge.behind(this.#video.currentTime, now()) : null,
      quality: this.#track("video")?.quality ?? null,
      rate: this.#tracks[0]?.meter.rate ?? null,
      ahead: this.#ahead(),
      pictures: shown.totalVideoFrames,
      dropped: shown.droppedVideoFrames,
      holes: this.holes,
      fetched: sum("fetched"),
      missed: sum("missed"),
    };
  }

  // ---- the event

  async #manifest() {
    const { bytes } = await get(`${this.#address}/Manifest`, { signal: this.#over.signal, seconds: PATIENCE });
    return readManifest(new TextDecoder().decode(bytes));
  }

  /** The first manifest that has something to show. */
  async #firstManifest() {
    for (;;) {
      try {
        const manifest = await this.#manifest();
        if (manifest.streams.some((it) => it.runs.length)) return manifest;
        this.#tell({ name: "absent" });
      } catch (error) {
        this.#tell(stateOf(error));
      }
      await this.#rest(ASK_AGAIN);
    }
  }

  /** Gives the browser the streams that it plays, and begins at the live edge, or at the start of an event that has ended. */
  async #attach(manifest) {
    this.#zero = zeroOf(manifest);
    this.isLive = manifest.isLive;
    const streams = manifest.streams.filter((it) => it.kind === "video" || it.kind === "audio").map((it) => this.#playable(it));
    const played = streams.filter(({ qualities }) => qualities.length);
    this.#sounds = played.filter(({ stream }) => stream.kind === "audio");
    const chosen = [played.find(({ stream }) => stream.kind === "video"), this.#sounds[0]].filter(Boolean);
    if (!chosen.length) throw new CodecError("");
    await this.#open();
    const below = (path, limits) => get(`${this.#address}/${path}`, limits);
    this.#tracks = chosen.map(({ stream, qualities }) => {
      const buffer = new Buffer(this.#source.addSourceBuffer(qualities[0].type));
      return new Track(stream, qualities, buffer, this.#zero, below);
    });
    this.#newTimes();
    this.seek(this.isLive ? Infinity : this.#edge.start);
    this.play();
  }

  async #open() {
    const address = URL.createObjectURL(this.#source);
    const opened = new Promise((resolve) => this.#source.addEventListener("sourceopen", resolve, { once: true }));
    this.#video.src = address;
    await opened;
    URL.revokeObjectURL(address);
    this.#source.duration = Infinity;
  }

  /** The qualities of a stream that the browser plays. Where there is none, that is noted. */
  #playable(stream) {
    const qualities = [];
    const codecs = new Set();
    for (const quality of stream.qualities) {
      try {
        const { type, bytes } = initOf(stream, quality);
        if (!MediaSource.isTypeSupported(type)) throw new CodecError(quality.fourCC);
        qualities.push({ ...quality, type, init: bytes });
      } catch (error) {
        if (!(error instanceof CodecError)) throw error;
        codecs.add(error.codec);
      }
    }
    if (!qualities.length) for (const codec of codecs) this.unplayable.push({ kind: stream.kind, codec });
    return { stream, qualities };
  }

  /** Looks for new times again and again. */
  async #read() {
    for (;;) {
      await this.#rest(this.isLive ? Math.min(Math.max(this.#edge.lasts / 2, LOOK), RETRY) : ASK_SELDOM);
      try {
        const { isLive, streams } = await this.#manifest();
        const newer = (stream) => streams.find((it) => it.name === stream.name) ?? stream;
        this.isLive = isLive;
        for (const sound of this.#sounds) sound.stream = newer(sound.stream);
        for (const track of this.#tracks) track.update(newer(track.stream));
        this.#failure = null;
        this.#newTimes();
      } catch (error) {
        this.#over.signal.throwIfAborted();
        this.#failure = stateOf(error);
      }
    }
  }

  #newTimes() {
    const timelines = this.#tracks.map((it) => it.timeline);
    if (!this.#edge.update(timelines, now())) return;
    if (this.#isOpen) this.#source.setLiveSeekableRange(this.#edge.start, this.#edge.end);
    this.#bell.ring();
  }

  // ---- what goes on all the while

  async #feed(track) {
    for (;;) {
      const brought = await track.step(this.#video.currentTime);
      if (!brought) await this.#rest(track.failure ? RETRY : LOOK);
      this.#over.signal.throwIfAborted();
    }
  }

  async #look() {
    for (;;) {
      const position = this.#video.currentTime;
      if (position !== this.#stand.position || this.#video.paused) this.#stand = { position, since: now() };
      this.#stepOverHole(position);
      this.#keepUp(position);
      this.#finish(position);
      this.#tell(this.#seen(position));
      await Promise.all(this.#tracks.map((it) => it.trim(position)));
      await this.#rest(LOOK);
    }
  }

  /** Goes on behind a gap that nothing will fill: the event has no fragment there, or none that could be had. */
  #stepOverHole(position) {
    const gap = gapAt(rangesOf(this.#video.buffered), position, this.#standing > 1);
    if (!gap || !isHole(gap, this.#tracks)) return;
    if (this.isLive && gap.end - gap.until < RESERVE * this.#edge.lasts) return;
    if (gap.until - gap.from > SMALL) this.holes++;
    this.#video.currentTime = gap.until;
  }

  /** Shows an event a little faster or more slowly, while a viewer who follows it is too far behind it or too near. */
  #keepUp(position) {
    const { lasts } = this.#edge;
    const isBound = this.isLive && this.isFollowing && lasts > 0;
    const pace = isBound ? paceOf(this.#video.playbackRate, this.#edge.behind(position, now()), lasts) : 1;
    // What isn't there can't be shown faster.
    this.#video.playbackRate = pace > 1 && this.#ahead() < RESERVE * lasts ? 1 : pace;
  }

  /** Tells the browser that nothing more comes, once all of an ended event's rest is there. */
  #finish(position) {
    if (this.isLive || !this.#isOpen || this.#tracks.some(({ buffer }) => buffer.isBusy)) return;
    if (this.#tracks.every((it) => !it.hasMore(position, Infinity))) this.#source.endOfStream();
  }

  #moved() {
    for (const track of this.#tracks) track.moveTo(this.#video.currentTime);
    this.#bell.ring();
  }

  // ---- how it stands

  /** What a viewer is to be told of what is shown. */
  #seen(position) {
    if (this.#video.ended) return { name: "ended" };
    if (this.#video.paused) return { name: "paused" };
    if (this.#standing < 2 * LOOK) return { name: "playing" };
    if (this.#failure) return this.#failure;
    // A single fragment that isn't there, or can't be read, says nothing of the event.
    const failed = this.#tracks.find(({ failure }) => failure instanceof NetError && failure.why !== "absent");
    if (failed) return stateOf(failed.failure);
    if (this.#tracks.some((it) => it.next(position))) return { name: "rebuffering" };
    const missing = this.#tracks.filter((it) => it.buffer.ahead(position) < LOOK);
    return { name: "waiting", kind: missing.length < this.#tracks.length ? missing[0]?.kind : undefined };
  }

  /** How long what is shown has stood still, in seconds. */
  get #standing() {
    return now() - this.#stand.since;
  }

  get #isOpen() {
    return this.#source.readyState === "open";
  }

  #track(kind) {
    return this.#tracks.find((it) => it.kind === kind);
  }

  /** How many seconds are there in front of what is shown. */
  #ahead() {
    const isThere = this.#tracks.length && !this.#over.signal.aborted;
    return isThere ? Math.min(...this.#tracks.map((it) => it.buffer.ahead(this.#video.currentTime))) : 0;
  }

  #tell(state) {
    this.state = state;
    this.dispatchEvent(new Event("change"));
  }

  /** Nothing more can be played. */
  #break(state) {
    this.#over.abort();
    this.#bell.ring();
    this.#tell(state.name === "codec" ? { name: "codec", codecs: this.unplayable } : state);
  }

  async #rest(seconds) {
    await this.#bell.wait(seconds);
    this.#over.signal.throwIfAborted();
  }
}

/** The state that an error leads to. One that a viewer can't be told of is a fault of this page. */
function stateOf(error) {
  if (error instanceof NetError) return { name: error.why, status: error.status };
  if (error instanceof ManifestError || error instanceof BoxError) return { name: "unreadable" };
  if (error instanceof CodecError) return { name: "codec" };
  console.error(error);
  return { name: "broken" };
}
