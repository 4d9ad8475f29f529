/** The page's controls and what it shows, bound to a player. */

import { bits, clock, leftOut, qualityName, wordsOf } from "./words.js";

const STEP = 10;

/** The elements of a page by what their `data-part` says. */
function partsOf(root) {
  return Object.fromEntries(Array.from(root.querySelectorAll("[data-part]"), (it) => [it.dataset.part, it]));
}

/** Puts options into a list where they aren't the ones that stand there. @param {HTMLSelectElement} list */
function fill(list, options) {
  const wanted = options.map(({ value, label }) => `${value} ${label}`).join("\n");
  if (list.dataset.has === wanted) return;
  list.dataset.has = wanted;
  list.replaceChildren(...options.map(({ value, label }) => new Option(label, value)));
}

export class View {
  #parts;
  #video;
  #player;
  #isDragging = false;

  /** @param {HTMLElement} root @param {import("./player.js").Player} player */
  constructor(root, player) {
    this.#parts = partsOf(root);
    this.#video = this.#parts.video;
    this.#player = player;
    player.addEventListener("change", () => this.#show());
    this.#bind();
    this.#show();
  }

  #bind() {
    const { play, live, mute, volume, seek, quality, sound, screen, stage } = this.#parts;
    const on = (part, kind, work) => part.addEventListener(kind, work);
    on(play, "click", () => this.#toggle());
    on(this.#video, "click", () => this.#toggle());
    on(live, "click", () => this.#player.goLive());
    on(mute, "click", () => this.#mute());
    on(volume, "input", () => this.#setVolume(volume.valueAsNumber));
    on(seek, "input", () => this.#drag());
    on(seek, "change", () => this.#drop());
    on(quality, "change", () => this.#player.selectQuality(Number(quality.value) || null));
    on(sound, "change", () => this.#player.selectSound(sound.value));
    on(screen, "click", () => this.#fillScreen(stage));
    on(document, "keydown", (event) => this.#key(event));
    for (const kind of ["play", "pause", "volumechange", "ended"]) on(this.#video, kind, () => this.#show());
  }

  // ---- what a viewer does

  #toggle() {
    if (this.#player.state.name === "broken") location.reload();
    else if (!this.#video.paused && !this.#video.ended) this.#player.pause();
    else this.#player.play();
  }

  #mute() {
    this.#video.muted = !this.#video.muted;
  }

  #setVolume(volume) {
    this.#video.volume = Math.min(Math.max(volume, 0), 1);
    this.#video.muted = false;
  }

  /** While the handle is held only the time beside it changes. */
  #drag() {
    this.#isDragging = true;
    this.#showTime(this.#parts.seek.valueAsNumber);
  }

  #drop() {
    this.#isDragging = false;
    this.#player.seek(this.#parts.seek.valueAsNumber);
  }

  #fillScreen(stage) {
    if (document.fullscreenElement) document.exitFullscreen();
    else stage.requestFullscreen().catch(() => {});
  }

  /** @param {KeyboardEvent} event */
  #key(event) {
    if (event.ctrlKey || event.metaKey || event.altKey || event.target.matches("input, select, button, summary")) return;
    const position = this.#video.currentTime;
    const does = {
      " ": () => this.#toggle(),
      k: () => this.#toggle(),
      m: () => this.#mute(),
      l: () => this.#player.goLive(),
      f: () => this.#fillScreen(this.#parts.stage),
      ArrowLeft: () => this.#player.seek(position - STEP),
      ArrowRight: () => this.#player.seek(position + STEP),
      ArrowUp: () => this.#setVolume(this.#video.volume + 0.1),
      ArrowDown: () => this.#setVolume(this.#video.volume - 0.1),
    }[event.key];
    if (!does) return;
    event.preventDefault();
    does();
  }

  // ---- what a viewer sees

  #show() {
    this.#showState();
    this.#showControls();
    this.#showTime(this.#isDragging ? this.#parts.seek.valueAsNumber : this.#video.currentTime);
    this.#showStats();
  }

  #showState() {
    const { notice, title, more, left } = this.#parts;
    const { state, unplayable } = this.#player;
    const [first, second] = wordsOf(state);
    notice.hidden = !first || state.name === "paused";
    this.#write(title, first);
    this.#write(more, second);
    this.#write(left, state.name === "codec" ? "" : leftOut(unplayable));
    notice.dataset.state = state.name;
  }

  #showControls() {
    const { play, live, mute, volume, quality, sound } = this.#parts;
    const { qualities, sounds, isFollowing, isLive } = this.#player;
    this.#write(play, this.#video.paused || this.#player.state.name === "broken" ? "Play" : "Pause");
    this.#write(mute, this.#video.muted ? "Unmute" : "Mute");
    volume.value = this.#video.muted ? 0 : this.#video.volume;
    live.hidden = !isLive;
    live.setAttribute("aria-pressed", isFollowing);
    fill(quality, [{ value: "", label: "Automatic" }, ...qualities.map(({ bitrate, label }) => ({ value: bitrate, label }))]);
    fill(sound, sounds.map(({ name, label }) => ({ value: name, label })));
    if (this.#player.sound) sound.value = this.#player.sound;
    quality.disabled = qualities.length < 2;
    sound.disabled = sounds.length < 2;
  }

  #showTime(position) {
    const { seek, time } = this.#parts;
    const [first, last] = this.#player.extent;
    seek.min = first;
    seek.max = last;
    seek.disabled = last <= first;
    if (!this.#isDragging) seek.value = position;
    const words = `${clock(position)} of ${clock(last)}`;
    seek.setAttribute("aria-valuetext", words);
    this.#write(time, words);
  }

  #showStats() {
    const { latency, quality, rate, ahead, pictures, dropped, holes, fetched, missed } = this.#player.stats;
    const told = {
      latency: latency === null ? "–" : `${latency.toFixed(1)} s`,
      shown: quality ? qualityName(quality) : "–",
      rate: bits(rate),
      ahead: `${ahead.toFixed(1)} s`,
      dropped: `${dropped} of ${pictures}`,
      holes,
      fetched,
      missed,
    };
    for (const [part, words] of Object.entries(told)) this.#write(this.#parts[part], String(words));
  }

  /** Changes words only where they are others, so that nobody is told the same again. */
  #write(part, words) {
    if (part.textContent !== words) part.textContent = words;
  }
}
