/** Reads the manifest that an origin of Smooth Streaming has for players ([MS-SSTR] 2.2.2). */

export class ManifestError extends Error {}

const TICKS_A_SECOND = 10_000_000;
const ENTITIES = { lt: "<", gt: ">", amp: "&", quot: '"', apos: "'" };
const TAG = /<!--[^]*?-->|<\?[^]*?\?>|<([A-Za-z_][\w.:-]*)((?:\s+[\w.:-]+\s*=\s*(?:"[^"<]*"|'[^'<]*'))*)\s*\/?>/g;
const ATTRIBUTE = /([\w.:-]+)\s*=\s*(?:"([^"]*)"|'([^']*)')/g;

/**
 * @typedef {import("./timeline.js").Run} Run
 * @typedef {{bitrate: number, fourCC: string, privateData: Uint8Array, width: number, height: number, channels: number, rate: number,
 *            tag: number | null}} Quality
 * @typedef {{kind: string, name: string, language: string, scale: number, url: string, qualities: Quality[], runs: Run[]}} Stream
 * @typedef {{isLive: boolean, streams: Stream[]}} Manifest
 */

function unescape(text) {
  return text.replace(/&(#x?)?(\w+);/g, (whole, number, name) => {
    if (number) return String.fromCodePoint(parseInt(name, number === "#x" ? 16 : 10));
    return ENTITIES[name] ?? whole;
  });
}

/** The start tags of a text in their order, each with its attributes. The manifest nests nothing that its order doesn't tell. */
function* tags(text) {
  for (const [, name, attributes] of text.matchAll(TAG)) {
    if (!name) continue;
    yield { name, attributes: Object.fromEntries(Array.from(attributes.matchAll(ATTRIBUTE), (it) => [it[1], unescape(it[2] ?? it[3])])) };
  }
}

function bytesOf(hex = "") {
  return Uint8Array.from(hex.match(/[0-9a-f]{2}/gi) ?? [], (it) => parseInt(it, 16));
}

/** @returns {Quality} */
function qualityOf(attributes) {
  const number = (name, otherwise) => (attributes[name] === undefined ? otherwise : Number(attributes[name]));
  const bitrate = number("Bitrate", NaN);
  if (!Number.isInteger(bitrate)) throw new ManifestError("a quality has no bitrate");
  return {
    bitrate,
    fourCC: (attributes.FourCC ?? "").toUpperCase(),
    privateData: bytesOf(attributes.CodecPrivateData),
    width: number("MaxWidth", number("Width", 0)),
    height: number("MaxHeight", number("Height", 0)),
    channels: number("Channels", 2),
    rate: number("SamplingRate", 0),
    tag: number("AudioTag", null),
  };
}

/** @returns {Stream} */
function streamOf(attributes, scale) {
  const kind = (attributes.Type ?? "").toLowerCase();
  const stream = {
    kind,
    name: attributes.Name ?? kind,
    language: attributes.Language ?? "",
    scale: Number(attributes.TimeScale ?? scale),
    url: attributes.Url ?? "",
    qualities: [],
    runs: [],
  };
  if (!(stream.scale > 0) || !/\{bitrate\}/i.test(stream.url) || !/\{start[ _]time\}/i.test(stream.url)) {
    throw new ManifestError(`the stream ${stream.name} has no timescale or no address`);
  }
  return stream;
}

/**
 * The runs of a stream's `c` elements. One without a `t` begins where the one in front ends, the first one at 0; one without a `d`
 * lasts until the next one begins.
 */
function runsOf(elements) {
  const runs = [];
  let end = 0n;
  elements.forEach(({ t, d, r }, at) => {
    const time = t === undefined ? end : BigInt(t);
    const next = elements[at + 1]?.t;
    const duration = d === undefined ? BigInt(next ?? time) - time : BigInt(d);
    const count = BigInt(r ?? 1);
    if (time < end || duration <= 0n || count <= 0n) throw new ManifestError(`a fragment at ${time} has no duration, or lies in another one`);
    end = time + duration * count;
    runs.push({ time, duration, count });
  });
  return runs;
}

/** @returns {Manifest} */
export function readManifest(text) {
  let root = null;
  let elements = [];
  const streams = [];
  const close = () => elements.length && (streams.at(-1).runs = runsOf(elements.splice(0)));
  for (const { name, attributes } of tags(text)) {
    if (!root) {
      if (name !== "SmoothStreamingMedia") break;
      root = attributes;
    } else if (name === "StreamIndex") {
      close();
      streams.push(streamOf(attributes, root.TimeScale ?? TICKS_A_SECOND));
    } else if (streams.length && name === "QualityLevel") {
      streams.at(-1).qualities.push(qualityOf(attributes));
    } else if (streams.length && name === "c") {
      elements.push(attributes);
    }
  }
  if (!root) throw new ManifestError("this is no manifest of Smooth Streaming");
  close();
  for (const stream of streams) stream.qualities.sort((one, other) => one.bitrate - other.bitrate);
  return { isLive: /^true$/i.test(root.IsLive ?? ""), streams: streams.filter((it) => it.qualities.length) };
}

/** The whole seconds in front of all times of a manifest, from which a player counts. @param {Manifest} manifest */
export function zeroOf({ streams }) {
  const begins = streams.filter((it) => it.runs.length).map((it) => it.runs[0].time / BigInt(it.scale));
  return begins.length ? Number(begins.reduce((least, it) => (it < least ? it : least))) : 0;
}

/** The address of a fragment below that of its event. @param {Stream} stream @param {number} bitrate @param {bigint} time */
export function addressOf(stream, bitrate, time) {
  return stream.url.replace(/\{bitrate\}/i, bitrate).replace(/\{start[ _]time\}/i, time);
}
