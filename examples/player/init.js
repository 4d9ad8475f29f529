/** Makes the initialization segment of a quality, `ftyp` and `moov`, of what the manifest says of it. */

import { ascii, box, fullBox, join, u8, u16, u32, zeros } from "./boxes.js";
import { TRACK_ID } from "./fragment.js";

/** What a quality is coded in isn't played here. `codec` is how the manifest calls it, or empty where it doesn't. */
export class CodecError extends Error {
  constructor(codec) {
    super(`the codec ${codec} is not played`);
    this.codec = codec;
  }
}

/** The identity, as the matrix of a track or a movie. */
const MATRIX = join(...[0x10000, 0, 0, 0, 0x10000, 0, 0, 0, 0x40000000].map(u32));
const RESOLUTION = u32(72 << 16);
const AAC_TAG = 255;

/** The NAL units of a text with start codes between them (ISO/IEC 14496-10, annex B), without what is empty. */
function nalUnits(privateData) {
  return privateData.length ? splitAtStartCodes(privateData).filter((unit) => unit.length > 0) : [];
}

function splitAtStartCodes(bytes) {
  const units = [];
  let begin = 0;
  for (let at = 0; at + 3 <= bytes.length; at++) {
    if (bytes[at] || bytes[at + 1] || bytes[at + 2] !== 1) continue;
    // A start code may have a further zero in front.
    units.push(bytes.subarray(begin, at > begin && bytes[at - 1] === 0 ? at - 1 : at));
    begin = at + 3;
    at += 2;
  }
  units.push(bytes.subarray(begin));
  return units;
}

/** The codec and the sample entry of H.264 (ISO/IEC 14496-15, 5.4.2). */
function h264(quality) {
  const units = nalUnits(quality.privateData);
  const [sets, pictures] = [7, 8].map((type) => units.filter((unit) => (unit[0] & 31) === type));
  if (!sets.length || !pictures.length || sets[0].length < 4) throw new CodecError("H.264 without its parameter sets");
  const [profile, compatible, level] = sets[0].subarray(1, 4);
  const list = (some) => some.map((unit) => join(u16(unit.length), unit));
  const avcC = box(
    "avcC",
    Uint8Array.of(1, profile, compatible, level, 0xff, 0xe0 | sets.length),
    ...list(sets),
    u8(pictures.length),
    ...list(pictures),
  );
  const size = [u16(quality.width), u16(quality.height)];
  const entry = box(
    "avc1",
    ...[zeros(6), u16(1), zeros(16), ...size, RESOLUTION, RESOLUTION, u32(0), u16(1), zeros(32), u16(24), u16(0xffff), avcC],
  );
  const codec = [profile, compatible, level].map((byte) => byte.toString(16).padStart(2, "0")).join("");
  return { codec: `avc1.${codec}`, entry };
}

/** The codec and the sample entry of AAC: an `esds` whose descriptors stand in one another (ISO/IEC 14496-1, 7.2.6). */
function aac(quality) {
  const config = quality.privateData;
  if (config.length < 2) throw new CodecError("AAC without its configuration");
  const descriptor = (tag, ...parts) => {
    const body = join(...parts);
    return join(u8(tag), u8(body.length), body);
  };
  const decoder = descriptor(4, Uint8Array.of(0x40, 0x15), zeros(11), descriptor(5, config));
  const stream = descriptor(3, u16(TRACK_ID), u8(0), decoder, descriptor(6, u8(2)));
  const rate = u32((quality.rate << 16) >>> 0);
  const entry = box("mp4a", zeros(6), u16(1), zeros(8), u16(quality.channels), u16(16), zeros(4), rate, fullBox("esds", 0, 0, stream));
  return { codec: `mp4a.40.${config[0] >> 3}`, entry };
}

function coded(kind, quality) {
  const { fourCC, tag } = quality;
  if (kind === "video" && ["H264", "AVC1"].includes(fourCC)) return h264(quality);
  if (kind === "audio" && (["AACL", "AACH"].includes(fourCC) || (!fourCC && tag === AAC_TAG))) return aac(quality);
  throw new CodecError(fourCC);
}

function moovOf(kind, quality, scale, entry) {
  const isVideo = kind === "video";
  const empty = (name, ...more) => fullBox(name, 0, 0, u32(0), ...more);
  const table = box("stbl", fullBox("stsd", 0, 0, u32(1), entry), empty("stts"), empty("stsc"), empty("stsz", u32(0)), empty("stco"));
  const data = box("dinf", fullBox("dref", 0, 0, u32(1), fullBox("url ", 0, 1)));
  const head = isVideo ? fullBox("vmhd", 0, 1, zeros(8)) : fullBox("smhd", 0, 0, zeros(4));
  const undetermined = u16(0x55c4);
  const media = box(
    "mdia",
    fullBox("mdhd", 0, 0, zeros(8), u32(scale), u32(0), undetermined, u16(0)),
    fullBox("hdlr", 0, 0, u32(0), ascii(isVideo ? "vide" : "soun"), zeros(12), u8(0)),
    box("minf", head, data, table),
  );
  const size = [quality.width, quality.height].map((it) => u32((it << 16) >>> 0));
  const enabled = 7;
  const track = box(
    "trak",
    fullBox("tkhd", 0, enabled, zeros(8), u32(TRACK_ID), zeros(20), u16(isVideo ? 0 : 0x100), zeros(2), MATRIX, ...size),
    media,
  );
  const movie = fullBox("mvhd", 0, 0, zeros(8), u32(scale), u32(0), u32(0x10000), u16(0x100), zeros(10), MATRIX, zeros(24), u32(TRACK_ID + 1));
  return box("moov", movie, track, box("mvex", fullBox("trex", 0, 0, u32(TRACK_ID), u32(1), zeros(12))));
}

/**
 * The initialization segment of a quality, and the type that a browser is asked for.
 * @param {{kind: string, scale: number}} stream
 * @param {object} quality as `readManifest` gives it
 * @throws {CodecError}
 */
export function initOf(stream, quality) {
  const { codec, entry } = coded(stream.kind, quality);
  const brands = box("ftyp", ascii("iso6"), u32(1), ascii("iso6dash"));
  return { type: `${stream.kind}/mp4; codecs="${codec}"`, bytes: join(brands, moovOf(stream.kind, quality, stream.scale, entry)) };
}
