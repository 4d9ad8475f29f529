/** What the tests share: pushes as encoders send them, read by these lines alone, and what ffmpeg makes of segments. */

import { execFileSync, spawnSync } from "node:child_process";
import { mkdtempSync, readFileSync, rmSync, writeFileSync } from "node:fs";
import { tmpdir } from "node:os";
import { join as path } from "node:path";
import { boxes, join, only, viewOf } from "../boxes.js";

export const here = (name) => new URL(name, import.meta.url);
export const bytesOf = (name) => new Uint8Array(readFileSync(here(name)));
export const textOf = (name) => readFileSync(here(name), "utf8");

export const hasFfmpeg = !spawnSync("ffmpeg", ["-version"]).error;

/** The tracks of a push by their ids, each as a stream and a quality with its fragments. @param {Uint8Array} bytes */
export function readPush(bytes) {
  const all = [...boxes(bytes)];
  const text = new TextDecoder().decode(all.find((it) => it.kind === "uuid").body);
  const tracks = new Map();
  for (const [, kind, bitrate, params] of text.matchAll(/<(video|audio) [^>]*systemBitrate="(\d+)"[^>]*>([^]*?)<\/\1>/g)) {
    const param = Object.fromEntries(Array.from(params.matchAll(/name="(\w+)" value="([^"]*)"/g), (it) => [it[1], it[2]]));
    const quality = {
      bitrate: Number(bitrate),
      fourCC: param.FourCC,
      privateData: Uint8Array.from(Buffer.from(param.CodecPrivateData, "hex")),
      width: Number(param.MaxWidth ?? 0),
      height: Number(param.MaxHeight ?? 0),
      channels: Number(param.Channels ?? 0),
      rate: Number(param.SamplingRate ?? 0),
      tag: Number(param.AudioTag ?? 0),
    };
    tracks.set(Number(param.trackID), { stream: { kind, scale: 10_000_000 }, quality, fragments: [] });
  }
  all.forEach(({ kind, whole, body }, at) => {
    if (kind === "moof") tracks.get(trackOf(body)).fragments.push(join(whole, all[at + 1].whole));
  });
  return [...tracks.values()];
}

/** The fragments of a file of them, one behind another. */
export function readFragments(bytes) {
  const all = [...boxes(bytes)];
  return all.flatMap((it, at) => (it.kind === "moof" ? [join(it.whole, all[at + 1].whole)] : []));
}

export function trackOf(moof) {
  return viewOf(only("tfhd", only("traf", moof).body).body).getUint32(4);
}

/** How many samples a fragment has. */
export function samplesOf(fragment) {
  return viewOf(only("trun", only("traf", only("moof", fragment).body).body).body).getUint32(4);
}

function inFolder(work) {
  const folder = mkdtempSync(path(tmpdir(), "smooth-player-"));
  try {
    return work(folder);
  } finally {
    rmSync(folder, { recursive: true });
  }
}

/** A push of some seconds of test pictures and a sound, with B frames where they are wanted. */
export function encode({ seconds, bFrames }) {
  return inFolder((folder) => {
    const file = path(folder, "push.isml");
    const words = ["-v", "error", "-f", "lavfi", "-i", "testsrc2=size=160x90:rate=25", "-f", "lavfi", "-i", "sine=sample_rate=48000", "-t", seconds];
    words.push("-c:v", "libx264", "-preset", "ultrafast", "-pix_fmt", "yuv420p", "-b:v", "100k", "-bf", bFrames, "-g", "48", "-sc_threshold", "0");
    words.push("-c:a", "aac", "-b:a", "32k", "-avoid_negative_ts", "make_zero", "-movflags", "isml+frag_keyframe", "-f", "ismv", file);
    execFileSync("ffmpeg", words.map(String));
    return new Uint8Array(readFileSync(file));
  });
}

/** What ffmpeg reads in segments: the codec, how many packets and decoded frames, the first time in seconds, and what it complains of. */
export function probe(segments) {
  return inFolder((folder) => {
    const file = path(folder, "it.mp4");
    writeFileSync(file, join(...segments));
    const words = ["-v", "warning", "-count_frames", "-count_packets", "-of", "json", "-show_entries"];
    const done = spawnSync("ffprobe", [...words, "stream=codec_name,profile,nb_read_frames,nb_read_packets,start_time,width,height,channels", file]);
    const [stream] = JSON.parse(done.stdout).streams;
    return {
      codec: stream.codec_name,
      packets: Number(stream.nb_read_packets),
      frames: Number(stream.nb_read_frames),
      start: Number(stream.start_time),
      width: stream.width,
      channels: stream.channels,
      complaints: String(done.stderr),
    };
  });
}
