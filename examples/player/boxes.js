/** Boxes of ISO/IEC 14496-12: written from their parts, and read one after another. */

export class BoxError extends Error {}

/**
 * Writes a number of so many bytes, the highest byte first.
 * @param {number} width @param {number | bigint} value
 */
function number(width, value) {
  const bytes = new Uint8Array(width);
  let rest = BigInt.asUintN(8 * width, BigInt(value));
  for (let at = width - 1; at >= 0; at--, rest >>= 8n) bytes[at] = Number(rest & 255n);
  return bytes;
}

export const u8 = (value) => number(1, value);
export const u16 = (value) => number(2, value);
export const u32 = (value) => number(4, value);
export const u64 = (value) => number(8, value);
export const zeros = (count) => new Uint8Array(count);
export const ascii = (text) => Uint8Array.from(text, (letter) => letter.charCodeAt(0));

/** Joins arrays of bytes. @param {...Uint8Array} parts */
export function join(...parts) {
  const whole = new Uint8Array(parts.reduce((length, part) => length + part.length, 0));
  let at = 0;
  for (const part of parts) {
    whole.set(part, at);
    at += part.length;
  }
  return whole;
}

/** A box of a kind with these parts in it. */
export function box(kind, ...parts) {
  const body = join(...parts);
  return join(u32(8 + body.length), ascii(kind), body);
}

/** A box that begins with a version and flags. */
export function fullBox(kind, version, flags, ...parts) {
  return box(kind, u8(version), number(3, flags), ...parts);
}

/** A view of an array's numbers. @param {Uint8Array} bytes */
export function viewOf(bytes) {
  return new DataView(bytes.buffer, bytes.byteOffset, bytes.length);
}

/**
 * The boxes of an array, which has to be full of them.
 * @param {Uint8Array} bytes
 * @returns {Generator<{kind: string, whole: Uint8Array, body: Uint8Array}>}
 */
export function* boxes(bytes) {
  const view = viewOf(bytes);
  for (let at = 0, size; at < bytes.length; at += size) {
    size = bytes.length - at < 8 ? 0 : view.getUint32(at);
    if (size < 8 || size > bytes.length - at) throw new BoxError(`the box at ${at} is cut`);
    const kind = String.fromCharCode(...bytes.subarray(at + 4, at + 8));
    yield { kind, whole: bytes.subarray(at, at + size), body: bytes.subarray(at + 8, at + size) };
  }
}

/** The only box of a kind among those of an array. */
export function only(kind, bytes) {
  const found = [...boxes(bytes)].filter((it) => it.kind === kind);
  if (found.length !== 1) throw new BoxError(`there are ${found.length} boxes ${kind}`);
  return found[0];
}
