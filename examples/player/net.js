/** Asks a server, and says in one word what went wrong. */

/** `absent`: 404. `server`: another refusal. `unreachable`: no reply. `slow`: no whole reply in time. */
export class NetError extends Error {
  /** @param {"absent" | "server" | "unreachable" | "slow"} why @param {string} address @param {number} [status] */
  constructor(why, address, status) {
    super(`${address}: ${why}${status ? ` ${status}` : ""}`);
    this.why = why;
    this.status = status;
  }
}

/**
 * The body at an address, and how many seconds it took.
 * @param {string} address
 * @param {{signal: AbortSignal, seconds: number}} limits what breaks it off, and how long it may take
 * @throws {NetError} or what the signal was aborted with
 */
export async function get(address, { signal, seconds }) {
  const began = performance.now();
  const late = AbortSignal.timeout(1000 * seconds);
  try {
    const reply = await fetch(address, { signal: AbortSignal.any([signal, late]) });
    if (!reply.ok) throw new NetError(reply.status === 404 ? "absent" : "server", address, reply.status);
    const bytes = new Uint8Array(await reply.arrayBuffer());
    return { bytes, seconds: (performance.now() - began) / 1000 };
  } catch (error) {
    if (error instanceof NetError) throw error;
    signal.throwIfAborted();
    throw new NetError(late.aborted ? "slow" : "unreachable", address);
  }
}
