import assert from "node:assert/strict";
import { createServer } from "node:http";
import { test } from "node:test";
import { NetError, get } from "../net.js";

/** Runs something with the address of a server that answers so. */
async function served(answer, work) {
  const server = createServer(answer).listen(0, "127.0.0.1");
  await new Promise((resolve) => server.once("listening", resolve));
  try {
    await work(`http://127.0.0.1:${server.address().port}/`);
  } finally {
    server.closeAllConnections();
    server.close();
  }
}

const limits = (more = {}) => ({ signal: new AbortController().signal, seconds: 5, ...more });
const why = (reason, status) => (error) => error instanceof NetError && error.why === reason && error.status === status;

test("the body of a reply, and how long it took", async () => {
  await served((_, reply) => setTimeout(() => reply.end("some bytes"), 50), async (address) => {
    const { bytes, seconds } = await get(address, limits());
    assert.equal(new TextDecoder().decode(bytes), "some bytes");
    assert.ok(seconds >= 0.04 && seconds < 5);
  });
});

test("refusals by their status", async () => {
  await served((request, reply) => reply.writeHead(Number(request.url.slice(1))).end(), async (address) => {
    await assert.rejects(get(`${address}404`, limits()), why("absent", 404));
    await assert.rejects(get(`${address}502`, limits()), why("server", 502));
  });
});

test("no server, and one that takes too long or breaks off", async () => {
  let gone;
  await served(() => {}, async (address) => {
    gone = address;
    await assert.rejects(get(address, limits({ seconds: 0.05 })), why("slow"));
  });
  await assert.rejects(get(gone, limits()), why("unreachable"));
  await served((_, reply) => reply.writeHead(200, { "content-length": 10 }).write("some", () => reply.destroy()), async (address) => {
    await assert.rejects(get(address, limits()), why("unreachable"));
  });
});

test("what the caller breaks off is told as that", async () => {
  await served(() => {}, async (address) => {
    const stop = new AbortController();
    const asked = get(address, limits({ signal: stop.signal }));
    stop.abort(new Error("enough"));
    await assert.rejects(asked, /enough/);
  });
});
