// Signals that end a connecting, an opening and a watch.

import assert from "node:assert/strict";
import { getEventListeners, once } from "node:events";
import { existsSync, readFileSync } from "node:fs";
import { createServer } from "node:net";
import { join } from "node:path";
import { test } from "node:test";

import { Watch, connect, follow, open, watch } from "peritext";

import { Store } from "./fake.mjs";
import { asked, pause, programOf, soon, withTalk } from "./talk.mjs";
import { withFile } from "./support.mjs";

const REASON = new Error("given up");

/** Runs a test with the port of somebody who says nothing, and with the connections to it. */
async function withSilent(work) {
  const sockets = [];
  const server = createServer((socket) => {
    sockets.push(socket);
    socket.on("error", () => {});
    socket.resume();
  });
  server.listen(0, "127.0.0.1");
  await once(server, "listening");
  try {
    await work(server.address().port, sockets);
  } finally {
    server.close();
    for (const socket of sockets) socket.destroy();
  }
}

test("a connecting that is aborted gives its place back", () =>
  withSilent(async (port, sockets) => {
    const controller = new AbortController();
    const connecting = connect(port, { signal: controller.signal });
    while (sockets.length === 0) await pause(5);
    controller.abort(REASON);
    await assert.rejects(soon(connecting), REASON);
    await soon(once(sockets[0], "close"));
    await assert.rejects(connect(port, { signal: controller.signal }), REASON);
    await assert.rejects(connect(port, { signal: controller }), TypeError);
    assert.equal(sockets.length, 1);
    assert.equal(getEventListeners(controller.signal, "abort").length, 0);
  }));

test("a session that is there outlasts the signal of its connecting, and its connection", () => {
  const store = new Store();
  const talk = async (socket, lines) => {
    for (let count = 0; count < 2; count += 1) {
      const { value } = await lines.next();
      if (value !== undefined) socket.write(`${store.answer(value)}\n`);
    }
  };
  return withTalk(talk, async (port) => {
    const controller = new AbortController();
    const session = await connect(port, { signal: controller.signal });
    controller.abort(REASON);
    for (let place = 0; place < 5; place += 1) assert.equal(await soon(session.document(1).insert(place, "x")), place + 1);
    await session.close();
  });
});

test("a follow that is aborted while it connects tells the reason", () =>
  withSilent(async (port, sockets) => {
    const controller = new AbortController();
    const shown = follow(port, 1, { signal: controller.signal });
    const next = shown.next();
    while (sockets.length === 0) await pause(5);
    controller.abort(REASON);
    await assert.rejects(soon(next), REASON);
    await soon(once(sockets[0], "close"));
    assert.deepEqual(await shown.next(), { done: true, value: undefined });
  }));

test("an opening that is aborted ends its program", () =>
  withFile(async (file, folder) => {
    const written = join(folder, "pid");
    const program = programOf(folder, `echo $$ > ${written}.part; mv ${written}.part ${written}; exec sleep 60`);
    const controller = new AbortController();
    const opening = open(file, { program, signal: controller.signal });
    while (!existsSync(written)) await pause(5);
    controller.abort(REASON);
    await assert.rejects(soon(opening), REASON);
    const pid = Number(readFileSync(written, "utf8"));
    for (let tries = 0; isThere(pid) && tries < 200; tries += 1) await pause(10);
    assert(!isThere(pid));
    await assert.rejects(open(file, { program: "no program", signal: controller.signal }), REASON);
  }));

function isThere(pid) {
  try {
    return process.kill(pid, 0);
  } catch {
    return false;
  }
}

test("a watch that is aborted tells the reason once, and gives its place back", async () => {
  const store = new Store();
  const controller = new AbortController();
  const watcher = store.watcher();
  const revs = new Watch(() => watcher, 1, { signal: controller.signal });
  assert.deepEqual(await soon(revs.next()), { done: false, value: 0 });
  const [one, other] = [revs.next(), revs.next()];
  controller.abort(REASON);
  await assert.rejects(soon(one), REASON);
  assert.deepEqual(await soon(other), { done: true, value: undefined });
  assert(watcher.isOver);
  assert.equal(getEventListeners(controller.signal, "abort").length, 0);
});

test("a watch that is closed first ends without a reason", async () => {
  const controller = new AbortController();
  const revs = new Watch(() => new Store().watcher(), 1, { signal: controller.signal });
  await soon(revs.next());
  revs.close();
  controller.abort(REASON);
  assert.deepEqual(await soon(revs.next()), { done: true, value: undefined });
});

test("a watch whose signal is aborted before connects to nobody", () =>
  withTalk((_, lines) => asked(lines), async (port) => {
    const begun = [];
    const revs = new Watch(() => begun.push(1), 1, { signal: AbortSignal.abort(REASON) });
    await assert.rejects(soon(revs.next()), REASON);
    assert.deepEqual([begun, await revs.next()], [[], { done: true, value: undefined }]);
    assert.throws(() => watch(port, 1, { signal: {} }), TypeError);
    assert.throws(() => follow(port, 1, { signal: {} }), TypeError);
  }));
