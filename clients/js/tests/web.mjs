// Sessions by WebSockets, over a daemon of the real program, which PERITEXT names.

import assert from "node:assert/strict";
import { createRequire } from "node:module";
import { test } from "node:test";

import { Ended, NoDaemon, connect, connectWeb, followWeb, watchWeb } from "peritext";

import { freePort, seeEachOther, start, withDaemon } from "./served.mjs";
import { LIBRARIES } from "./support.mjs";

// Node has them from version 22 on.
globalThis.WebSocket ??= createRequire(`${LIBRARIES}/`)("./ws");

async function withWeb(work) {
  const web = await freePort();
  await withDaemon((daemon, file) => work({ ...daemon, web }, file), web);
}

test("a session by WebSocket beside one by lines", () =>
  withWeb(async ({ port, web }) => seeEachOther(await connectWeb(web), await connect(port))));

test("many under way are answered in order, and before the close", () =>
  withWeb(async ({ web }) => {
    const session = await connectWeb(web);
    const places = [...Array(300).keys()];
    const answers = places.map((place) => session.document(1).insert(place, "x".repeat(200)));
    await session.close();
    assert.deepEqual(await Promise.all(answers), places.map((place) => 200 * (place + 1)));
    await assert.rejects(session.document(1).text(), Ended);
    const reader = await connectWeb(web);
    assert.equal((await reader.document(1).text()).length, 60_000);
    await reader.close();
  }));

test("a kill is outlived, and each edit is made once", () =>
  withWeb(async ({ port, web, kill }, file) => {
    const session = await connectWeb(web);
    await session.document(1).insert(0, "a");
    const next = session.document(1).insert(1, "b");
    await kill();
    const daemon = await start(file, port, web);
    assert.equal(await next, 2);
    assert.equal(await session.document(1).text(), "ab");
    await session.close();
    await daemon.kill();
  }));

test("told of changes", () =>
  withWeb(async ({ web }) => {
    const revs = watchWeb(web, 1);
    assert.equal((await revs.next()).value, 0);
    const session = await connectWeb(web);
    await session.document(1).insert(0, "abc");
    assert.equal((await revs.next()).value, 3);
    revs.close();
    await session.close();
  }));

test("a document is followed, also by a daemon that is started again", () =>
  withWeb(async ({ port, web, kill }, file) => {
    const session = await connect(port);
    await session.document(1).insert(0, "🦊");
    const told = followWeb(web, 1);
    assert.deepEqual((await told.next()).value, { reset: [{ text: "🦊" }], text: "🦊", rev: 1 });
    await kill();
    const daemon = await start(file, port, web);
    await session.document(1).insert(1, "abc");
    assert.deepEqual((await told.next()).value, { steps: [{ retain: 2 }, { insert: "abc" }], rev: 4 });
    told.close();
    assert.deepEqual(await told.next(), { done: true, value: undefined });
    await session.close();
    await daemon.kill();
  }));

test("where nobody takes WebSockets", async () => {
  await assert.rejects(connectWeb(await freePort()), NoDaemon);
  await assert.rejects(followWeb(await freePort(), 1).next(), NoDaemon);
  await withWeb(async ({ port }) => assert.rejects(connectWeb(port), NoDaemon));
});
