// Calls that are given up by a signal, over a store in memory.

import assert from "node:assert/strict";
import { getEventListeners } from "node:events";
import { test } from "node:test";

import { STRONG, Stale } from "peritext";

import { Store } from "./fake.mjs";
import { REASON, over, until } from "./lasting.mjs";
import { pause, soon } from "./talk.mjs";

const TOKEN = "00000000-0000-4000-8000-0000000000d1";
/** Each call that asks something, with what it is given last. */
const CALLS = {
  insert: ({ document }, options) => document.insert(0, "x", options),
  "a long insert": ({ document }, options) => document.insert(0, "x".repeat(300), options),
  delete: ({ document }, options) => document.delete(0, 1, options),
  mark: ({ document }, options) => document.mark(0, 1, STRONG, options),
  unmark: ({ document }, options) => document.unmark(0, 1, STRONG, options),
  action: ({ document }, options) => document.action([{ op: "insert", at: 0, text: "x" }], options),
  edit: ({ document }, options) => document.edit({ op: "insert", at: 0, text: "x" }, options),
  text: ({ document }, options) => document.text(options),
  read: ({ document }, options) => document.read(options),
  spans: ({ document }, options) => document.spans(options),
  readSpans: ({ document }, options) => document.readSpans(options),
  changes: ({ document }, options) => document.changes(0, options),
  "changes since a number": ({ document }, options) => document.changes(3, options),
  anchor: ({ document }, options) => document.anchor(0, options),
  anchors: ({ document }, options) => document.anchors([0, 1], "next", options),
  place: ({ document }, options) => document.place("start", options),
  places: ({ document }, options) => document.places(Array(300).fill("start"), options),
  rev: ({ document }, options) => document.rev(options),
  send: ({ session }, options) => session.send({ op: "status" }, options),
  settled: ({ session }, options) => session.settled(options),
  peers: ({ session }, options) => session.peers(options),
  documents: ({ session }, options) => session.documents(options),
  room: ({ session }, options) => session.room(options),
  stop: ({ session }, options) => session.stop(options),
  "a reading's insert": ({ reading }, options) => reading.insert(0, "x", options),
  "a reading's delete": ({ reading }, options) => reading.delete(0, 1, options),
  "a reading's mark": ({ reading }, options) => reading.mark(0, 1, STRONG, options),
  "a reading's unmark": ({ reading }, options) => reading.unmark(0, 1, STRONG, options),
  "a reading's action": ({ reading }, options) => reading.action([{ op: "insert", at: 0, text: "x" }], options),
  "a reading's anchor": ({ reading }, options) => reading.anchor(0, options),
  "a reading's index": ({ reading }, options) => reading.index("start", options),
};

/** A session that has read a document of three characters, and its reading. */
async function ready() {
  const it = over();
  it.document = it.session.document(1);
  await it.document.insert(0, "abc");
  it.reading = await it.document.read();
  it.sent.length = 0;
  return it;
}

for (const [name, call] of Object.entries(CALLS)) {
  test(`${name}: once aborted it rejects with the reason, and the session goes on`, async () => {
    const it = await ready();
    const { signal } = it.controller;
    it.transport.held = true;
    const first = it.document.insert(3, "d");
    const left = call(it, { signal });
    const last = it.document.insert(0, "e");
    it.controller.abort(REASON);
    await assert.rejects(left, REASON);
    assert.equal(getEventListeners(signal, "abort").length, 0);
    const asked = it.sent.length;
    assert(asked > 2);
    // Aborted before, it sends nothing.
    await assert.rejects(call(it, { signal }), REASON);
    await assert.rejects(call(it, { signal: {} }), { name: "TypeError", message: /has to be an AbortSignal/ });
    assert.equal(it.sent.length, asked);
    it.transport.release();
    const [one] = await soon(Promise.all([first, last]));
    assert.equal(one, 4);
    assert.match(await it.document.text(), /^ex*a?bcd$/);
    await it.session.close();
  });
}

test("a session that never read a document tells the reason too", async () => {
  const { session, controller } = over();
  controller.abort(REASON);
  for (const call of [CALLS["changes since a number"], (it, options) => it.document.insert(0, "x", 3, options)]) {
    await assert.rejects(call({ document: session.document(1) }, { signal: controller.signal }), REASON);
    await assert.rejects(call({ document: session.document(1) }, {}), Stale);
  }
});

test("a signal may be used for many calls, and is let go by each", async () => {
  const { session, controller } = over();
  const { signal } = controller;
  for (let count = 0; count < 20; count += 1) await session.document(1).insert(0, "x", { signal });
  await assert.rejects(session.document(1).insert(99, "x", { signal }), { number: 5 });
  assert.equal(getEventListeners(signal, "abort").length, 0);
  const answered = session.document(1).text({ signal });
  await answered;
  controller.abort(REASON);
  assert.equal((await answered).length, 20);
});

test("options are the last argument, and may have what has a place too", async () => {
  const { session, sent } = over();
  const document = session.document(1);
  const { signal } = new AbortController();
  const [rev] = [await document.insert(0, "abc")];
  for (const words of [[rev, TOKEN], [rev, TOKEN, { signal }], [rev, { token: TOKEN }], [{ rev, token: TOKEN, signal }]]) {
    assert.equal(await document.insert(0, "x", ...words), 4);
    assert.deepEqual(sent.at(-1), { doc: 1, token: TOKEN, op: "insert", at: 0, text: "x", rev });
  }
  await assert.rejects(document.mark(0, 1, STRONG, { rev }), Stale);
  await assert.rejects(document.delete(0, 300, { rev }), Stale);
  for (const words of [["next", 4], ["next", { rev: 4 }], [{ side: "next", rev: 4 }], ["next", 4, { signal }]]) {
    await assert.rejects(document.anchor(0, ...words), { number: 3 });
    assert.deepEqual(sent.at(-1), { doc: 1, op: "anchors", at: [0], side: "next" });
  }
  await document.action(Array(1_030).fill({ op: "insert", at: 0, text: "x" }), { parted: true });
  assert.equal(sent.at(-1).edits.length, 6);
  // What is no number and no object is refused as it is.
  for (const odd of [null, "1", [], [1]]) {
    await document.insert(0, "x", odd).catch(() => {});
    assert.deepEqual(sent.at(-1).rev, odd);
  }
});

test("of a long call nothing more is sent, and with its token it may be sent again", async () => {
  const { session, transport, sent, controller } = over();
  const document = session.document(1);
  await document.insert(0, "x".repeat(1_000));
  transport.held = true;
  const left = document.delete(0, 1_000, undefined, TOKEN, { signal: controller.signal });
  controller.abort(REASON);
  await assert.rejects(left, REASON);
  transport.release();
  // What was sent was made.
  assert.equal((await document.text()).length, 744);
  assert.equal(sent.length, 3);
  assert.equal(await document.delete(0, 1_000, undefined, TOKEN), 2_000);
  assert.equal(await document.text(), "");
});

test("between two lines of a long call nothing more is sent", async () => {
  const { session, transport, sent, controller } = over();
  const document = session.document(1);
  await document.insert(0, "x".repeat(1_000));
  transport.held = true;
  const left = document.delete(0, 1_000, { signal: controller.signal });
  // The first line of four is answered, and the second one isn't sent yet.
  transport.pass(1);
  controller.abort(REASON);
  await assert.rejects(left, REASON);
  transport.release();
  await pause(20);
  assert.equal(sent.length, 2);
  assert.equal((await document.text()).length, 744);
});

test("a session that says nothing ends by its timeout, also if all was given up", async () => {
  const it = over(new Store(), { timeout: 100 });
  it.transport.held = true;
  const left = it.session.document(1).text({ signal: AbortSignal.timeout(20) });
  await assert.rejects(soon(left), { name: "TimeoutError" });
  await until(() => it.session.reason !== undefined);
  assert.match(it.session.reason, /no byte came/);
});
