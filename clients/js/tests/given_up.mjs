// Calls that are given up by a signal, where connections are lost.

import assert from "node:assert/strict";
import { test } from "node:test";

import { Stale } from "peritext";

import { Store } from "./fake.mjs";
import { REASON, lasting, over, part } from "./lasting.mjs";
import { pause, soon } from "./talk.mjs";

test("an aborted call is not sent again over another connection", async () => {
  const it = lasting();
  const document = it.session.document(1);
  await document.insert(0, "a");
  it.transport.held = true;
  const [left, kept] = [document.insert(1, "b", { signal: it.controller.signal }), document.insert(0, "c")];
  it.controller.abort(REASON);
  await assert.rejects(left, REASON);
  it.transport.cut(0);
  assert.equal(await soon(kept), 2);
  assert.equal(await document.text(), "ca");
  assert.deepEqual(it.later.map(({ text, op }) => text ?? op), ["a", "c", "text"]);
  await it.session.close();
});

test("what waits for a connection is not sent, and none is looked for once nothing waits", async () => {
  const it = lasting({ isThere: false, retry: 1_000 });
  const document = it.session.document(1);
  await document.insert(0, "a");
  await part(it);
  for (let turn = 0; turn < 3; turn += 1) {
    const controller = new AbortController();
    const left = document.insert(1, "b", { signal: controller.signal });
    setTimeout(() => controller.abort(REASON), 400);
    await assert.rejects(left, REASON);
  }
  await pause(1_200);
  assert.equal(it.session.reason, undefined);
  it.isThere = true;
  assert.equal(await soon(document.text()), "a");
  assert.equal(await document.insert(1, "c"), 2);
  assert.deepEqual(it.later.map(({ text, op }) => text ?? op), ["a", "text", "c"]);
  await it.session.close();
});

test("what is asked at once after all was given up is answered", async () => {
  const it = lasting({ isThere: false });
  const document = it.session.document(1);
  await part(it);
  for (let turn = 0; turn < 50; turn += 1) {
    const controller = new AbortController();
    const left = document.text({ signal: controller.signal });
    if (turn % 2 === 1) await pause(turn);
    controller.abort(REASON);
    await assert.rejects(left, REASON);
  }
  const last = document.insert(0, "x");
  it.isThere = true;
  assert.equal(await soon(last), 1);
  await it.session.close();
});

test("an edit that a daemon without steps put off is not sent again", async () => {
  const it = lasting();
  const document = it.session.document(1);
  it.transport.held = true;
  const left = document.insert(0, "a", { signal: it.controller.signal });
  const kept = document.insert(0, "b");
  it.transport.onLine('{"code":10,"error":"steps","ok":false}');
  it.controller.abort(REASON);
  await assert.rejects(left, REASON);
  it.transport.cut(0);
  assert.equal(await soon(kept), 1);
  assert.deepEqual(it.later.map(({ text }) => text), ["b"]);
  await it.session.close();
});

test("an aborted stop does not end the session if it was not sent", async () => {
  const it = lasting({ isThere: false });
  await part(it);
  const left = it.session.stop({ signal: it.controller.signal });
  it.controller.abort(REASON);
  await assert.rejects(left, REASON);
  it.isThere = true;
  for (let turn = 0; turn < 2; turn += 1) {
    assert.equal(await soon(it.session.document(1).text()), "");
    await part(it);
  }
});

test("what is given up makes no number of the next connection known", async () => {
  const it = lasting();
  const document = it.session.document(1);
  it.store.answer('{"op":"insert","doc":1,"at":0,"text":"abc"}');
  const { rev } = await document.read();
  // The same number names another text there.
  it.store = new Store();
  it.store.answer('{"op":"insert","doc":1,"at":0,"text":"xyz"}');
  await part(it);
  await soon(it.session.document(2).text());
  it.transport.held = true;
  const left = document.text({ signal: it.controller.signal });
  it.controller.abort(REASON);
  await assert.rejects(left, REASON);
  it.transport.release();
  await it.session.document(2).text();
  await assert.rejects(document.insert(0, "x", rev), Stale);
  await assert.rejects(document.changes(rev), Stale);
  assert.equal(await document.text(), "xyz");
  assert.equal(await document.insert(0, "x", rev), 4);
});

test("a close waits for what was sent, and no longer for what is given up", async () => {
  const one = over();
  one.transport.held = true;
  const left = one.session.document(1).insert(0, "x", { signal: one.controller.signal });
  const closed = one.session.close();
  one.controller.abort(REASON);
  await assert.rejects(left, REASON);
  one.transport.release();
  await soon(closed);
  assert.equal(one.store.document(1).rev, 1);
  const other = lasting({ isThere: false });
  await part(other);
  const waits = other.session.document(1).text({ signal: other.controller.signal });
  const ended = other.session.close();
  other.controller.abort(REASON);
  await assert.rejects(waits, REASON);
  await soon(ended);
});
