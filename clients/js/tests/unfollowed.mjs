// How it ends that a document is followed, over a store in memory.

import assert from "node:assert/strict";
import { getEventListeners } from "node:events";
import { test } from "node:test";
import { setTimeout as pause } from "node:timers/promises";

import { Ended, follow } from "peritext";

import { Followed } from "./followed.mjs";
import { freePort } from "./served.mjs";
import { soon } from "./talk.mjs";

test("a loop that is left, a close and a return end both connections", async () => {
  const ends = [
    async (followed) => {
      for await (const { reset } of followed.following) {
        assert.deepEqual(reset, []);
        break;
      }
    },
    async (followed) => {
      await followed.next();
      const next = followed.next();
      followed.following.close();
      assert.equal(await next, undefined);
    },
    async (followed) => {
      const next = followed.next();
      await soon(followed.following.return());
      assert.equal(await next, undefined);
    },
    async (followed) => {
      await followed.next();
      followed.session.held = true;
      await followed.editor.insert(0, "a");
      const next = followed.next();
      await pause(20);
      followed.following.close();
      assert.equal(await next, undefined);
    },
    async (followed) => followed.following.close(),
    async (followed) => followed.following.return(),
  ];
  const { signal } = new AbortController();
  for (const end of ends) {
    const followed = new Followed({ signal });
    await end(followed);
    assert.deepEqual(await soon(followed.following.next()), { done: true, value: undefined });
    await followed.assertEnded();
    assert.deepEqual(getEventListeners(signal, "abort"), []);
  }
});

test("a signal ends it wherever it waits, with its reason", async () => {
  const waits = [
    // For a daemon that doesn't answer, for a change, for the answer to what it is, and for a daemon that went.
    async (followed) => {
      followed.isSilent = true;
    },
    async (followed) => followed.next(),
    async (followed) => {
      await followed.next();
      followed.session.held = true;
      await followed.editor.insert(0, "a");
    },
    async (followed) => {
      await followed.next();
      followed.isThere = false;
      followed.cut();
    },
    async (followed) => {
      await followed.next();
      followed.isThere = false;
      followed.session.cut(0);
      await followed.editor.insert(0, "a");
    },
  ];
  for (const [place, wait] of waits.entries()) {
    for (const retry of [Infinity, 5_000]) {
      const controller = new AbortController();
      const followed = new Followed({ signal: controller.signal, retry });
      await wait(followed);
      const next = followed.following.next();
      next.catch(() => {});
      await pause(20);
      controller.abort(new Error("enough"));
      await assert.rejects(soon(next, 500), { message: "enough" }, `wait ${place}`);
      assert.deepEqual(await followed.following.next(), { done: true, value: undefined });
      await followed.assertEnded();
    }
  }
});

test("a signal that has ended before asks for nothing", async () => {
  const followed = new Followed({ signal: AbortSignal.abort(new Error("enough")) });
  await assert.rejects(followed.following.next(), { message: "enough" });
  assert.deepEqual([followed.sessions, followed.watchers], [[], []]);
});

test("while a loop is busy a signal ends it at its next turn", async () => {
  const controller = new AbortController();
  const followed = new Followed({ signal: controller.signal });
  const loop = (async () => {
    for await (const _ of followed.following) controller.abort();
  })();
  await assert.rejects(soon(loop), { name: "AbortError" });
  await followed.assertEnded();
});

test("what ends the watch or the session ends it", async () => {
  const lost = new Followed({ retry: 200 });
  await lost.next();
  lost.isThere = false;
  lost.cut();
  await assert.rejects(lost.next(), Ended);
  await lost.assertEnded();
  for (const [number, message] of [[3, /an older program knows no `watch`; start one/], [8, /all places/], [9, /the device failed/]]) {
    const refused = new Followed();
    refused.refusal = JSON.stringify({ code: number, error: "no", ok: false });
    await assert.rejects(refused.next(), { number, message });
    await refused.assertEnded();
  }
  const failed = new Followed();
  await failed.next();
  failed.watcher.onLine('{"code":9,"error":"failed","ok":false}');
  await assert.rejects(failed.next(), { number: 9 });
  await failed.assertEnded();
});

test("an older program is named as such", async () => {
  const followed = new Followed();
  const { store } = followed;
  const { answer } = store;
  store.answer = (line) => answer.call(store, line.replace('"changes"', '"sing"'));
  await assert.rejects(followed.next(), { number: 3, message: /an older program knows no `changes`; start one/ });
  await followed.assertEnded();
});

test("where nobody is there, and what can't be waited for", async () => {
  const port = await freePort();
  await assert.rejects(follow(port, 1).next(), { name: "NoDaemon" });
  for (const options of [{ retry: 0 }, { patience: -1 }, { timeout: NaN }]) assert.throws(() => follow(port, 1, options), RangeError);
  assert.throws(() => follow(port, 1, { retry: "1" }), TypeError);
});
