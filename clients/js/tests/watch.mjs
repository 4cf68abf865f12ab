// A document's changes, as a daemon of the real program tells of them, which PERITEXT names, and as others do.

import assert from "node:assert/strict";
import { test } from "node:test";
import { setTimeout as pause } from "node:timers/promises";

import { Ended, Watch, connect, watch } from "peritext";

import { start, withDaemon } from "./served.mjs";

/** Gives these lines over one transport after the other. */
function answering(...answers) {
  return () => ({
    send(line) {
      assert.equal(line, '{"op":"watch","doc":1}');
      queueMicrotask(() => {
        for (const answer of answers.shift() ?? []) this.onLine(answer);
        this.onEnd();
      });
    },
    close() {
      this.onEnd();
    },
  });
}

const rev = (number) => `{"ok":true,"rev":${number}}`;
const next = async (revs) => (await revs.next()).value;

test("the present number comes first, and then each change", () =>
  withDaemon(async ({ port }) => {
    const session = await connect(port);
    const revs = watch(port, 1);
    assert.equal(await next(revs), 0);
    await session.document(1).insert(0, "abc");
    assert.equal(await next(revs), 3);
    await session.document(2).insert(0, "elsewhere");
    await session.document(1).delete(0, 1);
    assert.equal(await next(revs), 4);
    revs.close();
    assert.deepEqual(await revs.next(), { done: true, value: undefined });
    await session.close();
  }));

test("who looks seldom is given the newest alone", () =>
  withDaemon(async ({ port }) => {
    const session = await connect(port);
    const revs = watch(port, 1);
    assert.equal(await next(revs), 0);
    for (let count = 0; count < 50; count += 1) await session.document(1).insert(0, "x");
    await pause(100);
    assert.equal(await next(revs), 50);
    await revs.return();
    await session.close();
  }));

test("a loop that is left frees its place", () =>
  withDaemon(async ({ port }) => {
    const session = await connect(port);
    for await (const found of watch(port, 1)) {
      assert.equal(found, 0);
      assert.equal((await session.peers()).sessions, 2);
      break;
    }
    for (let tries = 0; (await session.peers()).sessions > 1 && tries < 100; tries += 1) await pause(20);
    assert.equal((await session.peers()).sessions, 1);
    await session.close();
  }));

test("it goes on with the daemon that is started again, and ends if there is none", () =>
  withDaemon(async (daemon, file) => {
    const session = await connect(daemon.port);
    const revs = watch(daemon.port, 1);
    assert.equal(await next(revs), 0);
    await session.document(1).insert(0, "x");
    assert.equal(await next(revs), 1);
    await daemon.kill();
    const again = await start(file, daemon.port);
    await session.document(1).insert(0, "y");
    assert.equal(await next(revs), 2);
    revs.close();
    const last = watch(daemon.port, 1, { retry: null });
    assert.equal(await next(last), 2);
    await session.document(1).insert(0, "z");
    await session.stop();
    assert.equal(await next(last), 3);
    await assert.rejects(last.next(), Ended);
    await again.ended;
  }));

test("the same number isn't told again, and a lower one is of another file", async () => {
  const revs = new Watch(answering([rev(7)], [rev(7)], [rev(9)], [rev(8)]), 1);
  assert.equal(await next(revs), 7);
  assert.equal(await next(revs), 9);
  await assert.rejects(revs.next(), { name: "Ended", message: "another file is served there now" });
});

test("the first number over each connection is given if that is wanted", async () => {
  const revs = new Watch(answering([rev(7)], [rev(7), rev(7)], [rev(9)], [rev(8)]), 1, { repeats: true });
  for (const number of [7, 7, 9]) assert.equal(await next(revs), number);
  await assert.rejects(revs.next(), Ended);
});

test("a refusal ends it, but a place that is taken for a while", async () => {
  const refusal = (number, word) => `{"code":${number},"error":"${word}","ok":false}`;
  await assert.rejects(new Watch(answering([refusal(3, "request")]), 1).next(), { number: 3 });
  await assert.rejects(new Watch(answering([refusal(8, "busy")]), 1).next(), { number: 8 });
  const revs = new Watch(answering([rev(1)], [refusal(8, "busy")], [rev(2), refusal(9, "failed")]), 1);
  assert.equal(await next(revs), 1);
  assert.equal(await next(revs), 2);
  await assert.rejects(revs.next(), { number: 9 });
});

test("nobody there is the end", async () => {
  const begin = () => Promise.reject(new Error("nobody"));
  await assert.rejects(new Watch(begin, 1, { retry: 100 }).next(), Ended);
  await assert.rejects(new Watch(answering([], []), 1, { retry: null }).next(), Ended);
});
