// The changes of many documents over one transport: of a store in memory, and of a daemon of the real program if PERITEXT names one that tells of many.

import assert from "node:assert/strict";
import { getEventListeners } from "node:events";
import { test } from "node:test";
import { setTimeout as pause } from "node:timers/promises";

import { Ended, Session, WatchMany, connect, watchMany } from "peritext";

import { Store } from "./fake.mjs";
import { start, withDaemon } from "./served.mjs";
import { soon } from "./talk.mjs";

const { PERITEXT: program } = process.env;
const next = async (told) => (await soon(told.next())).value;

async function some(told, count) {
  const found = [];
  while (found.length < count) found.push(await next(told));
  return found.sort((one, other) => one.doc - other.doc);
}

async function inMemory(work) {
  const store = new Store();
  const session = new Session(store.session());
  await work(session, (documents) => new WatchMany(() => store.watcher(), documents));
  await session.close();
}

function inDaemon(work, context) {
  return withDaemon(async (daemon, file) => {
    const probe = watchMany(daemon.port, [1], { retry: null });
    const first = await probe.next().catch((error) => error);
    probe.close();
    if (first.number === 3 || first.number === 4) return context.skip(first.message);
    const session = await connect(daemon.port);
    await work(session, (documents) => watchMany(daemon.port, documents), daemon, file);
    await session.close();
  });
}

/** A test over each of them. */
function told(name, work) {
  test(`${name}: in memory`, () => inMemory(work));
  test(`${name}: in a daemon`, { skip: program === undefined }, (context) => inDaemon(work, context));
}

told("each document is told at first, and then each change", async (session, watch) => {
  await session.document(2).insert(0, "ab");
  const all = watch(new Set([2, 1, 7]));
  assert.deepEqual(await some(all, 3), [{ doc: 1, rev: 0 }, { doc: 2, rev: 2 }, { doc: 7, rev: 0 }]);
  await session.document(7).insert(0, "abc");
  assert.deepEqual(await next(all), { doc: 7, rev: 3 });
  await session.document(5).insert(0, "nobody watches it");
  await session.document(1).insert(0, "x");
  assert.deepEqual(await next(all), { doc: 1, rev: 1 });
  all.close();
  assert.deepEqual(await all.next(), { done: true, value: undefined });
});

told("all are those that were edited, and each new one", async (session, watch) => {
  await session.document(2).insert(0, "ab");
  const all = watch("all");
  assert.deepEqual(await next(all), { doc: 2, rev: 2 });
  await session.document(9).insert(0, "x");
  assert.deepEqual(await next(all), { doc: 9, rev: 1 });
  await session.document(2).insert(0, "c");
  assert.deepEqual(await next(all), { doc: 2, rev: 3 });
  all.close();
});

told("all of a file that nobody edited", async (session, watch) => {
  const all = watch("all");
  const first = next(all);
  await pause(50);
  await session.document(3).insert(0, "x");
  assert.deepEqual(await first, { doc: 3, rev: 1 });
  all.close();
});

told("as many as one watch may have, each once", async (_, watch) => {
  const numbers = [...Array(1_024).keys()].map((number) => 2 ** 32 - 1_024 + number);
  const all = watch([...numbers, ...numbers]);
  assert.deepEqual(await some(all, 1_024), numbers.map((doc) => ({ doc, rev: 0 })));
  all.close();
});

told("who looks seldom is given the newest of each", async (session, watch) => {
  const all = watch([1, 2]);
  await some(all, 2);
  for (let count = 0; count < 20; count += 1) {
    await session.document(1).insert(0, "x");
    await session.document(2).insert(0, "xy");
  }
  await pause(200);
  const newest = new Map();
  let count = 0;
  for (; newest.get(1) !== 20 || newest.get(2) !== 40; count += 1) {
    const { doc, rev } = await next(all);
    newest.set(doc, rev);
  }
  // Each edit was settled meanwhile, and few are told.
  assert(count < 10, String(count));
  await all.return();
});

test("it goes on with the daemon that is started again, and takes one place", { skip: program === undefined }, (context) =>
  inDaemon(async (session, watch, daemon, file) => {
    const all = watch([1, 2]);
    await some(all, 2);
    for (let tries = 0; (await session.peers()).sessions !== 2 && tries < 100; tries += 1) await pause(20);
    assert.equal((await session.peers()).sessions, 2);
    await session.document(1).insert(0, "x");
    assert.deepEqual(await next(all), { doc: 1, rev: 1 });
    await daemon.kill();
    const again = await start(file, daemon.port);
    await session.document(2).insert(0, "y");
    assert.deepEqual(await next(all), { doc: 2, rev: 1 });
    all.close();
    await session.stop();
    await again.ended;
  }, context));

/** Gives these lines over one transport after the other. */
function answering(documents, ...answers) {
  return () => ({
    send(line) {
      assert.equal(line, JSON.stringify({ op: "watch", docs: documents }));
      queueMicrotask(() => {
        for (const answer of answers.shift() ?? []) this.onLine(answer);
        this.onEnd();
      });
    },
    close() {
      this.onEnd();
    },
  });
}

const line = ([doc, rev]) => `{"doc":${doc},"ok":true,"rev":${rev}}`;
const refusal = (number, word) => `{"code":${number},"error":"${word}","ok":false}`;

/** A watch that is told of these, in a list for each transport. */
function toldOf(documents, ...lists) {
  return new WatchMany(answering(documents, ...lists.map((pairs) => pairs.map(line))), documents);
}

test("a number that was told isn't told again, and a lower one is of another file", async () => {
  const all = toldOf([1, 2], [[1, 5], [2, 7]], [[2, 7], [1, 5]], [[1, 5], [2, 8]], [[1, 4]]);
  assert.deepEqual(await some(all, 2), [{ doc: 1, rev: 5 }, { doc: 2, rev: 7 }]);
  assert.deepEqual(await next(all), { doc: 2, rev: 8 });
  await assert.rejects(soon(all.next()), { name: "Ended", message: "another file is served there now" });
});

test("a document that isn't watched is no answer", async () => {
  const all = toldOf([1, 2], [[1, 5], [3, 9]], [[1, 5], [2, 7]]);
  assert.deepEqual(await some(all, 2), [{ doc: 1, rev: 5 }, { doc: 2, rev: 7 }]);
  all.close();
});

test("a refusal ends it, but a place that is taken for a while", async () => {
  for (const documents of [[1, 2], "all"]) {
    const earlier = new WatchMany(answering(documents, [refusal(3, "request")]), documents);
    await assert.rejects(soon(earlier.next()), { number: 3, message: /an older program knows no `watch` of many documents/ });
    await assert.rejects(soon(new WatchMany(answering(documents, [refusal(8, "busy")]), documents).next()), { number: 8 });
    const lists = [[line([1, 5])], [refusal(8, "busy")], [line([2, 6]), refusal(9, "failed")]];
    const all = new WatchMany(answering(documents, ...lists), documents);
    assert.deepEqual(await some(all, 2), [{ doc: 1, rev: 5 }, { doc: 2, rev: 6 }]);
    await assert.rejects(soon(all.next()), { number: 9 });
  }
});

test("what is no list of documents is named", async () => {
  for (const documents of [[], [0], ["x"], [...Array(1_025).keys()].map((number) => number + 1)]) {
    const all = new WatchMany(answering(documents, [refusal(4, "field")]), documents);
    await assert.rejects(soon(all.next()), { number: 4, message: /`docs` has to be a list of 1 to 1024 whole numbers from 1 to 4294967295, or all/ });
  }
});

test("nobody there is the end, also for all", async () => {
  const begin = () => Promise.reject(new Error("nobody"));
  await assert.rejects(soon(new WatchMany(begin, "all", { retry: 100 }).next()), Ended);
  await assert.rejects(soon(new WatchMany(answering("all", [], []), "all", { retry: null }).next()), Ended);
});

test("one that stood without a word counts as there", async () => {
  let begun = 0;
  const begin = () => {
    begun += 1;
    const transport = { send() {}, close() {} };
    if (begun === 1) setTimeout(() => transport.onEnd(), 600);
    else setTimeout(() => transport.onLine(line([4, 1])), 10);
    return transport;
  };
  const all = new WatchMany(begin, "all", { retry: 1_000 });
  assert.deepEqual([await next(all), begun], [{ doc: 4, rev: 1 }, 2]);
  all.close();
});

test("a signal ends it", async () => {
  const controller = new AbortController();
  const all = new WatchMany(() => new Store().watcher(), "all", { signal: controller.signal });
  const first = all.next();
  controller.abort(new Error("given up"));
  await assert.rejects(soon(first), { message: "given up" });
  assert.deepEqual(await all.next(), { done: true, value: undefined });
  assert.equal(getEventListeners(controller.signal, "abort").length, 0);
});
