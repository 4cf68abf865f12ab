// What a daemon tells of all documents, as it comes to each that is followed; and what was found, as it moves with a text.

import "./page_modules.mjs";
import assert from "node:assert/strict";

import { Store } from "../../js/tests/fake.mjs";
import { pause } from "./page.mjs";
import { test } from "./timed.mjs";

const { Ended, WatchMany } = await import("peritext");
const { StepMap } = await import("prosemirror-transform");
const { ToldOfAll } = await import("../page/told_of_all.js");
const { indexAt, moved } = await import("../page/search/drawn.js");

function edit(store, doc, text) {
  store.answer(JSON.stringify({ op: "insert", doc, at: 0, text }));
}

function watching(store) {
  const watcher = store.watcher();
  return { watcher, all: new ToldOfAll(new WatchMany(() => watcher, "all", { retry: null })) };
}

test("each is told its own numbers, the newest alone, and one that is new too", async () => {
  const store = new Store();
  const { all } = watching(store);
  const { signal } = new AbortController();
  const [one, other] = [7, 9].map((number) => all.of(number, signal));
  const [first, second] = [one.next(), other.next()];
  edit(store, 7, "a");
  assert.deepEqual(await first, { done: false, value: 1 });
  for (let count = 0; count < 5; count += 1) edit(store, 9, "xy");
  await pause(50);
  assert.equal((await second).value > 0, true);
  edit(store, 9, "z");
  await pause(50);
  assert.deepEqual(await other.next(), { done: false, value: 11 });
  edit(store, 7, "bc");
  assert.deepEqual(await one.next(), { done: false, value: 3 });
  // Who begins later is told what is newest.
  assert.deepEqual(await all.of(9, signal).next(), { done: false, value: 11 });
  all.close();
});

test("one that is followed no longer is told nothing more, and the others go on", async () => {
  const store = new Store();
  const { all } = watching(store);
  const controller = new AbortController();
  const [left, kept] = [all.of(1, controller.signal).next(), all.of(1, new AbortController().signal).next()];
  controller.abort();
  assert.deepEqual(await left, { done: true, value: undefined });
  edit(store, 1, "a");
  assert.deepEqual(await kept, { done: false, value: 1 });
  all.close();
});

test("what ends it is told to all, after what is newest", async () => {
  const store = new Store();
  edit(store, 1, "a");
  const { watcher, all } = watching(store);
  await pause(20);
  const { signal } = new AbortController();
  const waits = all.of(2, signal).next();
  watcher.close();
  await assert.rejects(waits, Ended);
  const late = all.of(1, signal);
  assert.deepEqual(await late.next(), { done: false, value: 1 });
  await assert.rejects(late.next(), Ended);
});

test("a close is an end", async () => {
  const { all } = watching(new Store());
  const waits = all.of(1, new AbortController().signal).next();
  all.close();
  await assert.rejects(waits, Ended);
});

test("what was found moves with its text, and the current one with it; what is taken away is found no more", () => {
  const ranges = [[1, 4], [6, 9], [12, 15]].map(([from, to]) => ({ from, to }));
  const pairs = ({ ranges: all, current }) => [all.map(({ from, to }) => [from, to]), current];
  const step = (...numbers) => moved({ ranges, current: 1 }, new StepMap(numbers));
  assert.deepEqual(pairs(step(5, 0, 2)), [[[1, 4], [8, 11], [14, 17]], 1]);
  // What is put in right before one, or right after it, is none of it.
  assert.deepEqual(pairs(step(6, 0, 1)), [[[1, 4], [7, 10], [13, 16]], 1]);
  assert.deepEqual(pairs(step(9, 0, 1)), [[[1, 4], [6, 9], [13, 16]], 1]);
  assert.deepEqual(pairs(step(0, 5, 0)), [[[1, 4], [7, 10]], 0]);
  // The one after it.
  assert.deepEqual(pairs(step(5, 5, 0)), [[[1, 4], [7, 10]], 1]);
  assert.deepEqual(pairs(step(0, 20, 0)), [[], -1]);
  assert.deepEqual([indexAt(ranges, 6), indexAt(ranges, 7), indexAt(ranges, 13), indexAt([], 0)], [1, 2, 0, -1]);
});
