// The model of the program tells changes as the program does.

import assert from "node:assert/strict";
import { test } from "node:test";

import { applied } from "peritext";

import { answerOf } from "../src/answers.js";
import { chanceEdit } from "./chance.mjs";
import { Store } from "./fake.mjs";
import { numbers } from "./support.mjs";

const [FIRST, SECOND] = [1, 2].map((number) => `00000000-0000-4000-8000-0000000000c${number}`);
const BARE = { comments: null, em: null, link: null, strong: null };

/** What a store answers, as a client takes it. */
function asked(store, fields) {
  const request = { doc: 1, ...fields };
  return answerOf(store.answer(JSON.stringify(request)), request);
}

function changes(store, since) {
  return asked(store, { op: "changes", since }).changes;
}

/** Each character that stays is the one that it was, each one that comes is new, and the others go. */
function assertKept(document, since, steps) {
  const then = document.at(since);
  const now = document.at(document.rev);
  for (const { retain, delete: gone, insert = "" } of steps) {
    for (const character of [...insert]) {
      const { text, came } = now.shift();
      assert(text === character && came > since);
    }
    for (let left = retain ?? 0; left > 0; left -= 1) assert.equal(then.shift(), now.shift());
    for (const { gone: at } of then.splice(0, gone ?? 0)) assert(at > since && at <= document.rev);
  }
  assert.deepEqual(then, now);
}

test("since each rev they make the spans of now, of the same characters", () => {
  for (let seed = 1; seed <= 20; seed += 1) {
    const below = numbers(seed);
    const store = new Store();
    const shown = new Map([[0, []]]);
    for (let turn = 0; turn < 25; turn += 1) {
      const document = store.document(1);
      const { rev } = asked(store, chanceEdit(below, document.at(document.rev).length, "aaa😀".slice(below(3))));
      const { spans } = asked(store, { op: "spans" });
      shown.set(rev, spans);
      for (const [since, before] of shown) {
        const steps = changes(store, since);
        assert.deepEqual(applied(before, steps), spans);
        assertKept(document, since, steps);
      }
    }
  }
});

test("they are of the program's form", () => {
  const store = new Store();
  asked(store, { op: "insert", at: 0, text: "one two" });
  asked(store, { op: "delete", at: 4, count: 3 });
  asked(store, { op: "insert", at: 4, text: "TWO!" });
  asked(store, { op: "mark", from: 4, to: 7, kind: "strong" });
  const put = { attributes: { strong: true }, insert: "TWO" };
  assert.deepEqual(changes(store, 7), [{ retain: 4 }, put, { insert: "!" }, { delete: 3 }]);
  assert.deepEqual(changes(store, 14), [{ retain: 4 }, { attributes: { ...BARE, strong: true }, retain: 3 }]);
  assert.deepEqual(changes(store, 15), []);
  assert.deepEqual(changes(store, 0), [{ insert: "one " }, put, { insert: "!" }]);
  // In the midst of an edit, too.
  assert.deepEqual(changes(store, 5), [{ retain: 4 }, put, { insert: "!" }, { delete: 1 }]);
  asked(store, { op: "mark", from: 3, to: 5, kind: "comment", id: SECOND });
  asked(store, { op: "mark", from: 3, to: 5, kind: "comment", id: FIRST });
  const both = { comments: [FIRST, SECOND], em: null, link: null };
  const attributes = [{ ...both, strong: null }, { ...both, strong: true }];
  assert.deepEqual(changes(store, 15), [{ retain: 3 }, ...attributes.map((all) => ({ attributes: all, retain: 1 }))]);
});

test("what can't be told is refused", () => {
  const store = new Store();
  const number = (fields) => asked(store, { op: "changes", ...fields }).number;
  asked(store, { op: "insert", at: 0, text: "abc" });
  for (const since of [4, 2 ** 32 - 1]) assert.equal(number({ since }), 6);
  for (const since of [undefined, null, -1, 1.5, "1", 2 ** 32]) assert.equal(number({ since }), 4);
  for (const other of [{ rev: 3 }, { token: FIRST }]) assert.equal(number({ since: 0, ...other }), 4);
  store.openAnew();
  for (const since of [1, 2]) assert.equal(number({ since }), 6);
  assert.deepEqual([changes(store, 0), changes(store, 3)], [[{ insert: "abc" }], []]);
  asked(store, { op: "delete", at: 1, count: 1 });
  assert.deepEqual(changes(store, 3), [{ retain: 1 }, { delete: 1 }]);
  assert.deepEqual(asked(store, { op: "changes", doc: 2, since: 0 }), { ok: true, rev: 0, changes: [] });
});
