// A document that is followed, over a store in memory.

import assert from "node:assert/strict";
import { test } from "node:test";
import { setTimeout as pause } from "node:timers/promises";

import { EM, STRONG, Session } from "peritext";

import { chanceEdit } from "./chance.mjs";
import { Store } from "./fake.mjs";
import { Followed } from "./followed.mjs";
import { marksOf } from "./model.mjs";
import { behind, textOf, unitsOf } from "./shown.mjs";
import { numbers } from "./support.mjs";
import { soon } from "./talk.mjs";

const BARE = { comments: null, em: null, link: null, strong: null };

/** The spans that a document of the model had at a number of operations, one for each character. */
function spansAt(document, rev) {
  return document.at(rev).map((character) => ({ ...marksOf(character, rev), text: character.text }));
}

test("the text comes first, and then each change, counted as strings are", async () => {
  const { following, editor, asked } = new Followed();
  await editor.insert(0, "😀 fox");
  assert.deepEqual((await following.next()).value, { reset: [{ text: "😀 fox" }], text: "😀 fox", rev: 5 });
  await editor.insert(1, "🦊");
  assert.deepEqual((await following.next()).value, { steps: [{ retain: 2 }, { insert: "🦊" }], rev: 6 });
  await editor.mark(1, 3, EM);
  assert.deepEqual((await following.next()).value, { steps: [{ retain: 2 }, { retain: 3, attributes: { ...BARE, em: true } }], rev: 7 });
  await editor.delete(0, 2);
  assert.deepEqual((await following.next()).value, { steps: [{ delete: 4 }], rev: 9 });
  assert.deepEqual([following.spans, following.text], [[{ em: true, text: " " }, { text: "fox" }], " fox"]);
  assert.deepEqual(asked, ["changes", "changes", "changes", "changes"]);
  following.close();
});

test("a text that nobody edited is there too, and what is gone again at once is a change of nothing", async () => {
  const followed = new Followed();
  assert.deepEqual(await followed.next(), { reset: [], text: "", rev: 0 });
  followed.watcher.held = true;
  await followed.editor.insert(0, "a");
  await followed.editor.delete(0, 1);
  followed.watcher.release();
  assert.deepEqual(await followed.next(), { steps: [], rev: 2 });
  followed.following.close();
});

test("who looks seldom is given all as one change, for one request", async () => {
  const followed = new Followed();
  await followed.next();
  for (let count = 0; count < 50; count += 1) await followed.editor.insert(count, "x");
  await followed.editor.mark(0, 50, STRONG);
  await pause(20);
  assert.deepEqual(await followed.next(), { steps: [{ insert: "x".repeat(50), attributes: { strong: true } }], rev: 51 });
  assert.deepEqual(followed.asked, ["changes", "changes"]);
  followed.following.close();
});

test("a number that is reached isn't asked for", async () => {
  const followed = new Followed();
  await followed.next();
  followed.session.held = true;
  await followed.editor.insert(0, "a");
  const next = followed.next();
  await pause(20);
  assert.deepEqual(followed.asked, ["changes", "changes"]);
  followed.watcher.held = true;
  await followed.editor.insert(1, "b");
  followed.session.release();
  assert.deepEqual(await next, { steps: [{ insert: "ab" }], rev: 2 });
  followed.watcher.release();
  const last = followed.next();
  await pause(20);
  assert.equal(followed.asked.length, 2);
  await followed.editor.insert(2, "c");
  assert.deepEqual(await last, { steps: [{ retain: 2 }, { insert: "c" }], rev: 3 });
  assert.equal(followed.asked.length, 3);
  followed.following.close();
});

test("several who wait are given one each, in order", async () => {
  const followed = new Followed();
  const given = [followed.next(), followed.next(), followed.next()];
  await given[0];
  for (const [turn, letter] of ["a", "b"].entries()) {
    await followed.editor.insert(turn, letter);
    await given[turn + 1];
  }
  assert.deepEqual((await Promise.all(given)).map(({ rev }) => rev), [0, 1, 2]);
  followed.following.close();
});

test("after a lost connection it goes on with what was told since", async () => {
  const followed = new Followed();
  await followed.editor.insert(0, "abc");
  await followed.next();
  followed.cut();
  await followed.editor.delete(1, 1);
  await followed.editor.insert(0, "😀");
  assert.deepEqual(await followed.next(), { steps: [{ insert: "😀" }, { retain: 1 }, { delete: 1 }], rev: 5 });
  for (const [lost, units] of [[() => followed.session.cut(0), 2], [() => followed.watcher.close(), 1]]) {
    lost();
    await pause(10);
    await followed.editor.delete(0, 1);
    assert.deepEqual((await followed.next()).steps, [{ delete: units }]);
  }
  assert.equal(followed.following.text, await followed.editor.text());
  followed.following.close();
});

test("nothing is given after a lost connection if nothing changed", async () => {
  const followed = new Followed();
  await followed.editor.insert(0, "abc");
  await followed.next();
  followed.cut();
  const next = followed.next();
  while (followed.asked.length < 3) await pause(10);
  await pause(20);
  assert.deepEqual(followed.asked, ["changes", "changes", "spans"]);
  await followed.editor.insert(3, "d");
  assert.deepEqual(await next, { steps: [{ retain: 3 }, { insert: "d" }], rev: 4 });
  followed.following.close();
});

test("what was shown and is gone after a crash is taken back, also under the same number", async () => {
  const followed = new Followed();
  await followed.editor.insert(0, "abc");
  await followed.next();
  for (const text of ["xbc", "xyde"]) {
    followed.store = new Store();
    followed.cut();
    await new Session(followed.store.session()).document(1).insert(0, text);
    assert.deepEqual(await followed.next(), { reset: [{ text }], text, rev: text.length });
  }
  followed.store = new Store();
  followed.cut();
  await new Session(followed.store.session()).document(1).insert(0, "x");
  await assert.rejects(followed.next(), { name: "Ended", message: "another file is served there now" });
  await followed.assertEnded();
});

test("a file that is opened anew tells the changes since, or the text is given anew", async () => {
  const followed = new Followed();
  await followed.editor.insert(0, "abc");
  await followed.next();
  followed.store.openAnew();
  followed.cut();
  await followed.editor.insert(3, "d");
  assert.deepEqual(await followed.next(), { steps: [{ retain: 3 }, { insert: "d" }], rev: 4 });
  await followed.editor.insert(4, "e");
  followed.store.openAnew();
  followed.cut();
  assert.deepEqual(await followed.next(), { reset: [{ text: "abcde" }], text: "abcde", rev: 5 });
  followed.following.close();
});

/**
 * A history by chance: what is shown after each change is what there was at its number. For each number that is told there is
 * one request at most, and one more where a connection is lost. Gives how often it was a reset.
 */
async function play(seed) {
  const below = numbers(seed);
  const followed = new Followed();
  const document = followed.store.document(1);
  let [units, rev, resets, isOver] = [[], -1, 0, false];
  const reader = (async () => {
    for await (const told of followed.following) {
      assert(told.rev >= rev);
      assert.notDeepEqual(told, { steps: [], rev });
      [units, rev] = [behind(units, told), told.rev];
      assert.deepEqual(units, unitsOf(spansAt(document, rev)), `history ${seed}, number ${rev}`);
      assert.deepEqual([unitsOf(followed.following.spans), followed.following.text], [units, textOf(units)]);
      resets += told.reset === undefined ? 0 : 1;
      if (isOver && rev === document.rev) break;
      if (below(3) === 0) await pause(below(30));
    }
  })();
  while (rev < 0) await pause(1);
  for (let turn = 0; turn < 60; turn += 1) {
    await followed.editor.edit(chanceEdit(below, document.at(document.rev).length, "a\n😀🦊".slice(0, [1, 2, 4, 6][below(4)])));
    if (below(2) === 0) await pause(below(10));
    const draw = below(40);
    if (draw === 0) followed.watcher.close();
    if (draw === 1) followed.session.cut(below(2));
    if (draw === 2 || draw === 3) followed.cut();
    if (draw === 3) followed.store.openAnew();
  }
  isOver = true;
  await followed.editor.insert(0, "!");
  await soon(reader);
  await followed.assertEnded();
  const requests = followed.asked.filter((op) => op === "changes").length;
  const told = followed.watchers.reduce((sum, { count }) => sum + count, 0);
  assert(requests <= told + followed.sessions.length - 1, `${requests} requests for ${told} numbers`);
  return resets;
}

test("whatever happens, what is shown is what there was", async () => {
  const found = [];
  for (let seed = 1; seed <= 12; seed += 1) found.push(await play(seed));
  // Lost connections alone are no reason to begin anew.
  assert(found.some((resets) => resets === 1) && found.some((resets) => resets > 1), String(found));
});
