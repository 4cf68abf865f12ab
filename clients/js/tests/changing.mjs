// What changed since a rev, without the real program: steps that are applied, and those of answers; connections that are lost.

import assert from "node:assert/strict";
import { test } from "node:test";

import { Refused, Stale, applied, connect, delta } from "peritext";

import { answerOf } from "../src/answers.js";
import { withTalk } from "./talk.mjs";

const COMMENT = "00000000-0000-4000-8000-0000000000c1";
const BARE = { comments: null, em: null, link: null, strong: null };

test("spans are as long as they can be", () => {
  const spans = [{ text: "a😀" }, { text: "cd", em: true }, { text: "ef" }];
  const rows = [
    [[], spans],
    [[{ retain: 6 }], spans],
    [[{ retain: 2 }, { delete: 2 }], [{ text: "a😀ef" }]],
    [[{ retain: 2 }, { retain: 2, attributes: BARE }], [{ text: "a😀cdef" }]],
    [[{ delete: 1 }, { retain: 1, attributes: { ...BARE, em: true } }], [{ text: "😀cd", em: true }, { text: "ef" }]],
    [[{ retain: 1 }, { delete: 4 }, { insert: "x", attributes: { link: "x:y" } }], [{ text: "a" }, { text: "x", link: "x:y" }, { text: "f" }]],
    [[{ delete: 6 }], []],
  ];
  for (const [steps, made] of rows) assert.deepEqual(applied(spans, steps), made);
  assert.deepEqual(spans[0], { text: "a😀" });
  for (const step of [{ retain: 7 }, { delete: 7 }, { retain: 7, attributes: BARE }]) assert.throws(() => applied(spans, [step]), RangeError);
});

test("editors count units", () => {
  const steps = [{ retain: 2 }, { insert: "😀" }, { retain: 1, attributes: BARE }, { delete: 2 }];
  assert.deepEqual(delta("a😀😀b😀c", steps), [{ retain: 3 }, { insert: "😀" }, { retain: 2, attributes: BARE }, { delete: 3 }]);
  assert.deepEqual(delta("", [{ insert: "a" }]), [{ insert: "a" }]);
  for (const step of [{ retain: 2 }, { delete: 2 }]) assert.throws(() => delta("😀", [step]), RangeError);
});

test("what is no step is no answer", () => {
  const answer = (changes) => answerOf(JSON.stringify({ ok: true, rev: 3, changes }), { op: "changes", doc: 1, since: 0 });
  const right = [
    { retain: 1 }, { delete: 2 }, { insert: "a" }, { attributes: { em: true }, insert: "a" }, { attributes: BARE, retain: 3 },
    { attributes: { comments: [COMMENT], em: null, link: "x:y", strong: true }, retain: 3 },
  ];
  assert.deepEqual(answer(right).changes, right);
  const wrong = [
    {}, [], "abc", null, 3, { retain: 0 }, { retain: -1 }, { retain: true }, { retain: 1.5 }, { retain: "1" }, { delete: 0 }, { delete: null },
    { insert: 7 }, { insert: null }, { retain: 1, delete: 1 }, { delete: 1, insert: "a" }, { attributes: {}, delete: 1 }, { attributes: {} },
    { attributes: {}, retain: 1 }, { attributes: { ...BARE, strong: 1 }, retain: 1 }, { attributes: { ...BARE, comments: [1] }, retain: 1 },
    { attributes: { strong: null }, retain: 1 }, { attributes: null, retain: 1 }, { attributes: null, insert: "a" },
    { attributes: { link: 7 }, insert: "a" }, { attributes: { em: null }, insert: "a" }, { move: 1 },
  ];
  for (const step of wrong) assert.throws(() => answer([{ retain: 1 }, step]), /without a right `changes`/, JSON.stringify(step));
  for (const steps of [undefined, null, {}, "abc"]) assert.throws(() => answer(steps), /without a right `changes`/);
});

test("a refusal says what it is about", () => {
  const words = (fields) => new Refused(4, "field", { op: "changes", doc: 1, ...fields }).message;
  for (const since of [-1, 1.5, NaN, true, "1", null, undefined, [1], 2 ** 32]) {
    assert.equal(words({ since }), "4 field: `since` has to be a whole number from 0 to 4294967295; mend what wrote it", String(since));
  }
  assert.equal(words({ since: 0, rev: 3 }), "4 field: `rev` is no field of this request; mend what wrote it");
  for (const since of [0, 2 ** 32 - 1]) assert.match(words({ since }), /^4 field: a value breaks its rule/);
  const sentence = (request) => new Refused(3, "request", request).message;
  assert.equal(sentence({ op: "changes", doc: 1, since: 0 }), "3 request: an older program knows no `changes`; start one that is as new as this client");
  assert.equal(sentence({ op: "watch", doc: 0 }), "3 request: `doc` has to be a whole number from 1 to 4294967295; mend what wrote it");
  assert.match(sentence({ op: "text", doc: 1 }), /^3 request: the line is no request/);
});

/** Runs a test over a document whose answers have these revs, and the requests for it. In place of null the connection ends. */
function withRevs(revs, work) {
  const asked = [];
  const talk = async (socket, lines) => {
    for await (const line of { [Symbol.asyncIterator]: () => lines }) {
      const rev = revs.shift();
      if (rev === null) return;
      asked.push(JSON.parse(line).since);
      socket.write(`${JSON.stringify({ ok: true, rev, changes: [] })}\n`);
    }
  };
  return withTalk(talk, async (port) => {
    const session = await connect(port);
    await work(session.document(1), asked);
    await session.close();
  });
}

test("the same number over another connection is another one", () =>
  withRevs([5, null, 5, 5], async (text, asked) => {
    assert.deepEqual(await text.changes(0), { steps: [], rev: 5 });
    await assert.rejects(text.changes(5), Stale);
    assert.equal((await text.changes(0)).rev, 5);
    assert.deepEqual(asked, [0, 5, 0]);
  }));

test("nothing is the same everywhere", () =>
  withRevs([null, 5, 6], async (text, asked) => {
    assert.deepEqual([await text.changes(0), await text.changes(5)], [{ steps: [], rev: 5 }, { steps: [], rev: 6 }]);
    assert.deepEqual(asked, [0, 5]);
  }));
