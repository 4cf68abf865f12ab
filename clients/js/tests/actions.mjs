// Edits that are made at once.

import assert from "node:assert/strict";
import { test } from "node:test";

import { EM, Refused, STRONG, Session, Stale, connect, link } from "peritext";

import { answerOf } from "../src/answers.js";
import { Store } from "./fake.mjs";
import { soon, withTalk } from "./talk.mjs";

const TOKEN = "00000000-0000-4000-8000-0000000000d1";
const LINE = 65_536;
const NEVER = 2 ** 32 - 1;

/** A document of this number over a store, and the lines that are sent to it. */
function documentOver(number = 1, store = new Store()) {
  const transport = store.session();
  const sent = [];
  const { send } = transport;
  transport.send = (line) => {
    sent.push(line);
    send.call(transport, line);
  };
  return { document: new Session(transport).document(number), sent };
}

test("its edits are made at once, each where those before it leave it", async () => {
  const { document, sent } = documentOver();
  const rev = await document.insert(0, "one two");
  const edits = [
    { op: "delete", at: 4, count: 3 },
    { op: "insert", at: 4, text: "T🦊O" },
    { op: "mark", from: 0, to: 7, ...link("u") },
    { op: "unmark", from: 0, to: 4, ...link() },
    { op: "mark", from: 4, to: 7, ...STRONG },
  ];
  assert.equal(await document.action(edits, rev, TOKEN), 16);
  assert.deepEqual(await document.spans(), [{ text: "one " }, { link: "u", strong: true, text: "T🦊O" }]);
  const { url: _, ...unmark } = edits[3];
  assert.deepEqual(JSON.parse(sent[1]), { op: "edits", doc: 1, rev, token: TOKEN, edits: edits.with(3, unmark) });
  await assert.rejects(document.action(edits, rev), Stale);
  // It was made under this token.
  assert.equal(await document.action(edits, undefined, TOKEN), 16);
});

test("all are made or none, and the refusal says which one it was", async () => {
  const { document } = documentOver();
  const rev = await document.insert(0, "abc");
  const edits = [{ op: "insert", at: 0, text: "x".repeat(600) }, { op: "delete", at: 600, count: 4 }];
  const fault = { number: 5, at: 1, message: /^5 range: there is no such place .* \(edit 1 of the action, from 0 on\)$/ };
  await assert.rejects(document.action(edits), fault);
  for (const none of [[], "x", undefined, [null], [7], [{ op: "text" }], [{ op: "insert", at: 0, text: "a", doc: 1 }]]) {
    await assert.rejects(document.action(none), { number: 4, message: /^4 field: `edits` has to be a list of 1 to 1024 edits, each an insert/ });
  }
  await assert.rejects(document.action([edits[0], { op: "delete", at: -1, count: 1 }]), { number: 4, message: /`at` of one of the `edits` has to be a whole number/ });
  await assert.rejects(document.action([edits[0], { op: "insert", at: 0, text: "\ud800" }]), { number: 2 });
  assert.deepEqual([await document.text(), await document.rev()], ["abc", rev]);
  // An earlier program doesn't tell it.
  assert.equal(answerOf('{"code":5,"error":"range","ok":false}', { op: "edits", doc: 1, edits }).at, undefined);
  for (const at of ['"0"', "-1", "2", "true", "null"]) {
    assert.throws(() => answerOf(`{"at":${at},"code":5,"error":"range","ok":false}`, { op: "edits", doc: 1, edits }), /without a right `at`/);
  }
});

test("a refusal says what it is about", () => {
  const words = (number, ...edits) => new Refused(number, "word", { op: "edits", doc: 1, edits }).message;
  const [insert, remove] = [{ op: "insert", at: 0, text: "x" }, { op: "delete", at: 0, count: 9 }];
  assert.match(words(3, insert), /an older program knows no `edits`; start one that is as new as this client$/);
  assert.match(words(4, ...Array(1_025).fill(insert)), /`edits` has to be/);
  assert.match(words(7, insert, { ...remove, count: 257 }), /at most 256 characters in one edit/);
  assert.match(words(7, insert, remove), /waits together for the disk/);
  assert.match(words(7, insert), /word: the file has all the operations/);
});

test("a reading's action is counted in units, each edit in the text that those before it leave", async () => {
  const { document, sent } = documentOver();
  await document.insert(0, "a😀b😀c");
  let reading = await document.read();
  reading = await reading.action([
    { op: "insert", at: 3, text: "🦊🦊" },
    { op: "delete", at: 1, count: 4 },
    { op: "mark", from: 3, to: 7, ...EM },
    { op: "unmark", from: 4, to: 6, ...EM },
    { op: "insert", at: 7, text: "!" },
  ]);
  assert.equal(reading.text, "a🦊b😀c!");
  assert.deepEqual(JSON.parse(sent.at(-1)).edits.map(({ at, from, count }) => [at ?? from, count]), [[2, undefined], [1, 2], [2, undefined], [3, undefined], [5, undefined]]);
  assert.equal(await document.text(), reading.text);
  assert.equal(await document.rev(), reading.rev);
  assert.deepEqual((await document.spans()).filter(({ em }) => em).map(({ text }) => text), ["b", "c!"]);
  await assert.rejects(reading.action([{ op: "insert", at: 0, text: "🦊" }, { op: "delete", at: 1, count: 1 }]), RangeError);
  await document.insert(0, "x");
  await assert.rejects(reading.action([{ op: "delete", at: 0, count: 1 }]), Stale);
});

test("a long text is lines as long as they may be", async () => {
  for (const [character, least] of [["x", 55_000], ["\0", 10_000], ["😀", 15_000]]) {
    const { document, sent } = documentOver(NEVER);
    await document.insert(0, "ab");
    assert.equal(await document.insert(1, character.repeat(70_000), 2, TOKEN), 70_002);
    assert.equal(await document.text(), `a${character.repeat(70_000)}b`);
    const lines = sent.slice(1, -1);
    const made = lines.map((line) => JSON.parse(line));
    const counts = made.map(({ edits }) => edits.reduce((sum, { text }) => sum + [...text].length, 0));
    assert(counts.slice(0, -1).every((count) => count > least), counts.join());
    assert.deepEqual(made.map(({ rev }) => rev), made.map((_, index) => 2 + counts.slice(0, index).reduce((sum, count) => sum + count, 0)));
    assert.deepEqual([made[0].token, new Set(made.map(({ token }) => token)).size], [TOKEN, made.length]);
    // It may be longer where it is sent again.
    for (const line of lines) assert(Buffer.byteLength(line) + 10 + 9 <= LINE);
  }
});

test("what doesn't fit one line is refused, unless it may be parted", async () => {
  const many = Array(1_025).fill({ op: "delete", at: 0, count: 1 });
  const long = Array(30).fill({ op: "mark", from: 0, to: 1, ...link("\0".repeat(1_024)) });
  for (const edits of [many, long]) {
    const { document, sent } = documentOver();
    const rev = await document.insert(0, "x".repeat(2_000));
    await assert.rejects(document.action(edits, rev), { name: "RangeError", message: /^one line takes 1,024 edits, .* 65,536 bytes: make several/ });
    assert.equal(sent.length, 1);
    assert.equal(await document.action(edits, rev, undefined, { parted: true }), rev + edits.length);
    const made = sent.slice(1).map((line) => JSON.parse(line));
    assert.equal(made.reduce((sum, line) => sum + line.edits.length, 0), edits.length);
    assert(made.length > 1 && made.every((line) => line.rev !== undefined) && sent.every((line) => Buffer.byteLength(line) < LINE));
  }
});

test("no line takes more away than can wait for the disk, if it may be parted", async () => {
  const { document, sent } = documentOver();
  await document.insert(0, "x".repeat(5_000));
  const edits = [{ op: "delete", at: 0, count: 5_000 }, { op: "insert", at: 0, text: "y".repeat(5_000) }];
  await document.action(edits, undefined, undefined, { parted: true });
  const taken = sent.slice(1).map((line) => JSON.parse(line).edits.reduce((sum, { count = 0 }) => sum + count, 0));
  assert.deepEqual(taken, [2_048, 2_048, 904]);
  assert.equal(await document.text(), "y".repeat(5_000));
});

test("an action whose answer was lost is made once", () => {
  const store = new Store();
  const sent = [];
  const talk = async (socket, lines) => {
    for await (const line of { [Symbol.asyncIterator]: () => lines }) {
      sent.push(JSON.parse(line));
      const answer = store.answer(line);
      if (sent.length === 2) return;
      socket.write(`${answer}\n`);
    }
  };
  return withTalk(talk, async (port) => {
    const session = await connect(port);
    const document = session.document(1);
    const rev = await document.insert(0, "abc");
    assert.equal(await soon(document.action([{ op: "delete", at: 0, count: 3 }, { op: "insert", at: 0, text: "x" }], rev)), 7);
    assert.equal(await document.text(), "x");
    const [first, lost, probe, again] = sent;
    assert.deepEqual([probe, again], [{ ...first, rev: NEVER }, { ...lost, rev: NEVER }]);
    await session.close();
  });
});
