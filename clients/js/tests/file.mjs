// The client over the real program, which PERITEXT names.

import assert from "node:assert/strict";
import { writeFileSync } from "node:fs";
import { resolve } from "node:path";
import { test } from "node:test";

import { EM, Ended, STRONG, Stale, comment, init, link, open } from "peritext";

import { withFile } from "./support.mjs";

const program = resolve(process.env.PERITEXT ?? "bin/peritext");
const COMMENT = "00000000-0000-0000-0000-000000000007";

function withSession(work) {
  return withFile(async (file) => {
    await init(file, { program });
    const session = await open(file, { program });
    await work(session, file);
    await session.close();
  });
}

test("marks are read as spans", () =>
  withSession(async (session) => {
    const text = session.document(1);
    assert.equal(await text.insert(0, "abcdef"), 6);
    await text.mark(0, 3, STRONG);
    await text.mark(2, 4, EM);
    await text.mark(2, 4, comment(COMMENT));
    await text.mark(4, 6, link("u"));
    await text.unmark(0, 1, STRONG);
    await text.unmark(5, 6, link());
    assert.deepEqual(await text.spans(), [
      { text: "a" },
      { text: "b", strong: true },
      { text: "c", strong: true, em: true, comments: [COMMENT] },
      { text: "d", em: true, comments: [COMMENT] },
      { text: "e", link: "u" },
      { text: "f" },
    ]);
    assert.equal(await session.settled(), true);
  }));

test("a reading converts places", () =>
  withSession(async (session) => {
    const text = session.document(4_294_967_295);
    await text.insert(0, "ä😀\n\"\\ü\r\u2028😀");
    let reading = await text.read();
    reading = await reading.delete(1, 3);
    reading = await reading.insert(reading.text.length, "!");
    assert.equal(await text.text(), reading.text);
    assert.equal(reading.text, "ä\n\"\\ü\r\u2028😀!");
    await text.insert(0, "x");
    await assert.rejects(reading.insert(0, "y"), Stale);
  }));

test("several edits are made at once, or none, and once under a token", () =>
  withSession(async (session) => {
    const text = session.document(1);
    const rev = await text.insert(0, "one two");
    const edits = [{ op: "delete", at: 4, count: 3 }, { op: "insert", at: 4, text: "T🦊O" }, { op: "mark", from: 4, to: 7, ...STRONG }];
    const token = "00000000-0000-4000-8000-0000000000d1";
    for (const made of [14, 14]) assert.equal(await text.action(edits, undefined, token), made);
    await assert.rejects(text.action([...edits, { op: "delete", at: 7, count: 1 }]), { number: 5, at: 3 });
    await assert.rejects(text.action([{ op: "delete", at: 7, count: 1 }]), { number: 5, at: undefined });
    await assert.rejects(text.action(edits, rev), Stale);
    await assert.rejects(text.action([{ ...edits[0], doc: 1 }]), { number: 4 });
    assert.deepEqual(await text.spans(), [{ text: "one " }, { strong: true, text: "T🦊O" }]);
    const reading = await (await text.read()).action([{ op: "delete", at: 4, count: 3 }, { op: "insert", at: 5, text: "!" }]);
    assert.deepEqual([reading.text, reading.rev], ["one O!", 17]);
    assert.equal(await text.text(), reading.text);
  }));

test("a long text and a long stretch go as several edits, once under a token", () =>
  withSession(async (session) => {
    const text = session.document(1);
    const long = "ä😀".repeat(400);
    const token = "00000000-0000-4000-8000-0000000000d1";
    for (const rev of [800, 800]) assert.equal(await text.insert(0, long, undefined, token), rev);
    let reading = await text.read();
    assert.equal(reading.text, long);
    await assert.rejects(text.delete(1, 800), { number: 5 });
    await assert.rejects(text.insert(0, `${long}\ud800`), { number: 2, word: "syntax" });
    reading = await reading.delete(0, 900);
    assert.equal(await text.text(), reading.text);
    assert.equal(await text.delete(0, 200), 1_600);
  }));

test("refusals have number and word", () =>
  withSession(async (session) => {
    const text = session.document(1);
    await text.insert(0, "ab");
    await assert.rejects(text.insert(3, "x"), { number: 5, word: "range" });
    await assert.rejects(session.send({ op: "insert", doc: 1, at: 0, text: "x".repeat(257) }), { number: 7, word: "limit", message: /in one edit; send it in parts/ });
    await assert.rejects(session.send({ op: "insert", doc: 0, at: 0, text: "x" }), { number: 4, message: /`doc` has to be a whole number from 1/ });
    await assert.rejects(text.insert(0, ""), { number: 4, word: "field" });
    await assert.rejects(text.insert(0, "\ud800"), { number: 2, word: "syntax" });
    await assert.rejects(session.send({ op: "sing" }), { number: 3, word: "request" });
  }));

test("many requests are made in order, and are there when the file is opened again", () =>
  withFile(async (file) => {
    await init(file, { program });
    const session = await open(file, { program });
    const places = [...Array(2_000).keys()];
    const answers = places.map((place) => session.document(1).insert(place, "abcdefghij"[place % 10]));
    assert.deepEqual(await Promise.all(answers), places.map((place) => place + 1));
    await session.close();
    await assert.rejects(session.document(1).text(), Ended);
    const again = await open(file, { program });
    assert.equal(await again.document(1).text(), "abcdefghij".repeat(200));
    await again.close();
  }));

test("a file is held by one session", () =>
  withSession(async (_, file) => {
    await assert.rejects(open(file, { program }), { number: 54, word: "open failed" });
  }));

test("no store is no session", () =>
  withFile(async (file) => {
    writeFileSync(file, new Uint8Array(8_192));
    await assert.rejects(open(file, { program }), { number: 42, word: "no root" });
    await assert.rejects(init(file, { program }), { number: 48, word: "not empty" });
  }));
