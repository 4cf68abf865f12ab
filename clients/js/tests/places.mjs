// Places that last, over the real program, which PERITEXT names.

import assert from "node:assert/strict";
import { readFileSync } from "node:fs";
import { test } from "node:test";

import { Stale, connect, init, open } from "peritext";

import { program, withDaemon } from "./served.mjs";
import { withFile } from "./support.mjs";

const UNKNOWN = "00000000-0000-4000-8000-0000000000ff";

/** Runs a test over a document with a text. */
function withText(content, work) {
  return withFile(async (file) => {
    await init(file, { program });
    const session = await open(file, { program });
    await session.document(1).insert(0, content);
    await work(session.document(1), session);
    await session.close();
  });
}

test("each is where it was named", () =>
  withText("abc", async (text) => {
    for (const side of ["previous", "next"]) assert.deepEqual(await text.places(await text.anchors([0, 1, 2, 3], side)), [0, 1, 2, 3]);
    assert.deepEqual([await text.anchor(0), await text.anchor(3, "next")], ["start", "end"]);
    assert.equal(await text.place(await text.anchor(2)), 2);
  }));

test("they stay with their neighbour", () =>
  withText("abc", async (text) => {
    // What is sent first is done first.
    const named = [text.anchors([0, 1, 3]), text.anchors([0, 1, 3], "next")];
    for (const at of [3, 1, 0]) text.insert(at, "x");
    assert.equal(await text.text(), "xaxbcx");
    const [previous, next] = await Promise.all(named);
    assert.deepEqual([await text.places(previous), await text.places(next)], [[0, 2, 5], [1, 3, 6]]);
  }));

test("beside a removed character it stays where that was", () =>
  withText("abc", async (text) => {
    const beside = [await text.anchor(2), await text.anchor(1, "next")];
    await text.delete(1, 1);
    assert.deepEqual(await text.places(beside), [1, 1]);
    await text.delete(0, 2);
    assert.deepEqual(await text.places(beside), [0, 0]);
  }));

test("beside an unknown character it is null", () =>
  withText("abc", async (text, session) => {
    assert.equal(await text.place(`a1@${UNKNOWN}`), null);
    assert.deepEqual(await text.places([`b${2 ** 48 - 1}@${UNKNOWN.toUpperCase()}`, "end"]), [null, 3]);
    // A character of another document is none of this one.
    assert.equal(await session.document(2).place(await text.anchor(1)), null);
    assert.equal(await (await text.read()).index(`a1@${UNKNOWN}`), null);
  }));

test("any number of them", () =>
  withText("x".repeat(600), async (text) => {
    for (const count of [0, 1, 255, 256, 257, 513, 601]) {
      const numbers = [...Array(count).keys()];
      const anchors = await text.anchors(numbers);
      assert.equal(new Set(anchors).size, count);
      assert.deepEqual(await text.places(anchors), numbers);
    }
  }));

test("a reading counts them as strings do, in its text alone", () =>
  withText("a😀b", async (text) => {
    let reading = await text.read();
    const caret = await reading.anchor(3);
    assert.deepEqual([caret, await reading.index(caret), await text.place(caret)], [await text.anchor(2), 3, 2]);
    assert.equal(await reading.anchor(0, "next"), await text.anchor(0, "next"));
    await assert.rejects(reading.anchor(2), RangeError);
    const before = reading;
    reading = await reading.insert(0, "😀");
    assert.equal(await reading.index(caret), 5);
    await assert.rejects(before.anchor(0), Stale);
    await assert.rejects(before.index(caret), Stale);
  }));

test("refusals say what they are about", () =>
  withText("abc", async (text, session) => {
    await assert.rejects(text.anchors([0, 4]), { number: 5, word: "range" });
    await assert.rejects(text.anchors([-1]), { number: 4, message: /`at` has to be a list of 1 to 256 whole numbers/ });
    for (const at of [7, null]) await assert.rejects(text.anchors(at), { number: 4, message: /`at` has to be a list/ });
    await assert.rejects(text.anchor(0, "left"), { number: 4, message: /`side` has to be previous or next; mend/ });
    const broken = [`a0@${UNKNOWN}`, `a01@${UNKNOWN}`, `A1@${UNKNOWN}`, `a${2 ** 48}@${UNKNOWN}`, "a1@00000000-0000-0000-0000-000000000000"];
    for (const anchor of ["", "START", "a1", null, 7, ...broken]) {
      await assert.rejects(text.place(anchor), { number: 4, message: /`anchors` has to be a list of 1 to 256 places that last/ }, String(anchor));
    }
    const asked = { op: "places", doc: 1, anchors: Array(257).fill("end") };
    await assert.rejects(session.send(asked), { number: 4 });
    assert.equal((await session.send({ ...asked, anchors: asked.anchors.slice(1) })).places.length, 256);
  }));

test("another session knows them too", () =>
  withDaemon(async ({ port }) => {
    const sessions = [await connect(port), await connect(port)];
    const [one, other] = sessions.map((session) => session.document(1));
    const rev = await one.insert(0, "abc");
    // This session was told no `rev`.
    await assert.rejects(other.anchor(0, "next", rev), Stale);
    const anchors = await one.anchors([0, 1, 2, 3]);
    assert.deepEqual(await other.anchors([0, 1, 2, 3], "previous"), anchors);
    await other.insert(1, "🦊🦊");
    for (const text of [one, other]) assert.deepEqual(await text.places(anchors), [0, 1, 4, 5]);
    for (const session of sessions) await session.close();
  }));

test("the example of the page is so", () =>
  withFile(async (file) => {
    const page = readFileSync(new URL("../README.md", import.meta.url), "utf8");
    const [[, code], ...more] = page.matchAll(/^```javascript\nimport \{ init, open \} from "peritext";\n(.*?)^```$/gms);
    assert.equal(more.length, 0);
    const AsyncFunction = (async () => {}).constructor;
    const printed = [];
    const over = (call) => () => call(file, { program });
    await new AsyncFunction("init", "open", "console", code)(over(init), over(open), { log: (place) => printed.push(place) });
    assert.deepEqual(printed, [9]);
  }));
