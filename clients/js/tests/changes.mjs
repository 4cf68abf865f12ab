// What changed since a rev, over the real program, which PERITEXT names.

import assert from "node:assert/strict";
import { readFileSync } from "node:fs";
import { test } from "node:test";

import { EM, STRONG, Stale, applied, comment, connect, init, link, open } from "peritext";

import { program, start, withDaemon } from "./served.mjs";
import { withFile } from "./support.mjs";

const [FIRST, SECOND] = [1, 2].map((number) => `00000000-0000-4000-8000-0000000000c${number}`);
const BARE = { comments: null, em: null, link: null, strong: null };

/** Runs a test over a file and a document of it with a text, and the `rev` of that. */
function withText(content, work) {
  return withFile(async (file) => {
    await init(file, { program });
    const session = await open(file, { program });
    const rev = await session.document(1).insert(0, content);
    await work(session.document(1), rev, file);
    await session.close();
  });
}

test("what comes, stays and goes", () =>
  withText("one two", async (text, first) => {
    await text.delete(4, 3);
    const second = await text.insert(4, "TWO!");
    const rev = await text.mark(4, 7, STRONG);
    const put = { insert: "TWO", attributes: { strong: true } };
    assert.deepEqual(await text.changes(first), { steps: [{ retain: 4 }, put, { insert: "!" }, { delete: 3 }], rev });
    assert.deepEqual(await text.changes(second), { steps: [{ retain: 4 }, { retain: 3, attributes: { ...BARE, strong: true } }], rev });
    assert.deepEqual(await text.changes(rev), { steps: [], rev });
    assert.deepEqual(await text.changes(0), { steps: [{ insert: "one " }, put, { insert: "!" }], rev });
  }));

test("of equal characters the removed one goes", () =>
  withText("aaa", async (text, rev) => {
    const then = await text.delete(1, 1);
    assert.deepEqual((await text.changes(rev)).steps, [{ retain: 1 }, { delete: 1 }]);
    await text.insert(2, "a");
    await text.delete(0, 1);
    assert.deepEqual((await text.changes(then)).steps, [{ delete: 1 }, { retain: 1 }, { insert: "a" }]);
  }));

test("marks come and go", () =>
  withText("abcd", async (text, first) => {
    let since = first;
    const both = { ...BARE, comments: [FIRST, SECOND], em: true };
    const edits = [
      [text.mark, EM, { ...BARE, em: true }],
      [text.mark, comment(SECOND), { ...BARE, comments: [SECOND], em: true }],
      [text.mark, comment(FIRST), both],
      [text.mark, link("x:y"), { ...both, link: "x:y" }],
      [text.unmark, link(), both],
      [text.unmark, comment(SECOND), { ...BARE, comments: [FIRST], em: true }],
      [text.unmark, EM, { ...BARE, comments: [FIRST] }],
      [text.unmark, comment(FIRST), BARE],
    ];
    for (const [edit, mark, attributes] of edits) {
      await edit.call(text, 1, 3, mark);
      const { steps, rev } = await text.changes(since);
      assert.deepEqual(steps, [{ retain: 1 }, { retain: 2, attributes }]);
      since = rev;
    }
  }));

test("they count characters, and so does what applies them", () =>
  withText("🦊é🦊🦊", async (text, rev) => {
    await text.delete(2, 1);
    await text.insert(1, "😀");
    await text.mark(3, 4, EM);
    const { steps } = await text.changes(rev);
    assert.deepEqual(steps, [{ retain: 1 }, { insert: "😀" }, { retain: 1 }, { delete: 1 }, { retain: 1, attributes: { ...BARE, em: true } }]);
    assert.deepEqual(applied([{ text: "🦊é🦊🦊" }], steps), [{ text: "🦊😀é" }, { text: "🦊", em: true }]);
  }));

test("they make the spans of now", () =>
  withText("The quick fox", async (text) => {
    const shown = new Map([[0, []]]);
    const edits = [
      () => text.mark(4, 9, STRONG),
      () => text.insert(9, "🦊er"),
      () => text.delete(2, 4),
      () => text.mark(0, 8, comment(FIRST)),
      () => text.unmark(3, 5, STRONG),
      () => text.insert(0, "😀".repeat(300)),
      () => text.mark(0, 300, link("https://example.org/")),
      () => text.delete(100, 205),
      () => text.unmark(0, 80, link()),
      async () => text.delete(0, [...(await text.text())].length),
    ];
    for (const edit of edits) {
      await edit();
      const { spans: wanted, rev: now } = await text.readSpans();
      for (const [since, spans] of shown) {
        const { steps, rev } = await text.changes(since);
        assert.deepEqual([applied(spans, steps), rev], [wanted, now]);
      }
      shown.set(now, wanted);
    }
    assert.deepEqual(shown.get(await text.rev()), []);
  }));

test("a since that can't be told is stale", () =>
  withText("abc", async (text, rev, file) => {
    for (const since of [rev + 1, 2 ** 32 - 1]) await assert.rejects(text.changes(since), Stale);
    await text.session.close();
    const session = await open(file, { program });
    const again = session.document(1);
    // Not even asked for.
    await assert.rejects(again.changes(rev), Stale);
    assert.deepEqual(await again.changes(0), { steps: [{ insert: "abc" }], rev });
    assert.deepEqual(await again.changes(rev), { steps: [], rev });
    await assert.rejects(again.changes(rev - 1), Stale);
    await again.insert(3, "d");
    assert.deepEqual((await again.changes(rev)).steps, [{ retain: 3 }, { insert: "d" }]);
    await session.close();
  }));

test("refusals say what they are about", () =>
  withText("abc", async (text) => {
    for (const since of [-1, 1.5, NaN, true, "1", null, undefined, [1], 2 ** 32]) {
      await assert.rejects(text.changes(since), { number: 4, message: /`since` has to be a whole number from 0 to 4294967295; mend/ }, String(since));
    }
    const asked = { op: "changes", doc: 1, since: 0, rev: 3 };
    await assert.rejects(text.session.send(asked), { number: 4, message: /`rev` is no field of this request/ });
  }));

test("another session follows, and after a lost connection it is stale", () =>
  withDaemon(async ({ port, kill }, file) => {
    const sessions = [await connect(port), await connect(port)];
    const [one, other] = sessions.map((session) => session.document(1));
    const first = await one.insert(0, "abc");
    // The numbers are the same ones, but this session was told none yet.
    await assert.rejects(other.changes(first), Stale);
    let { steps, rev } = await other.changes(0);
    let spans = applied([], steps);
    assert.deepEqual([spans, rev], [[{ text: "abc" }], first]);
    await one.mark(0, 2, EM);
    await one.delete(1, 1);
    ({ steps, rev } = await other.changes(rev));
    spans = applied(spans, steps);
    assert.deepEqual([steps[1], spans], [{ delete: 1 }, await one.spans()]);
    await kill();
    const daemon = await start(file, port);
    try {
      await assert.rejects(other.changes(rev), Stale);
      ({ steps } = await other.changes(0));
      assert.deepEqual(applied([], steps), spans);
      for (const session of sessions) await session.close();
    } finally {
      await daemon.kill();
    }
  }));

test("the example of the page is so", () =>
  withFile(async (file) => {
    const page = readFileSync(new URL("../README.md", import.meta.url), "utf8");
    const [[, code], ...more] = page.matchAll(/^```javascript\nimport \{ applied, init, open \} from "peritext";\n(.*?)^```$/gms);
    assert.equal(more.length, 0);
    const AsyncFunction = (async () => {}).constructor;
    const printed = [];
    const over = (call) => () => call(file, { program });
    await new AsyncFunction("applied", "init", "open", "console", code)(applied, over(init), over(open), { log: (spans) => printed.push(spans) });
    assert.deepEqual(printed, [[{ text: "The quick 🦊" }]]);
  }));
