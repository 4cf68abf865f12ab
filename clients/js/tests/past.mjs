// A document as it was, and its versions, over a store in memory, and over the real program if PERITEXT names one.

import assert from "node:assert/strict";
import { test } from "node:test";

import { Ended, STRONG, Session, Stale, init, open } from "peritext";

import { Store } from "./fake.mjs";
import { withFile } from "./support.mjs";

const { PERITEXT: program } = process.env;

/** A test over a store in memory, and over a file. */
function past(name, work) {
  test(`${name}: in memory`, async () => {
    const session = new Session(new Store().session());
    await work(session, "00000000-0000-4000-8000-000000000001");
    await session.close();
  });
  test(`${name}: in the program`, { skip: program === undefined }, () =>
    withFile(async (file) => {
      const replica = await init(file, { program });
      const session = await open(file, { program });
      await work(session, replica);
      await session.close();
    }));
}

past("a document is told as it was", async (session) => {
  const text = session.document(1);
  const kept = [{ rev: 0, spans: [] }];
  const edits = [
    () => text.insert(0, "The 🦊"),
    () => text.mark(0, 3, STRONG),
    () => text.insert(4, "quick "),
    () => text.delete(0, 4),
    () => text.insert(7, "!"),
  ];
  for (const edit of edits) {
    await edit();
    kept.push(await text.readSpans());
    await session.document(2).insert(0, "x");
  }
  for (const { rev, spans } of kept) {
    assert.deepEqual(await text.spans({ atRev: rev }), spans);
    assert.equal(await text.text({ atRev: rev }), spans.map((span) => span.text).join(""));
    assert.deepEqual(await text.readSpans({ atRev: rev }), { rev, spans });
  }
  assert.equal(await text.text({ atRev: 2 }), "Th");
  assert.deepEqual(await text.spans({ atRev: undefined }), kept.at(-1).spans);
});

past("what can't be told is refused", async (session) => {
  const text = session.document(1);
  const rev = await text.insert(0, "abc");
  for (const atRev of [rev + 1, 2 ** 32 - 1]) await assert.rejects(text.text({ atRev }), Stale);
  for (const atRev of [-1, 2 ** 32, 1.5, "1", null]) await assert.rejects(text.spans({ atRev }), { number: 4, message: /`at_rev` has to be a whole number from 0/ });
  for (const every of [0, 2 ** 32, "1", undefined]) await assert.rejects(text.versions(every), { number: 4, message: /`every` has to be a whole number from 1/ });
});

past("versions are of at most so many operations", async (session, replica) => {
  const text = session.document(1);
  assert.deepEqual(await text.versions(3), []);
  await text.insert(0, "The fox");
  for (const [every, counts] of [[1, Array(7).fill(1)], [3, [3, 3, 1]], [7, [7]], [2 ** 32 - 1, [7]]]) {
    let rev = 0;
    assert.deepEqual(await text.versions(every), counts.map((operations) => ({ rev: (rev += operations), replica, operations })));
  }
});

/** A document of which everything is answered so. */
function answering(told) {
  const session = new Session({
    send() {
      queueMicrotask(() => this.onLine(JSON.stringify(told)));
    },
    close() {},
  });
  return session.document(1);
}

function isNone(name) {
  return (error) => error instanceof Ended && error.message.includes(`an answer came without a right \`${name}\``);
}

test("what is of another moment is no answer", async () => {
  assert.equal(await answering({ ok: true, rev: 3, text: "abc" }).text({ atRev: 3 }), "abc");
  for (const rev of [4, 0, undefined, "3"]) {
    await assert.rejects(answering({ ok: true, rev, text: "abc" }).text({ atRev: 3 }), isNone("rev"));
    await assert.rejects(answering({ ok: true, rev, spans: [] }).spans({ atRev: 3 }), isNone("rev"));
  }
});

test("a version has its fields, and they add up", async () => {
  const [first, second] = [{ ops: 3, replica: "one", rev: 3 }, { ops: 2, replica: "other", rev: 5 }];
  assert.equal((await answering({ ok: true, rev: 5, versions: [first, second] }).versions(3)).length, 2);
  const fields = [["ops", 0], ["ops", "3"], ["rev", undefined], ["replica", 7], ["replica", null]].map(([name, value]) => [{ ...first, [name]: value }]);
  const sums = [[second], [second, first], [first, { ...second, rev: 6 }], [{ ops: 4, replica: "one", rev: 4 }]];
  for (const versions of [...fields, ...sums, null, first, undefined]) {
    await assert.rejects(answering({ ok: true, rev: 5, versions }).versions(3), isNone("versions"));
  }
});

test("an earlier program is named", async () => {
  await assert.rejects(answering({ code: 3, error: "request", ok: false }).versions(3), { number: 3, message: /an older program knows no `versions`/ });
  await assert.rejects(answering({ code: 4, error: "field", ok: false }).text({ atRev: 3 }), { number: 4, message: /an older program knows no `at_rev`/ });
});
