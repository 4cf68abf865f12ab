// What is counted of a file, over a store in memory, and over the real program if PERITEXT names one.

import assert from "node:assert/strict";
import { execFileSync } from "node:child_process";
import { test } from "node:test";

import { Ended, STRONG, Session, connect, init, open } from "peritext";

import { Store } from "./fake.mjs";
import { withDaemon } from "./served.mjs";
import { withFile } from "./support.mjs";

const { PERITEXT: program } = process.env;
const skip = program === undefined;
const LIMITS = { bytesLimit: 2 ** 30, documentsLimit: 1_024, operationsLimit: 2 ** 24, replicasLimit: 16, stepsLimit: 2 ** 20 };
const NOTHING = { bytes: 0, documents: 0, operations: 0, replicas: 0, steps: 0, ...LIMITS };
const ROW = { chars: 3, doc: 3, ops: 7, writers: ["0f5d2c4e-9a1b-4c3d-8e7f-112233445566"] };
const ROOM = { bytes: 614, documents: 2, operations: 8, replicas: 1, steps: 6, bytes_limit: 7, documents_limit: 7, operations_limit: 9, replicas_limit: 7, steps_limit: 7 };

/** A test over a store in memory, over a file, and over a daemon. */
function counted(name, work) {
  test(`${name}: in memory`, async () => {
    const session = new Session(new Store().session());
    await work(session, "00000000-0000-4000-8000-000000000001");
    await session.close();
  });
  test(`${name}: in the program`, { skip }, () =>
    withFile(async (file) => {
      const replica = await init(file, { program });
      const session = await open(file, { program });
      await work(session, replica);
      await session.close();
    }));
  test(`${name}: at a daemon`, { skip }, () =>
    withDaemon(async ({ port }) => {
      const session = await connect(port);
      await work(session);
      await session.close();
    }));
}

counted("a file without operations", async (session) => {
  assert.deepEqual(await session.documents(), []);
  assert.deepEqual(await session.room(), NOTHING);
});

counted("each document has a row", async (session, replica) => {
  const [two, nine, last] = [2, 9, 4_294_967_295].map((number) => session.document(number));
  await nine.insert(0, "🦊");
  await two.insert(0, "The fox");
  await last.insert(0, "x");
  await two.mark(0, 3, STRONG);
  await two.delete(3, 4);
  await last.delete(0, 1);
  // Those that were only looked at have none.
  await session.document(5).text();
  const rows = await session.documents();
  const writers = [replica ?? rows[0].writers[0]];
  assert.deepEqual(rows, [
    { number: 2, characters: 3, operations: 12, writers },
    { number: 9, characters: 1, operations: 1, writers },
    { number: 4_294_967_295, characters: 0, operations: 2, writers },
  ]);
  for (const { number, operations } of rows) assert.equal((await session.document(number).read()).rev, operations);
});

counted("the room is what the documents have", async (session) => {
  await session.document(1).insert(0, "abc");
  const first = await session.room();
  await session.document(7).insert(0, "de");
  const [room, rows] = [await session.room(), await session.documents()];
  const operations = rows.reduce((sum, row) => sum + row.operations, 0);
  const { bytes, steps, ...others } = room;
  assert.deepEqual(others, { documents: rows.length, operations, replicas: 1, ...LIMITS });
  assert(bytes > first.bytes && steps > first.steps);
});

counted("other fields are refused", async (session) => {
  for (const op of ["documents", "room"]) await assert.rejects(session.send({ op, doc: 1 }), { number: 4, message: /`doc` is no field of this request/ });
});

test("it is what the list says", { skip }, () =>
  withFile(async (file) => {
    await init(file, { program });
    const session = await open(file, { program });
    await session.document(3).insert(0, "abcd");
    await session.document(3).delete(1, 2);
    const [[row], room] = [await session.documents(), await session.room()];
    await session.close();
    const listed = execFileSync(program, ["list", file], { encoding: "utf8" }).trim().split("\n").map((line) => JSON.parse(line));
    assert.deepEqual(listed[0], { chars: row.characters, doc: row.number, ok: true, ops: row.operations });
    const { bytes, documents, operations, replicas } = room;
    const { bytesLimit: bytes_limit, documentsLimit: documents_limit, operationsLimit: operations_limit, replicasLimit: replicas_limit } = room;
    assert.deepEqual(listed.slice(1), [{ bytes, bytes_limit, documents, documents_limit, ok: true, operations, operations_limit, replicas, replicas_limit }]);
    const again = await open(file, { program });
    assert.deepEqual([await again.documents(), (await again.room()).steps], [[row], 0]);
    await again.close();
  }));

/** A session to which everything is answered so. */
function answering(told) {
  return new Session({
    send() {
      queueMicrotask(() => this.onLine(JSON.stringify(told)));
    },
    close() {},
  });
}

function isNone(name) {
  return (error) => error instanceof Ended && error.message.includes(`an answer came without a right \`${name}\``);
}

test("a row has its fields, and the numbers rise", async () => {
  const two = [ROW, { ...ROW, doc: 4 }];
  assert.equal((await answering({ ok: true, documents: two }).documents()).length, 2);
  const fields = [["chars", -1], ["doc", 0], ["ops", 0], ["ops", "7"], ["writers", [7]], ["writers", null]];
  const lacking = Object.keys(ROW).map((name) => [name, undefined]);
  const rows = [...fields, ...lacking].map(([name, value]) => [{ ...ROW, [name]: value }]);
  for (const documents of [...rows, [...two].reverse(), [ROW, ROW], ROW, null, 2, [[3]]]) {
    await assert.rejects(answering({ ok: true, documents }).documents(), isNone("documents"));
  }
});

test("a room has each number and its limit", async () => {
  assert.equal((await answering({ ok: true, ...ROOM }).room()).operationsLimit, 9);
  for (const name of Object.keys(ROOM)) {
    for (const value of [undefined, -1, "3", true, 1.5]) await assert.rejects(answering({ ok: true, ...ROOM, [name]: value }).room(), isNone(name));
  }
});

test("an earlier program is named", async () => {
  for (const name of ["documents", "room"]) {
    const session = answering({ code: 3, error: "request", ok: false });
    await assert.rejects(session[name](), { number: 3, message: new RegExp(`an older program knows no \`${name}\``) });
  }
});
