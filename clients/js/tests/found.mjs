// What is asked of a text or a file without reading all of it, over a store in memory, and over the real program if PERITEXT names one that knows it.

import assert from "node:assert/strict";
import { readFileSync } from "node:fs";
import { test } from "node:test";

import { Ended, Refused, STRONG, Session, Stale, init, open } from "peritext";

import { Store } from "./fake.mjs";
import { withFile } from "./support.mjs";

const { PERITEXT: program } = process.env;
const REQUESTS = [{ op: "find", doc: 1, text: "a" }, { op: "export", doc: 1, to: "text" }];

async function inMemory(work) {
  const session = new Session(new Store().session());
  await work(session);
  await session.close();
}

function inProgram(work, context) {
  return withFile(async (file) => {
    await init(file, { program });
    const session = await open(file, { program });
    const unknown = (await Promise.all(REQUESTS.map((request) => session.send(request).then(() => undefined, (error) => error)))).find((error) => error !== undefined);
    if (unknown === undefined) await work(session, file);
    await session.close();
    if (unknown !== undefined && !(unknown instanceof Refused && unknown.number === 3)) throw unknown;
    if (unknown !== undefined) context.skip(unknown.message);
  });
}

/** A test over each of them. */
function asked(name, work) {
  test(`${name}: in memory`, () => inMemory(work));
  test(`${name}: in the program`, { skip: program === undefined }, (context) => inProgram(work, context));
}

asked("all places of a text are found", async (session) => {
  const text = session.document(1);
  const rev = await text.insert(0, "aaa 🦊 aaa");
  assert.deepEqual(await text.find("aa"), { places: [0, 1, 6, 7], rev });
  assert.deepEqual(await text.find("🦊"), { places: [4], rev });
  for (const [from, places] of [[1, [1, 6, 7]], [8, []], [1_000, []]]) {
    assert.deepEqual((await text.find("aa", from)).places, places);
    assert.deepEqual((await text.find("aa", { from })).places, places);
  }
  assert.deepEqual(await text.find("A"), { places: [], rev });
  assert.deepEqual((await text.find(" 🦊 ")).places, [3]);
  assert.deepEqual(await session.document(2).find("aa"), { places: [], rev: 0 });
  // They are what an edit takes.
  await text.insert((await text.find("🦊")).places[0], "x", rev);
  assert.equal(await text.text(), "aaa x🦊 aaa");
  await assert.rejects(text.insert(0, "x", rev), Stale);
});

asked("a reading counts as strings do, and finds the same", async (session) => {
  const text = session.document(1);
  await text.insert(0, "🦊a🦊🦊a");
  const reading = await text.read();
  assert.deepEqual(reading.find("🦊"), [0, 3, 5]);
  assert.deepEqual(reading.find("🦊🦊", 1), [3]);
  assert.deepEqual(reading.find("a", 3), [7]);
  // Half a character stands nowhere.
  for (const half of ["\ud83e", "\udd8a", "\udd8aa"]) assert.deepEqual(reading.find(half), []);
  assert.throws(() => reading.find(""), RangeError);
  assert.equal((await reading.insert(reading.find("a")[1], "x")).text, "🦊a🦊🦊xa");
});

asked("more than one answer tells are found all", async (session) => {
  const text = session.document(1);
  // The last count is that of two full answers.
  for (const [count, more] of [[1_023, 1_023], [1_024, 1], [1_025, 1], [2_048, 1_023]]) {
    await text.insert(0, "a".repeat(more));
    const wanted = [...Array(count).keys()];
    assert.deepEqual((await text.find("a")).places, wanted);
    assert.deepEqual((await text.find("a", 7)).places, wanted.slice(7));
  }
});

asked("a refusal says which field is wrong", async (session) => {
  const text = session.document(1);
  assert.deepEqual((await text.find("🦊".repeat(256))).places, []);
  for (const wrong of ["", "x".repeat(257)]) await assert.rejects(text.find(wrong), { name: "Refused", message: /`text` has to be a text of 1 to 256 characters/ });
  for (const from of [-1, 1.5, "1"]) await assert.rejects(text.find("a", { from }), { number: 4, message: /`from` has to be a whole number/ });
  await assert.rejects(text.export("pdf"), { number: 4, message: /`to` has to be text, markdown or html/ });
});

test("the example of the page is so", { skip: program === undefined }, (context) =>
  inProgram(async (_, file) => {
    const page = readFileSync(new URL("../README.md", import.meta.url), "utf8");
    const [[, code], ...more] = page.matchAll(/^```javascript\nimport \{ STRONG, init, open \} from "peritext";\n\nawait init\("searched"\);\n(.*?)^```$/gms);
    assert.equal(more.length, 0);
    const AsyncFunction = (async () => {}).constructor;
    const printed = [];
    await init(`${file}-searched`, { program });
    const over = () => open(`${file}-searched`, { program });
    await new AsyncFunction("STRONG", "open", "console", code)(STRONG, over, { log: (words) => printed.push(words.trim()) });
    assert.deepEqual(printed, ["The **quick** red 🦊"]);
  }, context));

asked("a page in each form", async (session) => {
  const text = session.document(1);
  await text.insert(0, "The fox");
  for (const form of ["text", "markdown", "html"]) assert.match(await text.export(form), /The fox/);
  assert.match(await text.export("html"), /</);
  assert.doesNotMatch(await text.export("text"), /</);
});

asked("a page has paragraphs or breaks", async (session) => {
  const text = session.document(1);
  await text.insert(0, "a\nb");
  for (const options of [undefined, {}, { breaks: false }, { breaks: undefined }]) {
    assert.match(await text.export("html", options), /a\n<\/p><p>b/);
    assert.match(await text.export("markdown", options), /a\n\nb/);
  }
  assert.match(await text.export("html", { breaks: true }), /a\nb/);
  assert.match(await text.export("markdown", { breaks: true }), /a\\\nb/);
  assert.equal(await text.export("text", { breaks: true }), await text.export("text"));
  for (const breaks of ["yes", 1, null]) await assert.rejects(text.export("html", { breaks }), { number: 4, message: /`breaks` has to be true or false/ });
});

test("an earlier program is named", async () => {
  for (const request of REQUESTS) {
    const session = new Session({
      send() {
        queueMicrotask(() => this.onLine('{"code":3,"error":"request","ok":false}'));
      },
      close() {},
    });
    await assert.rejects(session.send(request), { number: 3, message: new RegExp(`an older program knows no \`${request.op}\``) });
  }
});

/** A store that is edited before it answers the searches of these numbers, and how many were asked. */
function editedBefore(isEdited) {
  const store = new Store();
  const asked = [];
  const { answer } = store;
  store.answer = (line) => {
    const request = JSON.parse(line);
    if (request.op === "find") asked.push(request.from);
    if (request.op === "find" && isEdited(asked.length)) answer.call(store, '{"op":"insert","doc":1,"at":0,"text":"a"}');
    return answer.call(store, line);
  };
  return { store, asked, session: new Session(store.session()) };
}

test("what is edited meanwhile is looked for anew", async () => {
  const { session, asked } = editedBefore((number) => number === 2 || number === 5);
  const text = session.document(1);
  await text.insert(0, "a".repeat(3_000));
  assert.deepEqual(await text.find("a"), { places: [...Array(3_002).keys()], rev: 3_002 });
  assert.deepEqual(asked.slice(0, 3), [0, 1_024, 0]);
});

test("what is edited each time is stale", async () => {
  const { session, asked } = editedBefore(() => true);
  await session.document(1).insert(0, "a".repeat(1_024));
  await assert.rejects(session.document(1).find("a"), Stale);
  assert.equal(asked.length, 16);
});

test("an answer whose places don't rise is none", async () => {
  for (const places of [[2, 1], [1, 1], [0], [1, null], [-1], "1", undefined]) {
    const session = new Session({
      send() {
        queueMicrotask(() => this.onLine(JSON.stringify({ ok: true, rev: 4, places })));
      },
      close() {},
    });
    const isTold = (error) => error instanceof Ended && error.message.includes("an answer came without a right `places`");
    await assert.rejects(session.document(1).find("a", 1), isTold);
  }
});

test("a search that is aborted asks no more", async () => {
  const store = new Store();
  const controller = new AbortController();
  const transport = store.session();
  const text = new Session(transport).document(1);
  await text.insert(0, "a".repeat(3_000));
  const before = transport.answered;
  transport.held = true;
  const finding = text.find("a", { signal: controller.signal });
  transport.pass(1);
  controller.abort(new Error("given up"));
  await assert.rejects(finding, { message: "given up" });
  transport.release();
  await new Promise((done) => setTimeout(done, 20));
  assert.equal(transport.answered, before + 1);
});
