// The client without the real program: places, readings, sessions over a transport, a child process.

import assert from "node:assert/strict";
import { test } from "node:test";

import { EM, Ended, Refused, STRONG, Session, Stale, comment, init, link, open, toIndex, toPlace } from "peritext";

import { Store } from "./fake.mjs";
import { MODEL, withFile } from "./support.mjs";

const COMMENT = "00000000-0000-0000-0000-000000000007";

test("places count characters and indexes count units", () => {
  const text = "a😀b";
  assert.deepEqual([0, 1, 3, 4].map((index) => toPlace(text, index)), [0, 1, 2, 3]);
  assert.deepEqual([0, 1, 2, 3].map((place) => toIndex(text, place)), [0, 1, 3, 4]);
  for (const index of [-1, 2, 5, 0.5]) assert.throws(() => toPlace(text, index), RangeError);
  for (const place of [-1, 4, 0.5]) assert.throws(() => toIndex(text, place), RangeError);
});

test("a reading's edits are counted in units and follow each other", async () => {
  const document = new Session(new Store().session()).document(1);
  await document.insert(0, "a😀b😀c");
  let reading = await document.read();
  reading = await reading.insert(reading.text.indexOf("b"), "😀😀");
  assert.equal(reading.text, "a😀😀😀b😀c");
  reading = await reading.delete(1, 5);
  reading = await reading.mark(reading.text.indexOf("b"), reading.text.length, EM);
  reading = await reading.unmark(4, 6, EM);
  assert.equal(await document.text(), reading.text);
  assert.equal(await document.rev(), reading.rev);
  assert.deepEqual(await document.spans(), [{ text: "a😀" }, { text: "b", em: true }, { text: "😀" }, { text: "c", em: true }]);
  await assert.rejects(reading.insert(2, "x"), RangeError);
});

/** A document over a store, and the requests that are sent to it. */
function documentOver(store = new Store()) {
  const transport = store.session();
  const sent = [];
  const { send } = transport;
  transport.send = (line) => {
    sent.push(JSON.parse(line));
    send.call(transport, line);
  };
  return { document: new Session(transport).document(1), sent };
}

test("a long text goes in one line, and a long stretch as several edits", async () => {
  const { document, sent } = documentOver();
  const long = "a😀".repeat(400);
  assert.equal(await document.insert(0, "()"), 2);
  assert.equal(await document.insert(1, long, 2), 802);
  assert.equal(await document.text(), `(${long})`);
  assert.deepEqual([sent[1].op, sent[1].rev, sent[1].edits.map(({ at }) => at)], ["edits", 2, [1, 257, 513, 769]]);
  assert.equal(await document.delete(1, 800), 1602);
  assert.deepEqual(sent.slice(3).map(({ at, count, rev }) => [at, count, rev]), [[545, 256, undefined], [289, 256, 1058], [33, 256, 1314], [1, 32, 1570]]);
  assert.equal(await document.text(), "()");
  let reading = await document.read();
  reading = await reading.insert(1, long);
  assert.deepEqual([reading.text, reading.rev], [`(${long})`, 2402]);
  reading = await reading.delete(1, 1 + long.length);
  assert.deepEqual([reading.text, reading.rev], ["()", 3202]);
  assert.equal(await document.text(), "()");
});

test("what can't be made whole is refused whole", async () => {
  const { document } = documentOver();
  const rev = await document.insert(0, "x".repeat(590));
  await assert.rejects(document.delete(0, 600), { number: 5 });
  await assert.rejects(document.delete(-10, 600), { number: 4 });
  await assert.rejects(document.delete(0.5, 300), { number: 4 });
  await assert.rejects(document.insert(591, "x".repeat(600)), { number: 5 });
  await assert.rejects(document.insert(-1, "x".repeat(600)), { number: 4 });
  await assert.rejects(document.insert(0, `${"x".repeat(300)}\ud800`), { number: 2 });
  await assert.rejects(document.insert(0, `${"x".repeat(255)}\ude00`), { number: 2 });
  await assert.rejects(document.insert(0, ""), { number: 4 });
  assert.deepEqual([await document.text(), await document.rev()], ["x".repeat(590), rev]);
});

test("an edit in the middle of a long call makes it stale", async () => {
  const { document } = documentOver();
  // In one line nothing comes between.
  const whole = document.insert(0, "x".repeat(300));
  const other = document.insert(0, "y");
  assert.deepEqual(await Promise.all([whole, other]), [300, 301]);
  const long = document.insert(0, "\0".repeat(12_000));
  const another = document.insert(0, "z");
  await assert.rejects(long, Stale);
  const text = await document.text();
  assert(text.startsWith("z\0") && text.endsWith("\0yx".padEnd(302, "x")) && text.length < 12_000);
  assert.equal(await another, text.length);
  const stretch = document.delete(0, 257);
  await document.insert(0, "w");
  await assert.rejects(stretch, Stale);
  assert.equal(await document.text(), `wz${text.slice(257)}`);
});

const TOKEN = "00000000-0000-4000-8000-0000000000d1";

test("the tokens of a long call follow from the one that is given", async () => {
  const calls = [
    [(document) => document.delete(0, 300, undefined, TOKEN), "aea89127-c0ba-58bc-b97e-f85132f6a51d"],
    [(document) => document.action(Array(1_025).fill({ op: "delete", at: 0, count: 1 }), undefined, TOKEN, { parted: true }), "3be52f26-e60d-5fce-bb82-c74c5fc921d3"],
  ];
  for (const [call, token] of calls) {
    const { document, sent } = documentOver();
    await document.insert(0, "x".repeat(1_025));
    const rev = await call(document);
    assert.deepEqual(sent.slice(-2).map((request) => request.token), [TOKEN, token]);
    // The whole call may be sent again, and makes nothing then.
    assert.equal(await call(document), rev);
    assert.equal(await document.rev(), rev);
  }
});

test("without digests a call of several lines with a token is refused", async (context) => {
  context.mock.getter(crypto, "subtle", () => undefined);
  const { document, sent } = documentOver();
  const long = "\0".repeat(12_000);
  const fault = { name: "TypeError", message: /only over HTTPS or from localhost/ };
  await assert.rejects(document.insert(0, long, undefined, TOKEN), fault);
  await assert.rejects(document.delete(0, 257, undefined, TOKEN), fault);
  assert.deepEqual(sent, []);
  assert.equal(await document.insert(0, "x".repeat(300), undefined, TOKEN), 300);
  assert.equal(await document.insert(0, long), 12_300);
});

test("a reading of a text that has moved on is stale", async () => {
  const document = new Session(new Store().session()).document(1);
  const reading = await document.read();
  await document.insert(0, "x");
  await assert.rejects(reading.insert(0, "y"), Stale);
});

test("each kind of mark is given and taken away", async () => {
  const document = new Session(new Store().session()).document(1);
  await document.insert(0, "abc");
  for (const mark of [STRONG, EM, link("u"), comment(COMMENT)]) await document.mark(0, 3, mark);
  for (const mark of [STRONG, EM, link(), comment(COMMENT)]) await document.unmark(2, 3, mark);
  assert.deepEqual(await document.spans(), [
    { comments: [COMMENT], em: true, link: "u", strong: true, text: "ab" },
    { text: "c" },
  ]);
});

test("a refusal has its number and word", async () => {
  const document = new Session(new Store().session()).document(1);
  await assert.rejects(document.insert(1, "x"), { name: "Refused", number: 5, word: "range", message: /^5 range: .*read it anew$/ });
  await assert.rejects(document.insert(0, "\ud800"), { number: 2 });
  assert.equal(new Refused(99, "odd").message, "99 odd");
  await document.insert(0, "a");
  await assert.rejects(document.insert(0, "b", 0), { name: "Stale", number: 6 });
  await document.insert(0, "c");
});

test("a refusal says what it is about", async () => {
  const session = new Session(new Store().session());
  const whole = "has to be a whole number from";
  const words = (fields) => session.send(fields).then(assert.fail, ({ message }) => message);
  for (const [fields, about] of [
    [{ doc: 0, at: 0, text: "a" }, `\`doc\` ${whole} 1 to 4294967295; mend`],
    [{ doc: 1, at: -1, text: "" }, `\`at\` ${whole} 0 to 4294967295, or a place that lasts, \`text\` has to be a text of at least one character; mend`],
    [{ doc: 1, at: 0 }, "`text` has to be"],
    [{ doc: 1, at: 0, text: "a", token: "00000000-0000-0000-0000-000000000000" }, "`token` has to be a UUID other than the nil one"],
    [{ doc: 1, at: undefined, text: "a", kind: "em" }, `\`at\` ${whole} 0 to 4294967295, or a place that lasts, \`kind\` is no field of this request`],
  ]) {
    const message = await words({ op: "insert", ...fields });
    assert(message.startsWith(`4 field: ${about}`), message);
  }
  await session.document(1).insert(0, "x");
  assert.match(await words({ op: "insert", doc: 1, at: 0, text: "x".repeat(257) }), /^7 limit: at most 256 characters in one edit; send it in parts$/);
  const edit = { op: "delete", doc: 1, at: 0, count: 1, token: COMMENT };
  assert.match(new Refused(7, "limit", edit).message, /^7 limit: the file has all the operations, records, documents or replicas that it may have/);
  assert.match(new Refused(4, "field", edit).message, /an older program knows no `token`/);
  assert.match(new Refused(4, "field", { op: "mark", doc: 1, from: 0, to: 1, ...link("") }).message, /`url` has to be a text of 1 to 1024 bytes; mend/);
});

const UNKNOWN = "00000000-0000-4000-8000-0000000000ff";

test("a refusal of places that last says what it is about", () => {
  const words = (fields) => new Refused(4, "field", { doc: 1, ...fields }).message;
  const numbers = "4 field: `at` has to be a list of 1 to 256 whole numbers from 0 to 4294967295; mend what wrote it";
  const names = "4 field: `anchors` has to be a list of 1 to 256 places that last, each a text as the request `anchors` gives it; mend what wrote it";
  const sides = "4 field: `side` has to be previous or next; mend what wrote it";
  for (const at of [[], Array(257).fill(0), 0, "0", null, [-1], [1.5], [true], ["1"], [null], [2 ** 32]]) {
    assert.equal(words({ op: "anchors", at, side: "next" }), numbers, String(at));
  }
  for (const side of ["left", "", null, undefined]) assert.equal(words({ op: "anchors", at: [0], side }), sides);
  for (const anchors of [[], Array(257).fill("end"), "end", null, undefined]) assert.equal(words({ op: "places", anchors }), names);
  for (const counter of ["", "0", "01", "+1", 2 ** 48]) assert.equal(words({ op: "places", anchors: ["start", `a${counter}@${UNKNOWN}`] }), names);
  for (const replica of ["", "00000000-0000-0000-0000-000000000000", UNKNOWN.replaceAll("-", ""), `{${UNKNOWN}}`, `${UNKNOWN}\n`]) {
    assert.equal(words({ op: "places", anchors: [`b1@${replica}`, "end"] }), names, replica);
  }
  for (const anchor of ["", "START", "a1", `A1@${UNKNOWN}`, `c1@${UNKNOWN}`, `1@${UNKNOWN}`, ` a1@${UNKNOWN}`, 7, null]) {
    assert.equal(words({ op: "places", anchors: [anchor] }), names, String(anchor));
  }
  for (const anchor of ["start", "end", `a1@${UNKNOWN}`, `b${2 ** 48 - 1}@${UNKNOWN.toUpperCase()}`]) {
    assert.match(words({ op: "places", anchors: Array(256).fill(anchor) }), /^4 field: a value breaks its rule/);
  }
  // At an edit it is one place.
  assert.match(words({ op: "insert", at: [0], text: "x" }), /^4 field: `at` has to be a whole number from 0 to 4294967295, or a place that lasts; mend/);
});

/** A document whose answers have these revs, one after the other, and the requests for it. In place of null the transport ends. */
function documentAt(revs) {
  const sent = [];
  const left = [...revs];
  const over = () => {
    const lines = [];
    const transport = { send: (line) => lines.push(line) && setImmediate(answer), close() {} };
    const answer = () => {
      if (lines.length === 0) return;
      const { anchors } = JSON.parse(lines.shift());
      const rev = left.shift();
      if (rev === null) return lines.splice(0) && transport.onEnd();
      sent.push(anchors.length);
      transport.onLine(JSON.stringify({ ok: true, rev, places: anchors.map(() => rev) }));
    };
    return transport;
  };
  return { document: new Session(over(), { again: async () => over() }).document(1), sent };
}

test("places of several requests are all of one rev", async () => {
  const many = Array(300).fill("end");
  const moving = documentAt([5, 6, 6, 7, 7, 7]);
  assert.deepEqual(await moving.document.places(many), Array(300).fill(7));
  assert.deepEqual(moving.sent, [256, 44, 256, 44, 256, 44]);
  const restless = documentAt([...Array(100).keys()]);
  await assert.rejects(restless.document.places(many), Stale);
  assert.equal(restless.sent.length, 16);
  const read = documentAt([5, 5, 6]);
  await assert.rejects(read.document.places(["end"], 5), Stale);
  assert.equal(await read.document.place("end"), 5);
  await assert.rejects(read.document.places(many, 5), Stale);
  assert.equal(read.sent.length, 3);
  assert.deepEqual(await documentAt([]).document.places([]), []);
  // Over another connection the same number is another one.
  const parted = documentAt([5, null, 5, 6, 6]);
  assert.deepEqual(await parted.document.places(many), Array(300).fill(6));
  assert.deepEqual(parted.sent, [256, 44, 256, 44]);
  const lost = documentAt([5, null, 5, 5, 5]);
  await lost.document.place("end");
  await assert.rejects(lost.document.place("end", 5), Stale);
  assert.deepEqual([await lost.document.place("end"), await lost.document.place("end", 5)], [5, 5]);
});

test("requests under way are answered in order", async () => {
  const document = new Session(new Store().session()).document(1);
  const under_way = [...Array(500).keys()].map((place) => document.insert(place, "x"));
  assert.deepEqual(await Promise.all(under_way), [...Array(500).keys()].map((place) => place + 1));
});

test("a session that ends tells all that wait", async () => {
  const transport = new Store().session();
  transport.held = true;
  const session = new Session(transport);
  const left = session.document(1).insert(0, "x");
  transport.onEnd();
  await assert.rejects(left, Ended);
  await assert.rejects(session.send({ op: "status" }), Ended);
});

test("closing waits for what was sent", async () => {
  const session = new Session(new Store().session());
  const sent = session.document(1).insert(0, "x");
  await session.close();
  assert.equal(await sent, 1);
  await assert.rejects(session.document(1).text(), Ended);
});

test("an answer that is none ends the session", async () => {
  for (const line of ["", "null", "{", '{"rev":1}']) {
    const transport = new Store().session();
    transport.held = true;
    const left = new Session(transport).document(1).text();
    transport.onLine(line);
    await assert.rejects(left, Ended);
  }
});

test("a file is made, opened and closed", () =>
  withFile(async (file) => {
    assert.match(await init(file, { program: MODEL }), /^[0-9a-f-]{36}$/);
    const session = await open(file, { program: MODEL });
    const document = session.document(1);
    // Only LF ends a line, and a character may come in two parts.
    const text = "ä😀\n\"\\ü\r\u2028\u2029".repeat(20);
    await Promise.all([...Array(50).keys()].map(() => document.insert(0, text)));
    assert.equal(await document.text(), text.repeat(50));
    assert.equal(await session.settled(), true);
    await session.close();
    await assert.rejects(document.text(), Ended);
  }));

test("a program that refuses says why", () =>
  withFile(async (file) => {
    await assert.rejects(open(file, { program: MODEL }), { name: "Refused", number: 54, word: "open failed" });
    await init(file, { program: MODEL });
    await assert.rejects(init(file, { program: MODEL }), { number: 48, word: "not empty" });
  }));

test("a program that isn't there is no session", () =>
  withFile(async (file) => {
    await assert.rejects(init(file, { program: `${file}-program` }), Ended);
    await assert.rejects(open(file, { program: `${file}-program` }), Ended);
    await assert.rejects(open(file, { program: process.execPath }), (error) => error instanceof Ended && !(error instanceof Refused));
  }));
