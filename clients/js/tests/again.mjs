// Edits whose answers were lost: each is made once, at the file that it was made for, and at no other one.

import assert from "node:assert/strict";
import { test } from "node:test";

import { Ended, STRONG, Session, Stale, connect } from "peritext";

import { Store } from "./fake.mjs";
import { lasting, part } from "./lasting.mjs";
import { asked, pause, soon, withTalk } from "./talk.mjs";

const NEVER = 2 ** 32 - 1;
const TOKEN = "00000000-0000-4000-8000-0000000000d1";
/** Milliseconds for which a daemon is looked for, where it is in vain. */
const SHORT = 300;

/**
 * Runs a test over a daemon of stores. It makes what is asked of `over.store`, and where `over.loses` says so of a line, it
 * ends the connection in place of the answer. `over.sent` has the lines that it read.
 */
function withStores(work) {
  const over = { store: new Store(), sent: [], loses: () => false };
  const talk = async (socket, lines) => {
    for await (const line of { [Symbol.asyncIterator]: () => lines }) {
      over.sent.push(JSON.parse(line));
      const answer = over.store.answer(line);
      if (over.loses(JSON.parse(line))) return;
      socket.write(`${answer}\n`);
    }
  };
  return withTalk(talk, (port) => work(port, over));
}

/** Says so of the lines of these numbers, from 0 on. */
function numbered(...numbers) {
  let count = 0;
  return () => numbers.includes(count++);
}

test("an edit that was made is answered as at first, and is there once", () =>
  withStores(async (port, over) => {
    const session = await connect(port);
    const document = session.document(1);
    over.loses = numbered(1);
    assert.equal(await document.insert(0, "a"), 1);
    assert.equal(await soon(document.insert(1, "b")), 2);
    assert.equal(await document.text(), "ab");
    // An edit that was answered is asked for first, and makes nothing.
    const [first, lost, probe, again] = over.sent;
    assert.deepEqual(probe, { ...first, rev: NEVER });
    assert.deepEqual(again, lost);
    assert.notEqual(first.token, lost.token);
    await session.close();
  }));

test("all that is under way is made once, in its order, and before anything else", () =>
  withStores(async (port, over) => {
    const session = await connect(port);
    const document = session.document(1);
    const letters = [...Array(300).keys()].map((number) => String.fromCodePoint(0x4e00 + number));
    over.loses = numbered(0, 40, 41, 170, 500);
    const answers = letters.map((letter, place) => document.insert(place, letter));
    assert.deepEqual(await soon(Promise.all(answers)), letters.map((_, place) => place + 1));
    assert.equal(await document.text(), letters.join(""));
    await session.close();
  }));

test("a long text and a long stretch go on over lost connections, and are made once", () =>
  withStores(async (port, over) => {
    const session = await connect(port);
    const document = session.document(1);
    const long = [...Array(1_000).keys()].map((number) => String.fromCodePoint(0x1f300 + number)).join("");
    over.loses = numbered(1, 3, 4, 9);
    assert.equal(await soon(document.insert(0, long)), 1_000);
    assert.equal(await document.text(), long);
    over.loses = numbered(0, 2, 5);
    assert.equal(await soon(document.delete(100, 800)), 1_800);
    assert.equal(await document.text(), toText(long, 0, 100) + toText(long, 900, 1_000));
    await session.close();
  }));

function toText(long, from, to) {
  return [...long].slice(from, to).join("");
}

test("readings that were lost are asked for again", () =>
  withStores(async (port, over) => {
    const session = await connect(port);
    over.loses = numbered(0, 1);
    const [text, edit, spans] = [session.document(1).text(), session.document(1).insert(0, "x"), session.document(1).spans()];
    assert.deepEqual(await soon(Promise.all([text, edit, spans])), ["", 1, [{ text: "x" }]]);
    await session.close();
  }));

test("an edit that named a rev is answered if it was made, and else is stale", () =>
  withStores(async (port, over) => {
    const session = await connect(port);
    const document = session.document(1);
    let reading = await document.read();
    over.loses = numbered(0);
    reading = await soon(reading.insert(0, "a"));
    assert.deepEqual([reading.rev, over.sent.at(-1).rev], [1, NEVER]);
    // The number that it was answered may be older than what is there.
    await assert.rejects(reading.insert(1, "b"), Stale);
    reading = await document.read();
    // This one isn't made before the connection ends.
    const { store } = over;
    over.store = { answer: () => {} };
    over.loses = () => {
      over.store = store;
      over.loses = () => false;
      return true;
    };
    await assert.rejects(soon(reading.insert(1, "b")), Stale);
    assert.equal(await document.text(), "a");
    await session.close();
  }));

test("nothing is sent to the daemon of another file", () =>
  withStores(async (port, over) => {
    const session = await connect(port);
    await session.document(1).insert(0, "a");
    const other = new Store();
    over.loses = () => {
      over.store = other;
      over.loses = () => false;
      return true;
    };
    const lost = session.document(1).insert(1, "b");
    await assert.rejects(soon(lost), { name: "Ended", message: /another file is served there now/ });
    const [made, , ...more] = over.sent;
    assert.deepEqual(more, [{ ...made, rev: NEVER }]);
    assert.equal(JSON.parse(other.answer('{"op":"text","doc":1}')).text, "");
    await assert.rejects(session.document(1).text(), Ended);
    await soon(session.close());
  }));

test("without retry nothing is sent twice, and edits have no token", () =>
  withStores(async (port, over) => {
    const session = await connect(port, { retry: null });
    over.loses = numbered(0);
    await assert.rejects(soon(session.document(1).insert(0, "a")), Ended);
    assert.deepEqual(over.sent, [{ op: "insert", doc: 1, at: 0, text: "a" }]);
    await soon(session.close());
  }));

test("a token that the caller gives is kept", () =>
  withStores(async (port, over) => {
    const session = await connect(port);
    assert.equal(await session.document(1).insert(0, "a", undefined, TOKEN), 1);
    await session.close();
    const other = await connect(port, { retry: null });
    assert.equal(await other.document(1).insert(0, "a", undefined, TOKEN), 1);
    assert.equal(await other.document(1).text(), "a");
    await other.close();
    assert.deepEqual(over.sent.map(({ token }) => token), [TOKEN, TOKEN, undefined]);
  }));

test("a session that was idle goes on with its next request", () =>
  withStores(async (port, over) => {
    const session = await connect(port);
    over.loses = numbered(0);
    await soon(session.document(1).insert(0, "a"));
    await soon(session.document(1).text());
    over.loses = numbered(0, 1);
    const texts = [session.document(1).text(), session.document(1).text()];
    assert.deepEqual(await soon(Promise.all(texts)), ["a", "a"]);
    await session.close();
  }));

test("a reading is none of the next connection, whoever has read there", async () => {
  const it = lasting();
  const document = it.session.document(1);
  const edits = {
    insert: (reading) => reading.insert(0, "x"),
    delete: (reading) => reading.delete(0, 1),
    mark: (reading) => reading.mark(0, 1, STRONG),
    action: (reading) => reading.action([{ op: "insert", at: 0, text: "x" }]),
    anchor: (reading) => reading.anchor(1),
    index: (reading) => reading.index("start"),
  };
  it.store.answer('{"op":"insert","doc":1,"at":0,"text":"abc"}');
  const reading = await document.read();
  it.transport.held = true;
  const lost = document.read();
  // The same number names another text there.
  it.store = new Store();
  it.store.answer('{"op":"insert","doc":1,"at":0,"text":"xyz"}');
  await part(it);
  assert.equal((await soon(lost)).text, "xyz");
  for (const [name, edit] of Object.entries(edits)) {
    await assert.rejects(edit(reading), Stale, name);
    await assert.rejects(edit(await lost), Stale, name);
  }
  assert.deepEqual(it.later.map(({ op }) => op), ["text"]);
  const next = await (await document.read()).insert(0, "x");
  assert.equal((await next.insert(1, "y")).text, "xyxyz");
});

test("a close waits for what is sent again", () =>
  withStores(async (port, over) => {
    const session = await connect(port);
    over.loses = numbered(0);
    const answers = [0, 1, 2].map(() => session.document(1).insert(0, "x"));
    await soon(session.close());
    assert.deepEqual(await Promise.all(answers), [1, 2, 3]);
  }));

test("a stop is sent once", () =>
  withStores(async (port, over) => {
    const session = await connect(port);
    over.loses = numbered(0);
    await assert.rejects(soon(session.stop()), Ended);
    await assert.rejects(session.document(1).insert(0, "a"), Ended);
    assert.equal(over.sent.length, 1);
  }));

test("an edit that found no steps is made behind the opening, and in its order", () => {
  const rounds = [];
  const talk = async (socket, lines) => {
    const round = [];
    rounds.push(round);
    for await (const line of { [Symbol.asyncIterator]: () => lines }) {
      round.push(JSON.parse(line).text);
      if (round.length < 2) continue;
      if (rounds.length === 1) return void socket.write('{"code":10,"error":"steps","ok":false}\n');
      socket.write('{"ok":true,"rev":1}\n{"ok":true,"rev":2}\n');
    }
  };
  return withTalk(talk, async (port) => {
    const session = await connect(port);
    const underWay = ["a", "b"].map((letter) => session.document(1).insert(0, letter));
    assert.deepEqual(await soon(Promise.all(underWay)), [1, 2]);
    assert.deepEqual(rounds, [["a", "b"], ["a", "b"]]);
    await session.close();
  });
});

test("a daemon that never answers is looked for no longer", () =>
  withStores(async (port, over) => {
    const session = await connect(port, { retry: SHORT });
    over.loses = () => true;
    const before = performance.now();
    await assert.rejects(soon(session.document(1).insert(0, "a")), { name: "Ended", message: /none came again for 300 milliseconds/ });
    assert(performance.now() - before >= SHORT);
    await soon(session.close());
  }));

test("where nobody listens any more, all that waits is told", async () => {
  let session;
  await withTalk(asked, async (port) => (session = await connect(port, { retry: SHORT })));
  await assert.rejects(soon(session.document(1).text()), { name: "Ended", message: /none came again for 300 milliseconds/ });
  await soon(session.close());
});

test("a limit is more than nothing", () =>
  withTalk(asked, async (port) => {
    for (const retry of [0, -1, NaN]) await assert.rejects(connect(port, { retry }), RangeError);
  }));

test("a silence ends the session while it looks too", async () => {
  const transport = new Store().session();
  transport.held = true;
  const session = new Session(transport, { timeout: SHORT, again: () => new Promise(() => {}) });
  const text = session.document(1).text();
  transport.onEnd();
  await assert.rejects(soon(text), { name: "Ended", message: /no byte came for 300 milliseconds/ });
  await soon(session.close());
});

test("it goes on over any transport that the caller finds again", async () => {
  const store = new Store();
  const first = store.session();
  first.send = () => {};
  const found = [];
  const again = async () => {
    if (found.push(store.session()) === 1) throw new Error("not yet");
    return found.at(-1);
  };
  const session = new Session(first, { again });
  const edit = session.document(1).insert(0, "a");
  first.onEnd();
  assert.equal(await soon(edit), 1);
  assert.equal(found.length, 2);
  await session.close();
});

test("a session that is abandoned ends at once, also while another connection is looked for", async () => {
  const transport = new Store().session();
  transport.held = true;
  let tries = 0;
  const again = async () => {
    tries += 1;
    throw new Error("nobody is there");
  };
  const session = new Session(transport, { again, retry: Infinity });
  const answer = session.document(1).text();
  transport.cut(0);
  while (tries === 0) await pause(5);
  session.abandon();
  await assert.rejects(soon(answer), { name: "Ended", message: /it was abandoned/, wasSent: true });
  await assert.rejects(session.document(1).text(), Ended);
  await soon(session.close());
  const made = tries;
  await pause(150);
  assert.equal(tries, made);
});
