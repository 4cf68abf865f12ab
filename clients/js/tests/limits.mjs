// How long a client waits for an answer.

import assert from "node:assert/strict";
import { test } from "node:test";

import { Ended, Session, Watch, connect, connectWeb, open, watch, watchWeb } from "peritext";

import { after } from "../src/milliseconds.js";
import { Store } from "./fake.mjs";
import { withFile } from "./support.mjs";
import { STATUS, asked, pause, programOf, soon, withTalk } from "./talk.mjs";

const LINE = '{"ok":true,"rev":3,"text":"abc"}\n';
/** Milliseconds without a byte, in these tests. */
const SHORT = 300;

/** Runs a test over a session of such a daemon. */
function withSession(talk, work, options = { timeout: SHORT }) {
  return withTalk(talk, async (port) => {
    const session = await connect(port, options);
    await work(session);
    await soon(session.close());
  });
}

async function assertSilent(promise) {
  const before = performance.now();
  await assert.rejects(soon(promise), (error) => error instanceof Ended && error.message.includes("no byte came for 300 milliseconds, its timeout"));
  assert(performance.now() - before >= SHORT - 1);
}

function silent(_, lines) {
  return asked(lines);
}

test("it is half a minute unless it is said", async (context) => {
  context.mock.timers.enable({ apis: ["setTimeout"] });
  const now = context.mock.method(performance, "now", () => 0);
  const transport = new Store().session();
  transport.held = true;
  let fault;
  new Session(transport).document(1).text().catch((error) => (fault = error));
  now.mock.mockImplementation(() => 29_999);
  context.mock.timers.tick(29_999);
  await undefined;
  assert.equal(fault, undefined);
  now.mock.mockImplementation(() => 31_000);
  context.mock.timers.tick(1);
  context.mock.timers.tick(1_000);
  for (let left = 10; left > 0; left -= 1) await undefined;
  assert.match(fault.message, /no byte came for 30000 milliseconds/);
});

test("a limit is more than nothing", () => {
  for (const timeout of [0, -1, NaN]) assert.throws(() => new Session(new Store().session(), { timeout }), RangeError);
});

test("what is no time is refused at the call", async () => {
  const calls = {
    timeout: [connect, connectWeb, (_, options) => open("no file", { program: "no program", ...options }), sessionOf],
    patience: [connect, connectWeb],
    retry: [connect, connectWeb, sessionOf, (port, options) => watch(port, 1, options), (port, options) => watchWeb(port, 1, options)],
  };
  const wrong = [[0, RangeError], [-1, RangeError], [NaN, RangeError], ["10", TypeError], [true, TypeError], [{}, TypeError], [10n, TypeError]];
  let asked = 0;
  await withTalk(() => (asked += 1), async (port) => {
    for (const [name, all] of Object.entries(calls)) {
      for (const call of all) {
        for (const [value, kind] of wrong) {
          const isTold = (error) => error instanceof kind && error.message.startsWith(`${name} is `) && error.message.includes("; it has to be ");
          await assert.rejects(async () => call(port, { [name]: value }), isTold, `${call} ${name} ${String(value)}`);
        }
      }
    }
  });
  assert.equal(asked, 0);
  await assert.rejects(async () => new Watch(() => assert.fail(), 1, { retry: "10" }), { message: /^retry is "10"; it has to be a number of milliseconds/ });
});

function sessionOf(_, options) {
  return new Session(new Store().session(), options);
}

test("a time may be longer than a timer can be", async (context) => {
  for (const time of [2 ** 31, 1e300, Infinity]) {
    const talk = async (socket, lines) => {
      await asked(lines, 1);
      await pause(20);
      socket.write(LINE);
    };
    const work = async (port) => {
      const session = await connect(port, { patience: time, timeout: time, retry: time });
      // The second one goes over another connection.
      for (const text of ["abc", "abc"]) assert.equal(await soon(session.document(1).text()), text);
      await soon(session.close());
    };
    await withTalk(talk, work, 20);
    const found = new Watch(() => pause(20).then(() => new Store().session()), 1, { retry: time });
    await assert.rejects(soon(found.next()), { number: 3 });
  }
  context.mock.timers.enable({ apis: ["setTimeout"] });
  let isOver = false;
  after(2 ** 31 + 9, () => (isOver = true));
  context.mock.timers.tick(2 ** 31 - 1);
  context.mock.timers.tick(9);
  assert.equal(isOver, false);
  context.mock.timers.tick(1);
  assert.equal(isOver, true);
});

test("null is no limit for the first answer", () =>
  withTalk(asked, async (port) => (await connect(port, { patience: null })).close(), 20));

test("silence ends the session for all who wait", () =>
  withSession(silent, async (session) => {
    const other = session.send({ op: "text", doc: 1 });
    await Promise.all([assertSilent(session.document(1).text()), assertSilent(other)]);
    await assert.rejects(session.document(1).text(), { name: "Ended", message: /its timeout/ });
  }));

test("silence in the middle of an answer", () => {
  const talk = async (socket, lines) => {
    await asked(lines, 1);
    socket.write(LINE.slice(0, 20));
    await silent(socket, lines);
  };
  return withSession(talk, (session) => assertSilent(session.document(1).text()));
});

test("an answer that comes byte by byte has its time", () => {
  const talk = async (socket, lines) => {
    await asked(lines, 1);
    for (const byte of LINE) {
      socket.write(byte);
      await pause(SHORT / 6);
    }
  };
  return withSession(talk, async (session) => assert.equal(await session.document(1).text(), "abc"));
});

test("a session of which nothing is due is left alone", () => {
  const talk = async (socket, lines) => {
    for await (const _ of { [Symbol.asyncIterator]: () => lines }) socket.write(LINE);
  };
  return withSession(talk, async (session) => {
    for (let left = 2; left > 0; left -= 1) {
      assert.equal(await session.document(1).text(), "abc");
      await pause(2 * SHORT);
    }
    assert.equal(await session.document(1).text(), "abc");
  });
});

test("null is no limit", async () => {
  const talk = async (socket, lines) => {
    await asked(lines, 1);
    await pause(2 * SHORT);
    socket.write(LINE);
  };
  for (const timeout of [null, Infinity]) {
    await withSession(talk, async (session) => assert.equal(await session.document(1).text(), "abc"), { timeout });
  }
});

test("a close waits no longer", () => withSession(silent, async () => {}));

test("a close of a transport that can't be cut off waits no longer", async () => {
  const transport = new Store().session();
  transport.held = true;
  const session = new Session(transport, { timeout: SHORT });
  const left = assertSilent(session.document(1).text());
  await soon(session.close());
  await left;
});

test("a client that stood still itself reads first", () => {
  const talk = async (socket, lines) => {
    await asked(lines, 1);
    socket.write(LINE);
    await silent(socket, lines);
  };
  return withSession(talk, async (session) => {
    const text = session.document(1).text();
    // Long enough for the answer to wait, as the timer does.
    await pause(0);
    Atomics.wait(new Int32Array(new SharedArrayBuffer(4)), 0, 0, 2 * SHORT);
    assert.equal(await text, "abc");
  });
});

test("a program that says nothing is ended", () =>
  withFile(async (_, folder) => {
    const program = programOf(folder, "exec sleep 60");
    await assert.rejects(soon(open("file", { program, timeout: SHORT })), { name: "Ended", message: /no byte came for 300 milliseconds/ });
  }));

test("a program that doesn't end is ended", () =>
  withFile(async (_, folder) => {
    const program = programOf(folder, `read a; echo '${STATUS}'; exec sleep 60`);
    const session = await open("file", { program, timeout: SHORT });
    await assert.rejects(soon(session.close()), { name: "Ended", message: /no byte came for 300 milliseconds/ });
  }));
