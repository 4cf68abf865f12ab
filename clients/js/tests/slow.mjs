// A reader that is slow, of a daemon that goes meanwhile, and a `rev` of a connection before.

import assert from "node:assert/strict";
import { test } from "node:test";

import { EM, Ended, Stale, connect } from "peritext";

import { start, withDaemon } from "./served.mjs";
import { asked, soon, withTalk } from "./talk.mjs";

/** Comments of which each begins and ends a character after the one before: their spans are 15 MB. */
const COMMENTS = 630;
const SIZE = 15_000_000;

/** Milliseconds in which nothing is read. */
const STILL = 1_000;

async function fill(port) {
  const session = await connect(port);
  const edits = [...Array(Math.ceil((2 * COMMENTS) / 256))].map(() => session.document(1).insert(0, "x".repeat(256)));
  for (let from = 0; from < COMMENTS; from += 1) {
    const id = `00000000-0000-0000-0000-${from.toString(16).padStart(12, "0")}`;
    edits.push(session.send({ op: "mark", doc: 1, from, to: from + COMMENTS, kind: "comment", id }));
  }
  await Promise.all(edits);
  await session.close();
}

/** Asks for the spans and a text, and then neither reads nor writes while something is done to the daemon. */
async function slow(port, act, options) {
  const session = await connect(port, options);
  const answers = [session.document(1).spans(), session.document(1).text()];
  const ends = Promise.allSettled(answers);
  await new Promise(setImmediate);
  standStill();
  act();
  standStill();
  const faults = (await soon(ends)).map(({ reason }) => reason);
  await soon(session.close());
  return faults;
}

function standStill() {
  Atomics.wait(new Int32Array(new SharedArrayBuffer(4)), 0, 0, STILL);
}

test("a slow reader has it all, or is told that it ended", () =>
  withDaemon(async (daemon) => {
    await fill(daemon.port);
    const session = await connect(daemon.port);
    const spans = session.document(1).spans();
    await new Promise(setImmediate);
    standStill();
    const ids = (await soon(spans)).reduce((sum, { comments = [] }) => sum + comments.length, 0);
    assert(39 * ids > SIZE);
    await session.close();
    const held = await slow(daemon.port, () => process.kill(daemon.pid, "SIGSTOP"), { timeout: 500 });
    for (const fault of held) assert.match(fault.message, /no byte came for 500 milliseconds/);
    process.kill(daemon.pid, "SIGCONT");
    const killed = await slow(daemon.port, () => process.kill(daemon.pid, "SIGKILL"), { retry: null });
    for (const fault of killed) assert(fault instanceof Ended, String(fault));
  }));

test("15 megabytes come, and end in the middle", () => {
  const answer = `{"ok":true,"rev":1,"text":"${"x".repeat(SIZE)}"}\n`;
  const talk = async (socket, lines) => {
    await asked(lines, 1);
    socket.write(answer);
    await asked(lines, 1);
    socket.write(answer.slice(0, -100));
  };
  return withTalk(talk, async (port) => {
    const session = await connect(port, { retry: null });
    assert.equal((await soon(session.document(1).text())).length, SIZE);
    await assert.rejects(soon(session.document(1).text()), Ended);
    await session.close();
  });
});

test("a rev of the connection before is dropped", () =>
  withDaemon(async (daemon, file) => {
    const first = await connect(daemon.port);
    const { rev } = await first.document(1).read();
    await daemon.kill();
    await first.close();
    const again = await start(file);
    try {
      const session = await connect(again.port);
      const text = session.document(1);
      for (const edit of [() => text.insert(0, "x", rev), () => text.delete(0, 1, rev), () => text.mark(0, 1, EM, rev)]) {
        await assert.rejects(edit(), (error) => error instanceof Stale && error.number === 6 && error.word === "stale");
      }
      assert.equal(await text.text(), "");
      assert.equal(await text.insert(0, "x", await text.rev()), 1);
      await assert.rejects(session.document(2).insert(0, "x", 1), Stale);
      await session.close();
    } finally {
      await again.kill();
    }
  }));
