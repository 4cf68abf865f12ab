// Sessions over a daemon of the real program, which PERITEXT names.

import assert from "node:assert/strict";
import { randomUUID } from "node:crypto";
import { once } from "node:events";
import { readFileSync } from "node:fs";
import { createServer } from "node:net";
import { test } from "node:test";

import { Ended, NoDaemon, connect, init, open } from "peritext";

import { freePort, program, seeEachOther, start, withDaemon } from "./served.mjs";
import { withFile } from "./support.mjs";

const SESSIONS = 32;

test("two sessions see each other", () =>
  withDaemon(async ({ port }) => seeEachOther(await connect(port), await connect(port))));

test("many under way are answered in order, and before the close", () =>
  withDaemon(async ({ port }) => {
    const session = await connect(port);
    const places = [...Array(100).keys()];
    const answers = places.map((place) => session.document(1).insert(place, "x"));
    await session.close();
    assert.deepEqual(await Promise.all(answers), places.map((place) => place + 1));
    await assert.rejects(session.document(1).text(), Ended);
  }));

test("who is connected", () =>
  withDaemon(async ({ port }) => {
    const [one, other] = [await connect(port), await connect(port)];
    const { peers, sessions } = await one.peers();
    assert.deepEqual(peers, []);
    assert(sessions >= 2);
    await one.close();
    await other.close();
  }));

test("the 33rd session is refused", () =>
  withDaemon(async ({ port }) => {
    const held = await Promise.all([...Array(SESSIONS)].map(() => connect(port)));
    for (let again = 0; again < 5; again += 1) await assert.rejects(connect(port), { number: 8, word: "busy" });
    await assert.rejects(held[0].document(1).insert(1, "x"), { number: 5 });
    await Promise.all(held.map((session) => session.close()));
  }));

test("a kill ends all that waits where nothing is sent again, and stop ends the daemon", () =>
  withDaemon(async (daemon, file) => {
    const session = await connect(daemon.port, { retry: null });
    assert.equal(await session.document(1).insert(0, "x"), 1);
    const waits = Promise.allSettled([...Array(20)].map(() => session.document(1).insert(0, "y")));
    await daemon.kill();
    const ends = await waits;
    assert(ends.every(({ status, reason }) => status === "fulfilled" || reason instanceof Ended));
    const again = await start(file);
    const other = await connect(again.port);
    const { length } = await other.document(1).text();
    assert(length > ends.filter(({ status }) => status === "fulfilled").length);
    await other.stop();
    assert.deepEqual(await again.ended, [0, null]);
    await other.close();
  }));

test("what is under way is made once, whenever the daemon is killed and started again", () =>
  withDaemon(async (daemon, file) => {
    const session = await connect(daemon.port);
    const document = session.document(1);
    const letters = [...Array(600).keys()].map((number) => String.fromCodePoint(0x4e00 + number));
    const answers = [];
    let served = daemon;
    try {
      for (const [place, letter] of letters.entries()) {
        answers.push(document.insert(place, letter));
        if (place % 150 !== 100) continue;
        await answers[place - 50];
        await served.kill();
        served = await start(file, daemon.port);
      }
      assert.deepEqual(await Promise.all(answers), letters.map((_, place) => place + 1));
      assert.equal(await document.text(), letters.join(""));
      await session.close();
    } finally {
      await served.kill();
    }
  }));

test("a file that is opened anew answers the same token as at first", () =>
  withFile(async (file) => {
    await init(file, { program });
    const token = randomUUID();
    for (const rev of [1, 1]) {
      const session = await open(file, { program });
      assert.equal(await session.document(1).insert(0, "a", undefined, token), rev);
      assert.equal(await session.document(1).text(), "a");
      await session.close();
    }
  }));

test("the daemon of another file on the same port is sent nothing", () =>
  withDaemon(async (daemon) =>
    withFile(async (other) => {
      await init(other, { program });
      const session = await connect(daemon.port);
      await session.document(1).insert(0, "a");
      await daemon.kill();
      const served = await start(other, daemon.port);
      try {
        await assert.rejects(session.document(1).insert(1, "b"), { name: "Ended", message: /another file is served there now/ });
        const fresh = await connect(daemon.port);
        assert.equal(await fresh.document(1).text(), "");
        await fresh.close();
      } finally {
        await served.kill();
      }
    }),
  ));

test("the example of the page is so", () =>
  withDaemon(async ({ port }) => {
    const page = readFileSync(new URL("../README.md", import.meta.url), "utf8");
    const [[, code], ...more] = page.matchAll(/^```javascript\nimport \{ connect \} from "peritext";\n(.*?)^```$/gms);
    assert.equal(more.length, 0);
    const AsyncFunction = (async () => {}).constructor;
    const printed = [];
    await new AsyncFunction("connect", "console", code.replace("7001", port))(connect, { log: (text) => printed.push(text) });
    assert.deepEqual(printed, ["The quick fox"]);
  }));

test("where there is no daemon it is said what to do", () =>
  withDaemon(async ({ port, peers }, file) => {
    const free = await freePort();
    await assert.rejects(connect(free), (error) => error instanceof NoDaemon && error.message.includes(`serve FILE --sessions ${free}`));
    await assert.rejects(connect(peers), (error) => error instanceof NoDaemon && error.message.includes("not that behind --peers"));
    await assert.rejects(open(file, { program }), { number: 54, message: /connect to its port/ });
    const silent = createServer().listen(0, "127.0.0.1");
    await once(silent, "listening");
    await assert.rejects(connect(silent.address().port, { patience: 200 }), NoDaemon);
    silent.close();
    await (await connect(port)).close();
  }));
